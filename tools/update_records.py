"""Update records (docs/records.md) as octets, as updates and as readable lines.

What evpnd proves of its own reading and writing isn't proved here: this is plain Python, with tests in
tests/tools/, one of which compares its answers with those of the program.
"""

import functools
import re
import socket
import sys
from typing import BinaryIO, Dict, Iterator, List, NamedTuple, Optional, TextIO, Tuple, Union

VERSION = "0.1.0"  # of these tools, as `evpnd version` prints it
MAGIC = b"EV"
WRITTEN_VERSION = 3
ADVERTISE, WITHDRAW = 1, 2
MAC_ROUTE, FLOOD_ROUTE = 2, 3
GREATEST_LENGTH = 512
MAC_PLACE = 50  # the place of the MAC in a record: after six octets of a head, 19 of a register, and 25 of a route
ADDRESS_RD = b"\x00\x01"
MOBILITY = b"\x06\x00"
STATIC_FLAG = 1
MOST_ORIGINATORS = 64
MAC_TEXT = re.compile("[0-9a-f]{2}(:[0-9a-f]{2}){5}")
MACS_KEPT = 1 << 17  # five texts of a router name a MAC, and so do those of each leaf


class Unreadable(Exception):
    """Input that can't be read: one plain line for standard error, and status 2."""


class Advert(NamedTuple):
    """What an advertised register says of itself."""

    static: bool = False
    sequence: int = 0
    label2: Optional[int] = None


class Update(NamedTuple):
    """An update of one register; no MAC means the flood list, no advert a withdrawal."""

    originator: bytes
    vni: int
    mac: Optional[bytes] = None
    ip: bytes = b""
    advert: Optional[Advert] = None
    counter: int = 1
    incarnation: int = 0


Register = Tuple[bytes, int, Optional[bytes], bytes]


def register_of(update: Update) -> Register:
    """What an update speaks of: originator, VNI, MAC or none for the flood list, IP."""
    return update[:4]


def content_of(advert: Optional[Advert]) -> Tuple[int, int, int]:
    """The order of contents (docs/routes.md): withdrawn, dynamic, static; then sequence; then label, none first."""
    if advert is None:
        return 0, 0, 0
    return 2 if advert.static else 1, advert.sequence, -1 if advert.label2 is None else advert.label2


def newness_of(update: Update) -> Tuple[int, int, Tuple[int, int, int]]:
    """What is compared of two updates of one register: the greater is the newer (docs/routes.md)."""
    return update.incarnation, update.counter, content_of(update.advert)


class Refused(NamedTuple):
    """A whole record that spells no update, by its number (docs/records.md)."""

    number: int


class Fault(NamedTuple):
    """Octets that can't be the beginning of a record."""

    number: int


class Truncated(NamedTuple):
    """An unfinished record at the end, by its octets."""

    octets: int


Answer = Union[Update, Refused, Fault, Truncated]


# ---- addresses and numbers as texts ----------------------------------------------------------------


def read_number(text: str, limit: int, what: str) -> int:
    """A decimal number below limit, without leading zeros."""
    if not re.fullmatch("0|[1-9][0-9]{0,19}", text) or int(text) >= limit:
        raise Unreadable(f"{text!r} is no {what}")
    return int(text)


@functools.lru_cache(maxsize=1024)
def read_address(text: str) -> bytes:
    """An IPv4 address, dotted, without leading zeros."""
    parts = text.split(".")
    if len(parts) != 4 or not all(re.fullmatch("0|[1-9][0-9]{0,2}", part) and int(part) < 256 for part in parts):
        raise Unreadable(f"{text!r} is no IPv4 address")
    return bytes(int(part) for part in parts)


@functools.lru_cache(maxsize=MACS_KEPT)
def mac_octets(text: str) -> Optional[bytes]:
    """The octets of six pairs of lower case hexadecimal digits with colons; nothing of another text."""
    return bytes.fromhex(text.replace(":", "")) if MAC_TEXT.fullmatch(text) else None


def read_mac(text: str) -> bytes:
    """Six pairs of lower case hexadecimal digits with colons, of one station."""
    mac = mac_octets(text)
    if mac is None:
        raise Unreadable(f"{text!r} is no MAC address (six pairs of lower case digits)")
    if mac[0] & 1:
        raise Unreadable(f"{text!r} is a group address")
    return mac


def read_ip(text: str) -> bytes:
    """An IPv4 address, or an IPv6 address, shortened or not."""
    if ":" not in text:
        return read_address(text)
    try:
        return socket.inet_pton(socket.AF_INET6, text)
    except (OSError, ValueError):
        raise Unreadable(f"{text!r} is no IP address") from None


def address_text(address: bytes) -> str:
    """The dotted spelling."""
    return ".".join(str(octet) for octet in address)


def mac_text(mac: bytes) -> str:
    """Six pairs with colons."""
    return mac.hex(":")


def ip_text(ip: bytes) -> str:
    """As the report spells it: dotted, or eight groups of four digits."""
    if len(ip) == 4:
        return address_text(ip)
    return ":".join(ip[place : place + 2].hex() for place in range(0, 16, 2))


# ---- records as octets ------------------------------------------------------------------------------


def route_of(update: Update) -> bytes:
    """The route with its type and length: the octets of BGP's NLRI (RFC 7432, 7.2 and 7.3)."""
    rd = ADDRESS_RD + update.originator + b"\x00\x01"
    if update.mac is None:
        body = rd + bytes(4) + bytes([32]) + update.originator
        return bytes([FLOOD_ROUTE, len(body)]) + body
    label2 = update.advert.label2 if update.advert else None
    body = (
        rd
        + bytes(10)
        + bytes(4)
        + bytes([48])
        + update.mac
        + bytes([8 * len(update.ip)])
        + update.ip
        + update.vni.to_bytes(3, "big")
        + (b"" if label2 is None else label2.to_bytes(3, "big"))
    )
    return bytes([MAC_ROUTE, len(body)]) + body


def community_of(update: Update) -> bytes:
    """The MAC Mobility community (RFC 7432, 7.7); none says dynamic with sequence 0."""
    advert = update.advert
    if advert is None or update.mac is None or (not advert.static and advert.sequence == 0):
        return b""
    return MOBILITY + bytes([STATIC_FLAG if advert.static else 0, 0]) + advert.sequence.to_bytes(4, "big")


def record_of(update: Update) -> bytes:
    """The version 3 record that spells an update: those that differ only in MAC and IP differ in these octets."""
    if update.mac is None:
        return spelt(update)
    originator, vni, _, ip, *rest = update
    before, length, after = around_mac(originator, vni, len(ip), *rest)
    return before + update.mac + length + update.ip + after


@functools.lru_cache(maxsize=1 << 12)
def around_mac(originator: bytes, vni: int, octets: int, advert: Optional[Advert], *numbers: int) -> Tuple[bytes, bytes, bytes]:
    """The octets of a MAC route's record before its MAC, the length of its IP, and the octets after its IP of so many octets."""
    record, behind = spelt(Update(originator, vni, bytes(6), bytes(octets), advert, *numbers)), MAC_PLACE + 6
    return record[:MAC_PLACE], record[behind : behind + 1], record[behind + 1 + octets :]


def spelt(update: Update) -> bytes:
    """The octets of an update's record."""
    rest = (
        update.originator
        + update.incarnation.to_bytes(4, "big")
        + update.counter.to_bytes(8, "big")
        + update.vni.to_bytes(3, "big")
        + route_of(update)
        + community_of(update)
    )
    kind = WITHDRAW if update.advert is None else ADVERTISE
    return MAGIC + bytes([WRITTEN_VERSION, kind]) + len(rest).to_bytes(2, "big") + rest


def fault_of(octets: bytes) -> Optional[int]:
    """The fault that these octets of a record's beginning show, 1 to 4."""
    if octets[:2] != MAGIC[: len(octets)]:
        return 1
    if len(octets) > 2 and octets[2] not in (1, 2, 3):
        return 2
    if len(octets) > 3 and octets[3] not in (ADVERTISE, WITHDRAW):
        return 3
    if len(octets) > 5:
        least = 15 if octets[2] == 1 else 19
        if not least <= int.from_bytes(octets[4:6], "big") <= GREATEST_LENGTH:
            return 4
    return None


def update_of(record: bytes) -> Union[Update, Refused]:
    """What a whole record spells, or the first refusal that applies."""
    version, kind = record[2], record[3]
    originator = record[6:10]
    place = 10
    incarnation = 0
    if version > 1:
        incarnation = int.from_bytes(record[10:14], "big")
        place = 14
    counter = int.from_bytes(record[place : place + 8], "big")
    vni = int.from_bytes(record[place + 8 : place + 11], "big")
    route = record[place + 11 :]
    if route and route[0] not in (MAC_ROUTE, FLOOD_ROUTE):
        return Refused(5)
    if len(route) < 2:
        return Refused(6)
    body, behind = route[2 : 2 + route[1]], route[2 + route[1] :]
    if len(body) != route[1]:
        return Refused(6)
    if route[0] == FLOOD_ROUTE:
        answer = flood_content(body, behind, originator, kind)
    else:
        answer = mac_content(body, behind, originator, kind, vni, version)
    if isinstance(answer, Refused):
        return answer
    if counter == 0:
        return Refused(14)
    mac, ip, advert = answer
    return Update(originator, vni, mac, ip, advert, counter, incarnation)


Content = Tuple[Optional[bytes], bytes, Optional[Advert]]


def flood_content(body: bytes, behind: bytes, originator: bytes, kind: int) -> Union[Content, Refused]:
    """An inclusive multicast route's key and content."""
    if len(body) != 17 or body[12] != 32 or behind:
        return Refused(6)
    if body[:6] != ADDRESS_RD + originator or body[13:] != originator:
        return Refused(7)
    if body[8:12] != bytes(4):
        return Refused(9)
    return None, b"", Advert() if kind == ADVERTISE else None


def mac_content(
    body: bytes, behind: bytes, originator: bytes, kind: int, vni: int, version: int
) -> Union[Content, Refused]:
    """A MAC route's key and content."""
    ip_octets = {33: 0, 36: 0, 37: 4, 40: 4, 49: 16, 52: 16}.get(len(body))
    if ip_octets is None or body[29] != 8 * ip_octets:
        return Refused(6)
    if behind and (kind != ADVERTISE or len(behind) != 8 or behind[:2] != MOBILITY):
        return Refused(6)
    if body[:6] != ADDRESS_RD + originator:
        return Refused(7)
    if kind == ADVERTISE and body[8:18] != bytes(10):
        return Refused(8)
    if body[18:22] != bytes(4):
        return Refused(9)
    labels = body[30 + ip_octets :]
    if kind == ADVERTISE and labels[:3] != vni.to_bytes(3, "big"):
        return Refused(10)
    if body[22] != 48 or body[23] & 1:
        return Refused(11)
    mac = body[23:29]
    ip = body[30 : 30 + ip_octets]
    if kind == WITHDRAW:
        return mac, ip if version == 3 else b"", None
    label2 = int.from_bytes(labels[3:], "big") if len(labels) == 6 else None
    static, sequence = (bool(behind[2] & STATIC_FLAG), int.from_bytes(behind[4:], "big")) if behind else (False, 0)
    return mac, ip, Advert(static, sequence, label2)


def read_records(stream: BinaryIO) -> Iterator[Answer]:
    """The answers of a stream: one a record; a fault or a truncation is the last."""
    while True:
        octets = read_fully(stream, 6)
        if not octets:
            return
        fault = fault_of(octets)
        if fault is not None:
            yield Fault(fault)
            return
        if len(octets) < 6:
            yield Truncated(len(octets))
            return
        length = int.from_bytes(octets[4:6], "big")
        octets += read_fully(stream, length)
        if len(octets) < 6 + length:
            yield Truncated(len(octets))
            return
        yield update_of(octets)


def read_fully(stream: BinaryIO, wanted: int) -> bytes:
    """As many octets as are wanted, or fewer at the end of the stream."""
    octets = b""
    while len(octets) < wanted:
        more = stream.read(wanted - len(octets))
        if not more:
            break
        octets += more
    return octets


# ---- readable lines ----------------------------------------------------------------------------------


def line_of(update: Update) -> str:
    """The readable line of an update."""
    words = ["withdraw" if update.advert is None else "advert", address_text(update.originator), str(update.vni)]
    words.append("flood" if update.mac is None else mac_text(update.mac))
    if update.ip:
        words += ["ip", ip_text(update.ip)]
    if update.advert is not None and update.mac is not None:
        words += ["static"] if update.advert.static else []
        words += ["seq", str(update.advert.sequence)]
        words += [] if update.advert.label2 is None else ["label2", str(update.advert.label2)]
    words += [] if update.counter == 1 else ["counter", str(update.counter)]
    words += [] if update.incarnation == 0 else ["incarnation", str(update.incarnation)]
    return " ".join(words)


def update_of_line(line: str) -> Update:
    """The update that a readable line says."""
    words = line.split()
    if len(words) < 4 or words[0] not in ("advert", "withdraw"):
        raise Unreadable("a line is 'advert ORIGINATOR VNI MAC ..' or 'withdraw ORIGINATOR VNI MAC ..'")
    originator = read_address(words[1])
    vni = read_number(words[2], 1 << 24, "VNI")
    mac = None if words[3] == "flood" else read_mac(words[3])
    options = options_of(words[4:])
    ip = read_ip(options.pop("ip")) if "ip" in options else b""
    counter = read_number(options.pop("counter", "1"), 1 << 64, "counter")
    incarnation = read_number(options.pop("incarnation", "0"), 1 << 32, "incarnation")
    advert = advert_of_options(options) if words[0] == "advert" and mac is not None else None
    if words[0] == "advert" and mac is None:
        advert = Advert()
    if options or (mac is None and ip):
        raise Unreadable(f"{' '.join(words[:4])!r} takes no {next(iter(options), 'ip')!r}")
    if counter == 0:
        raise Unreadable("a counter is at least 1")
    return Update(originator, vni, mac, ip, advert, counter, incarnation)


REGISTER_LINE = re.compile(
    r"(?:flood|mac) ([0-9]+) (?:(\S+) )?(\S+) (?:([0-9]+)\.)?([0-9]+) (up|withdrawn|dynamic|static)(?: ([0-9]+))?( .*)?"
)


def update_of_report(line: str) -> Optional[Update]:
    """The update that a register's line of a report says (docs/routes.md); nothing of an owner's line."""
    found = REGISTER_LINE.fullmatch(line)
    if found is None:
        return None
    vni, mac, originator, incarnation, counter, state, sequence, rest = found.groups(default="")
    if rest == "":
        advert = None if state == "withdrawn" else Advert(state == "static", int(sequence or "0"))
        station = read_mac(mac) if mac else None
        return Update(read_address(originator), int(vni), station, b"", advert, int(counter), int(incarnation or "0"))
    words = ["withdraw" if state == "withdrawn" else "advert", originator, vni, mac or "flood"]
    words += (["static"] if state == "static" else []) + (["seq", sequence] if sequence else [])
    return update_of_line(" ".join([*words, rest, "counter", counter, "incarnation", incarnation or "0"]))


def options_of(words: List[str]) -> Dict[str, str]:
    """The options behind a line's key, each at most once."""
    options: Dict[str, str] = {}
    rest = iter(words)
    for name in rest:
        if name in options or name not in ("ip", "static", "seq", "label2", "counter", "incarnation"):
            raise Unreadable(f"{name!r} can't stand there")
        value = "" if name == "static" else next(rest, None)
        if value is None:
            raise Unreadable(f"nothing follows {name!r}")
        options[name] = value
    return options


def advert_of_options(options: Dict[str, str]) -> Advert:
    """The advert that a line's options say; takes them out."""
    static = options.pop("static", None) is not None
    sequence = read_number(options.pop("seq", "0"), 1 << 32, "sequence number")
    label2 = read_number(options.pop("label2"), 1 << 24, "label") if "label2" in options else None
    return Advert(static, sequence, label2)


def open_text(name: str) -> TextIO:
    """A file that is read as text, '-' for standard input."""
    try:
        return open(sys.stdin.fileno() if name == "-" else name, encoding="utf-8", closefd=name != "-")
    except OSError as fault:
        raise Unreadable(f"{name}: {fault.strerror}") from None
