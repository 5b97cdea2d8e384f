"""A second model of `evpnd report`, in plain Python from docs/records.md and docs/routes.md, and random streams for it.

It shares nothing with the program but those pages. `update_records` reads the records.
"""

import io
import random
from typing import Dict, List, Optional, Set, Tuple

import update_records as records
from update_records import Advert, Fault, Refused, Truncated, Update

UNLISTED = 12
ORIGINATORS = [bytes([10, 0, 0, last]) for last in (1, 2, 9, 10)]
LISTED = ORIGINATORS[:3]
MACS = [bytes.fromhex(text) for text in ("02000000000a", "02000000000b", "fe0000000000")]
IPS = [b"", bytes([192, 0, 2, 10]), bytes([192, 0, 2, 9]), bytes.fromhex("20010db8" + "00" * 11 + "0a")]
SEQUENCES = [0, 0, 1, 2, (1 << 32) - 1]
COUNTERS = [1, 1, 2, 3, (1 << 64) - 1]

# how a stream begins in whose place there is text: by an octet that can be printed, but not by `E`, as records do
TEXT_BEGINS = {bytes([octet]) for octet in (*b"\t\n\r", *range(32, 127))} - {b"E"}

Register = Tuple[int, bool, bytes, bytes, int, bytes]


def register_of(update: Update) -> Register:
    """A register; Python's order of these is the report's."""
    return update.vni, update.mac is not None, update.mac or b"", update.originator, len(update.ip), update.ip


def age_of(update: Update) -> tuple:
    """What is compared of two updates of a register: the greater is the newer."""
    advert = update.advert
    if advert is None:
        content: tuple = (0,)
    else:
        label2 = -1 if advert.label2 is None else advert.label2
        content = (2 if advert.static else 1, advert.sequence, label2)
    return update.incarnation, update.counter, content


def line_of(update: Update) -> str:
    """A register's line."""
    counter = str(update.counter) if update.incarnation == 0 else f"{update.incarnation}.{update.counter}"
    origin = f"{records.address_text(update.originator)} {counter}"
    if update.mac is None:
        return f"flood {update.vni} {origin} {'withdrawn' if update.advert is None else 'up'}"
    line = f"mac {update.vni} {records.mac_text(update.mac)} {origin} "
    advert = update.advert
    line += "withdrawn" if advert is None else f"{'static' if advert.static else 'dynamic'} {advert.sequence}"
    line += f" ip {records.ip_text(update.ip)}" if update.ip else ""
    return line + (f" label2 {advert.label2}" if advert is not None and advert.label2 is not None else "")


def owner_line(updates: List[Update]) -> str:
    """The line behind a MAC's registers."""
    adverts = [update for update in updates if update.advert is not None]
    name = "none"
    if adverts:
        best = min(adverts, key=lambda each: (not each.advert.static, -each.advert.sequence, each.originator))
        name = records.address_text(best.originator)
    return f"owner {updates[0].vni} {records.mac_text(updates[0].mac)} {name}"


def report_of(newest: Dict[Register, Update]) -> str:
    """The report of a table."""
    lines: List[str] = []
    updates = [newest[register] for register in sorted(newest)]
    for place, update in enumerate(updates):
        lines.append(line_of(update))
        behind = updates[place + 1] if place + 1 < len(updates) else None
        if update.mac is not None and (behind is None or (behind.vni, behind.mac) != (update.vni, update.mac)):
            lines.append(owner_line([each for each in updates if (each.vni, each.mac) == (update.vni, update.mac)]))
    return "".join(line + "\n" for line in lines)


def answer_to(stream: bytes, listed: List[bytes]) -> Tuple[str, str, int]:
    """What the program has to print, to note and to answer."""
    newest: Dict[Register, Update] = {}
    notes, status = "", 0
    for number, answer in enumerate(records.read_records(io.BytesIO(stream)), 1):
        if isinstance(answer, Update) and answer.originator in listed:
            register = register_of(answer)
            if register not in newest or age_of(answer) > age_of(newest[register]):
                newest[register] = answer
        elif isinstance(answer, Update):
            notes += f"record {number} refused {UNLISTED}\n"
        elif isinstance(answer, Refused):
            notes += f"record {number} refused {answer.number}\n"
        elif isinstance(answer, Fault):
            notes, status = notes + f"fault {answer.number} at record {number}\n", 1
        elif isinstance(answer, Truncated):
            notes, status = notes + f"truncated {answer.octets} at record {number}\n", 1
    if stream[:1] in TEXT_BEGINS:
        notes += "this is not a record stream; `examples/make_records` turns text into records\n"
    return report_of(newest), notes, status


# ---- random streams -----------------------------------------------------------------------------------


def random_update(numbers: random.Random) -> Update:
    """An update of few registers, so that most of them meet."""
    mac = None if numbers.random() < 0.15 else numbers.choice(MACS)
    ip = numbers.choice(IPS) if mac is not None and numbers.random() < 0.5 else b""
    advert: Optional[Advert] = Advert()
    if numbers.random() < 0.3:
        advert = None
    elif mac is not None:
        label2 = numbers.choice([0, 7, (1 << 24) - 1]) if numbers.random() < 0.2 else None
        advert = Advert(numbers.random() < 0.25, numbers.choice(SEQUENCES), label2)
    vni = numbers.choice([0, 5001, 5001, (1 << 24) - 1])
    incarnation = numbers.choice([0, 0, 0, 1, (1 << 32) - 1])
    return Update(numbers.choice(ORIGINATORS), vni, mac, ip, advert, numbers.choice(COUNTERS), incarnation)


def spelled(update: Update, numbers: random.Random) -> bytes:
    """A record of any version that spells an update, with what is ignored chosen at random."""
    version = numbers.choice([1, 2, 3, 3])
    octets = bytearray(records.record_of(update))
    octets[33:35] = numbers.randbytes(2)  # the RD's number
    if update.mac is not None and update.advert is None and numbers.random() < 0.5:
        octets[35:45] = numbers.randbytes(10)  # the ESI
        octets[-3:] = numbers.randbytes(3)  # the label
    if len(octets) > 8 and octets[-8:-6] == records.MOBILITY and update.advert is not None:
        octets[-6] |= numbers.choice([0, 0xFE])  # other flags
        octets[-5] = numbers.randrange(256)  # reserved
    rest = octets[6:10] + (octets[14:] if version == 1 else octets[10:])
    return bytes(octets[:2]) + bytes([version, octets[3]]) + len(rest).to_bytes(2, "big") + bytes(rest)


def wounded(record: bytes, numbers: random.Random) -> bytes:
    """A record with a change that most often makes it none, or one that is refused."""
    octets = bytearray(record)
    place = numbers.random()
    if place < 0.1:
        octets[numbers.randrange(6)] = numbers.choice([0, 1, 4, 255])  # magic, version, kind, length
    elif place < 0.2:
        counter = 10 if octets[2] == 1 else 14
        octets[counter : counter + 8] = bytes(8)
    elif place < 0.4:
        octets[-1 - numbers.randrange(12)] ^= numbers.choice([1, 2, 128])  # labels, community, MAC
    else:
        octets[numbers.randrange(6, len(octets))] = numbers.choice([0, 1, 2, 3, 4, 32, 33, 48, 128, 255])
    return bytes(octets)


def random_stream(numbers: random.Random) -> bytes:
    """Some records, now and then one with changed octets, and now and then a cut or a fault at the end."""
    stream = b""
    for _turn in range(numbers.randrange(12)):
        record = spelled(random_update(numbers), numbers)
        while numbers.random() < 0.2:
            record = wounded(record, numbers)
        stream += record
    if numbers.random() < 0.1 and stream:
        stream = stream[: numbers.randrange(len(stream))]
    if numbers.random() < 0.1:
        stream += numbers.randbytes(numbers.randrange(1, 9))
    return stream


def causes_of(notes: str) -> Set[str]:
    """The kinds of notes, to see that streams have all of them."""
    found = set()
    for line in notes.splitlines():
        words = line.split()
        found.add(" ".join(words[2:] if words[0] == "record" else words[:2] if words[0] == "fault" else words[:1]))
    return found
