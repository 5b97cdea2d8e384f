#!/usr/bin/env python3
"""Fuzzes the reader of configurations: `evpnd check`, `check --serve` and `simulate` on TOML documents.

usage: tests/fuzz/fuzz_configurations.py [--seed S] [--first N] [--cases N] [--seconds N]

A case is a document: valid, with values of a wrong kind or out of their range, with unknown and missing keys, or with changed octets.
Its faults have to be those of a model of docs/configuration.md over Python's own reader of TOML, in its order: `check` prints a line
for each, `simulate` the first key and the same lines. A valid document has a summary, and `simulate` ends with status 0.
"""

import os
import random
import re
import sys
import tempfile
import tomllib
from typing import Dict, List, NamedTuple, Optional, Tuple

from fuzzing import Seen, expect, main, mutated, tried  # (first: it extends the path)

NAME = "configurations"
RANGES = {  # of the keys with numbers: the least, the greatest, the step
    "priority": (0, 61440, 4096), "hello": (1, 2, 1), "max_age": (6, 40, 1), "forward_delay": (4, 30, 1), "hold": (1, 10, 1),
    "ageing": (10, 1000000, 1), "capacity": (1, 65536, 1), "buckets": (1, 65536, 1), "salt": (0, (1 << 63) - 1, 1),
    "incarnation": (0, (1 << 32) - 1, 1),
}
PORT_RANGES = {"cost": (1, 200000000, 1), "priority": (0, 240, 16)}
LIMIT_RANGES = {"stations": (1, 65536, 1), "new_stations": (1, (1 << 32) - 1, 1), "storm": (0, (1 << 32) - 1, 1)}
SERVED_RANGES = {"idle": (1, 86400, 1), "peer_hold": (0, 86400, 1)}
FLAGS = ("admin_edge", "auto_edge", "point_to_point")
PLACES = ("local", "remote")
DEVICE = re.compile(r"[A-Za-z0-9._-]{1,15}")
ODD_VALUES = (
    "1.5", "inf", '"7"', "true", "[]", "[1, 2]", "{}", "1979-05-27", "07:32:00", '""', "-1", "9223372036854775807", "9223372036854775808",
    "0x10", "0b11", "5_001", "'text'", '"\\u00e9"', "[[1]]", "{ a = 1 }", "+3", "1e3",
)
ODD_KEYS = ("adress", "Priority", "edges", "x", "port_", "vni", "control", '"a b"', "'1'", "hello2", "incarnations", "local", "device")
# of a valid document: the values that no run can use, and too low limits (docs/configuration.md)
OBSTACLE = re.compile(
    r"edge [0-9]+: address is 0\.0\.0\.0, .*|[0-9]+ (?:sockets and 3 standard streams|threads), allowed are .*"
    r"|edge [0-9]+, port [0-9]+: (?:local|remote) is [0-9.:]+, (?:where an edge has its tunnels"
    r"|where a port before it takes its frames|and UDP port 0 is none|and address 0\.0\.0\.0 is nobody's)"
)


class Faulty(NamedTuple):
    """A fault: the place and the key."""

    place: str
    key: str


# ---- the model -----------------------------------------------------------------------------------------------------


def is_number(value: object, bounds: Tuple[int, int, int]) -> bool:
    """Returns `True` if a value is an integer of this range."""
    least, most, step = bounds
    return type(value) is int and least <= value <= most and value % step == 0


def address_of(value: object) -> Optional[str]:
    """Returns a correctly spelled IPv4 address, or `None`."""
    parts = value.split(".") if isinstance(value, str) else []
    return value if len(parts) == 4 and all(re.fullmatch("0|[1-9][0-9]{0,2}", it) and int(it) < 256 for it in parts) else None


def bridge_of(value: object) -> Optional[str]:
    """Returns a correctly spelled individual MAC address, or `None`."""
    is_spelled = isinstance(value, str) and re.fullmatch("[0-9a-f]{2}(:[0-9a-f]{2}){5}", value)
    return value if is_spelled and not int(value[:2], 16) & 1 else None


def is_place(value: object) -> bool:
    """Returns `True` if a value is an IPv4 address with a UDP port."""
    address, _, number = value.rpartition(":") if isinstance(value, str) else ("", "", "")
    return address_of(address) is not None and bool(re.fullmatch("0|[1-9][0-9]{0,4}", number)) and int(number) < 65536


def are_tables(value: object, most: int = 64) -> bool:
    """Returns `True` if a value is an array of one table or more."""
    return isinstance(value, list) and 1 <= len(value) <= most and all(isinstance(it, dict) for it in value)


def vnis_of(value: object) -> Optional[List[int]]:
    """Returns the networks of an edge, or `None` if they are faulty."""
    if not isinstance(value, list) or not 1 <= len(value) <= 64 or not all(is_number(it, (0, (1 << 24) - 1, 1)) for it in value):
        return None
    return value if len(set(value)) == len(value) else None


def unknown(table: Dict, known: List[str], place: str) -> List[Faulty]:
    """Returns a fault for each unknown key, in the order of their octets."""
    return [Faulty(place, it) for it in sorted(set(table) - set(known), key=str.encode)]


def of_port(table: Dict, vnis: Optional[List[int]], place: str, is_run: bool) -> List[Faulty]:
    """Returns the faults of a port. In a run it needs both places, or a device, which no simulation has."""
    vni = table.get("vni")
    is_vni = is_number(vni, (0, (1 << 24) - 1, 1)) and (vnis is None or vni in vnis)
    found = [] if is_vni else ["vni"]
    found += [it for it, bounds in PORT_RANGES.items() if it in table and not is_number(table[it], bounds)]
    found += [it for it in FLAGS if it in table and not isinstance(table[it], bool)]
    found += [it for it, bounds in LIMIT_RANGES.items() if it in table and not is_number(table[it], bounds)]
    found += [it for it in PLACES if (it in table if "device" in table else (is_run or it in table) and not is_place(table.get(it)))]
    found += ["device"] if "device" in table and not (is_run and is_device(table["device"])) else []
    known = ["vni", *PORT_RANGES, *FLAGS, *LIMIT_RANGES, *PLACES, "device"]
    return [Faulty(place, it) for it in found] + unknown(table, known, place)


def of_edge(table: Dict, place: str, earlier: Tuple[List[str], List[str]], is_run: bool) -> List[Faulty]:
    """Returns the faults of an edge, and adds its address and bridge to those of the earlier edges."""
    found: List[str] = []
    for key, spelled, others in (("address", address_of, earlier[0]), ("bridge", bridge_of, earlier[1])):
        value = spelled(table.get(key))
        if value is None or value in others:
            found.append(key)
        if value is not None:
            others.append(value)
    vnis = vnis_of(table.get("vnis"))
    found += ["vnis"] if vnis is None else []
    wrong = [it for it, bounds in RANGES.items() if it in table and not is_number(table[it], bounds)]
    has_ports = are_tables(table.get("port"))
    found += wrong + ([] if has_ports else ["port"])
    faults = [Faulty(place, it) for it in found] + unknown(table, ["address", "bridge", "vnis", *RANGES, "port"], place)
    if not {"hello", "max_age", "forward_delay"} & set(wrong):
        hello, age, delay = table.get("hello", 2), table.get("max_age", 20), table.get("forward_delay", 15)
        faults += [] if 2 * (delay - 1) >= age >= 2 * (hello + 1) else [Faulty(place, "max_age")]
    for number, it in enumerate(table["port"] if has_ports else [], 1):
        faults += of_port(it, vnis, f"{place[:-2]}, port {number}: ", is_run)
    return faults


def is_device(value: object) -> bool:
    """Returns `True` if a value is the name of a device."""
    return isinstance(value, str) and bool(DEVICE.fullmatch(value))


def of_devices(edges: List[Dict]) -> List[Faulty]:
    """Returns a fault for each device of a run that an earlier port has."""
    found, earlier = [], set()
    for number, edge in enumerate(edges, 1):
        for port, table in enumerate(edge["port"] if are_tables(edge.get("port")) else [], 1):
            device = table.get("device")
            found += [Faulty(f"edge {number}, port {port}: ", "device")] if is_device(device) and device in earlier else []
            earlier |= {device} if is_device(device) else set()
    return found


def of_document(document: Dict, is_served: bool) -> List[Faulty]:
    """Returns the faults of a document, in order."""
    edges, peers = document.get("edge"), document.get("peer")
    are_edges = are_tables(edges)
    found, known = [] if are_edges else ["edge"], ["edge"]
    are_peers = is_served and are_tables(peers, 64 - len(edges) if are_edges else 64)
    if is_served:
        path = document.get("control")
        is_path = isinstance(path, str) and 1 <= len(path.encode()) <= 107 and "\0" not in path
        found += [] if is_path else ["control"]
        found += [it for it, bounds in SERVED_RANGES.items() if it in document and not is_number(document[it], bounds)]
        found += ["peer"] if "peer" in document and not are_peers else []
        known += ["control", *SERVED_RANGES, "peer"]
    faults = [Faulty("", it) for it in found] + unknown(document, known, "")
    addresses: List[str] = []
    earlier: Tuple[List[str], List[str]] = addresses, []
    for number, table in enumerate(edges if are_edges else [], 1):
        faults += of_edge(table, f"edge {number}: ", earlier, is_served)
    faults += of_devices(edges if are_edges and is_served else [])
    for number, table in enumerate(peers if are_peers else [], 1):
        value = address_of(table.get("address"))
        faults += [Faulty(f"peer {number}: ", "address")] if value is None or value in addresses else []
        addresses += [value] if value is not None else []
        faults += unknown(table, ["address"], f"peer {number}: ")
    return faults


def numbers_of(value: object) -> List[int]:
    """Returns all integers of a document."""
    if isinstance(value, (dict, list)):
        return [it for inner in (value.values() if isinstance(value, dict) else value) for it in numbers_of(inner)]
    return [value] if type(value) is int else []


def is_utf8(octets: bytes) -> bool:
    """Returns `True` if octets are a text in UTF-8."""
    try:
        octets.decode()
    except UnicodeDecodeError:
        return False
    return True


def read(octets: bytes) -> Optional[Dict]:
    """Returns a document, or `None` if TOML rejects the text."""
    try:
        document = tomllib.loads(octets.decode())
    except (tomllib.TOMLDecodeError, UnicodeDecodeError, ValueError):
        return None
    return document if all(-1 << 63 <= it < 1 << 63 for it in numbers_of(document)) else None


# ---- documents -----------------------------------------------------------------------------------------------------


def number_text(bounds: Tuple[int, int, int], numbers: random.Random) -> str:
    """Returns the text of a number: most often of the range."""
    least, most, step = bounds
    value = numbers.choice((least, most, least + step * numbers.randrange((most - least) // step + 1)))
    if numbers.random() < 0.06:
        value = numbers.choice((least - 1, most + 1, least + step // 2 + 1, -value))
    return numbers.choice((str(value), str(value), f"0x{value:x}" if value >= 0 else str(value), f"{value:_}"))


def line(key: str, value: str, numbers: random.Random) -> str:
    """Returns a line of a document, seldom with another value or key, or without any."""
    way = numbers.random()
    if way < 0.01:
        return ""
    if way < 0.03:
        value = numbers.choice(ODD_VALUES)
    if way > 0.99:
        key = numbers.choice(ODD_KEYS)
    return f"{key} = {value}\n"


def device_text(numbers: random.Random) -> str:
    """Returns the name of a device: most often a right one, and seldom that of another port."""
    name = numbers.choice((f"tap{numbers.randrange(100000)}", f"Tap-1.20_{numbers.randrange(1000000)}", f"a{numbers.randrange(1000):014}"))
    return name if numbers.random() < 0.9 else numbers.choice(("", "a" * 16, "tap/0", "tap 0", "\\u00e9", "tap0"))


def port_text(numbers: random.Random, vnis: List[int], are_there: float) -> str:
    """Returns a port, which has its places with this probability, or a device."""
    text = line("vni", str(numbers.choice(vnis)), numbers) if numbers.random() < 0.97 else "vni = 77\n"
    for key, bounds in (*PORT_RANGES.items(), *LIMIT_RANGES.items()):
        text += line(key, number_text(bounds, numbers), numbers) if numbers.random() < 0.3 else ""
    for key in FLAGS:
        text += line(key, numbers.choice(("true", "false")), numbers) if numbers.random() < 0.3 else ""
    if numbers.random() < 0.1 * (are_there + 0.1):
        text += line("device", f'"{device_text(numbers)}"', numbers)
        are_there = 0.02
    for key in PLACES:
        place = f"127.0.{numbers.randrange(256)}.1:{numbers.randrange(65536)}"
        if numbers.random() < 0.03:
            place = numbers.choice(("10.0.0.255:0", "255.255.255.255:65535", "127.0.0.01:5", "1.2.3.4:65536", "1.2.3.4:", ":7", "1.2.3.4:08"))
        text += line(key, f'"{place}"', numbers) if numbers.random() < are_there else ""
    return f"[[edge.port]]\n{text}"


def edge_text(number: int, numbers: random.Random, are_there: float) -> str:
    """Returns an edge with its ports, which have their places with this probability."""
    last = number if numbers.random() < 0.98 else 1
    vnis = numbers.sample(range(5001, 5010), numbers.randrange(1, 4))
    text = line("address", f'"10.0.0.{last}"', numbers) + line("bridge", f'"02:aa:00:00:00:{last:02x}"', numbers)
    text += line("vnis", str(vnis if numbers.random() < 0.98 else vnis + vnis[:1]), numbers)
    for key, bounds in RANGES.items():
        # (the three times agree seldom by chance)
        text += line(key, number_text(bounds, numbers), numbers) if numbers.random() < (0.04 if "_" in key else 0.2) else ""
    count = numbers.choice((1, 1, 2, 3, 0 if numbers.random() < 0.2 else 1, 65 if numbers.random() < 0.1 else 2))
    return f"[[edge]]\n{text}" + "".join(port_text(numbers, vnis, are_there) for _ in range(count))


def document_text(numbers: random.Random) -> str:
    """Returns a document, in a third of the cases one for `evpnd serve`."""
    text, is_served = "", numbers.random() < 0.35
    if is_served:
        text += line("control", numbers.choice(('"/tmp/x"', '"/tmp/x"', '""', f'"{"x" * numbers.choice((107, 108))}"', '"a\\u0000"')), numbers)
        for key, bounds in SERVED_RANGES.items():
            text += line(key, number_text(bounds, numbers), numbers) if numbers.random() < 0.3 else ""
    count = numbers.choice((1, 1, 1, 2, 3, 0 if numbers.random() < 0.2 else 1, numbers.choice((64, 65)) if numbers.random() < 0.1 else 1))
    text += "".join(edge_text(number, numbers, 0.99 if is_served else 0.2) for number in range(1, count + 1))
    for number in range(numbers.choice((0, 0, 1, 2, 64 if numbers.random() < 0.2 else 1)) if is_served else 0):
        text += "[[peer]]\n" + line("address", f'"10.0.{numbers.choice((0, 1, 1, 1))}.{number + 1}"', numbers)
    return text


# ---- the oracles ---------------------------------------------------------------------------------------------------


def begins(lines: List[str], faults: List[Faulty]) -> bool:
    """Returns `True` if there is a line for each fault, which begins with its place and its key, if that can be printed as it is."""
    if len(lines) != len(faults):
        return False
    plain = [(it.place + (f"{it.key} " if it.key.isprintable() and len(it.key) <= 100 and it.key.isascii() else "")) for it in faults]
    return all(line.startswith(beginning) for line, beginning in zip(lines, plain))


def case(numbers: random.Random, seen: Seen) -> int:
    """Runs one case."""
    octets = document_text(numbers).encode()
    if numbers.random() < 0.4:
        while numbers.random() < 0.6:
            octets = mutated(octets, numbers, [document_text(numbers).encode()])
        if numbers.random() < 0.9:
            octets = bytes(it & 127 for it in octets)
    document, is_text = read(octets), is_utf8(octets)
    seen["TOML" if document is not None else "no TOML" if is_text else "no UTF-8"] += 1
    with tempfile.TemporaryDirectory() as folder:
        path = os.path.join(folder, "edges.toml")
        with open(path, "wb") as file:
            file.write(octets)
        for words, is_served in ((["check"], False), (["check", "--serve"], True)):
            faults = [Faulty("", "text")] if document is None else of_document(document, is_served)
            done = tried([*words, "--config", path], statuses=(0, 2) if is_text else (4,))
            if not is_text:
                expect(done.stderr == f"error: --config: '{path}' isn't UTF-8\n".encode(), "no UTF-8", done.stderr)
                continue
            notes = done.stderr.decode().splitlines()
            about = octets.decode(errors="backslashreplace"), notes, faults
            if is_served and not faults and done.returncode:
                expect(done.returncode == 2 and all(map(OBSTACLE.fullmatch, notes)), "the obstacles of a run", *about)
                seen["with obstacles"] += 1
                continue
            expect(done.returncode == (2 if faults else 0), f"{words}: status {done.returncode}", *about)
            expect((done.stdout[:4] == b"ok: ") == (not faults), f"{words}: the summary", done.stdout, *about)
            expect(document is None or begins(notes, faults), f"{words}: the faults are not the model's", *about)
            seen["valid" if not faults else "faulty"] += 1
            for it in faults:
                seen[f"fault {it.key}" if it.key.isidentifier() else "fault of an odd key"] += 1
            if is_served:
                continue
            played = tried(["simulate", "--config", path], statuses=(0, 2))
            lines = played.stderr.decode().splitlines()
            expect(played.returncode == (2 if faults else 0), f"simulate: status {played.returncode}", *about)
            expect(not faults or lines[1:] == notes, "simulate prints other faults", lines, *about)
            expect(not faults or not faults[0].key.isidentifier() or lines[0] == f"config {faults[0].key}", "simulate: the key", lines, *about)
    return 1


if __name__ == "__main__":
    sys.exit(main(NAME, case))
