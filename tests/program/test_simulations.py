"""Simulations: the examples, worked scripts, and what is a line and what isn't. What is expected follows from the rules."""

import tests_path  # noqa: F401
import os
import subprocess
import sys
import tempfile
import unittest

from test_audit import PROGRAM, needs_program
from test_records import TOP

EXAMPLES = os.path.join(TOP, "examples")
NAMES = sorted(name[: -len(".script")] for name in os.listdir(EXAMPLES) if name.endswith(".script"))

STATION = "5001 02:00:00:00:00:0a"
HEARD = "frame 1 ffffffffffff02000000000a0800"
FLOODS = "flood 5001 10.0.0.1 1 up\nflood 5001 10.0.0.2 1 up\n"


def edge(number: int, port: str = "admin_edge = true", keys: str = "") -> str:
    """An edge of one network and one port, as the configuration says it."""
    return (
        f'[[edge]]\naddress = "10.0.0.{number}"\nbridge = "02:aa:00:00:00:0{number}"\nvnis = [5001]\n{keys}\n'
        f"[[edge.port]]\nvni = 5001\n{port}\n"
    )


ONE = edge(1)
TWO = edge(1) + edge(2)


def bpdu(flags: str, number: int = 1) -> str:
    """What the port of a bridge that is its own root sends: an RST with these flags."""
    bridge = f"800002aa0000000{number}"
    return f"00000202{flags}{bridge}00000000{bridge}80010000140002000f0000"


def at(number: int, *flags: str) -> str:
    """The lines of the BPDUs with these flags that an edge's port sends."""
    return "".join(f"{number} bpdu 1 {bpdu(flag, number)}\n" for flag in flags)


def lines(*text: str) -> str:
    """Lines, each with its line feed."""
    return "".join(line + "\n" for line in text)


# Both edges come up, learn the same station and announce it; edge 2 hears of edge 1, and withdraws.
BOTH = lines(
    "1 up 1", "2 up 1", "1 " + HEARD, "2 " + HEARD, "1 announce", "1 announce", "2 announce", "2 announce", "2 deliver 1",
    "2 deliver 2", "2 announce",
)
BOTH_SAY = (
    at(1, "3c") + at(2, "3c")
    + lines("1 local - remote -", "2 local - remote -", "1 pool 1", "1 pool 2", "2 pool 3", "2 pool 4", "2 newer", "2 newer", "2 pool 5")
)
# Four frames at an edge with two ports: to a learnt station, to all, to an unknown station, and through the tunnel to the learnt one.
FOUR = lines(
    "1 frame 2 02000000000a02000000000c0800", "1 frame 1 ffffffffffff02000000000a0800", "1 frame 1 02000000000d02000000000a0800",
    "1 tunnel 10.0.0.2 080000000013890002000000000a02000000000b0800",
)
FOUR_GO = lines("1 local 1 remote -", "1 local 2 remote 10.0.0.2", "1 local 2 remote 10.0.0.2", "1 local 1 remote -")
AGREED = FLOODS + lines(f"mac {STATION} 10.0.0.1 2 dynamic 0", f"mac {STATION} 10.0.0.2 3 withdrawn", f"owner {STATION} 10.0.0.1")


def moves(last: int) -> tuple:
    """Edge 2 hears the station five times after edge 1 has said that it has it, the last time after so many seconds more."""
    script = lines("1 up 1", "2 up 1", "1 announce", "2 announce", "1 deliver 2", "2 deliver 1")
    says = at(1, "3c") + at(2, "3c") + lines("1 pool 1", "2 pool 2", "1 newer", "2 newer")
    for turn in range(5):
        script += lines("1 " + HEARD, "1 announce", f"2 deliver {3 + 2 * turn}", "2 " + HEARD)
        says += lines("1 local - remote 10.0.0.2", f"1 pool {3 + 2 * turn}", "2 newer", "2 local - remote 10.0.0.1")
        if turn < 4:
            wait = 10 if turn < 3 else last
            script += lines("2 announce", f"1 deliver {4 + 2 * turn}", f"2 second {wait}")
            says += lines(f"2 pool {4 + 2 * turn}", "1 newer") + at(2, *["3c"] * (wait // 2))
    return script + lines("2 report"), says


FROZEN = lines(f"mac {STATION} 10.0.0.1 10 dynamic 8", f"mac {STATION} 10.0.0.2 9 withdrawn", f"owner {STATION} 10.0.0.1")
MOVED = lines(f"mac {STATION} 10.0.0.1 10 dynamic 8", f"mac {STATION} 10.0.0.2 10 dynamic 9", f"owner {STATION} 10.0.0.2")


def heard(octets: str) -> str:
    """A frame to the bridge group address with this BPDU."""
    return f"1 frame 1 0180c200000002aa00000001{3 + len(octets) // 2:04x}424203{octets}"


ROOT = "0000020279800002aa0000000100004e20800002aa00000002800101001400020" + "00f0000"

# name: configuration, script, output
WORKED = {
    "a lone port learns after 15 seconds and passes after 30, by its timers": (
        edge(1, "auto_edge = false"),
        lines("1 up 1", "1 second 19", "1 port 1", "1 second 1", "1 port 1", "1 second 2", "1 port 1"),
        at(1, *["0e"] * 10) + lines("1 port 1 designated discarding blocks") + at(1, "1e")
        + lines("1 port 1 designated learning blocks") + at(1, "3f") + lines("1 port 1 designated forwarding passes"),
    ),
    "a port that hears no bridge for 3 seconds passes": (
        edge(1, ""),
        lines("1 up 1", "1 second 2", "1 port 1", "1 second 1", "1 port 1"),
        at(1, "0e", "0e") + lines("1 port 1 designated discarding blocks", "1 port 1 designated forwarding passes"),
    ),
    "a port that leads to no bridge passes at once, and not when it is down": (
        ONE,
        lines("1 port 1", "1 up 1", "1 port 1", "1 down 1", "1 port 1"),
        lines("1 port 1 disabled discarding blocks") + at(1, "3c")
        + lines("1 port 1 designated forwarding passes", "1 port 1 disabled discarding blocks"),
    ),
    "a port that hears a better bridge is root, and passes at once": (
        edge(2, "auto_edge = false").replace("10.0.0.2", "10.0.0.1"),
        lines("1 up 1", heard(bpdu("0e")), "1 port 1"),
        lines(f"1 bpdu 1 {bpdu('0e', 2)}", f"1 bpdu 1 {ROOT}", "1 port 1 root forwarding passes"),
    ),
    "frames and BPDUs that are none": (
        ONE,
        lines(
            "1 up 1", "1 frame 1 00", heard(bpdu("0e")[:70]), heard(bpdu("0e")[:54] + "1400" + bpdu("0e")[58:]), "1 frame 2 00",
            "1 frame 1 0180c200000102aa0000000108000000", "1 down 1", "1 frame 1 ffffffffffff02000000000a0800",
        ),
        at(1, "3c") + lines("1 refused ether 1", "1 refused bpdu 1", "1 refused bpdu 5", "1 refused edge 16"),
    ),
    "datagrams": (
        TWO,
        lines(
            "1 up 1", "1 tunnel 10.0.0.2 0800000000138900ffffffffffff02000000000b0800", "1 tunnel 10.0.0.2 0000000000138900ffff",
            "1 tunnel 10.0.0.2 08000000001389", "1 tunnel 10.0.0.1 00", "1 tunnel 10.0.0.3 00", "1 tunnel 10.0.0.2 0800000000138a00",
            "1 tunnel 10.0.0.2 080000000013890001", "1 tunnel 10.0.0.2 08000000001389000180c200000002000000000b0800", "1 report",
        ),
        at(1, "3c") + lines(
            "1 local 1 remote -", "1 refused vxlan 2", "1 refused vxlan 1", "1 refused edge 12", "1 refused edge 12", "1 refused edge 17",
            "1 refused ether 1", "flood 5001 10.0.0.1 1 up",
        ),
    ),
    "two edges that learn the same station agree": (
        TWO,
        BOTH + lines("1 deliver 3", "1 deliver 4", "1 deliver 5", "1 report", "2 report"),
        BOTH_SAY + lines("1 newer", "1 newer", "1 newer") + AGREED + AGREED,
    ),
    "they agree whatever the order": (
        TWO,
        BOTH + lines("1 deliver 5", "1 deliver 4", "1 deliver 3", "1 report", "2 report"),
        BOTH_SAY + lines("1 newer", "1 known", "1 newer") + AGREED + AGREED,
    ),
    "edges, ports and updates that aren't there": (
        TWO,
        BOTH + lines(
            "2 deliver 2", "1 deliver 2", "1 deliver 9", "3 announce", "1 deliver 3", "1 announce", "1 deliver 0", "0 up 1", "1 up 0",
            "1 up 2", "1 up 256", "1 down 65", "1 mcheck 257", "1 up 999999999999999999", "1 deliver 999999999999999999",
            "999999999999999999 up 1", "4294967297 up 1", "1 up 4294967297", "1 deliver 4294967297", "3 second 5", "3 port 1", "1 port 0", "1 port 257", "3 report", "3 frame 1 00",
            "3 restart 1", "1 restart 0", "1 frame 257 00", f"1 pin {STATION} 257", f"1 pin 5002 02:00:00:00:00:0a 1",
            "1 pin 5001 03:00:00:00:00:0a 1", "1 unpin 5002 02:00:00:00:00:0a", "1 thaw 5001 03:00:00:00:00:0a",
        ),
        BOTH_SAY + lines(
            "2 known", "1 known", "1 refused fabric 19", "3 refused fabric 18", "1 newer", "1 none", "1 refused fabric 19",
            "0 refused fabric 18", "1 refused edge 16", "1 refused edge 16", "1 refused edge 16", "1 refused edge 16", "1 refused edge 16",
            "1 refused edge 16", "1 refused fabric 19", "999999999999999999 refused fabric 18", "4294967297 refused fabric 18",
            "1 refused edge 16", "1 refused fabric 19",
            "3 refused fabric 18", "3 refused fabric 18", "1 refused edge 16", "1 refused edge 16", "3 refused fabric 18",
            "3 refused fabric 18", "3 refused fabric 18", "1 refused fabric 22", "1 refused edge 16", "1 refused edge 16",
            "1 refused edge 17", "1 refused edge 11",
        ),
    ),
    "the fifth move of a window freezes": (TWO, moves(10)[0], moves(10)[1] + lines("2 alert 3") + FLOODS + FROZEN),
    "second 179 is within the window": (TWO, moves(149)[0], moves(149)[1] + lines("2 alert 3") + FLOODS + FROZEN),
    "second 180 begins a new window": (TWO, moves(150)[0], moves(150)[1] + FLOODS + MOVED),
    "a full table is told, and the frame goes on": (
        edge(1, keys="capacity = 1"),
        lines("1 up 1", "1 " + HEARD, "1 frame 1 ffffffffffff02000000000b0800", "1 report"),
        at(1, "3c") + lines(
            "1 local - remote -", "1 local - remote -", "1 alert 6", "flood 5001 10.0.0.1 1 up", f"mac {STATION} 10.0.0.1 2 dynamic 0",
            f"owner {STATION} 10.0.0.1",
        ),
    ),
    "frames pass by an edge that is away, and the report stays": (
        TWO + edge(3),
        lines(
            "1 up 1", "2 announce", "3 announce", "1 deliver 1", "1 deliver 2", "1 " + HEARD, "1 away 10.0.0.3", "1 " + HEARD,
            "3 up 1", "3 frame 1 ffffffffffff02000000000b0800", "3 announce", "1 deliver 3", "1 frame 1 02000000000b02000000000a0800",
            "1 away 10.0.0.2", "1 frame 1 02000000000b02000000000a0800", "1 back 10.0.0.2", "1 report", "1 back 10.0.0.3",
            "1 frame 1 02000000000b02000000000a0800", "1 " + HEARD, "1 away 10.0.0.9", "1 back 10.0.0.9", "4 away 10.0.0.1",
        ),
        at(1, "3c") + lines("2 pool 1", "3 pool 2", "1 newer", "1 newer", "1 local - remote 10.0.0.2,10.0.0.3", "1 local - remote 10.0.0.2")
        + at(3, "3c") + lines("3 local - remote -", "3 pool 3", "1 newer", "1 local - remote 10.0.0.2", "1 local - remote -")
        + FLOODS + lines(
            "flood 5001 10.0.0.3 1 up", f"mac {STATION} 10.0.0.1 2 dynamic 0", f"owner {STATION} 10.0.0.1",
            "mac 5001 02:00:00:00:00:0b 10.0.0.3 2 dynamic 0", "owner 5001 02:00:00:00:00:0b 10.0.0.3",
            "1 local - remote 10.0.0.3", "1 local - remote 10.0.0.2,10.0.0.3", "1 refused edge 12", "1 refused edge 12",
            "4 refused fabric 18",
        ),
    ),
    "an edge that marks itself as away gives and gets the same frames": (
        edge(1) + "[[edge.port]]\nvni = 5001\nadmin_edge = true\n" + edge(2),
        lines("1 up 1", "1 up 2", "2 announce", "1 deliver 1", "1 " + HEARD) + FOUR + lines("1 away 10.0.0.1") + FOUR
        + lines("1 back 10.0.0.1") + FOUR,
        at(1, "3c") + at(1, "3c").replace("bpdu 1", "bpdu 2").replace("80010000140002", "80020000140002")
        + lines("2 pool 1", "1 newer", "1 local 2 remote 10.0.0.2") + FOUR_GO * 3,
    ),
    "nothing": (ONE, "", ""),
    "a last line without a line feed": (ONE, "1 report\n1 report", 2 * lines("flood 5001 10.0.0.1 1 up")),
    "a line of 20,000 octets": (
        ONE, lines("1 up 1", "1 frame 1 " + (19_990 // 2) * "ab"), at(1, "3c") + lines("1 refused ether 2"),
    ),
    "the longest frame, and one octet more": (
        ONE,
        lines("1 up 1", "1 frame 1 ffffffffffff02000000000a0800" + 9_004 * "00", "1 frame 1 ffffffffffff02000000000a0800" + 9_005 * "00"),
        at(1, "3c") + lines("1 local - remote -", "1 refused ether 2"),
    ),
    "100,000 seconds": (edge(1, keys="hello = 1"), lines("1 second 100000"), ""),
}

# lines outside the grammar; the edge has port 1 and network 5001
BAD = [
    "", " ", "1", "1 ", " 1 report", "report", "1 report ", "1  report", "1 report 1", "1 reports", "1 Report", "1\treport", "1 report\r",
    "1 report\t", "01 report", "-1 report", "+1 report", "x report", "1 \x00report", "1000000000000000000 report", "1,1 report",
    "1 up", "1 up ", "1 up 01", "1 up 00", "1 up 1 1", "1 up 1 ", "1 up  1", "1 up x", "1 up 0x1", "1 up 1.0", "1 up 1000000000000000000",
    "1 down", "1 down 01", "1 down 1 1", "1 mcheck", "1 mcheck 01", "1 mcheck 1 1",
    "1 second", "1 second 0", "1 second 01", "1 second 100001", "1 second 1 1", "1 second 18446744073709551617", "1 seconds 1",
    "1 frame", "1 frame 1", "1 frame 1 ", "1 frame 1 0", "1 frame 1 000", "1 frame 1 0A", "1 frame 1 0g", "1 frame 1 0x00", "1 frame 1 00 00",
    "1 frame 1 00 ", "1 frame 01 00", "1 frame 00", "1 frame  1 00", "1 frame 1  00",
    "1 tunnel", "1 tunnel 10.0.0.2", "1 tunnel 10.0.0.2 ", "1 tunnel 10.0.0.2 0", "1 tunnel 10.0.0.2 0F", "1 tunnel 10.0.0.02 00",
    "1 tunnel 10.0.0.256 00", "1 tunnel 10.0.0 00", "1 tunnel 10.0.0.2.1 00", "1 tunnel 1 00", "1 tunnel 10.0.0.2 00 00",
    "1 pin", "1 pin 5001", "1 pin 5001 02:00:00:00:00:0a", "1 pin 5001 02:00:00:00:00:0a 1 1", "1 pin 5001 02:00:00:00:00:0A 1",
    "1 pin 05001 02:00:00:00:00:0a 1", "1 pin 16777216 02:00:00:00:00:0a 1", "1 pin 5001 02-00-00-00-00-0a 1", "1 pin 5001 2:0:0:0:0:a 1",
    "1 pin 5001 02:00:00:00:00 1", "1 pin 5001 02:00:00:00:00:0a:00 1", "1 pin 5001 02000000000a 1", "1 pin 5001 02:00:00:00:00:0a 01",
    "1 unpin", "1 unpin 5001", "1 unpin 5001 02:00:00:00:00:0a 1", "1 unpin 5001 02:00:00:00:00:0g", "1 unpin 16777216 02:00:00:00:00:0a",
    "1 thaw", "1 thaw 5001", "1 thaw 5001 02:00:00:00:00:0a 1", "1 thaw 05001 02:00:00:00:00:0a",
    "1 announce 1", "1 announce ", "1 deliver", "1 deliver 01", "1 deliver 1 1", "1 deliver 1000000000000000000",
    "1 port", "1 port 01", "1 port 1 1", "1 restart", "1 restart 01", "1 restart 1 1", "1 restart 4294967296", "# a comment",
    "1 away", "1 away ", "1 away 1", "1 away 10.0.0.256", "1 away 10.0.0.2 ", "1 back", "1 back 10.0.0", "1 back 10.0.0.2 1",
    "10 frame 1 " + 19_990 // 2 * "00",
]

# lines within it, with no more conditions
GOOD = [
    "1 up 999999999999999999", "999999999999999999 report", "1 pin 16777215 02:00:00:00:00:0a 0", "1 restart 4294967295",
    "1 second 100000", "1 unpin 0 ff:ff:ff:ff:ff:ff", "1 thaw 0 00:00:00:00:00:00", "1 tunnel 255.255.255.255 00", "1 deliver 0", "0 port 0",
    "1 away 255.255.255.255", "1 back 0.0.0.0",
]


# the lines that docs/script.md has, one a line
HELP = lines(
    "E up P", "E down P", "E mcheck P", "E second N", "E frame P HEX", "E tunnel ADDR HEX", "E pin VNI MAC P", "E unpin VNI MAC",
    "E thaw VNI MAC", "E announce", "E deliver K", "E restart N", "E away ADDR", "E back ADDR", "E port P",
    "E report", "E owner VNI MAC", "E counts", "E stations [VNI]", "E peers", "E links", "edges", "help",
)

# an edge of three ports and three networks, one of which no port is of
THREE_PORTS = (
    '[[edge]]\naddress = "10.0.0.9"\nbridge = "02:aa:00:00:00:09"\nvnis = [5001, 70, 100]\n'
    + "".join(f"[[edge.port]]\nvni = {vni}\n" for vni in (5001, 100, 5001))
)

EDGES = lines("1 edge 10.0.0.1 ports 1:5001 networks 5001", "2 edge 10.0.0.9 ports 1:5001,2:100,3:5001 networks 70,100,5001")

# questions, which are no lines of a simulation
QUESTIONS = ["help", "edges", "1 owner " + STATION, "1 counts", "1 stations", "1 stations 5001", "1 peers"]

# lines that are neither a query nor a command
NO_QUESTIONS = [
    "help ", " help", "Help", "help 1", "1 help", "help\r", "edges ", "Edges", "edge", "1 edges", "edges 1",
    "owner " + STATION, "1 owner", "1 owner ", "1 owner 5001", "01 owner " + STATION, "1 Owner " + STATION, f"1 owner {STATION} ",
    "1 owner " + STATION.upper(), "1 owner 16777216 02:00:00:00:00:0a", f"1 owner {STATION} 1", f"1  owner {STATION}",
    "counts", "1 counts ", "1 counts 5001", "1 Counts", "1 count", "stations", "1 stations ", "1 stations 05001", "1 stations 16777216",
    "1 stations 5001 ", "1 stations 5001 1", "1 station", "peers", "1 peers ", "1 peers 1", "1 peer", "1 Peers",
]


def story(*steps: tuple) -> tuple:
    """What is played, line by line, and what is printed: each line, and what became of it."""
    return lines(*(line for line, _ in steps)), "".join(f"> {line}\n{says}" for line, says in steps)


# A station at edge 1 moves to edge 2, and is pinned at edge 1. Edge 3 hears of each.
OWNERS = story(
    ("1 up 1", at(1, "3c")), ("2 up 1", at(2, "3c")), ("1 " + HEARD, "1 local - remote -\n"), ("1 announce", "1 pool 1\n"),
    ("1 announce", "1 pool 2\n"), ("3 owner " + STATION, "3 owner none\n"), ("2 deliver 2", "2 newer\n"),
    ("2 owner " + STATION, lines("2 owner 10.0.0.1", "2 advert 10.0.0.1 dynamic 0")), ("2 " + HEARD, "2 local - remote -\n"),
    ("2 announce", "2 pool 3\n"), ("2 announce", "2 pool 4\n"), ("3 deliver 2", "3 newer\n"), ("3 deliver 4", "3 newer\n"),
    ("3 owner " + STATION, lines("3 owner 10.0.0.2", "3 advert 10.0.0.2 dynamic 1", "3 advert 10.0.0.1 dynamic 0")),
    (f"1 pin {STATION} 1", ""), ("1 announce", "1 pool 5\n"), ("3 deliver 5", "3 newer\n"),
    ("3 owner " + STATION, lines("3 owner 10.0.0.1", "3 advert 10.0.0.1 static 0", "3 advert 10.0.0.2 dynamic 1")),
    ("3 owner 5002 02:00:00:00:00:0a", "3 owner none\n"), ("4 owner " + STATION, "4 refused fabric 18\n"),
    ("0 owner " + STATION, "0 refused fabric 18\n"),
)

# Both edges have the same station with the same number: the lower address owns it.
TIE = story(
    ("1 up 1", at(1, "3c")), ("2 up 1", at(2, "3c")), ("1 " + HEARD, "1 local - remote -\n"), ("2 " + HEARD, "2 local - remote -\n"),
    ("1 announce", "1 pool 1\n"), ("1 announce", "1 pool 2\n"), ("2 announce", "2 pool 3\n"), ("2 announce", "2 pool 4\n"),
    ("1 deliver 4", "1 newer\n"),
    ("1 owner " + STATION, lines("1 owner 10.0.0.1", "1 advert 10.0.0.1 dynamic 0", "1 advert 10.0.0.2 dynamic 0")),
)


def counts(number: int, *held: int) -> tuple:
    """The question how much an edge holds, and its answer."""
    words = zip(("stations", "pinned", "frozen", "registers", "own", "foreign", "pending"), held)
    return f"{number} counts", " ".join([f"{number} counts", *(f"{word} {count}" for word, count in words)]) + "\n"


# A station is heard and another one pinned, seven seconds pass, and it is unpinned. A withdrawal keeps its register, and is no advert.
HOLDS = story(
    counts(1, 0, 0, 0, 1, 1, 0, 1), ("1 stations", ""), ("1 up 1", at(1, "3c")), ("1 " + HEARD, "1 local - remote -\n"),
    counts(1, 1, 0, 0, 2, 2, 0, 2), ("1 pin 5001 02:00:00:00:00:0b 1", ""), counts(1, 2, 1, 0, 3, 3, 0, 3), ("1 announce", "1 pool 1\n"),
    counts(1, 2, 1, 0, 3, 3, 0, 2), ("1 stations", lines(f"1 station {STATION} port 1 age 0", "1 station 5001 02:00:00:00:00:0b port 1 pinned")),
    ("1 second 7", at(1, "3c", "3c", "3c")),
    ("1 stations", lines(f"1 station {STATION} port 1 age 7", "1 station 5001 02:00:00:00:00:0b port 1 pinned")),
    ("1 stations 5001", lines(f"1 station {STATION} port 1 age 7", "1 station 5001 02:00:00:00:00:0b port 1 pinned")),
    ("1 stations 5002", ""), ("1 unpin 5001 02:00:00:00:00:0b", ""), counts(1, 1, 0, 0, 3, 2, 0, 2),
    ("1 stations", f"1 station {STATION} port 1 age 7\n"), ("2 counts", "2 refused fabric 18\n"), ("2 stations", "2 refused fabric 18\n"),
)

# Stations of two networks are pinned, at edge 2 of three ports: the lower network first, and in it the lower address.
IN_TWO_NETWORKS = story(
    ("2 pin 5001 02:00:00:00:00:0a 3", ""), ("2 pin 100 02:00:00:00:00:0b 2", ""), ("2 pin 5001 02:00:00:00:00:09 1", ""),
    ("2 stations", lines(
        "2 station 100 02:00:00:00:00:0b port 2 pinned", "2 station 5001 02:00:00:00:00:09 port 1 pinned",
        "2 station 5001 02:00:00:00:00:0a port 3 pinned",
    )),
    ("2 stations 100", "2 station 100 02:00:00:00:00:0b port 2 pinned\n"), ("2 stations 70", ""), ("1 stations", ""),
    counts(2, 3, 3, 0, 6, 6, 0, 6),
)


def moved_often() -> tuple:
    """Edge 2 hears the station five times after edge 1 has said that it has it: then it is frozen there, and withdrawn. It is pinned
    all the same, and thawed."""
    steps = [
        ("1 up 1", at(1, "3c")), ("2 up 1", at(2, "3c")), ("1 announce", "1 pool 1\n"), ("2 announce", "2 pool 2\n"),
        ("1 deliver 2", "1 newer\n"), ("2 deliver 1", "2 newer\n"), counts(2, 0, 0, 0, 2, 1, 1, 0),
    ]
    for turn in range(5):
        here = 3 + 2 * turn
        steps += [
            ("1 " + HEARD, "1 local - remote 10.0.0.2\n"), ("1 announce", f"1 pool {here}\n"), (f"2 deliver {here}", "2 newer\n"),
            ("2 " + HEARD, "2 local - remote 10.0.0.1\n" + ("2 alert 3\n" if turn == 4 else "")),
        ]
        if turn < 4:
            steps += [("2 announce", f"2 pool {here + 1}\n"), (f"1 deliver {here + 1}", "1 newer\n")]
    return story(
        *steps, counts(2, 0, 0, 1, 4, 1, 2, 1), ("2 stations", f"2 station {STATION} frozen\n"), ("1 stations", f"1 station {STATION} port 1 age 0\n"),
        (f"2 pin {STATION} 1", ""), counts(2, 1, 1, 1, 4, 2, 2, 1), ("2 stations 5001", f"2 station {STATION} port 1 pinned frozen\n"),
        (f"2 thaw {STATION}", ""), counts(2, 1, 1, 0, 4, 2, 2, 1), ("2 stations", f"2 station {STATION} port 1 pinned\n"),
    )


# name: configuration, script, output
PLAYED = {
    "counts and stations": (ONE, *HOLDS),
    "stations of two networks": (edge(1) + THREE_PORTS, *IN_TWO_NETWORKS),
    "a frozen station": (TWO, *moved_often()),
    "owners": (TWO + edge(3), *OWNERS),
    "a tie": (TWO, *TIE),
    "help": (ONE, "help\n", "> help\n" + HELP),
    "help changes nothing": (
        ONE, "# a remark\n1 announce\nhelp\n\n1 announce\nhelp",
        "> 1 announce\n1 pool 1\n> help\n" + HELP + "> 1 announce\n1 none\n> help\n" + HELP,
    ),
    "edges": (
        edge(1) + THREE_PORTS, "edges\n1 restart 5\nedges\n",
        "> edges\n" + EDGES + "> 1 restart 5\n> edges\n" + EDGES,
    ),
}


def played() -> dict:
    """Every script that is played, as below."""
    found = {name: (config, script.encode(), 0, out, "") for name, (config, script, out) in PLAYED.items()}
    for bad in NO_QUESTIONS:
        found["no question " + repr(bad)] = (ONE, f"#\n{bad}\nhelp\n".encode(), 1, "", "line 2 bad\n")
    return found


def cases() -> dict:
    """Every script: its configuration, its text, its status, and what is printed where (`None`: whatever it is)."""
    found = {}
    for name in NAMES:
        parts = []
        for kind in ("toml", "script", "expected"):
            with open(os.path.join(EXAMPLES, f"{name}.{kind}"), encoding="utf-8") as stream:
                parts.append(stream.read())
        found["example " + name] = (parts[0], parts[1].encode(), 0, parts[2], "")
    for name, (config, script, out) in WORKED.items():
        found[name] = (config, script.encode(), 0, out, "")
    for bad in BAD + QUESTIONS:
        script = f"1 announce\n{bad}\n1 announce\n"
        found["bad line " + repr(bad[:60])] = (ONE, script.encode(), 1, "1 pool 1\n", "line 2 bad\n")
    found["octets that aren't UTF-8"] = (ONE, b"1 announce\n1 announce\n1 report\xff\n", 1, "1 pool 1\n1 none\n", "line 3 bad\n")
    found["a bad last line without a line feed"] = (ONE, b"1 announce\n1", 1, "1 pool 1\n", "line 2 bad\n")
    for good in GOOD:
        found["line " + good] = (ONE, good.encode(), 0, None, "")
    return found


class Simulations(unittest.TestCase):
    """Each script."""

    def test_there_are_examples(self):
        self.assertGreaterEqual(len(NAMES), 5)

    def runs(self, subcommand: str, scripts: dict) -> None:
        """Runs each script, and looks at all that becomes of it."""
        with tempfile.TemporaryDirectory() as work:
            path = os.path.join(work, "edges.toml")
            for name, (config, script, status, out, notes) in scripts.items():
                with open(path, "w", encoding="utf-8") as stream:
                    stream.write(config)
                with self.subTest(name=name):
                    done = subprocess.run(
                        [PROGRAM, subcommand, "--config", path], input=script, capture_output=True, timeout=180, check=False
                    )
                    told = done.stderr.decode().split("\n", 1)
                    self.assertEqual((done.returncode, told[0]), (status, notes.rstrip("\n")))
                    if notes:  # on the next line, why the line is bad
                        self.assertRegex(told[1], rf"^standard input:{notes.split()[1]}: [^\n]+\n$")
                    if out is not None:
                        self.assertEqual(done.stdout.decode(), out)

    @needs_program
    def test_scripts(self):
        self.runs("simulate", cases())

    @needs_program
    def test_questions(self):
        self.runs("play", played())

    @needs_program
    def test_recorded_session(self):
        """The session in the tutorial's animated picture is what the program prints."""
        with open(os.path.join(EXAMPLES, "sites.script"), "rb") as script:
            words = [PROGRAM, "play", "--config", os.path.join(EXAMPLES, "sites.toml")]
            done = subprocess.run(words, stdin=script, capture_output=True, timeout=180, check=True)
        with open(os.path.join(TOP, "docs", "move.txt"), encoding="utf-8") as session:
            self.assertEqual(done.stdout.decode(), session.read().split("\n", 1)[1])

    def test_drawn_session(self):
        """The animated picture is drawn from the recorded session."""
        words = [sys.executable, "-B", os.path.join(TOP, "tools", "session_svg.py"), os.path.join(TOP, "docs", "move.txt")]
        drawn = subprocess.run(words, capture_output=True, encoding="utf-8", check=True).stdout
        with open(os.path.join(TOP, "docs", "move.svg"), encoding="utf-8") as drawing:
            self.assertEqual(drawn, drawing.read())


if __name__ == "__main__":
    unittest.main()
