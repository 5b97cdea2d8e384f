"""Reports, migrations, simulations and runs print what an earlier program printed: its lines come first, further ones may follow.

tests/data/first_lines.json has what that program printed, by the names of the cases below. To store what another program prints:

    python3 test_first_lines.py --store PROGRAM
"""

import json
import os
import random
import subprocess
import sys
import tempfile
import unittest
from typing import Iterator, List, NamedTuple

import test_worked_streams as worked
from test_audit import PROGRAM, needs_program
from test_records import FIRST, TOP
from test_run import HOST

import report_model

STORED = os.path.join(TOP, "tests", "data", "first_lines.json")
EXAMPLES = os.path.join(TOP, "examples")
TEXTS = (b"flood 5001 10.0.0.1 1 up\n", b"\n", b"E", b"EVPN\n", b"\x00\x01", b"\xff", b"{}", b" ", b"\xc3\xa9\n")
ADDRESS, HERE = "127.91.7.1", HOST + "91"  # of the cases, and of this run, so that two runs don't meet
EDGE = '[[edge]]\naddress = "127.91.7.1"\nbridge = "02:aa:00:00:00:01"\nvnis = [5001]\n[[edge.port]]\nvni = 5001\n'
ENDS = 'local = "127.91.7.1:20001"\nremote = "127.91.7.1:30001"\n'
SCRIPT = "1 up 1\n1 second 3\n1 announce\n1 report\n"
# a line of a configuration, or the text that replaces it
FAULTS = {
    "no text": (EDGE, "[[edge\n"),
    "no edge": (EDGE, ""),
    "one table": ("[[edge]]", "[edge]"),
    "no address": ('address = "127.91.7.1"\n', ""),
    "an address": ("127.91.7.1", "127.91.7.01"),
    "a group address": ("02:aa", "03:aa"),
    "no number": ("[5001]", '["5001"]'),
    "two equal networks": ("[5001]", "[5001, 5001]"),
    "another network": ("vni = 5001", "vni = 5002"),
    "an unknown key": ("vnis", "name = 1\nvnis"),
    "a relation": ("vnis", "max_age = 40\nvnis"),
    "a cost": ("vni = 5001", "vni = 5001\ncost = 0"),
    "an endpoint": ("vni = 5001", 'vni = 5001\nlocal = "127.0.0.1"'),
    "a control socket": (EDGE, f'control = "control"\n{EDGE}'),
}
BAD_LINES = ("", "# a remark", "1 rise", "x", "1 up", "1 up x", " 1 up 1", "1 up 1 ", "1 up 1\r", "1 second 0", "1 frame 1 0", "1 tunnel x 00", "1 restart x")


class Case(NamedTuple):
    """A run of a program: its words, its standard input, and the text of edges.toml."""

    name: str
    words: List[str]
    given: bytes = b""
    config: str = EDGE


def streams() -> Iterator[Case]:
    """Streams of records, and of none."""
    numbers = random.Random(60)
    found = {f"report {name}": b"".join(stream) for name, (stream, _) in worked.REPORTS.items()}
    found.update((f"refusal {number}", worked.advert() + second) for number, second in worked.REFUSALS.items())
    found.update((f"broken {name}", stream) for name, (stream, _, _) in worked.BROKEN.items())
    found.update((f"migration {name}", stream) for name, (stream, *_) in worked.MIGRATIONS.items())
    found.update((f"text {text!r}", text) for text in TEXTS)
    found.update((f"cut at {octets}", FIRST[:octets]) for octets in range(1, len(FIRST), 6))
    found.update((f"random {turn}", report_model.random_stream(numbers)) for turn in range(24))
    for name, stream in found.items():
        for subcommand in ("report", "migrate"):
            yield Case(f"{subcommand}: {name}", [subcommand, "--originators", worked.ALL], stream)


def simulations() -> Iterator[Case]:
    """Scripts, valid and invalid."""
    for name in sorted(os.listdir(EXAMPLES)):
        if name.endswith(".script"):
            with open(os.path.join(EXAMPLES, name), "rb") as script, open(os.path.join(EXAMPLES, name[:-6] + "toml"), encoding="utf-8") as config:
                yield Case(f"simulate: {name}", ["simulate", "--config", "edges.toml"], script.read(), config.read())
    for line in BAD_LINES:
        script = f"{SCRIPT}{line}\n1 report\n".encode()
        yield Case(f"simulate: bad line {line!r}", ["simulate", "--config", "edges.toml"], script)
    yield Case("simulate: no line feed", ["simulate", "--config", "edges.toml"], SCRIPT.rstrip().encode())
    yield Case("simulate: refused", ["simulate", "--config", "edges.toml"], b"1 port 9\n2 report\n1 deliver 1\n")


def configurations() -> Iterator[Case]:
    """Configurations, valid and invalid."""
    for subcommand in ("simulate", "run"):
        for name, (line, other) in FAULTS.items():
            yield Case(f"{subcommand}: {name}", [subcommand, "--config", "edges.toml"], b"", EDGE.replace(line, other, 1))
        yield Case(f"{subcommand}: no file", [subcommand, "--config", "none.toml"])
        yield Case(f"{subcommand}: a folder", [subcommand, "--config", "."])
    yield Case("run", ["run", "--config", "edges.toml"], b"", EDGE + ENDS)
    yield Case("run: no device has the address", ["run", "--config", "edges.toml"], b"", EDGE + ENDS.replace("127.91.7.1:20001", "192.0.2.1:20001"))


def cases() -> List[Case]:
    """All of them."""
    return [*streams(), *simulations(), *configurations()]


def printed(program: str, case: Case) -> List:
    """The status of a program, its standard output and standard error."""
    with tempfile.TemporaryDirectory() as folder:
        with open(os.path.join(folder, "edges.toml"), "w", encoding="utf-8") as config:
            config.write(case.config.replace(ADDRESS, HERE))
        done = subprocess.run([program, *case.words], input=case.given, capture_output=True, cwd=folder, timeout=60, check=False)
    return [done.returncode, *(each.decode("latin-1").replace(HERE, ADDRESS) for each in (done.stdout, done.stderr))]


class FirstLines(unittest.TestCase):
    """Each case."""

    @needs_program
    def test_lines_that_were_printed_come_first(self) -> None:
        with open(STORED, encoding="ascii") as stored:
            before = json.load(stored)
        # an example that is newer than that program has no stored lines; test_simulations compares its output
        newer = {f"simulate: {name}" for name in os.listdir(EXAMPLES) if name.endswith(".script")} - set(before)
        compared = [case for case in cases() if case.name not in newer]
        self.assertEqual(sorted(before), sorted(case.name for case in compared))
        for case in compared:
            with self.subTest(case=case.name):
                status, out, notes = printed(PROGRAM, case)
                self.assertEqual([status, out, notes[: len(before[case.name][2])]], before[case.name])


def main() -> None:
    """Runs the tests, or stores what a program prints."""
    if sys.argv[1:2] != ["--store"]:
        unittest.main()
    with open(STORED, "w", encoding="ascii") as stored:
        lines = ",\n".join(f"{json.dumps(case.name)}: {json.dumps(printed(sys.argv[2], case))}" for case in cases())
        stored.write(f"{{\n{lines}\n}}\n")


if __name__ == "__main__":
    main()
