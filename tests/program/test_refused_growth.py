"""Memory: the built program with each of its allocations refused, one a run.

Whatever is refused, a run ends in one of the ways that its subcommand may: as if nothing had been refused, by what the program makes
up for; with status 3 and nothing written; or with one record or one step told as refused, and all else as if it hadn't been there."""

import tests_path  # noqa: F401
import os
import sys
import unittest

from preloaded import BY_RATTLE, Done, Preloaded
from test_audit import needs_program
from test_records import TOP

COUNT = 12
CONFIG = "".join(
    f'[[edge]]\naddress = "10.0.0.{n}"\nbridge = "02:aa:00:00:00:0{n}"\nvnis = [5001]\n[[edge.port]]\nvni = 5001\nadmin_edge = true\n'
    for n in (1, 2)
)
PINNED = "5001 02:00:00:00:00:20"
SCRIPT = [
    "1 up 1", "2 up 1", "1 announce", "2 announce", "1 deliver 2", "2 deliver 1",
    *[f"1 frame 1 ffffffffffff0200000000{n:02x}0800" for n in range(COUNT)],
    *COUNT * ["1 announce"],
    *[f"2 deliver {n + 3}" for n in range(COUNT)],
    "2 frame 1 ffffffffffff02000000000a0800", f"1 pin {PINNED} 1", "1 announce", f"2 deliver {COUNT + 3}", f"1 unpin {PINNED}",
    "1 tunnel 10.0.0.2 0800000000138900ffffffffffff02000000000b0800", "2 announce", f"1 deliver {COUNT + 4}", "1 announce",
    "1 report", "2 report", "1 restart 1", "1 up 1", "1 announce", "1 deliver 2", "1 deliver 3", "1 report",
]
NONE = Done(3, b"", b"")


def record(number: int) -> bytes:
    """10.0.0.1 advertises a station of this number in network 5001 by this counter, in version 1."""
    return (
        bytes.fromhex("4556010100320a000001") + number.to_bytes(8, "big") + bytes.fromhex("00138902210001") + bytes.fromhex("0a0000010001")
        + bytes(14) + bytes.fromhex("300200000000") + bytes([number]) + bytes.fromhex("00001389")
    )


def report(numbers) -> bytes:
    """The report of the records of these numbers."""
    lines = "mac 5001 02:00:00:00:00:{0:02x} 10.0.0.1 {0} dynamic 0\nowner 5001 02:00:00:00:00:{0:02x} 10.0.0.1\n"
    return "".join(lines.format(n) for n in numbers).encode()


def text_of(script: list) -> bytes:
    """The lines of a script."""
    return "".join(line + "\n" for line in script).encode()


ALL = range(1, COUNT + 1)
STREAM = b"".join(record(n) for n in ALL)


class RefusedGrowth(Preloaded):
    """Each subcommand."""

    source = os.path.join(TOP, "tests", "refuse_allocation.c")

    def setUp(self):
        self.config = self.write("edges.toml", CONFIG)

    def good(self, words: list, given: bytes) -> Done:
        """A run with ample memory."""
        return self.run_with({"REFUSE": 0}, words, given)[0]

    def each(self, words: list, given: bytes, ends: dict) -> dict:
        """Refuses each allocation in turn: each run has to end as if none had been refused, with nothing done, or in one of these ways.
        How often each of them came."""
        good, (asked,) = self.run_with({"REFUSE": 0}, words, given)
        if not BY_RATTLE:
            self.assertGreater(asked, 0)
        ends = {**ends, NONE: "nothing done", good: "made up for"}
        found = {}
        for number in range(1, asked + 1):
            done, _ = self.run_with({"REFUSE": number}, words, given)
            with self.subTest(words=words, allocation=number, done=done):
                self.assertIn(done, ends)
            found[ends.get(done)] = found.get(ends.get(done), 0) + 1
        print(f"evpnd {words[0]}, each of {asked} allocations refused: {found}", file=sys.stderr)
        return found

    def finds(self, end: str, found: dict) -> None:
        """This end has to be among those that came."""
        if not BY_RATTLE:
            self.assertIn(end, found)

    @needs_program
    def test_search_for_devices(self):
        """Nearly all allocations of a run with a device are those of the search for it. A refused one is no missing device."""
        port = '[[edge.port]]\nvni = 5001\nadmin_edge = true\ndevice = "tap0"\n'
        edge = '[[edge]]\naddress = "127.0.0.1"\nbridge = "02:aa:00:00:00:01"\nvnis = [5001]\n'
        words = ["run", "--config", self.write("device.toml", edge + port)]
        missing, (asked,) = self.run_with({"REFUSE": 0}, words, b"")
        why = b"evpnd has no descriptor of it; start evpnd by evpnd-attach\n"
        self.assertEqual(missing, Done(4, b"", b"can't use device tap0: " + why))
        for number in () if BY_RATTLE else (asked // 4, asked // 2, asked // 4 * 3):
            with self.subTest(allocation=number):
                self.assertEqual(self.run_with({"REFUSE": number}, words, b"")[0], NONE)

    @needs_program
    def test_report(self):
        words = ["report", "--originators", "10.0.0.1"]
        self.assertEqual(self.good(words, STREAM), (0, report(ALL), b""))
        ends = {Done(3, report(m for m in ALL if m != n), f"record {n} refused 15\n".encode()): "a record refused" for n in ALL}
        self.finds("a record refused", self.each(words, STREAM, ends))

    @needs_program
    def test_migrate(self):
        words = ["migrate", "--originators", "10.0.0.1"]
        migrated = self.good(words, STREAM)
        self.assertEqual((migrated.status, migrated.notes), (0, b""))
        self.assertEqual(self.good(["report", "--originators", "10.0.0.1"], migrated.out), (0, report(ALL), b""))
        ends = {Done(3, b"", f"record {n} refused 15\n".encode()): "a record refused, nothing written" for n in ALL}
        self.finds("a record refused, nothing written", self.each(words, STREAM, ends))

    @needs_program
    def test_check(self):
        words = ["check", "--config", self.config]
        self.assertEqual(self.good(words, b""), (0, b"ok: 2 edges, 2 ports, 1 VNI\n", b""))
        self.finds("nothing done", self.each(words, b"", {}))
        words = ["check", "--config", self.write("faulty.toml", CONFIG + "cost = 0\n")]
        self.assertEqual(self.good(words, b""), (2, b"", b"edge 2, port 1: cost is 0, allowed are 1 to 200000000\n"))
        self.each(words, b"", {Done(2, b"", b"config cost\n"): "told by its key alone"})

    def play(self, script: list) -> bytes:
        """What a simulation of these lines prints."""
        done = self.good(["simulate", "--config", self.config], text_of(script))
        self.assertEqual((done.status, done.notes), (0, b""))
        return done.out

    @needs_program
    def test_simulate(self):
        """A step that is refused leaves all as if its line weren't there. Where a station isn't learnt or pinned, an alert says so, and the
        frame is sent on."""
        before = [self.play(SCRIPT[:n]) for n in range(len(SCRIPT) + 1)]
        ends = {}
        for n, line in enumerate(SCRIPT):
            edge = line.split()[0].encode()
            rest = self.play(SCRIPT[:n] + SCRIPT[n + 1 :])[len(before[n]) :]
            ends[Done(3, before[n] + edge + b" refused edge 15\n" + rest, b"")] = "a step refused"
            if " frame " in line or " pin " in line:
                ends[Done(3, before[n + 1] + edge + b" alert 15\n" + rest, b"")] = "a station not learnt"
        found = self.each(["simulate", "--config", self.config], text_of(SCRIPT), ends)
        self.finds("a step refused", found)
        self.finds("a station not learnt", found)


if __name__ == "__main__":
    unittest.main()
