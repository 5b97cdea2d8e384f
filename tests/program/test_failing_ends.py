"""Devices: input that comes in pieces, and each read and each write of the built program failing in turn. An end that has failed is
called no more."""

import tests_path  # noqa: F401
import os
import unittest

from preloaded import BY_RATTLE, Preloaded
from test_audit import needs_program
from test_records import FIRST, TOP, changed
from test_simulations import BOTH, TWO

LINES = b"mac 5001 02:00:00:00:00:0a 10.0.0.1 1 dynamic 0\nowner 5001 02:00:00:00:00:0a 10.0.0.1\n"
MIGRATED = FIRST[:2] + b"\x03\x01\x00\x36" + FIRST[6:10] + bytes(4) + FIRST[10:]
ORDERS = {"report": LINES, "migrate": MIGRATED}
UNREAD = b"standard input: it can't be read\n"
UNWRITTEN = b"standard output: it can't be written\n"
UNLISTED = FIRST[:9] + b"\x09" + FIRST[10:28] + b"\x09" + FIRST[29:]


def words_of(subcommand: str) -> list:
    """The words of a report or a migration."""
    return [subcommand, "--originators", "10.0.0.1"]


def many(count: int) -> bytes:
    """Records of so many stations, whose report and migration take several writes."""
    return b"".join(FIRST[:50] + n.to_bytes(2, "big") + FIRST[52:] for n in range(count))


class FailingEnds(Preloaded):
    """Each end of each subcommand that reads."""

    source = os.path.join(TOP, "tests", "program", "devices.c")

    @needs_program
    def test_in_two_pieces_as_at_once(self):
        for first in range(1, 3 * len(FIRST)):
            done, _ = self.run_with({"FIRST": first}, words_of("report"), 3 * FIRST)
            self.assertEqual(done, (0, LINES, b""), first)

    @needs_program
    def test_octet_by_octet_as_at_once(self):
        for subcommand, made in ORDERS.items():
            done, calls = self.run_with({"PIECE": 1}, words_of(subcommand), 3 * FIRST)
            self.assertEqual(done, (0, made, b""))
            if not BY_RATTLE:
                self.assertEqual(calls[0], 3 * len(FIRST) + 1)

    @needs_program
    def test_octets_after_a_fault_are_no_records(self):
        stream = FIRST + b"EW" + changed(17, 9) + FIRST[:55]
        for first in range(1, len(stream)):
            done, _ = self.run_with({"FIRST": first}, words_of("report"), stream)
            self.assertEqual(done, (1, LINES, b"fault 1 at record 2\n"), first)

    def fails(self, end: int, words: list, given: bytes, settings: dict, expected) -> None:
        """Lets each call of an end fail; `expected` is told how many went well before, and says what has to come of it."""
        good, calls = self.run_with(settings, words, given)
        if not BY_RATTLE:
            self.assertGreater(calls[end], 0)
        for at in range(1, calls[end] + 1):
            done, called = self.run_with({**settings, "FAIL": f"{end}:{at}"}, words, given)
            self.assertEqual((done.status, called[end]), (4, at), (words[0], end, at))
            expected(at, good, done)

    @needs_program
    def test_failed_read_ends_the_reading(self):
        """It is told. What was read whole before it is reported; nothing is migrated, and no line of a script is run."""
        def is_so_far(made: bytes):
            def check(at, _good, done):
                self.assertEqual((done.out, done.notes), (made if at > len(FIRST) else b"", UNREAD))
            return check

        self.fails(0, words_of("report"), FIRST, {"PIECE": 1}, is_so_far(LINES))
        self.fails(0, words_of("report"), FIRST + FIRST[:55], {"PIECE": 1}, is_so_far(LINES))
        nothing = lambda _at, _good, done: self.assertEqual((done.out, done.notes), (b"", UNREAD))
        self.fails(0, words_of("migrate"), FIRST, {"PIECE": 1}, nothing)
        self.fails(0, ["simulate", "--config", self.write("edges.toml", TWO)], BOTH.encode(), {"PIECE": 16}, nothing)

    @needs_program
    def test_failed_write_is_the_last(self):
        """It is told, and what was written before it stays."""
        def begins(_at, good, done):
            self.assertTrue(good.out.startswith(done.out) and good.out != done.out)
            self.assertEqual(done.notes, UNWRITTEN)

        for subcommand in ORDERS:
            self.fails(1, words_of(subcommand), many(1000), {}, begins)
        config = self.write("edges.toml", TWO)
        self.fails(1, ["simulate", "--config", config], (BOTH + 2000 * "1 report\n").encode(), {}, begins)
        self.fails(1, ["check", "--config", config], b"", {}, begins)

    @needs_program
    def test_failed_note_is_the_last_and_holds_no_output_back(self):
        def is_whole(_at, good, done):
            self.assertEqual(done.out, good.out)
            self.assertTrue(good.notes.startswith(done.notes) and good.notes != done.notes)

        for subcommand, made in ORDERS.items():
            stream = FIRST + 3 * UNLISTED + FIRST[:55]
            self.assertEqual(self.run_with({}, words_of(subcommand), stream)[0][:2], (1, made))
            self.fails(2, words_of(subcommand), stream, {"PIECE": len(FIRST)}, is_whole)
            self.fails(2, words_of(subcommand), b"text\n", {"PIECE": 1}, is_whole)
        config = self.write("edges.toml", TWO)
        self.fails(2, ["simulate", "--config", config], (BOTH + "1 bad\n").encode(), {}, is_whole)
        self.fails(2, ["check", "--config", self.write("faulty.toml", TWO + "cost = 0\n")], b"", {}, is_whole)
        self.fails(2, ["simulate", "--config", os.path.join(self.folder, "none")], b"", {}, is_whole)
        self.fails(2, words_of("reports"), b"", {}, is_whole)


if __name__ == "__main__":
    unittest.main()
