"""Worked streams of records: what is reported, noted and migrated of them follows from docs/routes.md and docs/records.md."""

import tests_path  # noqa: F401
import itertools
import subprocess
import unittest

from test_audit import PROGRAM, needs_program
from test_records import FIRST, changed

ALL = "10.0.0.1,10.0.0.2,10.0.0.3,10.0.0.9"
MAC = "mac 5001 02:00:00:00:00:0a"
OWNER = "owner 5001 02:00:00:00:00:0a"


def advert(last: int = 1, counter: int = 1) -> bytes:
    """The first record by 10.0.0.`last`, with this counter."""
    return FIRST[:9] + bytes([last]) + FIRST[10:17] + bytes([counter]) + FIRST[18:28] + bytes([last]) + FIRST[29:]


def withdrawal(last: int, counter: int) -> bytes:
    """10.0.0.`last` withdraws the station."""
    octets = advert(last, counter)
    return octets[:3] + b"\2" + octets[4:]


def moved(last: int, counter: int, sequence: int, flags: str = "0000") -> bytes:
    """The advert with a MAC Mobility community: flags, a reserved octet, a sequence number."""
    octets = advert(last, counter)
    return octets[:5] + b"\x3a" + octets[6:] + b"\6\0" + bytes.fromhex(flags) + sequence.to_bytes(4, "big")


def pinned(last: int, counter: int) -> bytes:
    """The advert of a static address."""
    return moved(last, counter, 0, "0100")


# the advert with the IP address 192.0.2.10, and with an IPv6 address and a second label
FOUR = FIRST[:5] + b"\x36" + FIRST[6:22] + b"\x25" + FIRST[23:52] + bytes.fromhex("20c000020a001389")
SIX = FIRST[:5] + b"\x45" + FIRST[6:22] + b"\x34" + FIRST[23:52] + bytes.fromhex("8020010db8000000000000000000000001001389000007")
# 10.0.0.1 is on the flood list
FLOOD = FIRST[:5] + b"\x22" + FIRST[6:21] + b"\3\x11" + FIRST[23:35] + bytes.fromhex("200a000001")
# the advert in incarnation 1, in version 2
REBORN = FIRST[:2] + b"\2\1\0\x36" + FIRST[6:10] + b"\0\0\0\1" + FIRST[10:]
# in version 3: the address with 192.0.2.10 is withdrawn, by counter 3
GONE = FIRST[:2] + b"\3\2\0\x3a" + FIRST[6:10] + bytes(4) + bytes(7) + b"\3" + FOUR[18:]
# the output of a migration: the advert with counter 2, and the withdrawal of the address that it replaced
NEWEST = FIRST[:2] + b"\3\1\0\x36" + FIRST[6:10] + bytes(4) + advert(1, 2)[10:]
REPLACED = FIRST[:2] + b"\3\2\0\x3a" + FIRST[6:10] + bytes(4) + bytes(7) + b"\2" + FOUR[18:]

LINES = f"{MAC} 10.0.0.1 1 dynamic 0\n{OWNER} 10.0.0.1\n"
# name: the records, and the lines of their report
REPORTS = {
    "nothing": ([], ""),
    "one record": ([FIRST], LINES),
    "a withdrawal outlives an old advert": ([withdrawal(1, 2), advert(1, 1)], f"{MAC} 10.0.0.1 2 withdrawn\n{OWNER} none\n"),
    "the lowest address breaks a tie": (
        [moved(2, 1, 7), moved(1, 1, 7)], f"{MAC} 10.0.0.1 1 dynamic 7\n{MAC} 10.0.0.2 1 dynamic 7\n{OWNER} 10.0.0.1\n",
    ),
    "a static address comes before the sequence": (
        [pinned(9, 1), moved(1, 1, 4294967295)], f"{MAC} 10.0.0.1 1 dynamic 4294967295\n{MAC} 10.0.0.9 1 static 0\n{OWNER} 10.0.0.9\n",
    ),
    "the content decides at equal counters": ([moved(1, 5, 3), moved(1, 5, 4)], f"{MAC} 10.0.0.1 5 dynamic 4\n{OWNER} 10.0.0.1\n"),
    "what is reserved is ignored": ([moved(1, 5, 3), moved(1, 5, 4, "feff")], f"{MAC} 10.0.0.1 5 dynamic 4\n{OWNER} 10.0.0.1\n"),
    "the winner is found anew after its withdrawal": (
        [moved(1, 1, 1), moved(2, 1, 3), moved(3, 1, 2), withdrawal(2, 2)],
        f"{MAC} 10.0.0.1 1 dynamic 1\n{MAC} 10.0.0.2 2 withdrawn\n{MAC} 10.0.0.3 1 dynamic 2\n{OWNER} 10.0.0.3\n",
    ),
    "an IPv4 address": ([FOUR], f"{MAC} 10.0.0.1 1 dynamic 0 ip 192.0.2.10\n{OWNER} 10.0.0.1\n"),
    "an IPv6 address and a second label": (
        [SIX], f"{MAC} 10.0.0.1 1 dynamic 0 ip 2001:0db8:0000:0000:0000:0000:0000:0001 label2 7\n{OWNER} 10.0.0.1\n",
    ),
    "a flood list": ([FLOOD], "flood 5001 10.0.0.1 1 up\n"),
    "a later incarnation is newer": ([moved(1, 9, 5), REBORN], f"{MAC} 10.0.0.1 1.1 dynamic 0\n{OWNER} 10.0.0.1\n"),
    "the address is part of the key": (
        [FOUR, advert(1, 2)], f"{MAC} 10.0.0.1 2 dynamic 0\n{MAC} 10.0.0.1 1 dynamic 0 ip 192.0.2.10\n{OWNER} 10.0.0.1\n",
    ),
    "a withdrawal names its address": (
        [FOUR, advert(1, 2), GONE], f"{MAC} 10.0.0.1 2 dynamic 0\n{MAC} 10.0.0.1 3 withdrawn ip 192.0.2.10\n{OWNER} 10.0.0.1\n",
    ),
}

# each refusal, by a second record between two good ones
REFUSALS = {
    5: changed(21, 0x04), 6: changed(52, 0x20), 7: changed(28, 0x02), 8: changed(40, 0x01), 9: changed(44, 0x01), 10: changed(55, 0x8A),
    11: changed(46, 0x03), 14: changed(17, 0x00), 12: advert(8, 1),
}
# the records, their report and notes; the status is 1
BROKEN = {
    "a cut record": (FIRST[:55], "", "truncated 55 at record 1\n"),
    "another magic": (FIRST + b"EW", LINES, "fault 1 at record 2\n"),
    "another version": (b"EV\4", "", "fault 2 at record 1\n"),
    "another kind": (b"EV\1\3", "", "fault 3 at record 1\n"),
    "a length below the least": (bytes.fromhex("45560101000e"), "", "fault 4 at record 1\n"),
    "a length above the greatest": (bytes.fromhex("455601010201"), "", "fault 4 at record 1\n"),
    "a length below the least of version 2": (bytes.fromhex("455602010012"), "", "fault 4 at record 1\n"),
}
# the line after the fault's, if text stands in place of records
TEXT = "this is not a record stream; `examples/make_records` turns text into records\n"
LEAST = bytes.fromhex("45560101000f") + FIRST[6:21]
GREATEST = bytes.fromhex("455601010200") + FIRST[6:] + bytes(462) + FIRST

# name: the old records, the output, notes and status
MIGRATIONS = {
    "a replaced address is withdrawn": (FOUR + advert(1, 2), NEWEST + REPLACED, "", 0),
    "whatever the order": (advert(1, 2) + FOUR, NEWEST + REPLACED, "", 0),
    "version 3 is a fault behind what is written": (advert(1, 2) + NEWEST, NEWEST, "fault 2 at record 2\n", 1),
    "a cut record holds nothing back": (advert(1, 2) + FIRST[:55], NEWEST, "truncated 55 at record 2\n", 1),
}
STAYS_AWAY = f"{MAC} 10.0.0.1 2 dynamic 0\n{MAC} 10.0.0.1 2 withdrawn ip 192.0.2.10\n{OWNER} 10.0.0.1\n"


class Worked(unittest.TestCase):
    """Each stream."""

    def gives(self, stream: bytes, out, notes: str = "", status: int = 0, subcommand: str = "report", originators: str = ALL) -> None:
        """The program's output, notes and status; `out` is octets or text."""
        done = subprocess.run([PROGRAM, subcommand, "--originators", originators], input=stream, capture_output=True, check=False)
        expected = out if isinstance(out, bytes) else out.encode()
        self.assertEqual((done.returncode, done.stdout, done.stderr.decode()), (status, expected, notes), stream.hex())

    @needs_program
    def test_reports(self):
        for name, (stream, lines) in REPORTS.items():
            for order in itertools.permutations(stream):
                with self.subTest(name=name):
                    self.gives(b"".join(order), lines)

    @needs_program
    def test_refusals(self):
        lines = f"{MAC} 10.0.0.1 1 dynamic 0\n{MAC} 10.0.0.2 1 withdrawn\n{OWNER} 10.0.0.1\n"
        for number, second in REFUSALS.items():
            self.gives(advert() + second + withdrawal(2, 1), lines, f"record 2 refused {number}\n")
        self.gives(LEAST, "", "record 1 refused 6\n")
        self.gives(GREATEST, LINES, "record 1 refused 6\n")

    @needs_program
    def test_ends(self):
        for name, (stream, lines, notes) in BROKEN.items():
            with self.subTest(name=name):
                self.gives(stream, lines, notes, 1)
        for cut in range(1, len(FIRST)):
            self.gives(FIRST[:cut], "", f"truncated {cut} at record 1\n", 1)

    @needs_program
    def test_text(self):
        """If the first octet can be printed, a line after the fault's tells how to make records. `E` begins each record."""
        for octet in range(256):
            is_text = (octet in b"\t\n\r" or 32 <= octet <= 126) and octet != ord("E")
            stream = bytes([octet]) + b"lood 5001 10.0.0.1 1 up\n"
            for subcommand in ("report", "migrate"):
                self.gives(stream, "", "fault 1 at record 1\n" + is_text * TEXT, 1, subcommand)
        self.gives(b"f", "", "fault 1 at record 1\n" + TEXT, 1)
        self.gives(FIRST + b"flood", LINES, "fault 1 at record 2\n", 1)

    @needs_program
    def test_each_octet_changed_is_answered(self):
        for place, octet in itertools.product(range(len(FIRST)), (0x00, 0xFF)):
            words = [PROGRAM, "report", "--originators", "10.0.0.1"]
            done = subprocess.run(words, input=changed(place, octet), capture_output=True, check=False)
            self.assertLessEqual(done.returncode, 1, (place, octet))

    @needs_program
    def test_migrations(self):
        for name, (stream, written, notes, status) in MIGRATIONS.items():
            with self.subTest(name=name):
                self.gives(stream, written, notes, status, "migrate", "10.0.0.1")
        self.assertEqual(len(NEWEST + REPLACED), 124)
        for stream in (NEWEST + REPLACED, NEWEST + REPLACED + FOUR):
            for order in ((stream), (stream[124:] + stream[:124])):
                self.gives(order, STAYS_AWAY)

    @needs_program
    def test_lists(self):
        self.gives(b"", "", originators="10.0.0.2,255.255.255.255,0.0.0.0")
        self.gives(b"", "", originators=",".join(f"1.0.0.{n}" for n in range(64)))
        for wrong, why in {
            "": "isn't an IPv4 address", "10.0.0": "isn't an IPv4 address", "10.0.0.1 ": "isn't an IPv4 address",
            "10.0.0.1;10.0.0.2": "isn't an IPv4 address", "00.0.0.1": "has a number that begins with 0", "10.0.0.9": "stands there twice",
        }.items():
            words = [PROGRAM, "report", "--originators", f"10.0.0.9,{wrong},x"]
            done = subprocess.run(words, input=b"", capture_output=True, check=False)
            self.assertEqual((done.returncode, done.stdout), (2, b""))
            self.assertIn(f"'{wrong}' {why}", done.stderr.decode())


if __name__ == "__main__":
    unittest.main()
