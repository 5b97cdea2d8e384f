#!/usr/bin/env python3
"""Tests the links of ev_links over a real tap device, by a program that echoes frames (tap_links.sh builds it).

usage: tests/outside/tap_links.py PROGRAM      (as root; some 40 seconds)

The program has the device as descriptor 9. It sends each frame that it receives twice: without waiting, and with. It prints a line
for each call of the receiving link, and ends when its input does.
"""

import contextlib
import fcntl
import os
import socket
import struct
import subprocess
import sys
import threading
import time
import unittest

PROGRAM = ""
NAME, FAR, BRIDGE = "evtap0", "evtap1", "evtapbr"
TUNSETIFF, TUNSETSNDBUF, IFF_TAP, IFF_NO_PI = 0x400454CA, 0x400454D4, 0x0002, 0x1000
ALL_PROTOCOLS = 0x0003
FRAME = b"\xff" * 6 + bytes.fromhex("02000000000188b5")
BPDU = bytes.fromhex("0180c2000000" "020000000001" "0027424203" "000002023c") + bytes(38)


def ip(*words):
    """Runs iproute2."""
    subprocess.run(["ip", *words], check=True)


def tap(name, flags=os.O_NONBLOCK):
    """Makes a tap device that is up and to which the system sends nothing by itself. Returns its descriptor."""
    device = os.open("/dev/net/tun", os.O_RDWR | flags)
    fcntl.ioctl(device, TUNSETIFF, struct.pack("16sH22x", name.encode(), IFF_TAP | IFF_NO_PI))
    with open(f"/proc/sys/net/ipv6/conf/{name}/disable_ipv6", "w", encoding="ascii") as setting:
        setting.write("1")
    ip("link", "set", name, "up")
    return device


def raw(name):
    """Returns a socket that sends frames out of the device, and receives those that go out of it or come in."""
    host = socket.socket(socket.AF_PACKET, socket.SOCK_RAW, socket.htons(ALL_PROTOCOLS))
    host.bind((name, 0))
    host.settimeout(0.5)
    return host


def frame(size):
    """Returns a frame of this size."""
    return FRAME + bytes(size - len(FRAME))


def sizes_at(host):
    """Returns the sizes of the frames that a socket received, until none comes for half a second."""
    sizes = []
    try:
        while True:
            sizes.append(len(host.recv(70_000)))
    except TimeoutError:
        return sizes


class Program:
    """The running program, with the lines that it printed and the seconds from its start."""

    def __init__(self, device, words=()):
        self.begin = time.monotonic()
        self.lines = []
        self.process = subprocess.Popen(
            [*words, PROGRAM], stdin=subprocess.PIPE, stdout=subprocess.PIPE, pass_fds=[9], preexec_fn=lambda: os.dup2(device, 9)
        )
        self.reader = threading.Thread(target=self.read)
        self.reader.start()

    def read(self):
        for line in self.process.stdout:
            self.lines.append((time.monotonic() - self.begin, line.decode().strip()))

    def taken(self):
        """Returns the printed lines, and forgets them."""
        lines, self.lines = self.lines, []
        return [line for _, line in lines]

    def cpu(self):
        """Returns the seconds of processor time."""
        with open(f"/proc/{self.process.pid}/stat", encoding="ascii") as numbers:
            fields = numbers.read().rpartition(")")[2].split()
        return (int(fields[11]) + int(fields[12])) / os.sysconf("SC_CLK_TCK")

    def end(self):
        """Ends the program. Returns how many seconds that took."""
        begin = time.monotonic()
        self.process.stdin.close()
        self.process.wait(10)
        self.reader.join()
        self.process.stdout.close()
        return time.monotonic() - begin


class Device(unittest.TestCase):
    """A tap device, and the program at it."""

    def start(self, device, words=()):
        program = Program(device, words)
        self.addCleanup(lambda: program.process.poll() is None and program.process.kill())
        return program

    def open(self, flags=os.O_NONBLOCK, name=NAME):
        device = tap(name, flags)
        self.addCleanup(os.close, device)
        host = raw(name)
        self.addCleanup(host.close)
        return device, host

    def test_frames_come_and_go(self):
        device, host = self.open()
        program = self.start(device)
        time.sleep(0.3)
        host.send(frame(60))
        host.send(frame(1514))
        self.assertEqual(sizes_at(host), [60, 60, 1514, 1514])
        self.assertEqual(program.taken(), ["got 60 now true sent true", "got 1514 now true sent true"])
        program.end()

    def test_longer_frame_is_cut_and_mtu_is_no_limit(self):
        device, host = self.open()
        ip("link", "set", NAME, "mtu", "9500")
        program = self.start(device)
        time.sleep(0.3)
        host.send(frame(9400))
        time.sleep(0.2)
        ip("link", "set", NAME, "mtu", "600")
        host.send(frame(100))
        time.sleep(0.2)
        self.assertEqual(program.taken(), ["got 9026 now true sent true", "got 100 now true sent true"])
        self.assertEqual(os.write(device, frame(1514)), 1514)
        program.end()

    def test_idle_device_costs_nothing_and_the_end_comes_within_a_second(self):
        device, _ = self.open()
        program = self.start(device)
        time.sleep(3.4)
        self.assertEqual(program.taken(), [])
        self.assertLess(program.cpu(), 0.05)
        self.assertLess(program.end(), 1.3)
        self.assertEqual(program.taken(), ["end"])

    def test_device_that_is_down_fails_until_it_is_up(self):
        device, _ = self.open()
        program = self.start(device)
        time.sleep(0.3)
        ip("link", "set", NAME, "down")
        time.sleep(3.5)
        lines = program.taken()
        self.assertIn(len(lines), (3, 4))
        self.assertEqual(set(lines), {"failed"})
        ip("link", "set", NAME, "up")
        time.sleep(1.5)
        self.assertEqual(program.taken()[-1:], ["got 0 now false sent false"])
        with raw(NAME) as host:  # the other one has an error of the time when the device was down
            host.send(frame(60))
        time.sleep(0.3)
        self.assertEqual(program.taken(), ["got 60 now true sent true"])
        self.assertLess(program.cpu(), 0.05)
        program.end()

    def test_deleted_device_fails_at_once(self):
        device, _ = self.open()
        program = self.start(device)
        time.sleep(0.3)
        ip("link", "del", NAME)
        time.sleep(0.3)
        self.assertEqual(program.taken(), ["failed"])
        time.sleep(2)
        self.assertEqual(program.taken(), ["failed"] * 2)
        self.assertLess(program.end(), 1.3)

    def test_descriptor_of_something_else_fails(self):
        null = os.open("/dev/null", os.O_RDWR)
        self.addCleanup(os.close, null)
        program = self.start(null)
        time.sleep(2.5)
        self.assertEqual(program.taken(), ["failed"] * 3)
        self.assertLess(program.cpu(), 0.05)
        program.end()

    def test_descriptor_that_blocks_ends_after_the_next_frame(self):
        device, host = self.open(0)
        program = self.start(device)
        time.sleep(0.3)
        host.send(frame(60))
        time.sleep(0.2)
        self.assertEqual(program.taken(), ["got 60 now true sent true"])
        program.process.stdin.close()
        time.sleep(2)
        self.assertIsNone(program.process.poll())
        host.send(frame(60))
        self.assertEqual(program.process.wait(1), 0)
        program.end()

    def test_full_queue_makes_a_send_wait(self):
        device, host = self.open()
        far, _ = self.open(name=FAR)
        fcntl.ioctl(device, TUNSETSNDBUF, struct.pack("i", 8192))
        ip("link", "add", BRIDGE, "type", "bridge")
        self.addCleanup(ip, "link", "del", BRIDGE)
        for name in (NAME, FAR):
            ip("link", "set", name, "master", BRIDGE)
        ip("link", "set", BRIDGE, "up")
        words = "tbf rate 64kbit burst 1600 limit 100000".split()
        subprocess.run(["tc", "qdisc", "add", "dev", FAR, "root", *words], check=True)
        station = bytes.fromhex("020000000077")
        os.write(far, FRAME[:6] + station + b"\x88\xb5" + bytes(46))
        time.sleep(0.3)
        with contextlib.suppress(BlockingIOError):  # the station's frame must not be echoed: the bridge would find the station here
            while os.read(device, 70_000):
                pass
        program = self.start(device)
        for _ in range(12):
            host.send(station + frame(1514)[6:])
        time.sleep(6)
        times = [at for at, line in program.lines if line.startswith("got 1514")]
        self.assertEqual(len(times), 12)
        gaps = [after - before for before, after in zip(times, times[1:])]
        self.assertGreater(max(gaps), 0.3)
        self.assertLess(max(gaps), 0.7)
        self.assertIn("got 1514 now false sent true", [line for _, line in program.lines])
        program.end()

    def test_bpdu_is_received_again_only_in_a_flood(self):
        device, host = self.open()
        program = self.start(device)
        time.sleep(0.3)
        host.send(BPDU)
        for _ in range(600):
            host.send(frame(214))
            time.sleep(0.003)
        time.sleep(0.3)
        self.assertEqual(sum("got 60 " in line for line in program.taken()), 1)
        host.send(BPDU)
        until = time.monotonic() + 2
        while time.monotonic() < until:
            host.send(frame(214))
        time.sleep(0.5)
        places = [place for place, line in enumerate(program.taken()) if "got 60 " in line]
        self.assertGreater(len(places), 3)
        self.assertEqual(places[:3], [0, 257, 514])
        program.end()

    def test_read_under_load_is_one_call(self):
        device, host = self.open()
        calls = f"/tmp/{NAME}.{os.getpid()}"
        program = self.start(device, ["strace", "-f", "-c", "-o", calls])
        time.sleep(0.5)
        until = time.monotonic() + 2
        while time.monotonic() < until:
            host.send(frame(214))
        time.sleep(0.5)
        frames = len(program.taken())
        program.end()
        with open(calls, encoding="ascii") as table:
            counts = {line.split()[-1]: int(line.split()[3]) for line in table if line.rstrip().endswith((" read", " poll"))}
        os.remove(calls)
        self.assertGreater(frames, 1000)
        self.assertLess(counts["read"] + counts["poll"], frames + frames // 8)


if __name__ == "__main__":
    PROGRAM = os.path.abspath(sys.argv.pop(1))
    unittest.main()
