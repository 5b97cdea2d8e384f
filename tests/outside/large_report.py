#!/usr/bin/env python3
"""Measures a console's report of a large table: the memory that it takes, and how long frames of known stations wait meanwhile.

    tests/outside/large_report.py [REGISTERS]        (default: 200,000)

Needs no root. It takes the program of the variable EVPND, or builds one with tools/try --fast. `evpnd serve` runs one edge with two
ports. A client brings in the registers of an edge elsewhere. Another process sends a frame from the station of one port to that of
the other each millisecond, and notes when it comes out. Then a console requests `1 report` twice. The last line is `ok` if a report
takes at most 2 MB more, and of the frames at most one in a hundred more takes longer than 5 ms than without a report. On a busy
machine the frames say little: run it with a higher priority than the rest (nice -n -5).
"""

import multiprocessing
import os
import socket
import subprocess
import sys
import tempfile
import time
from typing import List, Tuple

TOP = os.path.dirname(os.path.dirname(os.path.dirname(os.path.realpath(__file__))))
sys.path[:0] = [os.path.join(TOP, "tools"), os.path.join(TOP, "tests", "program"), os.path.join(TOP, "tests", "tools")]

from update_records import record_of, update_of_line  # noqa: E402

HOST = f"127.{os.getpid() >> 8 & 127 | 64}.{os.getpid() & 255}."
ONE, ELSEWHERE = HOST + "1", HOST + "2"
VNI = 5001
MORE = 2 << 10  # KiB that a report may take
SLOW = 0.005  # seconds
EACH = 0.001  # seconds between two frames
QUIET = 4  # seconds without a report


def port() -> Tuple[socket.socket, int]:
    """Returns a socket for what a port sends, and a number for the port."""
    here = socket.socket(socket.AF_INET, socket.SOCK_DGRAM)
    here.setsockopt(socket.SOL_SOCKET, socket.SO_RCVBUF, 1 << 22)
    here.bind((ONE, 0))
    with socket.socket(socket.AF_INET, socket.SOCK_DGRAM) as other:
        other.bind((ONE, 0))
        return here, other.getsockname()[1]


def config_text(path: str, ends: List[Tuple[socket.socket, int]]) -> str:
    """Returns the configuration of an edge with these ports, and of a peer."""
    ports = "".join(
        f'[[edge.port]]\nvni = {VNI}\nadmin_edge = true\nlocal = "{ONE}:{number}"\nremote = "{ONE}:{here.getsockname()[1]}"\n' for here, number in ends
    )
    edge = f'[[edge]]\naddress = "{ONE}"\nbridge = "02:aa:00:00:00:01"\nvnis = [{VNI}]\n{ports}'
    return f'control = "{path}"\n{edge}[[peer]]\naddress = "{ELSEWHERE}"\n'


def connected(path: str, word: str) -> socket.socket:
    """Returns a connection that began with this word."""
    end = time.monotonic() + 60
    while True:
        here = socket.socket(socket.AF_UNIX, socket.SOCK_STREAM)
        try:
            here.connect(path)
            here.sendall(word.encode() + b"\n")
            return here
        except OSError:
            here.close()
            if time.monotonic() > end:
                raise
            time.sleep(0.05)


def asked(console: socket.socket, line: str) -> bytes:
    """Returns the answer to a line, with the empty line after it."""
    console.sendall(line.encode() + b"\n")
    came = bytearray()
    while not (came == b"\n" or came.endswith(b"\n\n")):
        came += console.recv(1 << 20) or b"\n\n"
    return bytes(came)


def memory(process: int, word: str) -> int:
    """Returns a number of the process in KiB: VmRSS, or VmHWM since the last reset."""
    with open(f"/proc/{process}/status", encoding="ascii") as lines:
        return next(int(line.split()[1]) for line in lines if line.startswith(word))


def reset_peak(process: int) -> None:
    """Makes VmHWM what the process has now."""
    with open(f"/proc/{process}/clear_refs", "w", encoding="ascii") as it:
        it.write("5")


def frame(to: int, of: int, text: bytes) -> bytes:
    """Returns a frame between these stations."""
    return bytes([2, 0, 0, 0, 1, to, 2, 0, 0, 0, 1, of]) + b"\x88\xb5" + text.ljust(46, b"\0")


def watch(ends: List[Tuple[socket.socket, int]], stop, waits) -> None:
    """Sends a frame each millisecond, and puts how long each one took, with the second at which it was sent."""
    (near, first), (far, _) = ends
    far.settimeout(1)
    begun = time.monotonic()
    sent: List[float] = []
    took: List[Tuple[float, float]] = []
    far.setblocking(False)
    while not stop.is_set():
        now = time.monotonic()
        if now - begun >= EACH * len(sent):
            near.sendto(frame(2, 1, b"%010d" % len(sent)), (ONE, first))
            sent.append(now)
        try:
            octets = far.recv(2048)
        except BlockingIOError:
            continue
        if octets[12:14] == b"\x88\xb5" and octets[14:24].isdigit():
            took.append((sent[int(octets[14:24])], time.monotonic() - sent[int(octets[14:24])]))
    waits.put(took)


def slow_in(took: List[Tuple[float, float]], begin: float, end: float) -> Tuple[int, int, float]:
    """Returns how many frames were sent in this time, how many of them were slow, and the slowest one's milliseconds."""
    there = [wait for at, wait in took if begin <= at < end]
    return len(there), sum(1 for wait in there if wait > SLOW), 1000 * max(there, default=0)


def brought_in(path: str, registers: int) -> None:
    """Brings in so many registers of the edge elsewhere, and waits until the edge has them."""
    records = connected(path, "records")
    records.setblocking(True)
    part = b"".join(
        record_of(
            update_of_line(f"advert {ELSEWHERE} {VNI} 02:00:{n >> 24 & 255:02x}:{n >> 16 & 255:02x}:{n >> 8 & 255:02x}:{n & 255:02x} seq 0 counter {n + 1}")
        )
        for n in range(registers)
    )
    records.sendall(part)
    console = connected(path, "console")
    while f"foreign {registers}".encode() not in asked(console, "1 counts"):
        time.sleep(0.2)
    console.close()
    records.close()


def main() -> int:
    """Measures, and prints what it found."""
    registers = int(sys.argv[1]) if len(sys.argv) > 1 else 200_000
    program = os.environ.get("EVPND") or subprocess.run(
        [os.path.join(TOP, "tools", "try"), "--fast", "--build", "evpnd"], check=True, stdout=subprocess.PIPE, encoding="utf-8"
    ).stdout.strip()
    ends = [port(), port()]
    with tempfile.TemporaryDirectory() as folder:
        path = os.path.join(folder, "control")
        config = os.path.join(folder, "evpnd.toml")
        with open(config, "w", encoding="utf-8") as it:
            it.write(config_text(path, ends))
        served = subprocess.Popen([program, "serve", "--config", config], stdin=subprocess.PIPE, stdout=subprocess.DEVNULL)
        try:
            return measured(served, path, ends, registers)
        finally:
            served.kill()
            served.wait()


def measured(served: subprocess.Popen, path: str, ends: List[Tuple[socket.socket, int]], registers: int) -> int:
    """Measures a run that has begun."""
    brought_in(path, registers)
    console = connected(path, "console")
    for (here, number), of in zip(ends, (1, 2)):
        here.sendto(frame(255, of, b"here"), (ONE, number))
    time.sleep(1)
    stop, waits = multiprocessing.Event(), multiprocessing.Queue()
    watcher = multiprocessing.Process(target=watch, args=(ends, stop, waits))
    watcher.start()
    time.sleep(1)
    times = [time.monotonic()]
    time.sleep(QUIET)
    times.append(time.monotonic())
    grown = []
    for _ in range(2):
        reset_peak(served.pid)
        before = memory(served.pid, "VmRSS")
        lines = asked(console, "1 report").count(b"\nmac ")
        grown.append(memory(served.pid, "VmHWM") - before)
        times.append(time.monotonic())
    stop.set()
    took = waits.get()
    watcher.join()
    slow = []
    for name, begin, end in zip(("no report", "first report", "second report"), times, times[1:]):
        many, late, most = slow_in(took, begin, end)
        slow.append(late / max(many, 1))
        print(f"{name}: {end - begin:.2f} s, {many} frames, {late} above 5 ms, slowest {most:.1f} ms")
    print(f"{lines} lines of stations; memory before {before} KiB, more in a report: {', '.join(f'{it} KiB' for it in grown)}")
    is_good = max(grown) <= MORE and all(part <= slow[0] + 0.01 for part in slow[1:])
    print("ok" if is_good else "not within the limits")
    return 0 if is_good else 1


if __name__ == "__main__":
    sys.exit(main())
