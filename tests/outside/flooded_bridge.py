#!/usr/bin/env python3
"""Floods the port that blocks a ring, while the edge has a part of a processor, and checks that the port stays shut.

usage: tests/outside/flooded_bridge.py [--seconds N] [--share PERCENT] [--rate N] [EVPND]      (the built program; default: the proved one)

Runs `evpnd serve` with one edge of two ports. This script is the two bridges at its ports: both send the vector of one root, and the
bridge at port 2 is the better one there, so port 2 is an alternate port and blocks. Each sends a BPDU a second. Then a process sends
broadcasts to port 2, 120,000 a second, for five minutes, and the edge has 5 percent of a processor: it is stopped and continued 20
times a second. Most datagrams of port 2 are lost, BPDUs among them. Once a second the script asks for the state of port 2. It fails
if the port ever learns or forwards, if a frame of the flood comes out at port 1, or if the port stays shut for a minute after the
flood and the BPDUs of port 2 have ended. It needs no root, and UDP port 4789 of a loopback address. It is no part of the gate.
"""
import argparse
import os
import signal
import socket
import subprocess
import sys
import tempfile
import threading
import time

TOP = os.path.dirname(os.path.dirname(os.path.dirname(os.path.realpath(__file__))))
HOST = "127.95.0.4"
PORTS, FARS = (20_001, 20_002), (30_001, 30_002)
TURN = 0.05  # seconds between two stops
KIND = b"\x88\xb5"
BRIDGES = bytes.fromhex("0180c2000000")
ROOT, OTHER = bytes.fromhex("100002bb00000001"), bytes.fromhex("200002bb00000002")
SHUT = "1 port 2 alternate discarding blocks"
CONFIGURATION = """control = "{folder}/control"
[[edge]]
address = "{host}"
bridge = "02:aa:00:00:00:01"
vnis = [5001]
hello = 1
max_age = 6
forward_delay = 4
"""
PORT = '[[edge.port]]\nvni = 5001\nlocal = "{host}:{port}"\nremote = "{host}:{far}"\n'
# sends a datagram again and again, as often a second as the last word says, and prints how often
FLOOD = """
import socket, sys, time
link, to, octets = socket.socket(socket.AF_INET, socket.SOCK_DGRAM), (sys.argv[1], int(sys.argv[2])), bytes.fromhex(sys.argv[3])
begun, seconds, rate, sent = time.monotonic(), float(sys.argv[4]), float(sys.argv[5]), 0
while (past := time.monotonic() - begun) < seconds:
    while sent < past * rate:
        link.sendto(octets, to)
        sent += 1
    time.sleep(0.0001)
print(sent)
"""


def bpdu(sender, cost, port, age):
    """Returns the frame of an RST BPDU of a designated port that forwards, with 1 second for hello, 6 for max age and 4 for forward
    delay (IEEE 802.1D-2004, 9.3.3)."""
    times = b"".join((it << 8).to_bytes(2, "big") for it in (age, 6, 1, 4))
    body = bytes.fromhex("000002023c") + ROOT + cost.to_bytes(4, "big") + sender + port.to_bytes(2, "big") + times + b"\0"
    return (BRIDGES + sender[2:] + (len(body) + 3).to_bytes(2, "big") + bytes.fromhex("424203") + body).ljust(60, b"\0")


class Console:
    """A console of the running edge."""

    def __init__(self, path):
        self.link = socket.socket(socket.AF_UNIX, socket.SOCK_STREAM)
        self.link.settimeout(60)
        self.link.connect(path)
        self.link.sendall(b"console\n")

    def ask(self, line):
        """Returns the answer to a line."""
        self.link.sendall(line.encode() + b"\n")
        came = b""
        while not came.endswith(b"\n\n"):
            octets = self.link.recv(65535)
            if not octets:
                raise OSError("the console ended")
            came += octets
        return came.decode().strip()


def console_of(path):
    """Returns a console once the edge serves one."""
    for _ in range(100):
        try:
            return Console(path)
        except OSError:
            time.sleep(0.1)
    sys.exit("DIFFERS: no console within ten seconds")


class Bridges:
    """The bridges at both ports, which send a BPDU a second. Bridge 2 falls silent if `is_silent`."""

    def __init__(self, links):
        self.links, self.is_silent, self.is_over = links, False, False
        self.frames = [bpdu(ROOT, 0, 0x8001, 0), bpdu(OTHER, 20_000, 0x8002, 1)]
        threading.Thread(target=self.speak, daemon=True).start()

    def speak(self):
        """Sends the BPDUs."""
        while not self.is_over:
            for link, port, octets in zip(self.links, PORTS, self.frames):
                if port == PORTS[0] or not self.is_silent:
                    link.sendto(octets, (HOST, port))
            time.sleep(1)


class Slowed:
    """A process that has a part of a processor, as long as this is used."""

    def __init__(self, process, share):
        self.process, self.share, self.is_over = process, share, threading.Event()
        self.turns = threading.Thread(target=self.turn)

    def turn(self):
        """Stops the process and continues it."""
        while not self.is_over.is_set():
            self.process.send_signal(signal.SIGSTOP)
            time.sleep(TURN * (1 - self.share))
            self.process.send_signal(signal.SIGCONT)
            time.sleep(TURN * self.share)

    def __enter__(self):
        self.turns.start()

    def __exit__(self, *_):
        self.is_over.set()
        self.turns.join()


def leaked(link):
    """Returns how many frames of the flood came out at a port."""
    link.setblocking(False)
    count = 0
    try:
        while True:
            count += link.recv(65535)[12:14] == KIND
    except BlockingIOError:
        return count


def state_within(console, seconds, is_wanted):
    """Asks for port 2 once a second, until an answer is wanted. Returns all answers."""
    answers, end = [], time.monotonic() + seconds
    while time.monotonic() < end and not (answers and is_wanted(answers[-1])):
        answers.append(console.ask("1 port 2"))
        time.sleep(1)
    return answers


def flooded(asked, process, console, links):
    """Floods port 2 while the edge is slow. Returns the other states of the port than shut, the datagrams sent, and the leaked frames."""
    octets = b"\xff" * 6 + bytes.fromhex("020000000009") + KIND + bytes(46)
    words = [sys.executable, "-c", FLOOD, HOST, str(PORTS[1]), octets.hex(), str(asked.seconds), str(asked.rate)]
    with subprocess.Popen(words, stdout=subprocess.PIPE, text=True) as flood, Slowed(process, asked.share / 100):
        states = state_within(console, asked.seconds - 1, lambda _: False)
        sent = int(flood.communicate()[0])
    return [it for it in states if it != SHUT], sent, leaked(links[0])


def counted(console):
    """Returns what port 2 counted, as words; none from a program without `1 links`."""
    words = next((it for it in console.ask("1 links").splitlines() if it.startswith("1 link 2 ")), "").split()
    return f"; port 2 received {words[4]}, and the system dropped {words[words.index('system') + 1]}" if words else ""


def tried(asked, process, console, links):
    """Tries it. Returns what differs."""
    bridges = Bridges(links)
    if state_within(console, 30, lambda it: it == SHUT)[-1] != SHUT:
        return ["port 2 is no alternate port"]
    open_states, sent, leaks = flooded(asked, process, console, links)
    print(f"{sent} datagrams in {asked.seconds} s{counted(console)}")
    found = [f"port 2 opened while it was flooded: {open_states[0]}"] if open_states else []
    if leaks:
        found.append(f"{leaks} frames of the flood came out at port 1")
    bridges.is_silent = True
    if state_within(console, 60, lambda it: it != SHUT)[-1] == SHUT:
        found.append("port 2 stays shut without a flood and without a bridge")
    bridges.is_over = True
    return found


def main():
    """Runs the edge, and prints whether the port stayed shut."""
    words = argparse.ArgumentParser(usage="tests/outside/flooded_bridge.py [--seconds N] [--share PERCENT] [--rate N] [EVPND]")
    words.add_argument("--seconds", type=int, default=300)
    words.add_argument("--share", type=float, default=5)
    words.add_argument("--rate", type=int, default=120_000)
    words.add_argument("evpnd", nargs="?", default=f"{TOP}/crates/evpnd/out/evpnd")
    asked = words.parse_args()
    if not os.access(asked.evpnd, os.X_OK):
        sys.exit("this needs the built program, as word or by rt run in crates/evpnd")
    links = [socket.socket(socket.AF_INET, socket.SOCK_DGRAM) for _ in FARS]
    for link, far in zip(links, FARS):
        link.bind((HOST, far))
    with tempfile.TemporaryDirectory() as folder:
        with open(f"{folder}/edges.toml", "w", encoding="utf-8") as it:
            it.write(CONFIGURATION.format(folder=folder, host=HOST))
            it.writelines(PORT.format(host=HOST, port=port, far=far) for port, far in zip(PORTS, FARS))
        pipes = {"stdin": subprocess.PIPE, "stdout": subprocess.PIPE, "text": True}
        process = subprocess.Popen([asked.evpnd, "serve", "--config", f"{folder}/edges.toml"], **pipes)
        try:
            found = tried(asked, process, console_of(f"{folder}/control"), links)
        finally:
            process.communicate(timeout=60)
    for it in found:
        print(f"DIFFERS: {it}")
    print("failed" if found else "ok")
    return 1 if found else 0


if __name__ == "__main__":
    sys.exit(main())
