#!/usr/bin/env python3
"""Sends bursts of frames to an idle edge, and counts how many arrive at another port.

usage: tests/outside/bursts.py [--bursts N] [--frames N] [EVPND]      (the built program; by default the one that `rt run` leaves)

Runs two edges. Sends 20 bursts of 200 frames of 1,400 octets from port 1 of the first edge to its port 2, and then as many to a port
of the second edge. The frames of a burst leave one after the other, as fast as a process sends them, and 0.3 seconds pass after each
burst. Prints how many frames of each burst arrived, and fails if one is missing, arrived twice, or out of order. If the system limits
the receive buffers below the 512 KiB that evpnd requests, it prints the sysctl. It needs no root, and UDP port 4789 of two loopback
addresses. It is no part of the gate.
"""
import argparse
import os
import select
import socket
import statistics
import struct
import subprocess
import sys
import tempfile
import time

TOP = os.path.dirname(os.path.dirname(os.path.dirname(os.path.realpath(__file__))))
HOSTS = "127.95.0.1", "127.95.0.2"
PORT, FAR = 20_000, 30_000
WANTED = 524_288  # octets of each receive buffer that evpnd requests
PAUSE, PATIENCE = 0.3, 10.0  # seconds: after a burst, and until its last frame
SIZE = 1400
KIND = b"\x88\xb5"
WAYS = {"port to port": (0, 1), "edge to edge": (0, 2)}  # the hosts of a way


def configuration():
    """Returns the configuration of an edge with two ports and of one with one port, and the addresses of both ends of each port."""
    text, ports = "", []
    for number, host in enumerate(HOSTS, 1):
        text += f'[[edge]]\naddress = "{host}"\nbridge = "02:aa:00:00:00:{number:02x}"\nvnis = [5001]\n'
        for port in range(3 - number):
            text += f'[[edge.port]]\nvni = 5001\nadmin_edge = true\nlocal = "{host}:{PORT + port}"\nremote = "{host}:{FAR + port}"\n'
            ports.append((host, PORT + port, FAR + port))
    return text, ports


class Host:
    """A host at a port."""

    def __init__(self, number, place):
        self.edge, self.port, far = place
        self.mac = bytes([2, 0, 0, 0, 0, number])
        self.link = socket.socket(socket.AF_INET, socket.SOCK_DGRAM)
        self.link.setsockopt(socket.SOL_SOCKET, socket.SO_RCVBUF, 2**22)
        self.link.bind((self.edge, far))
        self.came = []

    def frame(self, to, burst, number):
        """Returns a frame of this host."""
        return (to + self.mac + KIND + struct.pack("!II", burst, number)).ljust(SIZE, b"x")

    def send(self, frame):
        """Sends a frame to the edge."""
        self.link.sendto(frame, (self.edge, self.port))


def receive(hosts, seconds):
    """Keeps the sender, burst and number of each frame that arrives at a host within these seconds."""
    end = time.monotonic() + seconds
    while (left := end - time.monotonic()) > 0:
        ready, _, _ = select.select([it.link for it in hosts], [], [], left)
        for it in hosts:
            if it.link in ready:
                frame = it.link.recv(65535)
                if frame[12:14] == KIND:
                    it.came.append((frame[6:12], *struct.unpack_from("!II", frame, 14)))


def are_known(hosts):
    """Sends broadcasts of all hosts until each has received one of each other. Returns `False` if that takes too long."""
    end = time.monotonic() + 30
    while time.monotonic() < end:
        for it in hosts:
            it.send(it.frame(b"\xff" * 6, 0, 0))
        receive(hosts, 0.3)
        if all({it.mac for it in hosts} <= {it.mac, *(each[0] for each in it.came)} for it in hosts):
            receive(hosts, 1)
            return True
    return False


def send_burst(sender, texts):
    """Sends frames from a new process, so that no other work delays them. Returns its number, and a pipe for its milliseconds."""
    reading, writing = os.pipe()
    child = os.fork()
    if child == 0:
        begun = time.monotonic()
        for it in texts:
            sender.send(it)
        os.write(writing, struct.pack("d", 1000 * (time.monotonic() - begun)))
        os._exit(0)
    os.close(writing)
    return child, reading


def bursts_of(hosts, sender, to, bursts, frames):
    """Sends bursts from a host to another. Returns how many frames of each arrived, whether all came once and in order, and how
    many milliseconds each burst took to send."""
    counts, are_whole, took = [], True, []
    for burst in range(1, bursts + 1):
        to.came.clear()
        child, reading = send_burst(sender, [sender.frame(to.mac, burst, number) for number in range(frames)])
        receive(hosts, PAUSE)
        os.waitpid(child, 0)
        took.append(struct.unpack("d", os.read(reading, 8))[0])
        os.close(reading)
        end = time.monotonic() + PATIENCE
        while len(to.came) < frames and time.monotonic() < end:
            receive(hosts, 0.05)
        came = [number for mac, of, number in to.came if (mac, of) == (sender.mac, burst)]
        counts.append(len(came))
        are_whole = are_whole and came == list(range(frames))
    return counts, are_whole, took


def most_buffer():
    """Returns the most octets of a receive buffer that the system grants, or `None` if that can't be read."""
    try:
        with open("/proc/sys/net/core/rmem_max", encoding="ascii") as it:
            return int(it.read())
    except OSError:  # older versions of Linux show it only in the first network namespace
        return None


def main():
    """Sends the bursts both ways, and prints how many frames of each arrived."""
    words = argparse.ArgumentParser(usage="tests/outside/bursts.py [--bursts N] [--frames N] [EVPND]")
    words.add_argument("--bursts", type=int, default=20)
    words.add_argument("--frames", type=int, default=200)
    words.add_argument("evpnd", nargs="?", default=f"{TOP}/crates/evpnd/out/evpnd")
    asked = words.parse_args()
    if not os.access(asked.evpnd, os.X_OK):
        sys.exit("this needs the built program, as word or by rt run in crates/evpnd")
    text, ports = configuration()
    hosts = [Host(number, it) for number, it in enumerate(ports, 10)]
    are_all_whole = True
    with tempfile.TemporaryDirectory() as folder:
        with open(f"{folder}/edges.toml", "w", encoding="utf-8") as it:
            it.write(text)
        pipes = {"stdin": subprocess.PIPE, "stdout": subprocess.PIPE, "stderr": subprocess.PIPE, "text": True}
        running = subprocess.Popen([asked.evpnd, "run", "--config", f"{folder}/edges.toml"], **pipes)
        if not are_known(hosts):
            print("DIFFERS: the hosts don't reach each other")
            are_all_whole = False
        else:
            for way, (one, other) in WAYS.items():
                counts, are_whole, took = bursts_of(hosts, hosts[one], hosts[other], asked.bursts, asked.frames)
                print(f"{way}: a burst took {statistics.median(took):.1f} ms to send, the median, and {max(took):.1f} ms at most")
                print(f"{way}, of {asked.frames} frames of each burst arrived: {' '.join(map(str, counts))}", flush=True)
                if not are_whole:
                    print(f"DIFFERS: {way}: all frames of each burst, once and in order")
                are_all_whole = are_all_whole and are_whole
        out, notes = running.communicate(timeout=60)
    if notes:
        print(notes, end="")
    if running.returncode != 0 or out.count("edge ") != 2:
        print(f"DIFFERS: status {running.returncode}, not 0, or no report of both edges")
        are_all_whole = False
    print(f"load {os.getloadavg()[0]:.0f} on {os.cpu_count()} processors")
    most = most_buffer()
    if most is not None and most < WANTED:
        print(f"evpnd requests receive buffers of {WANTED} octets, and the system grants {most}: sysctl -w net.core.rmem_max={WANTED}")
    print("ok" if are_all_whole else "failed")
    return 0 if are_all_whole else 1


if __name__ == "__main__":
    sys.exit(main())
