#!/usr/bin/env python3
"""Starts and ends edges many times, with traffic, and measures how long each end takes.

usage: tests/outside/ends.py [--count N] [--large] [EVPND]      (the built program; by default the one that `rt run` leaves)

Runs and serves two edges in turn, 100 times each by default. Each life begins with a frame that crosses the tunnel. Then frames go on,
16 at a time, up to the moment at which the input ends. It fails if an end takes longer than 2 seconds, if the status isn't 0, or if
a report isn't whole: each edge reports the flood route of both edges and the sender as a station of edge 1. Run it beside other work
too. It needs no root, and UDP port 4789 of two loopback addresses. It is no part of the gate.

With --large it runs 64 edges with 64 ports each, once, and fails if the end takes longer than 3 seconds. That takes 8,500 threads,
4,161 descriptors and 0.6 GB of memory, and UDP port 4789 of 64 loopback addresses.
"""
import argparse
import os
import re
import socket
import statistics
import subprocess
import sys
import tempfile
import time

TOP = os.path.dirname(os.path.dirname(os.path.dirname(os.path.realpath(__file__))))
HOSTS = "127.93.0.1", "127.93.0.2"
PORT, FAR = 20_000, 30_000
MOST, LARGE_MOST = 2.0, 3.0  # seconds
MANY = [f"127.93.1.{number}" for number in range(1, 65)]
STATION = "02:00:00:00:00:0a"
FRAME = b"\xff" * 6 + bytes.fromhex(STATION.replace(":", "")) + b"\x88\xb5" + bytes(100)
FLOODS = "".join(rf"flood 5001 {host} \S+ up\n" for host in HOSTS)
REPORT = rf"{FLOODS}mac 5001 {STATION} {HOSTS[0]} \S+ dynamic 0\nowner 5001 {STATION} {HOSTS[0]}\n"


def edges(hosts, ports):
    """Returns the configuration of an edge at each host, with this number of ports."""
    text = ""
    for number, host in enumerate(hosts, 1):
        text += f'[[edge]]\naddress = "{host}"\nbridge = "02:aa:00:00:00:{number:02x}"\nvnis = [5001]\n'
        for port in range(ports):
            ends = f'local = "{host}:{PORT + port}"\nremote = "{host}:{FAR + port}"\n'
            text += f"[[edge.port]]\nvni = 5001\nadmin_edge = true\n{ends}"
    return text


def configuration(folder, word):
    """Writes the configuration of two edges for a subcommand, and returns its path."""
    text = f'control = "{folder}/control"\n' if word == "serve" else ""
    with open(f"{folder}/edges.toml", "w", encoding="utf-8") as it:
        it.write(text + edges(HOSTS, 1))
    return f"{folder}/edges.toml"


def emptied(far):
    """Returns whether a frame of the station came, and takes all that did."""
    came = False
    while True:
        try:
            came = far.recv(65535) == FRAME or came
        except BlockingIOError:
            return came


def life(program, word, path, near, far):
    """Starts the edges, carries frames, and ends them. Returns the seconds that the end took, and the faults."""
    emptied(far)  # frames of the life before
    running = subprocess.Popen([program, word, "--config", path], stdin=subprocess.PIPE, stdout=subprocess.PIPE, stderr=subprocess.PIPE)
    begun, carried = time.monotonic(), False
    while not carried and time.monotonic() < begun + 30:
        near.sendto(FRAME, (HOSTS[0], PORT))
        time.sleep(0.01)
        carried = emptied(far)
    until = time.monotonic() + 0.1
    while time.monotonic() < until:
        for _ in range(16):
            near.sendto(FRAME, (HOSTS[0], PORT))
        emptied(far)
    end = time.monotonic()
    faults = [] if carried else ["no frame was carried in 30 seconds"]
    try:
        out, notes = running.communicate(timeout=60)
    except subprocess.TimeoutExpired:
        running.kill()
        out, notes = running.communicate()
        faults.append("it was killed")
    seconds = time.monotonic() - end
    if running.returncode != 0:
        faults.append(f"status {running.returncode}: {notes.decode()}")
    if not re.fullmatch(f"edge 1\n{REPORT}edge 2\n{REPORT}", out.decode()):
        faults.append(f"no whole report: {out.decode()}")
    return seconds, faults


def large(program):
    """Runs 64 edges with 64 ports each until a frame has crossed from the first to the last, and ends them. Returns the exit status."""
    with tempfile.TemporaryDirectory() as folder, socket.socket(type=socket.SOCK_DGRAM) as near, socket.socket(type=socket.SOCK_DGRAM) as far:
        with open(f"{folder}/edges.toml", "w", encoding="utf-8") as it:
            it.write(edges(MANY, 64))
        near.bind((MANY[0], FAR))
        far.bind((MANY[-1], FAR + 63))
        far.setblocking(False)
        words = [program, "run", "--config", f"{folder}/edges.toml"]
        running = subprocess.Popen(words, stdin=subprocess.PIPE, stdout=subprocess.PIPE, stderr=subprocess.PIPE)
        began = time.monotonic()
        while not emptied(far) and running.poll() is None and time.monotonic() < began + 120:
            near.sendto(FRAME, (MANY[0], PORT))
            time.sleep(0.1)
        time.sleep(2)
        end = time.monotonic()
        out, notes = running.communicate(timeout=120)
        seconds = time.monotonic() - end
    whole = running.returncode == 0 and out.count(b"edge ") == len(MANY) and out.count(STATION.encode()) == 2 * len(MANY)
    print(f"64 edges with 64 ports: status {running.returncode}, the end took {seconds:.2f} s, {'whole' if whole else 'no whole'} reports")
    print(f"load {os.getloadavg()[0]:.0f} on {os.cpu_count()} processors")
    ended_well = whole and seconds <= LARGE_MOST
    print("ok" if ended_well else f"failed: {notes.decode()}")
    return 0 if ended_well else 1


def main():
    """Runs all lives, and prints the median and the longest end of each subcommand."""
    words = argparse.ArgumentParser(usage="tests/outside/ends.py [--count N] [--large] [EVPND]")
    words.add_argument("--count", type=int, default=200)
    words.add_argument("--large", action="store_true")
    words.add_argument("evpnd", nargs="?", default=f"{TOP}/crates/evpnd/out/evpnd")
    asked = words.parse_args()
    if not os.access(asked.evpnd, os.X_OK):
        sys.exit("this needs the built program, as word or by rt run in crates/evpnd")
    if asked.large:
        return large(asked.evpnd)
    took, failed = {"run": [], "serve": []}, 0
    with tempfile.TemporaryDirectory() as folder, socket.socket(type=socket.SOCK_DGRAM) as near, socket.socket(type=socket.SOCK_DGRAM) as far:
        near.bind((HOSTS[0], FAR))
        far.bind((HOSTS[1], FAR))
        far.setblocking(False)
        for number in range(asked.count):
            word = ("run", "serve")[number % 2]
            seconds, faults = life(asked.evpnd, word, configuration(folder, word), near, far)
            took[word].append(seconds)
            if seconds > MOST:
                faults.append(f"the end took {seconds:.1f} s")
            failed += bool(faults)
            for it in faults:
                print(f"{word} {number}: {it}", flush=True)
    for word, all_seconds in took.items():
        print(f"{word}: {len(all_seconds)} ends, median {statistics.median(all_seconds):.2f} s, at most {max(all_seconds):.2f} s")
    print(f"load {os.getloadavg()[0]:.0f} on {os.cpu_count()} processors")
    print("ok" if failed == 0 else f"{failed} failed")
    return failed != 0


if __name__ == "__main__":
    sys.exit(main())
