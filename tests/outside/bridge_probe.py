#!/usr/bin/env python3
"""Sends numbered broadcasts from a device, counts how often each of them comes to one, or both at once.

usage: tests/outside/bridge_probe.py send DEVICE COUNT
       tests/outside/bridge_probe.py count DEVICE SECONDS
       tests/outside/bridge_probe.py talk DEVICE FILE SECONDS MAC..
       tests/outside/bridge_probe.py watch FILE SECONDS

`count`, `talk` and `watch` print `ready` when they have begun to listen. `count` ends once nothing has come for so many seconds, or after ten times as many, and
prints how many came, and how many of them were new.

`talk` sends fifty a second for so many seconds, from the time on that FILE holds once it is there (seconds since 1970). It tells of
each other sender that it is named: how many of its frames are lost, how many came once more than they should, for how long at
most none came, and how long before the end the last one was sent that came.

`watch` looks for as long at all devices of a network namespace with bridges. Bridge N has the devices upN, a cable to an edge,
and legN, a cable to its host. It tells how many frames there were; how often the edge sent one more often than it was given it,
and was given one once more; how many came once more to a bridge's host, and in how many seconds these had been sent.
"""
import collections
import os
import socket
import sys
import time

ETHERTYPE = 0x88B5  # for experiments of one's own (IEEE 802)
RATE = 50
ETH_P_ALL, SO_RCVBUFFORCE, ROOM = 3, 33, 1 << 26  # of Linux; a busy machine looks late at what passed


def broadcast(source, number):
    """A frame with this number."""
    return b"\xff" * 6 + source + ETHERTYPE.to_bytes(2, "big") + number.to_bytes(4, "big") + bytes(42)


def send(device, count):
    """Numbered broadcasts, a hundred a second."""
    link = socket.socket(socket.AF_PACKET, socket.SOCK_RAW, 0)
    link.bind((device, 0))
    source = link.getsockname()[4]
    for number in range(int(count)):
        link.send(broadcast(source, number))
        time.sleep(0.01)


def count(device, seconds):
    """How many came, and how many of them were new."""
    link = socket.socket(socket.AF_PACKET, socket.SOCK_RAW, socket.htons(ETHERTYPE))
    link.bind((device, ETHERTYPE))
    print("ready", flush=True)
    end = time.monotonic() + 10 * float(seconds)
    came, new = 0, set()
    while (left := end - time.monotonic()) > 0:
        # the sender may need some time to begin
        link.settimeout(min(left, float(seconds)) if came else left)
        try:
            frame, place = link.recvfrom(65535)
        except socket.timeout:
            break
        if place[2] == socket.PACKET_OUTGOING:
            continue
        came += 1
        new.add(frame[14:18])
    print(came, len(new))


class Heard:
    """What came of one sender, who began and ended at these times."""

    def __init__(self, begin, end):
        self.came, self.new, self.end = 0, set(), end
        self.last, self.silence = begin, 0.0

    def take(self, number):
        """Counts a frame that came."""
        self.came += 1
        if number not in self.new:
            now = min(time.time(), self.end)
            self.new.add(number)
            self.silence, self.last = max(self.silence, now - self.last), max(now, self.last)

    def told(self, sent):
        """The line's figures, of so many frames that were sent."""
        silence = max(self.silence, self.end - self.last)
        newest = max(self.new, default=0) / RATE
        return f"{sent - len(self.new)} {self.came - len(self.new)} {silence:.1f} {sent / RATE - newest:.1f}"


def beginning(file):
    """The time that the file holds, once it is there."""
    while not os.path.exists(file):
        if not os.path.isdir(os.path.dirname(file)):
            sys.exit("the run has ended")
        time.sleep(0.05)
    with open(file, encoding="ascii") as it:
        return float(it.read())


def talk(device, file, seconds, *others):
    """Sends while it counts what the others send."""
    link = socket.socket(socket.AF_PACKET, socket.SOCK_RAW, socket.htons(ETHERTYPE))
    link.bind((device, ETHERTYPE))
    source = link.getsockname()[4]
    print("ready", flush=True)
    begin = beginning(file)
    end, all_of_them = begin + float(seconds), int(float(seconds) * RATE)
    heard = {bytes.fromhex(mac.replace(":", "")): Heard(begin, end) for mac in others}
    sent = 0
    # frames that are under way at the end have two seconds more
    while (now := time.time()) < end + 2:
        due = begin + sent / RATE if sent < all_of_them else end + 2
        if due <= now:
            link.send(broadcast(source, sent))
            sent += 1
            continue
        link.settimeout(due - now)
        try:
            frame, place = link.recvfrom(65535)
        except socket.timeout:
            continue
        if place[2] != socket.PACKET_OUTGOING and frame[6:12] in heard:
            heard[frame[6:12]].take(int.from_bytes(frame[14:18], "big"))
    for mac, it in heard.items():
        print(mac.hex(":"), it.told(all_of_them))


def passages(file, seconds):
    """What passed, at each device, of each frame: how often in and how often out."""
    link = socket.socket(socket.AF_PACKET, socket.SOCK_RAW, socket.htons(ETH_P_ALL))
    link.setsockopt(socket.SOL_SOCKET, SO_RCVBUFFORCE, ROOM)
    print("ready", flush=True)
    end = beginning(file) + float(seconds) + 2
    passed = collections.defaultdict(collections.Counter)
    while time.time() < end + 30:
        # what passed before the end is read to its last frame
        link.settimeout(max(end - time.time(), 0))
        try:
            frame, place = link.recvfrom(65535)
        except (socket.timeout, BlockingIOError):
            break
        if int.from_bytes(frame[12:14], "big") == ETHERTYPE:
            way = "out" if place[2] == socket.PACKET_OUTGOING else "in"
            passed[frame[6:12], int.from_bytes(frame[14:18], "big")][place[0], way] += 1
    return passed


def judged(passed):
    """Of what passed: how often the edge sent more than it was given, was given more than once, and what hosts got once more."""
    more = again = 0
    twice = []
    for (_source, number), ways in passed.items():
        # a bridge's host sends by its leg, and any other one by the edge
        by_edge = not any(device.startswith("leg") and way == "in" for device, way in ways)
        given = by_edge + sum(count for (device, way), count in ways.items() if device.startswith("up") and way == "out")
        again += max(0, given - 1)
        for (device, way), count in ways.items():
            if device.startswith("up") and way == "in":
                # it doesn't send a cable's frames back over that cable
                more += max(0, count - given + ways[device, "out"])
            if device.startswith("leg") and way == "out" and not ways[device, "in"]:
                twice += [number] * (count - 1)
    return more, again, twice


def watch(file, seconds):
    """What the edge did to the frames, and what came twice to the bridges' hosts."""
    passed = passages(file, seconds)
    more, again, twice = judged(passed)
    print(len(passed), more, again, len(twice), (max(twice) - min(twice)) / RATE if twice else 0)


if __name__ == "__main__":
    {"send": send, "count": count, "talk": talk, "watch": watch}[sys.argv[1]](*sys.argv[2:])
