#!/usr/bin/env python3
"""The other end of an edge's port, a UDP socket: what a station, a flood of frames, or a bridge says there, without a device.

usage: tests/outside/port_probe.py stations HERE THERE COUNT SECONDS
       tests/outside/port_probe.py moves HERE THERE HERE THERE TURNS SECONDS
       tests/outside/port_probe.py flood HERE THERE SECONDS [OCTETS]
       tests/outside/port_probe.py hears HERE THERE HERE SECONDS
       tests/outside/port_probe.py bpdus HERE SECONDS

HERE is a port's `remote`, THERE its `local`, each ADDRESS:PORT.

`stations`: so many stations speak once each, evenly within these seconds. `moves`: one station speaks at the two ports in turn, with
so many seconds between. `flood`: as many broadcasts of one station as will go, of 60 octets if not said; prints how many. `hears`:
ends with status 0 once a broadcast into the first port has come out at the last one, and with 1 where none has for so long. `bpdus`:
prints the longest time between two BPDUs within so many seconds, in milliseconds.
"""
import ctypes
import socket
import struct
import sys
import time

from bridge_probe import broadcast
from tap_relay import endpoint

BRIDGES = bytes.fromhex("0180c2000000")
SO_ATTACH_FILTER, UDP_SEGMENT = 26, 103
# of a datagram, whose text begins behind the 8 octets of UDP's header: all of it where 01 80 c2 00 are the first four, else nothing
ONLY_BPDUS = struct.pack("HBBI" * 4, 0x20, 0, 0, 8, 0x15, 0, 1, 0x0180C200, 0x06, 0, 0, 65535, 0x06, 0, 0, 0)


def station(number):
    """The MAC of a station."""
    return bytes([2, 0]) + number.to_bytes(4, "big")


def cable(here):
    """The socket of a port's cable."""
    link = socket.socket(socket.AF_INET, socket.SOCK_DGRAM)
    link.bind(endpoint(here))
    return link


def stations(here, there, count, seconds):
    """Each station speaks once. They speak by tens, which a busy port's socket has room for."""
    link, to, begin = cable(here), endpoint(there), time.monotonic()
    for number in range(int(count)):
        if number % 10 == 0:
            time.sleep(max(begin + float(seconds) * number / int(count) - time.monotonic(), 0))
        link.sendto(broadcast(station(number), number), to)


def moves(here, there, other_here, other_there, turns, seconds):
    """A station moves from port to port."""
    places = [(cable(here), endpoint(there)), (cable(other_here), endpoint(other_there))]
    for turn in range(int(turns)):
        link, to = places[turn % 2]
        link.sendto(broadcast(station(10), turn), to)
        time.sleep(float(seconds))


def flood(here, there, seconds, octets="60"):
    """As many broadcasts as will go. The system cuts each text into forty datagrams."""
    link, to, end = cable(here), endpoint(there), time.monotonic() + float(seconds)
    link.setsockopt(socket.IPPROTO_UDP, UDP_SEGMENT, int(octets))
    frames, sent = broadcast(station(11), 0).ljust(int(octets), b"\0") * 40, 0
    while time.monotonic() < end:
        link.sendto(frames, to)
        sent += 40
    print(sent)


def comes(link, wanted, seconds):
    """Whether this frame comes within so many seconds; others are passed over."""
    end = time.monotonic() + seconds
    while (left := end - time.monotonic()) > 0:
        link.settimeout(left)
        try:
            if link.recv(65535) == wanted:
                return True
        except socket.timeout:
            break
    return False


def hears(here, there, other_here, seconds):
    """Whether what is said at one port comes out at the other one."""
    link, to, other, end = cable(here), endpoint(there), cable(other_here), time.monotonic() + float(seconds)
    number = time.monotonic_ns() % 2**31
    while time.monotonic() < end:
        number += 1
        link.sendto(broadcast(station(12), number), to)
        if comes(other, broadcast(station(12), number), 0.2):
            return
    sys.exit(f"nothing came within {seconds} seconds")


def bpdus(here, seconds):
    """The longest time between two BPDUs. The system drops other frames, so that no flood of them fills the socket."""
    link, begin, longest = cable(here), time.monotonic(), 0.0
    octets = ctypes.create_string_buffer(ONLY_BPDUS)
    link.setsockopt(socket.SOL_SOCKET, SO_ATTACH_FILTER, struct.pack("HP", 4, ctypes.addressof(octets)))
    last, end = begin, begin + float(seconds)
    while (left := end - time.monotonic()) > 0:
        link.settimeout(left)
        try:
            came = link.recv(65535)
        except socket.timeout:
            break
        if came[:6] == BRIDGES:
            now = time.monotonic()
            longest, last = max(longest, now - last), now
    print(round(1000 * max(longest, end - last)))


if __name__ == "__main__":
    words = sys.argv[1:]
    {"stations": stations, "moves": moves, "flood": flood, "hears": hears, "bpdus": bpdus}[words[0]](*words[1:])
