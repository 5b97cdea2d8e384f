#!/usr/bin/env python3
"""Carries frames between a tap device and the UDP socket of an edge's port, one frame a datagram.

The socket is opened where the relay is started, the device in the network namespace NETNS. A device that isn't there is
made, and goes with the relay; one that was made before (`ip tuntap add .. mode tap`) stays, without carrier. Ends with SIGTERM.

usage: tests/outside/tap_relay.py NETNS DEVICE HERE THERE      (HERE and THERE: ADDRESS:PORT)
"""
import ctypes
import fcntl
import os
import selectors
import socket
import struct
import sys

TUNSETIFF, IFF_TAP, IFF_NO_PI, CLONE_NEWNET = 0x400454CA, 0x0002, 0x1000, 0x40000000


def endpoint(text):
    """An address and a UDP port."""
    address, port = text.rsplit(":", 1)
    return address, int(port)


def enter(netns):
    """Goes into a network namespace. Sockets that are open stay where they are."""
    with open(f"/run/netns/{netns}", "rb") as place:
        if ctypes.CDLL(None, use_errno=True).setns(place.fileno(), CLONE_NEWNET):
            raise OSError(ctypes.get_errno(), f"setns {netns}")


def tap(name):
    """Both ends of a tap device: what is read are frames, what is written too."""
    device = os.open("/dev/net/tun", os.O_RDWR)
    fcntl.ioctl(device, TUNSETIFF, struct.pack("16sH22x", name.encode(), IFF_TAP | IFF_NO_PI))
    return device


def main():
    """Carries frames until it is ended."""
    netns, name, here, there = sys.argv[1:]
    link = socket.socket(socket.AF_INET, socket.SOCK_DGRAM)
    link.bind(endpoint(here))
    there = endpoint(there)
    enter(netns)
    device = tap(name)
    ready = selectors.DefaultSelector()
    ready.register(link, selectors.EVENT_READ)
    ready.register(device, selectors.EVENT_READ)
    while True:
        for key, _ in ready.select():
            try:
                if key.fileobj is link:
                    os.write(device, link.recv(65535))
                else:
                    link.sendto(os.read(device, 65535), there)
            except OSError:
                pass  # a device that is down, an edge that isn't there: the frame is lost, as on a cable


if __name__ == "__main__":
    main()
