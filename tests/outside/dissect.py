#!/usr/bin/env python3
"""Shows that tshark dissects our frames and datagrams as we mean them.

The octets are those that the tests of ether_wire and vxlan_wire name, of which those tests show that our calls write
or read them. Needs Debian's package tshark, and installs it where it is missing. It is no part of the gate.

usage: tests/outside/dissect.py
"""
import re
import shutil
import struct
import subprocess
import sys
import tempfile
from pathlib import Path

CRATES = Path(__file__).resolve().parents[2] / "crates"


def octets_after(words, source):
    """The octets of the array that follows these words in a source file."""
    text = (CRATES / source).read_text()
    array = text[text.index(words) :]
    array = array[array.index("= [") + 3 :]
    return bytes(int(number, 16) for number in re.findall(r"0x([0-9a-f]{2})", array[: array.index("]")]))


def udp_frame(payload):
    """An Ethernet frame with a UDP datagram from 10.0.0.2 to 10.0.0.1, port 4789."""
    udp = struct.pack("!HHHH", 4789, 4789, 8 + len(payload), 0) + payload
    header = bytes.fromhex("4500") + struct.pack("!H", 20 + len(udp)) + bytes.fromhex("000000004011") + bytes(2)
    header += bytes([10, 0, 0, 2, 10, 0, 0, 1])
    return bytes.fromhex("020000000001020000000002" "0800") + header + udp


def dissected(frame, fields):
    """What tshark reads of one frame."""
    with tempfile.NamedTemporaryFile(suffix=".pcap") as capture:
        capture.write(struct.pack("<IHHiIII", 0xA1B2C3D4, 2, 4, 0, 0, 65535, 1))
        capture.write(struct.pack("<IIII", 0, 0, len(frame), len(frame)) + frame)
        capture.flush()
        command = ["tshark", "-r", capture.name, "-T", "fields", "-E", "occurrence=l"]
        for field in fields:
            command += ["-e", field]
        return subprocess.run(command, check=True, capture_output=True, text=True).stdout.rstrip("\n").split("\t")


def agrees(name, frame, expected):
    """Prints what tshark reads beside what we mean, and answers whether they agree."""
    found = dissected(frame, list(expected))
    same = True
    for (field, meant), read in zip(expected.items(), found):
        print(f"{name}: {field} {read}" + ("" if read == meant else f", and we mean {meant}"))
        same = same and read == meant
    return same


def main():
    if shutil.which("tshark") is None:
        subprocess.run(["apt-get", "update"], check=True, stdout=subprocess.DEVNULL)
        install = ["apt-get", "install", "-y", "--no-install-recommends", "tshark"]
        subprocess.run(install, check=True, stdout=subprocess.DEVNULL, env={"DEBIAN_FRONTEND": "noninteractive", "PATH": "/usr/sbin:/usr/bin:/sbin:/bin"})
    bpdu = octets_after("let written: [u8; 22]", "ether_wire/src/tests/frames.rt")
    datagram = octets_after("const DATAGRAM: [u8; 22]", "vxlan_wire/src/tests.rt")
    results = [
        agrees(
            "BPDU frame",
            bpdu + bytes(60 - len(bpdu)),
            {
                "eth.dst": "01:80:c2:00:00:00",
                "eth.src": "02:aa:00:00:00:01",
                "eth.len": "7",
                "llc.dsap": "0x42",
                "llc.ssap": "0x42",
                "stp.protocol": "0x0000",
                "stp.version": "0",
                "stp.type": "0x80",
            },
        ),
        agrees(
            "VXLAN datagram",
            udp_frame(datagram),
            {
                "vxlan.flag_i": "1",
                "vxlan.vni": "5001",
                "eth.dst": "ff:ff:ff:ff:ff:ff",
                "eth.src": "02:00:00:00:00:0b",
                "eth.type": "0x0800",
            },
        ),
    ]
    return 0 if all(results) else 1


if __name__ == "__main__":
    sys.exit(main())
