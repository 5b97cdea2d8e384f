#!/usr/bin/env python3
"""Audits that are asked for one after the other in an edge's namespace, by one process. As root:

    auditor.py SOCKETS

Each line of standard input is a list in JSON: ["audit", WORD ..] audits with those words, ["run", COMMAND ..] runs shell commands,
["mark", DEVICE, MAC] waits until a VXLAN device has a MAC's entry. Each answer is a line of JSON: a status and a text. The audit
is that of tools/, except that its vtysh commands go straight to the daemons' sockets in the folder SOCKETS, with the octets
that vtysh sends: a vtysh costs 40 ms of processor time to start, and an audit has eleven.
"""

import contextlib
import io
import json
import os
import socket
import subprocess
import sys
import time
from typing import Dict, List, TextIO, Tuple

sys.path.insert(0, os.path.join(os.path.dirname(os.path.abspath(__file__)), "..", "..", "..", "tools"))
import audit_views  # noqa: E402
import evpnd_audit  # noqa: E402
from update_records import Unreadable  # noqa: E402

PATIENCE = 60
UNKNOWN = b"% Unknown command: "


class Daemons:
    """The sockets of zebra and bgpd, on which a command ends with a zero octet and an answer with three and a status."""

    def __init__(self, folder: str) -> None:
        self.folder = folder
        self.ends: Dict[str, socket.socket] = {}

    def said(self, command: str) -> Tuple[int, bytes]:
        """Returns the status and the text of a command's answer."""
        daemon = "bgpd" if command.startswith("show bgp") else "zebra"
        if daemon not in self.ends:
            self.ends[daemon] = socket.socket(socket.AF_UNIX)
            self.ends[daemon].connect(os.path.join(self.folder, f"{daemon}.vty"))
        self.ends[daemon].sendall(command.encode() + b"\0")
        pieces: List[bytes] = []
        while True:
            piece = self.ends[daemon].recv(1 << 16)
            if not piece:
                raise Unreadable(f"{daemon} is not running")
            pieces.append(piece)
            last = b"".join(pieces[-4:])[-4:] if len(piece) < 4 else piece[-4:]
            if last[:3] == b"\0\0\0" and len(last) == 4:
                text = b"".join(pieces)[:-4]
                return last[3], text if last[3] == 0 else UNKNOWN + command.encode() + b"\n" + text


def direct(daemons: Daemons) -> None:
    """Lets the audit's vtysh commands go to the daemons; the kernel's commands are run as ever."""
    by_process = audit_views.ended

    def ended(words: List[str], out: TextIO, seconds: float) -> Tuple[int, str]:
        if words[0] != "vtysh":
            return by_process(words, out, seconds)
        status, text = daemons.said(words[2])
        while text:
            text = text[os.write(out.fileno(), text) :]
        return int(status != 0), ""

    audit_views.ended = ended


def audited(words: List[str]) -> Tuple[int, str]:
    """An audit's status, and what it prints on standard output; what it can't read is status 2."""
    out, errors = io.StringIO(), io.StringIO()
    with contextlib.redirect_stdout(out), contextlib.redirect_stderr(errors):
        try:
            status = evpnd_audit.run(words)
        except Unreadable as fault:
            return 2, str(fault)
    return status, out.getvalue()


def has_mark(device: str, mac: str) -> bool:
    """Whether a VXLAN device has a MAC's entry with an edge."""
    text = subprocess.run(["bridge", "fdb", "show", "dev", device], capture_output=True, encoding="utf-8", check=True).stdout
    return any(line.startswith(mac) and " dst " in line for line in text.splitlines())


def answered(words: List[str]) -> Tuple[int, str]:
    """The answer to a line."""
    kind, rest = words[0], words[1:]
    if kind == "audit":
        return audited(rest)
    if kind == "run":
        done = [subprocess.run(["sh", "-c", each], capture_output=True, encoding="utf-8", check=False) for each in rest]
        return max(each.returncode for each in done), "".join(each.stderr for each in done)
    end = time.monotonic() + PATIENCE
    while not has_mark(*rest):
        if time.monotonic() > end:
            return 1, f"{rest[1]} didn't come within {PATIENCE} s"
        time.sleep(0.05)
    return 0, ""


def main() -> None:
    """Answers until standard input ends."""
    direct(Daemons(sys.argv[1]))
    answers = sys.stdout
    for line in sys.stdin:
        print(json.dumps(answered(json.loads(line))), file=answers, flush=True)


if __name__ == "__main__":
    main()
