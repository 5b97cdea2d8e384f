"""What makes the gateway a service: one at a time, log lines with a time and a level, counts and figures for Prometheus."""

import collections
import hashlib
import logging
import os
import socket
import struct
import threading
import time
from dataclasses import dataclass, field
from typing import Collection, Dict, Iterable, List, Optional, Set, Tuple

from update_records import Register, Unreadable

LOG = logging.getLogger("evpnd_bgp")
AT_ONCE = 200  # registers that are written or announced in one piece: GoBGP looks through its table for each
LINGER = 0.01  # seconds in which more registers may join a piece that isn't full
CREDENTIALS = struct.Struct("3i")  # struct ucred: process, user, group (unix(7), SO_PEERCRED)


def log_to_standard_error() -> None:
    """Writes each log line to standard error: UTC time, level, program, text. A standard error that fails is ignored."""
    logging.raiseExceptions = False
    form = logging.Formatter("%(asctime)s %(levelname)s evpnd_bgp: %(message)s", "%Y-%m-%dT%H:%M:%SZ")
    form.converter = time.gmtime
    handler = logging.StreamHandler()
    handler.setFormatter(form)
    LOG.addHandler(handler)
    LOG.setLevel(logging.INFO)


class Kinds(collections.Counter):
    """Counts by kind; the first of each kind is logged as a warning."""

    def __init__(self, what: str) -> None:
        super().__init__()
        self.what = what

    def __setitem__(self, kind: str, count: int) -> None:
        if kind not in self:
            LOG.warning("%s: %s", self.what, kind)
        super().__setitem__(kind, count)

    def log_counts(self) -> None:
        """Logs how often each kind was met."""
        for kind, count in sorted(self.items()):
            LOG.info("%s %d: %s", self.what, count, kind)


class Pending:
    """Registers that wait to be sent, each once, in the order in which they came."""

    def __init__(self) -> None:
        self.changed = threading.Condition()
        self.registers: "collections.OrderedDict[Register, None]" = collections.OrderedDict()
        self.is_closed = False

    def add(self, registers: Collection[Register]) -> None:
        """Appends registers; one that waits already keeps its place."""
        if not registers:
            return
        with self.changed:
            was_empty = not self.registers
            for register in registers:
                self.registers[register] = None
            if was_empty or len(self.registers) >= AT_ONCE:
                self.changed.notify_all()

    def waiting(self) -> Set[Register]:
        """Returns the registers that wait."""
        with self.changed:
            return set(self.registers)

    def close(self) -> None:
        """Ends the waiting: after the last register `take` returns None."""
        with self.changed:
            self.is_closed = True
            self.changed.notify_all()

    def take(self, seconds: Optional[float] = None) -> Optional[List[Register]]:
        """Waits for the next registers. Returns none of them after so many seconds, and None at the end."""
        with self.changed:
            self.changed.wait_for(lambda: self.registers or self.is_closed, seconds)
            if self.registers and len(self.registers) < AT_ONCE:
                self.changed.wait_for(lambda: len(self.registers) >= AT_ONCE or self.is_closed, LINGER)
            if self.is_closed and not self.registers:
                return None
            count = min(AT_ONCE, len(self.registers))
            return [self.registers.popitem(last=False)[0] for _ in range(count)]


# ---- one at a time -----------------------------------------------------------------------------------------


class Lock:
    """The right to be the only gateway with some names: sockets in Linux's abstract namespace (unix(7)).

    The kernel frees the names when the process ends, however it ends, and no file stays behind.
    """

    def __init__(self, names: Iterable[str]) -> None:
        """Takes all names; raises Unreadable if another process has one of them."""
        self.held: List[socket.socket] = []
        for name in names:
            self.held.append(self.taken(name))

    def taken(self, name: str) -> socket.socket:
        """Returns the socket that holds a name."""
        place = b"\0evpnd-bgp/" + hashlib.sha256(name.encode()).hexdigest().encode()
        holder = socket.socket(socket.AF_UNIX)
        try:
            holder.bind(place)
            holder.listen()
        except OSError:
            holder.close()
            self.free()
            process = process_at(place)
            raise Unreadable(f"{name}: another gateway runs there{process}; stop it first") from None
        return holder

    def free(self) -> None:
        """Gives the names back."""
        for holder in self.held:
            holder.close()
        self.held = []


def process_at(place: bytes) -> str:
    """Returns the process that listens at an abstract socket, as text; no text if it can't be known."""
    with socket.socket(socket.AF_UNIX) as client:
        try:
            client.settimeout(1)
            client.connect(place)
            packed = client.getsockopt(socket.SOL_SOCKET, socket.SO_PEERCRED, CREDENTIALS.size)
        except OSError:
            return ""
    return f" (process {CREDENTIALS.unpack(packed)[0]})"


# ---- figures -----------------------------------------------------------------------------------------------


@dataclass
class Family:
    """A metric of Prometheus: its kind, what it says, and its samples by their labels."""

    kind: str
    help: str
    samples: Dict[Tuple[Tuple[str, str], ...], float] = field(default_factory=dict)

    def set(self, value: float, **labels: str) -> "Family":
        """Sets the sample with these labels."""
        self.samples[tuple(labels.items())] = value
        return self


def prometheus_text(families: Dict[str, Family]) -> str:
    """Returns metrics in Prometheus' text format, version 0.0.4."""
    lines = []
    for name, family in families.items():
        lines += [f"# HELP {name} {family.help}", f"# TYPE {name} {family.kind}"]
        for labels, value in family.samples.items():
            inner = ",".join(f'{label}="{escaped(text)}"' for label, text in labels)
            lines.append(f"{name}{{{inner}}} {value}" if inner else f"{name} {value}")
    return "\n".join(lines) + "\n"


def escaped(text: str) -> str:
    """Returns a label's value as the text format spells it."""
    return text.replace("\\", "\\\\").replace('"', '\\"').replace("\n", "\\n")


def write_whole(path: str, text: str) -> None:
    """Writes a file so that a reader sees the old text or the new one, and nothing between."""
    new = f"{path}.new"
    with open(new, "w", encoding="utf-8") as stream:
        stream.write(text)
    os.replace(new, path)
