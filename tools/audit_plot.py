"""Drawings of an audit over time, as SVG: where the routes say that a station is and where the kernel sends, or how many MACs differ.

A MAC's drawing has two lines. Where they differ the kernel's is red and the time between is marked; nothing is green.
"""

import json
import time
from dataclasses import dataclass
from typing import Dict, Iterator, List, Tuple

import update_records as records
from audit_compare import DIFFERING
from audit_history import register_of, streams_of, updates_of
from audit_report import Said, best_of
from update_records import Unreadable, Update

WIDTH, HEIGHT, LEFT, RIGHT = 900, 290, 110, 20
TOP, BOTTOM = 84, 50
ROUTES_COLOUR, KERNEL_COLOUR, WRONG_COLOUR, MARK_COLOUR = "#1b6ca8", "#555555", "#c0392b", "#f9e0dd"
NONE, UNKNOWN = "none", ""


@dataclass(frozen=True)
class Step:
    """What holds from a second until the next look: the owner by the routes, and where the kernel sends ('' if not known)."""

    second: int
    owner: str
    kernel: str
    is_wrong: bool


# ---- the drawing ------------------------------------------------------------------------------------------------


def owners_over_time(folder: str, vni: int, mac: bytes) -> List[Tuple[int, str]]:
    """A MAC's owner by the routes after each snapshot."""
    adverts: Dict[tuple, Update] = {}
    owners = []
    for second, path in streams_of(folder):
        for update in updates_of(path):
            if (update.vni, update.mac) == (vni, mac):
                adverts[register_of(update)] = update
        best = best_of(Said(each.originator, each.advert, "") for each in adverts.values() if each.advert is not None)
        owners.append((second, NONE if best is None else records.address_text(best.originator)))
    return owners


def results_at(path: str) -> List[dict]:
    """The results of the snapshot whose records are in a file."""
    name = path[: -len("records")] + "json"
    try:
        with open(name, encoding="utf-8") as stream:
            snapshot = json.load(stream)
    except (OSError, ValueError, RecursionError) as fault:
        raise Unreadable(f"{name}: no snapshot of an audit ({fault})") from None
    results = snapshot.get("results") if isinstance(snapshot, dict) else snapshot
    if not isinstance(results, list) or not all(isinstance(each, dict) for each in results):
        raise Unreadable(f"{name}: no snapshot of an audit")
    return results


def kernel_at(path: str, vni: int, mac: bytes, owner: str) -> Tuple[str, bool]:
    """Where the kernel sent a MAC at a snapshot, and whether that was wrong; what agreed is the owner's place."""
    name = records.mac_text(mac)
    result = next((each for each in results_at(path) if each.get("vni") == vni and not each.get("fault")), None)
    if result is None or name in result.get("not judged", []) or any(cause.get("stops") for cause in result.get("causes", [])):
        return UNKNOWN, False
    for entry in result.get("macs", []):
        if entry.get("mac") == name and entry.get("kind") in DIFFERING:
            kernel = str(entry.get("kernel", UNKNOWN))
            kernel = NONE if kernel == "nowhere" else UNKNOWN if kernel == "unknown" else kernel
            return kernel, kernel not in (UNKNOWN, owner)
    return owner, False


def steps_of(folder: str, vni: int, mac: bytes) -> List[Step]:
    """A MAC's owner and the kernel's place at each snapshot."""
    paths = dict(streams_of(folder))
    return [Step(second, owner, *kernel_at(paths[second], vni, mac, owner)) for second, owner in owners_over_time(folder, vni, mac)]


def wrong_over_time(folder: str) -> List[Tuple[int, int]]:
    """How many MACs differed at each snapshot."""
    counts = []
    for second, path in streams_of(folder):
        try:
            sums = [each["sums"] for each in results_at(path)]
            counts.append((second, sum(each.get(kind, 0) for each in sums for kind in DIFFERING)))
        except (KeyError, TypeError, AttributeError) as fault:
            raise Unreadable(f"{path[: -len('records')]}json: no snapshot of an audit ({fault})") from None
    return counts


def spans_of(steps: List[Step]) -> Iterator[Tuple[int, int]]:
    """The times in which the kernel sends elsewhere, each from the first look that saw it to the first that didn't."""
    begun = None
    for step in steps:
        if step.is_wrong and begun is None:
            begun = step.second
        elif not step.is_wrong and begun is not None:
            yield begun, step.second
            begun = None
    if begun is not None:
        yield begun, steps[-1].second


# ---- SVG ----------------------------------------------------------------------------------------------------------------


class Canvas:
    """A drawing with time to the right and a row for each place, the first at the bottom."""

    def __init__(self, title: str, seconds: List[int], rows: List[str]) -> None:
        self.first, self.last = seconds[0], max(seconds[-1], seconds[0] + 1)
        self.rows = rows
        self.parts = [f'<svg xmlns="http://www.w3.org/2000/svg" viewBox="0 0 {WIDTH} {HEIGHT}" font-family="sans-serif" font-size="12">']
        self.parts.append(f'<rect width="{WIDTH}" height="{HEIGHT}" fill="white"/><text x="{LEFT}" y="22" font-size="15">{title}</text>')

    def across(self, second: int) -> float:
        """Returns where a second is."""
        return LEFT + (WIDTH - LEFT - RIGHT) * (second - self.first) / (self.last - self.first)

    def down(self, row: int) -> float:
        """Returns where a row is."""
        return HEIGHT - BOTTOM - (HEIGHT - TOP - BOTTOM) * row / max(len(self.rows) - 1, 1)

    def text(self, x: float, y: float, anchor: str, text: str, colour: str = "black") -> None:
        """Writes a text."""
        self.parts.append(f'<text x="{x:.1f}" y="{y:.1f}" text-anchor="{anchor}" fill="{colour}">{text}</text>')

    def names(self) -> None:
        """Writes the rows' names: all of a few, else the first and the last."""
        for row, name in enumerate(self.rows):
            if len(self.rows) <= 12 or row in (0, len(self.rows) - 1):
                self.text(LEFT - 8, self.down(row) + 4, "end", name)
                self.parts.append(f'<path d="M{LEFT} {self.down(row):.1f}H{WIDTH - RIGHT}" stroke="#dddddd"/>')

    def line(self, points: List[Tuple[int, int, str]], shift: float, dash: str = "") -> None:
        """Draws steps, each a second, a row (-1 for none) and a colour, which holds until the next second."""
        ends = [second for second, _, _ in points[1:]] + [self.last]
        for (second, row, colour), end, after in zip(points, ends, [*points[1:], (0, -1, "")]):
            if row >= 0:
                path = f"M{self.across(second):.1f} {self.down(row) + shift:.1f}H{self.across(end):.1f}"
                path += f"V{self.down(after[1]) + shift:.1f}" if after[1] >= 0 else ""
                dashed = f' stroke-dasharray="{dash}"' if dash else ""
                self.parts.append(f'<path d="{path}" stroke="{colour}" stroke-width="3" fill="none"{dashed}/>')

    def mark(self, begin: int, end: int, text: str) -> None:
        """Marks a time, with its length."""
        x, width = self.across(begin), self.across(end) - self.across(begin)
        self.parts.append(f'<rect x="{x:.1f}" y="{TOP - 22}" width="{width:.1f}" height="{HEIGHT - TOP - BOTTOM + 34}" fill="{MARK_COLOUR}"/>')
        self.text(x + width / 2, TOP - 27, "middle", text, WRONG_COLOUR)

    def done(self) -> str:
        """Writes the first and the last second, and returns the drawing."""
        for second, at, anchor in ((self.first, LEFT, "start"), (self.last, WIDTH - RIGHT, "end")):
            self.text(at, HEIGHT - 12, anchor, time.strftime("%Y-%m-%d %H:%M:%S UTC", time.gmtime(second)))
        return "\n".join([*self.parts, "</svg>", ""])


def station_drawing(folder: str, vni: int, mac: bytes) -> str:
    """Draws where the routes say that a station is, and where the kernel sends."""
    steps = steps_of(folder, vni, mac)
    places = {step.owner for step in steps} | {step.kernel for step in steps if step.kernel != UNKNOWN}
    rows = sorted(places, key=place_key)
    canvas = Canvas(f"{records.mac_text(mac)} in VNI {vni}", [step.second for step in steps], rows)
    for begin, end in spans_of(steps):
        canvas.mark(begin, end, f"{end - begin} s: frames go elsewhere")
    canvas.names()
    canvas.line([(step.second, rows.index(step.owner), ROUTES_COLOUR) for step in steps], -3)
    kernel = [
        (step.second, rows.index(step.kernel) if step.kernel != UNKNOWN else -1, WRONG_COLOUR if step.is_wrong else KERNEL_COLOUR)
        for step in steps
    ]
    canvas.line(kernel, 3, "7 3")
    canvas.text(LEFT, 42, "start", "&#8212; the owner by the routes", ROUTES_COLOUR)
    canvas.text(LEFT + 250, 42, "start", "- - where the kernel sends (red: elsewhere)", KERNEL_COLOUR)
    return canvas.done()


def place_key(place: str) -> Tuple[int, bytes, str]:
    """The order of rows: none, then addresses by their octets, then what is no address."""
    try:
        return (0, b"", "") if place == NONE else (1, records.read_address(place), "")
    except Unreadable:
        return 2, b"", place


def plot(folder: str, vni: int, mac: bytes) -> str:
    """The drawing of a MAC, or without one of the number of MACs that differ."""
    if not streams_of(folder):
        raise Unreadable(f"{folder}: no snapshots there (evpnd_audit.py record {folder} makes them)")
    if mac:
        return station_drawing(folder, vni, mac)
    counts = wrong_over_time(folder)
    rows = [str(count) for count in range(max(1, *(count for _, count in counts)) + 1)]
    canvas = Canvas("MACs wrong, missing, extra or foreign", [second for second, _ in counts], rows)
    canvas.names()
    canvas.line([(second, count, WRONG_COLOUR if count else KERNEL_COLOUR) for second, count in counts], 0)
    return canvas.done()
