#!/usr/bin/env python3
"""Draws a recorded terminal session as an animated SVG: its lines appear one after the other, and the window scrolls.

usage: tools/session_svg.py SESSION > DRAWING      (at the top: tools/session_svg.py docs/move.txt > docs/move.svg)

The first line of SESSION is the title. Lines that begin with `> ` are commands, the others are output. docs/move.txt is what
`evpnd play --config examples/sites.toml < examples/sites.script` prints, below the title; a test of the gate compares both.
"""

import sys
from html import escape
from typing import List

WIDTH, LINE, MARGIN, ROWS = 760, 18, 14, 20
PACE, PAUSE = 0.7, 6.0  # seconds for each line, and at the end
LONGEST = 92  # characters of a line that fit

STYLE = """  <style>
    text {{ font: 13px monospace; fill: #d7dce2; white-space: pre; }}
    .title {{ font-weight: bold; fill: #ffffff; }}
    .command {{ fill: #8fd18f; }}
    .scrolled {{ animation: scroll {period:.1f}s infinite; }}
    @keyframes scroll {{
{scroll}
    }}
{lines}
  </style>"""


def shortened(line: str) -> str:
    """Returns a line that fits into the window."""
    return line if len(line) <= LONGEST else line[: LONGEST - 2] + ".."


def percent(seconds: float, period: float) -> str:
    """Returns a moment of the period for a key frame."""
    return f"{100 * seconds / period:.2f}%"


def scroll_frames(count: int, period: float) -> str:
    """Returns the key frames by which the window shows the last lines."""
    frames = ["      0% { transform: translateY(0); }"]
    for row in range(ROWS, count):
        before, after = (-LINE * (row - ROWS + shift) for shift in (0, 1))
        moment = row * PACE
        frames.append(f"      {percent(moment - 0.01, period)} {{ transform: translateY({before}px); }}")
        frames.append(f"      {percent(moment, period)} {{ transform: translateY({after}px); }}")
    frames.append(f"      100% {{ transform: translateY({-LINE * max(count - ROWS, 0)}px); }}")
    return "\n".join(frames)


def line_frames(count: int, period: float) -> str:
    """Returns the key frames by which each line appears."""
    frames = []
    for row in range(count):
        start, shown = percent(max(row * PACE - 0.01, 0), period), percent(row * PACE, period)
        frames.append(f"    @keyframes l{row} {{ 0%, {start} {{ opacity: 0; }} {shown}, 100% {{ opacity: 1; }} }}")
        frames.append(f"    .l{row} {{ animation: l{row} {period:.1f}s infinite; }}")
    return "\n".join(frames)


def drawing(title: str, lines: List[str]) -> str:
    """Returns the SVG of a session."""
    period, height = len(lines) * PACE + PAUSE, LINE * (ROWS + 2) + 2 * MARGIN
    top = MARGIN + 2 * LINE
    texts = [
        f'      <text class="l{row}{" command" if line.startswith("> ") else ""}" x="{MARGIN}" y="{top + LINE * (row + 1) - 5}">'
        f"{escape(shortened(line))}</text>"
        for row, line in enumerate(lines)
    ]
    style = STYLE.format(period=period, scroll=scroll_frames(len(lines), period), lines=line_frames(len(lines), period))
    return "\n".join(
        [
            f'<svg xmlns="http://www.w3.org/2000/svg" viewBox="0 0 {WIDTH} {height}" width="{WIDTH}" height="{height}">',
            style,
            f'  <rect width="{WIDTH}" height="{height}" rx="6" fill="#1e2430"/>',
            f'  <text class="title" x="{MARGIN}" y="{MARGIN + LINE - 4}">{escape(title)}</text>',
            f'  <clipPath id="window"><rect x="0" y="{top}" width="{WIDTH}" height="{LINE * ROWS}"/></clipPath>',
            '  <g clip-path="url(#window)">',
            '    <g class="scrolled">',
            *texts,
            "    </g>",
            "  </g>",
            "</svg>",
        ]
    )


def main(words: List[str]) -> int:
    """Prints the drawing of the session in a file."""
    if len(words) != 1 or words == ["--help"]:
        print(__doc__, file=sys.stdout if words == ["--help"] else sys.stderr)
        return 0 if words == ["--help"] else 2
    with open(words[0], encoding="utf-8") as stream:
        title, *lines = stream.read().splitlines()
    print(drawing(title, lines))
    return 0


if __name__ == "__main__":
    sys.exit(main(sys.argv[1:]))
