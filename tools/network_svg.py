#!/usr/bin/env python3
"""Draws a network of bridges from lines of text as SVG.

    title TEXT
    bridge NAME TEXT            bridges stand side by side, in their order
    link NUMBER PORT ROLE PORT ROLE
    note TEXT

A PORT is a bridge's name and a number, as A1. A port that is `alternate` or `backup` is blocked: it is
drawn with a cross, and its link is dashed.

    python3 tools/network_svg.py docs/no_circle.txt > docs/no_circle.svg
"""

import sys
from html import escape

BRIDGE_WIDTH, BRIDGE_GAP, TOP, LINK_GAP = 170, 300, 70, 90
BLOCKED = {"alternate", "backup"}


def read(lines):
    """The title, the bridges, the links and the notes of the text."""
    title, bridges, links, notes = "", [], [], []
    for line in lines:
        word, _, rest = line.strip().partition(" ")
        if word == "title":
            title = rest
        elif word == "bridge":
            bridges.append(rest.split(" ", 1))
        elif word == "link":
            links.append(rest.split())
        elif word == "note":
            notes.append(rest)
        elif word and not word.startswith("#"):
            raise SystemExit(f"not understood: {line.strip()}")
    return title, bridges, links, notes


def text(x, y, words, anchor="middle", size=13, weight="normal"):
    return (
        f'<text x="{x}" y="{y}" text-anchor="{anchor}" font-family="sans-serif" '
        f'font-size="{size}" font-weight="{weight}">{escape(words)}</text>'
    )


def port(x, y, name, role, inward):
    """A port as a dot, or a cross where it is blocked, with its role outside of its bridge."""
    mark = (
        f'<path d="M{x - 6} {y - 6} L{x + 6} {y + 6} M{x - 6} {y + 6} L{x + 6} {y - 6}" stroke="#b00" stroke-width="3"/>'
        if role in BLOCKED
        else f'<circle cx="{x}" cy="{y}" r="5" fill="#063"/>'
    )
    anchor = "start" if inward < 0 else "end"
    return mark + text(x - 12 * inward, y - 9, f"{name[1:]} {role}", anchor, 12)


def draw(title, bridges, links, notes):
    left = {name: 30 + at * (BRIDGE_WIDTH + BRIDGE_GAP) for at, (name, _) in enumerate(bridges)}
    height = TOP + LINK_GAP * len(links) + 30
    width = 60 + len(bridges) * BRIDGE_WIDTH + (len(bridges) - 1) * BRIDGE_GAP
    out = [text(width / 2, 28, title, size=16, weight="bold")]
    for name, words in bridges:
        out.append(
            f'<rect x="{left[name]}" y="{TOP - 20}" width="{BRIDGE_WIDTH}" height="{height - TOP}" '
            'rx="8" fill="#eef3fb" stroke="#345"/>'
        )
        middle = left[name] + BRIDGE_WIDTH / 2
        out.append(text(middle, TOP + 4, name, size=18, weight="bold"))
        for line, part in enumerate(words.split(", ")):
            out.append(text(middle, TOP + 24 + 17 * line, part, size=12))
    for at, (number, one, one_role, other, other_role) in enumerate(links):
        y = TOP + 60 + LINK_GAP * at
        x1, x2 = left[one[0]] + BRIDGE_WIDTH, left[other[0]]
        dashes = ' stroke-dasharray="7 6"' if {one_role, other_role} & BLOCKED else ""
        out.append(f'<line x1="{x1}" y1="{y}" x2="{x2}" y2="{y}" stroke="#345" stroke-width="2"{dashes}/>')
        out.append(text((x1 + x2) / 2, y + 18, f"link {number}", size=12))
        out.append(port(x1, y, one, one_role, -1))
        out.append(port(x2, y, other, other_role, 1))
    for at, note in enumerate(notes):
        out.append(text(30, height + 24 + 19 * at, note, "start"))
    total = height + 24 + 19 * len(notes) + 12
    head = f'<svg xmlns="http://www.w3.org/2000/svg" viewBox="0 0 {width} {total}" width="{width}" height="{total}">'
    return "\n".join([head, '<rect width="100%" height="100%" fill="white"/>', *out, "</svg>"])


if __name__ == "__main__":
    if sys.argv[1:] == ["--help"]:
        sys.exit(print(__doc__))
    with open(sys.argv[1], encoding="utf-8") as source:
        print(draw(*read(source)))
