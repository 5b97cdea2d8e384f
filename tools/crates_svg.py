#!/usr/bin/env python3
"""Draws the crates of crates.txt as docs/crates.svg, each above those that it uses. Run it after a change of crates.txt.

usage: tools/crates_svg.py            writes the drawing, by Debian's graphviz
       tools/crates_svg.py --check    exits with 1 if the drawing is not that of crates.txt; needs no graphviz

The drawing shows only edges that no other path implies. Its source, in graphviz's language, is a comment at its end, and --check
compares that.
"""

import os
import subprocess
import sys
from typing import Dict, List, Set

TOP = os.path.normpath(os.path.join(os.path.dirname(os.path.abspath(__file__)), ".."))
DRAWING = os.path.join(TOP, "docs", "crates.svg")
LAYERS = {
    "programs": ("#fdf1dc", "evpnd evpnd_report ev_run ev_console ev_script ev_config ev_report ev_exchange"),
    "running edges": ("#fbe3e1", "ev_peers ev_mailboxes ev_links ev_book ev_view"),
    "fabrics and their laws": ("#efe6f7", "ev_fabric ev_sites"),
    "one edge": ("#e2effb", "ev_edge ev_claims ev_mobility ev_tunnel"),
    "routes and stations": ("#e3f4e4", "route_join route_wire mac_arena idx_links"),
    "spanning tree": ("#dff3f2", "rstp_run rstp_roles rstp_state"),
    "formats": ("#eeeeee", "ether_wire vxlan_wire bpdu_wire"),
}
OTHER = "#ffffff"
HEAD = """digraph crates {
  graph [rankdir=TB, ranksep=0.45, nodesep=0.2, fontname="sans-serif", fontsize=13];
  node [shape=box, style="filled,rounded", fontname="sans-serif", fontsize=12, height=0.32, margin="0.1,0.04"];
  edge [color="#7a7a7a", arrowsize=0.6];"""

Crates = Dict[str, List[str]]


def crates_of(text: str) -> Crates:
    """Returns each crate with the crates of this repository that it uses, in the order of the lines."""
    used: Crates = {}
    for line in text.splitlines():
        head, colon, rest = line.split("#")[0].partition(":")
        if colon:
            used[head.split()[0]] = rest.split()
    return {name: [below for below in names if below in used] for name, names in used.items()}


def all_below(crates: Crates, name: str) -> Set[str]:
    """Returns every crate below a crate."""
    found = set(crates[name])
    for below in crates[name]:
        found |= all_below(crates, below)
    return found


def directly_below(crates: Crates, name: str) -> List[str]:
    """Returns the crates that a crate uses and reaches through no other crate."""
    implied = set().union(*(all_below(crates, below) for below in crates[name]))
    return sorted(set(crates[name]) - implied)


def colour_of(name: str) -> str:
    """Returns the colour of a crate's layer."""
    return next((colour for colour, names in LAYERS.values() if name in names.split()), OTHER)


def source_of(crates: Crates) -> str:
    """Returns the drawing in graphviz's language."""
    lines = [HEAD]
    lines += [f'  {name} [fillcolor="{colour_of(name)}"];' for name in sorted(crates)]
    lines += [f"  {name} -> {below};" for name in sorted(crates) for below in directly_below(crates, name)]
    lines.append('  subgraph cluster_layers { label="layers"; color="#bbbbbb";')
    for place, (layer, (colour, _)) in enumerate(LAYERS.items()):
        lines.append(f'    layer{place} [label="{layer}", fillcolor="{colour}", style="filled"];')
    lines += [f"    layer{place} -> layer{place + 1} [style=invis];" for place in range(len(LAYERS) - 1)]
    return "\n".join([*lines, "  }", "}"])


def main(words: List[str]) -> int:
    """Writes the drawing, or checks it."""
    if words == ["--help"]:
        print(__doc__)
        return 0
    with open(os.path.join(TOP, "crates.txt"), encoding="utf-8") as stream:
        source = source_of(crates_of(stream.read()))
    comment = "<!--\n" + source.replace("->", "=>") + "\n-->\n"
    if words == ["--check"]:
        with open(DRAWING, encoding="utf-8") as stream:
            return 0 if stream.read().endswith(comment) else 1
    drawn = subprocess.run(["dot", "-Tsvg"], input=source, capture_output=True, text=True, check=True).stdout
    with open(DRAWING, "w", encoding="utf-8") as stream:
        stream.write(drawn + comment)
    return 0


if __name__ == "__main__":
    sys.exit(main(sys.argv[1:]))
