#!/usr/bin/env python3
"""What the audit says where FRR's daemons don't answer it. As root, with iproute2:

    messages.py [--keep FOLDER] [--tools FOLDER] [ROOT ..]

A ROOT is a folder with a Debian that has frr and python3 (see leaves.py); with none, this host's FRR is taken. bgpd is ended
beside a running zebra, zebra beside a running bgpd, then both; and the audit is run as nobody while all is well. --keep
stores what vtysh answered as VERSION.json, which tests/tools/test_audit_messages.py reads; with --tools another commit's
tools are asked the same. Not part of the gate.
"""

import argparse
import json
import os
import shlex
import shutil
import subprocess
import sys
from typing import Dict, List, Tuple

import edge as lab
from edge import Edge, Trouble
from histories import Tally, said

BEST, BEST_BEFORE = "show bgp vni all json", "show bgp l2vpn evpn route vni all json"
COMMANDS = ("show bgp l2vpn evpn route json", BEST, BEST_BEFORE, "show evpn vni json", "show evpn mac vni all json")
NOBODY = ("setpriv", "--reuid=65534", "--regid=65534", "--clear-groups")
SILENT = "no daemon of FRR answers: start it"
CASES = {  # the cause that the audit's one line has to name
    "bgpd down": "bgpd is not running",
    "zebra down": "zebra is not running",
    "no daemon": SILENT,
    "not root": f"{SILENT}, or run this as root or in the group frrvty",
}
Answers = Dict[str, Dict[str, Dict[str, object]]]


def end(edge: Edge, daemon: str) -> None:
    """Ends a daemon, and waits for it."""
    edge.daemons[daemon].terminate()
    edge.daemons[daemon].wait()


def answers_of(words: List[str]) -> Dict[str, Dict[str, object]]:
    """What vtysh answers to each command; bgpd 10.3 ends by a fault of its own at the one that FRR 8 has alone."""
    answers: Dict[str, Dict[str, object]] = {}
    for command in COMMANDS:
        if command != BEST_BEFORE or "Unknown command" in str(answers[BEST]["out"]):
            done = subprocess.run([*words, "-c", command], capture_output=True, encoding="utf-8", check=False)
            answers[command] = {"status": done.returncode, "out": done.stdout, "err": done.stderr}
    return answers


def see(tally: Tally, name: str, words: List[str]) -> None:
    """Sees that the audit ends with 2 and one line that names the cause."""
    status, text = said(*words)
    holds = status == 2 and text.count("\n") == 1 and text.endswith(f"{CASES[name]}\n")
    tally.see(holds, f"{name}: status {status}, {text.strip()}")


def not_root(edge: Edge, tally: Tally, kept: Answers) -> None:
    """All daemons run, and the audit is run as nobody, by a copy of the tools that nobody may read."""
    tools = os.path.join(edge.folder, "tools")
    shutil.copytree(lab.TOOLS, tools)
    subprocess.run(["chmod", "-R", "a+rX", tools], check=True)
    vtysh, there = ["vtysh", "--vty_socket", edge.frr_folder], ["ip", "netns", "exec", edge.inside]
    audit = ["python3", f"{edge.frr_folder}/tools/evpnd_audit.py", "--vtysh", " ".join(vtysh)]
    see(tally, "not root", [*there, *edge.frr(*NOBODY, *audit)])
    kept["not root"] = answers_of([*there, *edge.frr(*NOBODY, *vtysh)])


def no_configuration(edge: Edge, tally: Tally, kept: Answers) -> None:
    """vtysh has no vtysh.conf, as in containers: before FRR 10 it warns first, and the audit goes on all the same."""
    vtysh = [*edge.shell_words(), "--config_dir", "/nowhere"]
    kept["no vtysh.conf"] = answers_of(["ip", "netns", "exec", edge.inside, *vtysh])
    words = edge.audit_words()[:-1]
    status, text = said(*words, " ".join(shlex.quote(word) for word in vtysh))
    tally.see(status == 0, f"no vtysh.conf: status {status}, {text.strip()}")


def is_down(edge: Edge, tally: Tally, kept: Answers, name: str) -> None:
    """What is left of the daemons is asked."""
    see(tally, name, edge.audit_words())
    kept[name] = answers_of(["ip", "netns", "exec", edge.inside, *edge.shell_words()])


def each_case(root: str, tally: Tally) -> Tuple[str, Answers]:
    """All cases of one FRR; its version, and what vtysh answered."""
    kept: Answers = {}
    with Edge("bgpd", root, access=True) as edge:
        version = edge.version()
        print(f"-- FRR {version}", flush=True)
        not_root(edge, tally, kept)
        no_configuration(edge, tally, kept)
        end(edge, "bgpd")
        is_down(edge, tally, kept, "bgpd down")
        end(edge, "zebra")
        is_down(edge, tally, kept, "no daemon")
    with Edge("zebra", root, access=True) as edge:
        end(edge, "zebra")
        is_down(edge, tally, kept, "zebra down")
    return version, kept


def keep(folder: str, version: str, root: str, kept: Answers) -> None:
    """Stores the answers, with their origin."""
    enter = ["chroot", root] if root else []
    package = said(*enter, "dpkg-query", "-W", "-f", "${Version}", "frr")[1]
    origin = f"vtysh of FRR {version}, Debian's package frr {package}, by tests/outside/frr/messages.py --keep"
    os.makedirs(folder, exist_ok=True)
    with open(os.path.join(folder, f"{version}.json"), "w", encoding="utf-8") as out:
        json.dump({"origin": origin, **kept}, out, indent=1)
        out.write("\n")


def main() -> int:
    """Asks each version."""
    words = argparse.ArgumentParser(description=__doc__, formatter_class=argparse.RawDescriptionHelpFormatter)
    words.add_argument("--keep", metavar="FOLDER")
    words.add_argument("--tools", metavar="FOLDER", default=lab.TOOLS)
    words.add_argument("roots", nargs="*", metavar="ROOT")
    arguments = words.parse_args()
    lab.TOOLS = arguments.tools
    tally = Tally()
    for root in arguments.roots or [""]:
        try:
            version, kept = each_case(root, tally)
            if arguments.keep:
                keep(arguments.keep, version, root, kept)
        except (Trouble, subprocess.SubprocessError, OSError) as trouble:
            tally.see(False, f"{root or 'this host'}: {trouble}")
    print(f"{tally.passed} passed, {tally.failed} failed")
    return 1 if tally.failed else 0


if __name__ == "__main__":
    sys.exit(main())
