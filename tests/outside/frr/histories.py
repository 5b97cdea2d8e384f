#!/usr/bin/env python3
"""Plays histories of routes to Debian's FRR and audits what it forwards. As root, with frr and iproute2:

    apt-get install frr && python3 tests/outside/frr/histories.py [--keep FOLDER] [ROOT]

ROOT is a folder with another Debian that has frr (see leaves.py); without it, this host's FRR is taken.
FRR 8.4.4 goes on forwarding to another edge than its own best path after some histories, and the audit
has to find that; of another version only that the audit and the kernel agree is asked. Not part of the gate.
"""

import argparse
import json
import os
import random
import subprocess
import sys
import tempfile
from typing import Dict, List, Tuple

from edge import TOOLS, VNI, Edge, Trouble

sys.path.insert(0, TOOLS)
import audit_kernel  # noqa: E402
import audit_report  # noqa: E402
import frr_routes  # noqa: E402
import update_records as records  # noqa: E402

FAULTY = "8.4.4"
GONE, STATIC = "02:00:00:00:00:0a", "02:00:00:00:00:0b"
FLOODS = [f"advert 10.0.0.{pe} {VNI} flood" for pe in range(1, 7)]
MACS, ROUNDS, CHANGES = 200, 30, 60


class Tally:
    """What passed and what failed."""

    def __init__(self) -> None:
        self.passed = 0
        self.failed = 0

    def see(self, holds: bool, what: str) -> None:
        """Counts a look."""
        self.passed += holds
        self.failed += not holds
        print(("ok: " if holds else "FAILED: ") + what, flush=True)


def said(*words: str) -> Tuple[int, str]:
    """A command's status, and what it says."""
    done = subprocess.run(words, capture_output=True, encoding="utf-8", check=False)
    return done.returncode, done.stdout + done.stderr


def audited(*words: str) -> Tuple[int, str]:
    """The audit of saved views."""
    return said(sys.executable, os.path.join(TOOLS, "evpnd_audit.py"), "--vni", str(VNI), *words)


def audited_there(edge: Edge) -> Tuple[int, str]:
    """The audit of the edge itself, in its namespace."""
    return said(*edge.audit_words())


def kernel_of(edge: Edge) -> Dict[bytes, str]:
    """Where the VXLAN device's own entries send each MAC."""
    entries = audit_kernel.read_list(edge.entries(), "kernel", "bridge")
    return audit_kernel.Tables(entries, None, "kernel").of_one_device(VNI, f"vxlan{VNI}").places


def short_histories(edge: Edge, folder: str, tally: Tally) -> None:
    """A withdrawn higher sequence; a static advert with sequence 0 against 3."""
    edge.tell(FLOODS + [f"advert 10.0.0.1 {VNI} {GONE} seq 0"])
    edge.tell([f"advert 10.0.0.2 {VNI} {GONE} seq 5"])
    edge.tell([f"withdraw 10.0.0.2 {VNI} {GONE}", f"advert 10.0.0.1 {VNI} {STATIC} seq 3"])
    edge.tell([f"advert 10.0.0.2 {VNI} {STATIC} static seq 0"])
    edge.save(folder)
    status, text = audited(folder)
    print(text, end="")
    tally.see(audited_there(edge) == (status, text.replace(f"{folder}: VNI", "this host: VNI")), "on the host itself the audit says the same")
    kernel = kernel_of(edge)
    places = {GONE: "10.0.0.1", STATIC: "10.0.0.2"}
    wrong = {mac for mac, place in places.items() if kernel.get(records.read_mac(mac)) != place}
    tally.see(status == (1 if wrong else 0), f"the status says whether the kernel is wrong ({len(wrong)} of 2 are)")
    for mac, reason in ((GONE, "the only advert"), (STATIC, "static, against dynamic 3 of 10.0.0.1")):
        line = f"wrong {VNI} {mac} owner {places[mac]} ({reason}); bgpd {places[mac]}, "
        tally.see((line in text) == (mac in wrong), f"{mac} is told exactly where it is wrong")
    if edge.version() == FAULTY:
        tally.see(wrong == {GONE, STATIC}, f"FRR {FAULTY} goes wrong after both histories, and the audit finds both")


def two_views(edge: Edge, folder: str, tally: Tally) -> None:
    """A second edge hears of the static MAC's first advert alone: its own view agrees, the view of both doesn't."""
    edge.tell(FLOODS + [f"advert 10.0.0.1 {VNI} {STATIC} seq 3"])
    edge.tell([f"advert 10.0.0.2 {VNI} {STATIC} static seq 0"])
    edge.save(f"{folder}-one")
    with Edge("other", edge.root) as other:
        other.tell(FLOODS + [f"advert 10.0.0.1 {VNI} {STATIC} seq 3"])
        other.save(f"{folder}-two")
    tally.see(audited("--mac", STATIC, f"{folder}-two")[0] == 0, "by itself the second edge forwards by its own routes")
    status, text = audited("--mac", STATIC, f"{folder}-one", f"{folder}-two")
    print(text, end="")
    line = f"{folder}-two: wrong {VNI} {STATIC} owner 10.0.0.2 (static, against dynamic 3 of 10.0.0.1); bgpd 10.0.0.1, zebra 10.0.0.1, "
    tally.see(status == 1 and line in text and "shows no route of the owner" in text, "beside the first one's routes it doesn't, and why is told")


def clean_history(edge: Edge, folder: str, tally: Tally) -> None:
    """Each MAC said once by one router or by several: nothing moves, nothing is withdrawn."""
    lines = [f"advert 10.0.0.{1 + place % 6} {VNI} 02:00:00:00:01:{place:02x} seq {place % 3}" for place in range(60)]
    edge.tell(FLOODS + lines)
    edge.save(folder)
    status, text = audited(folder)
    print(text, end="")
    tally.see(status == 0, "after a history without moves all agree")


def random_lines(random_numbers: random.Random) -> List[str]:
    """Some changes, of distinct MACs, so that none overtakes another of its MAC."""
    lines = []
    for place in random_numbers.sample(range(MACS), CHANGES):
        pe, mac = random_numbers.randint(1, 6), f"02:00:00:00:02:{place:02x}"
        ip = f" ip 192.0.2.{place}" if random_numbers.random() < 0.2 else ""
        kind = random_numbers.choice(["seq", "seq", "seq", "static", "withdraw"])
        if kind == "withdraw":
            lines.append(f"withdraw 10.0.0.{pe} {VNI} {mac}{ip}")
        elif kind == "static":
            lines.append(f"advert 10.0.0.{pe} {VNI} {mac}{ip} static seq 0")
        else:
            lines.append(f"advert 10.0.0.{pe} {VNI} {mac}{ip} seq {random_numbers.randint(0, 5)}")
    return lines


def random_history(edge: Edge, folder: str, tally: Tally) -> None:
    """Random moves, static MACs and withdrawals."""
    random_numbers = random.Random(7432)
    edge.tell(FLOODS)
    told: List[records.Update] = []
    for turn in range(ROUNDS):
        lines = random_lines(random_numbers)
        edge.tell(lines)
        told += [records.update_of_line(line)._replace(counter=turn + 1) for line in lines]
    edge.save(folder)
    status, text = audited("--json", folder)
    result = json.loads(text)["results"][0] if status < 2 else {}
    print(text if status == 2 else json.dumps(result["sums"]))
    tally.see(status < 2 and result["sums"]["by rule"] == 0, "no difference is one of rule: bgpd's own best path is the owner")
    program = audit_report.program_of(None)
    owners = audit_report.read_report(audit_report.run_report(program, told))
    with open(os.path.join(folder, "routes.json"), encoding="utf-8") as stream:
        snapshot = frr_routes.snapshot_of(frr_routes.Routes([VNI]), stream, "routes")
    shown = audit_report.read_report(audit_report.run_report(program, list(snapshot.updates(lambda _: 1))))
    equal = all(shown[station].owner == owned.owner if owned.owner else station not in shown for station, owned in owners.items())
    tally.see(equal, f"the owners of the routes that FRR shows are those of the history that it was told ({len(owners)} MACs)")
    kernel = kernel_of(edge)
    wrong = sum(kernel.get(mac) != (records.address_text(owned.owner) if owned.owner else None) for (_, mac), owned in owners.items())
    tally.see(status < 2 and len(result["macs"]) == wrong, f"the audit tells of {wrong} MACs, as the kernel's entries say")


def main() -> int:
    """Plays all histories, each to an edge of its own."""
    words = argparse.ArgumentParser(description=__doc__, formatter_class=argparse.RawDescriptionHelpFormatter)
    words.add_argument("--keep", metavar="FOLDER")
    words.add_argument("root", nargs="?", default="", metavar="ROOT")
    arguments = words.parse_args()
    keep = arguments.keep
    tally = Tally()
    with tempfile.TemporaryDirectory() as made:
        for name, history in (("short", short_histories), ("two", two_views), ("clean", clean_history), ("random", random_history)):
            try:
                with Edge(name, arguments.root) as edge:
                    print(f"-- {name}, FRR {edge.version()}", flush=True)
                    history(edge, os.path.join(keep or made, name), tally)
            except Trouble as trouble:
                tally.see(False, f"{name}: {trouble}")
    print(f"{tally.passed} passed, {tally.failed} failed")
    return 1 if tally.failed else 0


if __name__ == "__main__":
    sys.exit(main())
