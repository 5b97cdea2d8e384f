#!/usr/bin/env python3
"""What uml.sh runs in its guest: a leaf with a VRF, and one with a single VXLAN device in a bridge with VLANs."""

import os
import subprocess
import sys
import time

from edge import Edge, Trouble
from histories import Tally
from leaves import audited
from routed import FAR, L3VNI, ROUTER, VNIS, start_of


def in_vrf(tally: Tally) -> None:
    """An L3VNI of a VRF: all agree, and a router's MAC that was changed is found and mended."""
    with Edge("vrf", "", VNIS, access=True, routed=L3VNI, vrf="red") as edge:
        print(f"-- VRF, FRR {edge.version()}", flush=True)
        edge.tell(start_of(L3VNI))
        time.sleep(3)
        save(edge, "vrf")
        status, text = audited(edge)
        tally.see(status == 0 and f"VNI {L3VNI}: L3VNI, 0 router MACs" in text, f"an L3VNI of a VRF\n{text}")
        words = ["fdb", "replace", ROUTER, "dev", f"vxlan{L3VNI}", "dst", "10.0.0.2", "self", "extern_learn"]
        edge.within("bridge", *words)
        status, text = audited(edge)
        tally.see(status == 1 and f"router wrong {L3VNI} {ROUTER}" in text, f"a router's MAC at another edge\n{text}")
        mend(edge, tally, text)


def single_device(tally: Tally) -> None:
    """One VXLAN device for all VNIs, in a bridge with VLANs; FRR 8.4.4 doesn't run one."""
    root = sys.argv[1] if len(sys.argv) > 1 else ""
    with Edge("single", root, VNIS, access=True, single=True) as edge:
        print(f"-- single VXLAN device, FRR {edge.version()}", flush=True)
        edge.tell([f"advert 10.0.0.{pe} {vni} flood" for pe in (1, 2) for vni in VNIS] + [f"advert 10.0.0.1 5002 {FAR} seq 0"])
        time.sleep(3)
        save(edge, "single")
        status, text = audited(edge)
        tally.see(status == 0 and "VNI 5002: 1 MACs, 1 equal" in text, f"a single VXLAN device\n{text}")
        words = ["fdb", "replace", FAR, "dev", "vxlan0", "dst", "10.0.0.2", "src_vni", "5002", "self", "extern_learn"]
        edge.within("bridge", *words)
        status, text = audited(edge)
        tally.see(status == 1 and f"wrong 5002 {FAR}" in text, f"another edge in it\n{text}")
        mend(edge, tally, text)


def mend(edge: Edge, tally: Tally, text: str) -> None:
    """Runs what is said to mend it."""
    for line in text.splitlines():
        if line.startswith("    mend: "):
            edge.within("sh", "-c", line[len("    mend: ") :])
    tally.see(audited(edge)[0] == 0, "mended")


def save(edge: Edge, name: str) -> None:
    """Prints the view, if that is wanted: the guest's files are gone with it."""
    if os.environ.get("EVPND_KEEP"):
        edge.save(os.path.join(os.environ["EVPND_KEEP"], name))


def main() -> int:
    """Plays both."""
    tally = Tally()
    for case in (in_vrf, single_device) if len(sys.argv) > 1 else (in_vrf,):
        try:
            case(tally)
        except (Trouble, subprocess.SubprocessError, OSError) as trouble:
            tally.see(False, f"{case.__name__}: {trouble}")
    print(f"{tally.passed} passed, {tally.failed} failed", flush=True)
    return 1 if tally.failed else 0


if __name__ == "__main__":
    sys.exit(main())
