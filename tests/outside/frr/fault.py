#!/usr/bin/env python3
"""Records the fault that docs/fault.svg draws, beside FRR 8.4.4. As root, with frr and iproute2:

    fault.py FOLDER [ROOT]

An edge advertises a station, another one with a higher sequence number, which then withdraws: bgpd chooses the first one again,
and zebra 8.4.4 and the kernel go on sending to the second. `evpnd_audit.py record` looks every 2 s; then the command behind `mend:`
is run. FOLDER (tests/data/frr/fault) holds the snapshots then, and docs/fault.svg is `evpnd_audit.py plot FOLDER 5001 MAC`.
"""

import os
import subprocess
import sys
import time

from edge import VNI, Edge
from histories import FLOODS, GONE, Tally, said


def look(edge: Edge, folder: str, seconds: int) -> str:
    """Looks for some seconds; gives what the last audit printed."""
    until = time.monotonic() + seconds
    while time.monotonic() < until:
        subprocess.run(edge.audit_words("record", folder), capture_output=True, check=False)
        time.sleep(2)
    return said(*edge.audit_words())[1]


def main() -> int:
    """Plays the history."""
    folder, root = os.path.abspath(sys.argv[1]), sys.argv[2] if len(sys.argv) > 2 else ""
    tally = Tally()
    with Edge("fault", root, access=True) as edge:
        edge.tell([*FLOODS, f"advert 10.0.0.1 {VNI} {GONE} seq 0"])
        look(edge, folder, 10)
        edge.tell([f"advert 10.0.0.2 {VNI} {GONE} seq 5"])
        look(edge, folder, 10)
        edge.tell([f"withdraw 10.0.0.2 {VNI} {GONE}"])
        text = look(edge, folder, 30)
        tally.see(f"wrong {VNI} {GONE} owner 10.0.0.1" in text, f"the kernel goes on sending to 10.0.0.2\n{text}")
        tally.see(edge.goes(VNI, GONE) == "10.0.0.2", "a real frame goes there")
        mend = next(line.strip()[len("mend: ") :] for line in text.splitlines() if line.startswith("    mend: "))
        edge.within("sh", "-c", mend)
        tally.see(edge.goes(VNI, GONE) == "10.0.0.1", f"a real frame goes to 10.0.0.1 after: {mend}")
        text = look(edge, folder, 10)
        tally.see("see whether zebra still names it" in text, f"zebra still names the other edge, and that is told\n{text}")
    print(f"{tally.passed} passed, {tally.failed} failed")
    return 1 if tally.failed else 0


if __name__ == "__main__":
    sys.exit(main())
