#!/usr/bin/env python3
"""Prints N routes (1,000,000 if none is said) as FRR prints them, laid out in lines, for a measurement:

    python3 tests/tools/million_routes.py | python3 tools/evpnd_records.py frr --vni 5001 > records

50 PEs, each of which says as many MACs; each MAC is said by two of them, every seventh with an IP.
"""

import json
import sys

PES = 50


def path_of(pe: int, prefix: str, mac: str, sequence: int) -> dict:
    """A route with its one path."""
    community = "RT:65000:5001 ET:8" + (f" MM:{sequence}" if sequence else "")
    path = {
        "valid": True, "bestpath": True, "selectionReason": "First path received", "pathFrom": "internal",
        "routeType": 2, "ethTag": 0, "macLen": 48, "mac": mac, "locPrf": 100, "weight": 0,
        "peerId": "192.168.77.2", "path": "", "origin": "IGP", "extendedCommunity": {"string": community},
        "nexthops": [{"ip": f"10.0.0.{pe}", "afi": "ipv4", "used": True}],
    }
    return {"prefix": prefix, "prefixLen": 352, "paths": [[path]]}


def main() -> None:
    """Prints the table, PE by PE."""
    count = int(sys.argv[1]) if len(sys.argv) > 1 else 1_000_000
    print("{")
    for pe in range(1, PES + 1):
        print(f' "10.0.0.{pe}:1":{{\n  "rd":"10.0.0.{pe}:1"', end="")
        for place in range(count // PES):
            station = (pe // 2) * (count // PES) + place
            mac = ":".join(f"{octet:02x}" for octet in (0x02000000 << 16 | station).to_bytes(6, "big"))
            prefix = f"[2]:[0]:[48]:[{mac}]" + (f":[32]:[192.0.{station // 250 % 250}.{station % 250}]" if station % 7 == 0 else "")
            print(f',\n  "{prefix}":' + json.dumps(path_of(pe, prefix, mac, station % 5), indent=1), end="")
        print("\n },")
    print(f' "numPrefix":{count},\n "numPaths":{count}\n}}')


if __name__ == "__main__":
    main()
