"""The schema of --json that docs/audit.md prints is the output's: of all stored views of four versions, and of whole fabrics.

The schema has a line for each key of each object, with the key's type: text, number, boolean, TYPE or null, [TYPE] for a list,
{TYPE} for an object with any keys, or the name of an object of the schema.
"""

import json
import os
import re
import tempfile
import unittest
from typing import Dict, List, Set, Tuple

from test_audit import needs_program, run
from test_audit_views import Changed, text_of
from test_records import DATA, TOP

import audit_print

PAGE = os.path.join(TOP, "docs", "audit.md")
BLOCK = re.compile(r"^```text read=tests/tools/test_audit_schema\.py\n(.*?)^```$", re.M | re.S)
PLAIN = {"text": str, "number": int, "boolean": bool}
ROUTED, VIEWS = os.path.join(DATA, "routed"), os.path.join(DATA, "views")
Schema = Dict[str, Dict[str, str]]
SCHEMA = """\
audit:
  schema: number
  status: number
  views: [view]
  results: [result]
view:
  view: text
  causes: [cause]
  devices left out: [text]
result:
  vni: number
  view: text
  kind: text
  fault: text or null
  sums: {number}
  causes: [cause]
  macs: [station]
  not judged: [text]
  floods: [entry] or null
  neighbours: [entry] or null
  routers: [entry] or null
  left out: {number}
  told: {number}
cause:
  kind: text
  what: text
  text: text
  stops: boolean
  stations: [text]
station:
  mac: text
  kind: text
  owner: text
  reason: text
  bgpd: text
  zebra: text
  kernel: text
  heir: text
  cause: text
  adverts: [text]
  mend: text
  see: text
  since: number or null
entry:
  kind: text
  what: text
  wanted: text
  found: text
  mend: text
  see: text
fabric:
  schema: number
  leaves: number
  silent: {text}
  causes: [cause of a leaf]
  lacks: [lack]
  keeps: [lack]
  reflector lacks: {number}
  macs: [place]
  entries: [entry of a leaf]
  networks: [network]
cause of a leaf:
  leaf: text
  vni: number or null
  text: text
lack:
  leaf: text
  edge: text
  stations: number
  sessions: text
place:
  vni: number
  mac: text
  owner: text
  leaves: {[text]}
entry of a leaf:
  leaf: text
  vni: number
  kind: text
  what: text
  wanted: text
  found: text
  mend: text
  see: text
network:
  leaf: text
  vni: number
"""


def schema_of(text: str) -> Schema:
    """The objects of a page's block: a name on a line of its own, then its keys, each with its type."""
    found: Schema = {}
    name = ""
    for line in text.splitlines():
        if line and not line.startswith(" "):
            name = line.rstrip(":")
            found[name] = {}
        elif line:
            key, _, kind = line.strip().partition(": ")
            found[name][key] = kind
    return found


class Checks:
    """Compares values with a schema; `seen` has each alternative of a key's type that some value has."""

    def __init__(self, schema: Schema) -> None:
        self.schema = schema
        self.seen: Set[Tuple[str, str]] = set()
        self.faults: List[str] = []

    def value(self, where: str, kind: str, value: object) -> None:
        """A value has a type."""
        if kind.endswith(" or null"):
            self.seen.add((where, "null" if value is None else "value"))
            if value is not None:
                self.value(where, kind[: -len(" or null")], value)
        elif kind in PLAIN:
            self.see(where, type(value) is PLAIN[kind], kind, value)
        elif kind.startswith("["):
            self.see(where, isinstance(value, list), kind, value)
            for each in value if isinstance(value, list) else ():
                self.value(f"{where}[]", kind[1:-1], each)
        elif kind.startswith("{"):
            self.see(where, isinstance(value, dict), kind, value)
            for each in value.values() if isinstance(value, dict) else ():
                self.value(f"{where}{{}}", kind[1:-1], each)
        else:
            self.object(kind, value)

    def see(self, where: str, holds: bool, kind: str, value: object) -> None:
        """Notes what was seen, or what is wrong."""
        self.seen.add((where, "value"))
        if not holds:
            self.faults.append(f"{where}: {json.dumps(value)[:60]} is no {kind}")

    def object(self, name: str, value: object) -> None:
        """An object has the keys of the page, in the page's order, and no others."""
        keys = list(value) if isinstance(value, dict) else None
        if keys != list(self.schema[name]):
            self.faults.append(f"{name}: {keys} in the place of {list(self.schema[name])}")
            return
        for key, kind in self.schema[name].items():
            self.value(f"{name}.{key}", kind, value[key])


@needs_program
class OfThePage(unittest.TestCase):
    """The page's schema, and what --json prints."""

    def setUp(self) -> None:
        self.schema = schema_of(SCHEMA)
        self.checks = Checks(self.schema)

    def test_the_page_has_it(self):
        """Word by word, with the number of the schema."""
        with open(PAGE, encoding="utf-8") as stream:
            page = stream.read()
        self.assertEqual(BLOCK.search(page)[1], SCHEMA)
        self.assertIn(f"if `schema` is {audit_print.SCHEMA}", page)

    def is_whole(self, *names: str) -> None:
        """No value differs, and each key's type and null, if it may be null, was seen."""
        self.assertEqual(self.checks.faults[:3], [])
        for name in names:
            for key, kind in self.schema[name].items():
                wanted = {"value", "null"} if kind.endswith(" or null") else {"value"} if kind in PLAIN or kind[0] in "[{" else set()
                seen = {which for where, which in self.checks.seen if where == f"{name}.{key}"}
                self.assertEqual(seen, wanted, f"{name}.{key}")

    def test_audits(self):
        """All stored views."""
        views = [os.path.join(folder, version, name) for folder in (ROUTED, VIEWS) for version in sorted(os.listdir(folder))
                 for name in sorted(os.listdir(os.path.join(folder, version)))]  # fmt: skip
        self.assertGreater(len(views), 120)
        for place in range(0, len(views), 16):
            done = run("--json", *views[place : place + 16])
            self.assertEqual(done.returncode, 1, done.stderr)
            self.checks.object("audit", json.loads(done.stdout))
        with tempfile.TemporaryDirectory() as folder:
            said = json.loads(run("--json", "--state", os.path.join(folder, "state"), os.path.join(ROUTED, "10.3", "otheredge")).stdout)
        self.checks.object("audit", said)
        with Changed(os.path.join(ROUTED, "10.3", "l3vni")) as changed:  # a network that can't be audited
            changed.write("links.json", [link for link in text_of(changed.path, "links.json") if link["ifname"] != "vxlan5002"])
            self.checks.object("audit", json.loads(run("--json", changed.path).stdout))
        self.is_whole("audit", "view", "result", "cause", "station", "entry")

    def test_fabrics(self):
        """Leaves of all versions, one that doesn't answer, with a reflector's routes and without."""
        for version in sorted(os.listdir(ROUTED)):
            there = [os.path.join(ROUTED, version, name) for name in ("l3vni", "otheredge", "session", "devicedown", "bridgedown")]
            for words in ((), ("--routes", there[0]), ("--routes", os.path.join(ROUTED, version, "session"))):
                done = run("fabric", ",".join([*there, "/nowhere"]), "--json", *words)
                self.assertEqual(done.returncode, 1, done.stderr)
                self.checks.object("fabric", json.loads(done.stdout))
        self.is_whole("fabric", "lack", "place", "entry of a leaf", "cause of a leaf")


if __name__ == "__main__":
    unittest.main()
