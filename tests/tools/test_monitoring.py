"""The board for Grafana (examples/monitoring/grafana.json): the fields that Grafana's import needs, and whether each query finds what
the audit writes for Prometheus. No Grafana is in Debian; the rules of the fields are those of its documentation of JSON models."""

import json
import os
import re
import tempfile
import unittest
from typing import Dict, List, NamedTuple, Set

from test_audit import needs_program, run
from test_audit_routed import VERSIONS, view
from test_records import TOP

import audit_print

BOARD = os.path.join(TOP, "examples", "monitoring", "grafana.json")
COLUMNS = 24
PANELS = ("stat", "timeseries")  # kinds of panels that Grafana has without a plugin
SELECTOR = re.compile(r"(evpnd_[a-z_]+)\{([^}]*)\}")
MATCHER = re.compile(r'([a-z_]+)(=~|=)"([^"]*)"')
SERIES = re.compile(r"(evpnd_[a-z_]+)(?:\{(.*)\})? ([0-9]+)")
LABEL = re.compile(r'([a-z_]+)="((?:[^"\\]|\\.)*)"')
SCRAPED = "leaf1"  # Prometheus adds the label `instance` to all that it scrapes


class Series(NamedTuple):
    """A series that the audit writes."""

    name: str
    labels: Dict[str, str]


def series_of(text: str) -> List[Series]:
    """The series of a text for Prometheus."""
    found = [SERIES.fullmatch(line) for line in text.splitlines() if not line.startswith("#")]
    return [Series(each[1], {**dict(LABEL.findall(each[2] or "")), "instance": SCRAPED}) for each in found]


def is_met(labels: Dict[str, str], matchers: str) -> bool:
    """Whether labels have what a selector wants."""
    for name, sign, value in MATCHER.findall(matchers):
        found = labels.get(name, "")
        if not (re.fullmatch(value, found) if sign == "=~" else found == value):
            return False
    return True


class Board(unittest.TestCase):
    """The fields of the board."""

    def setUp(self) -> None:
        with open(BOARD, encoding="utf-8") as stream:
            self.text = stream.read()
        self.board = json.loads(self.text)
        self.variables = {each["name"]: each for each in self.board["templating"]["list"]}

    def test_what_the_import_needs(self):
        """A title, a uid of at most 40 characters that a URL can have, a schema's version; and no id, which each Grafana sets."""
        self.assertTrue(self.board["title"])
        self.assertRegex(self.board["uid"], r"^[A-Za-z0-9_-]{1,40}$")
        self.assertIsInstance(self.board["schemaVersion"], int)
        self.assertNotIn("id", self.board)
        self.assertEqual({*self.board["time"]}, {"from", "to"})

    def test_variables(self):
        """Each variable that the board uses is defined. Grafana queries its values only if `refresh` is 1 or 2."""
        used = {first or second for first, second in re.findall(r"\$(?:\{([a-z_]+)\}|([a-z_]+))", self.text)}
        self.assertEqual(used, {*self.variables})
        for name, each in self.variables.items():
            self.assertIn(each["refresh"], (1, 2), name)
            self.assertEqual((each["current"], each["options"]), ({}, []), name)
        self.assertEqual((self.variables["source"]["type"], self.variables["source"]["query"]), ("datasource", "prometheus"))
        self.assertEqual(self.variables["instance"]["type"], "query")
        self.assertTrue(self.variables["instance"]["includeAll"] and self.variables["instance"]["allValue"] == ".+")

    def test_panels(self):
        """Each has an id of its own, a place that no other one covers, and the data source that the reader chooses."""
        places: Set[tuple] = set()
        for panel in self.board["panels"]:
            self.assertIn(panel["type"], PANELS)
            self.assertEqual(panel["datasource"], {"type": "prometheus", "uid": "${source}"})
            x, y, width, height = (panel["gridPos"][key] for key in ("x", "y", "w", "h"))
            self.assertLessEqual(x + width, COLUMNS)
            squares = {(column, row) for column in range(x, x + width) for row in range(y, y + height)}
            self.assertFalse(places & squares, panel["title"])
            places |= squares
            first, *steps = panel["fieldConfig"]["defaults"]["thresholds"]["steps"]
            self.assertIsNone(first["value"])
            self.assertEqual(steps, sorted(steps, key=lambda step: step["value"]))
            names = [target["refId"] for target in panel["targets"]]
            self.assertEqual(len(names), len({*names}))
        numbers = [panel["id"] for panel in self.board["panels"]]
        self.assertEqual(len(numbers), len({*numbers}))

    def test_each_status_has_a_text(self):
        (mapping,) = self.board["panels"][0]["fieldConfig"]["defaults"]["mappings"]
        statuses = (audit_print.AGREE, audit_print.DIFFER, audit_print.UNREADABLE, audit_print.UNSAID, audit_print.UNJUDGED)
        self.assertEqual([*mapping["options"]], [str(status) for status in sorted(statuses)])
        texts = [mapping["options"][str(status)]["text"] for status in statuses]
        self.assertEqual(texts, ["all agree", "differs", "unreadable", "a VNI not audited", "a MAC not judged"])


@needs_program
class Queries(unittest.TestCase):
    """The board's queries and those of the alert rules, and what `--prometheus` writes of stored views of each version."""

    def written(self, version: str, *names: str) -> List[Series]:
        """The series of an audit of some views."""
        with tempfile.TemporaryDirectory() as folder:
            path = os.path.join(folder, "audit.prom")
            run("--prometheus", path, *(view(version, name) for name in names))
            with open(path, encoding="utf-8") as stream:
                return series_of(stream.read())

    def test_each_query_finds_series(self):
        """Each selector, each label that a query groups by, and each label that a legend shows; each kind is one that is written."""
        with open(BOARD, encoding="utf-8") as stream:
            board = json.load(stream)
        targets = [target for panel in board["panels"] for target in panel["targets"]]
        for version in VERSIONS:
            series = self.written(version, "otheredge", "session", "import")
            kinds = {each.labels["kind"] for each in series if each.name == "evpnd_audit_entries"}
            for target in targets:
                expression = target["expr"].replace("$instance", ".+")
                for name, matchers in SELECTOR.findall(expression):
                    found = [each for each in series if each.name == name and is_met(each.labels, matchers)]
                    self.assertTrue(found, f"{version}: {name}{{{matchers}}}")
                    labels = {*re.findall("[a-z_]+", " ".join(re.findall(r"by \(([^)]*)\)", expression)))}
                    labels |= {*re.findall(r"\{\{([a-z_]+)\}\}", target["legendFormat"])}
                    self.assertTrue(all(labels <= {*each.labels} for each in found), f"{expression}: {labels}")
                for alternatives in re.findall(r'kind=~?"([^"]*)"', expression):
                    self.assertLessEqual({*alternatives.split("|")}, kinds)

    def test_the_rules_name_what_is_written(self):
        with open(os.path.join(TOP, "examples", "monitoring", "evpnd.rules.yml"), encoding="utf-8") as stream:
            rules = stream.read()
        names = {each.name for each in self.written("10.3", "otheredge", "session")}
        self.assertLessEqual({*re.findall("evpnd_audit_[a-z_]+", rules)}, names)
        for alternatives in re.findall(r'kind=~"([^"]*)"', rules):
            self.assertIn(f'kind=~\\"{alternatives}\\"', json.dumps(json.load(open(BOARD, encoding="utf-8"))))


if __name__ == "__main__":
    unittest.main()
