"""docs/configuration.md against the schema of the configuration: each key in its order, with its range, default and need."""

import re
import unittest
from typing import Dict, List, NamedTuple, Optional, Tuple

from test_documents import tables, text_of

SCHEMA = text_of("crates/ev_config/src/schema.rt")
PAGE = text_of("docs/configuration.md")
RANGE = re.compile(r"const (\w+): Range = Range\(([^)]*)\);")
TABLE = re.compile(r"const (\w+): \[Row; (\d+)\] = \[(.*?)\n?\];", re.DOTALL)
ROW = re.compile(r'Row\(\s*"(\w+)",\s*KeyKind::(\w+)(?:\((\w+)\))?,\s*("[^"]*"|\w+),?\s*\)')


class Range(NamedTuple):
    """A range of numbers, and the default."""

    low: int
    high: int
    step: int
    default: int


class Row(NamedTuple):
    """A row of the schema."""

    key: str
    kind: str
    content: Optional[str]


def ranges() -> Dict[str, Range]:
    """Returns the ranges of the schema by their names."""
    return {name: Range(*(int(it.replace("_", ""), 0) for it in numbers.split(","))) for name, numbers in RANGE.findall(SCHEMA)}


def rows_of(wanted: str) -> List[Row]:
    """Returns the rows of a table of the schema that have a literal key."""
    for name, count, body in TABLE.findall(SCHEMA):
        if name == wanted:
            found = [Row(key, kind, content or None) for key, kind, content, _ in ROW.findall(body)]
            assert len(found) + body.count("EDGES") == int(count), wanted
            return found
    raise AssertionError(wanted)


def page_rows(heading: str) -> List[Tuple[str, str, str]]:
    """Returns the rows of the first table below a heading of the page: key, value, default."""
    section = PAGE[PAGE.index(heading) :]
    _, lines = next(iter(tables(section)))
    cells = [[cell.strip() for cell in line.strip().strip("|").split("|")] for line in lines[2:]]
    return [(key.strip("`"), value, default) for key, value, default in cells]


def span(found: Range) -> str:
    """Returns the words of a range."""
    steps = f" in steps of {found.step}" if found.step else ""
    return f"{found.low} to {found.high}{steps}"


class PageAgainstSchema(unittest.TestCase):
    """The tables of the page, and the words about the document's own keys."""

    def compare(self, table: str, heading: str) -> None:
        """Compares a table of the page with a table of the schema."""
        known = ranges()
        rows, found = rows_of(table), page_rows(heading)
        self.assertEqual([row.key for row in rows], [key for key, _, _ in found])
        for row, (key, value, default) in zip(rows, found):
            with self.subTest(key=key):
                if row.kind == "Number":
                    self.assertIn(span(known[row.content or ""]), value)
                    self.assertEqual(default, "`capacity`" if key == "buckets" else str(known[row.content or ""].default))
                elif row.kind == "Flag":
                    self.assertEqual(default, row.content)
                elif row.kind == "Endpoint":
                    self.assertTrue(default.startswith("required only by"))
                elif row.kind == "Device":
                    self.assertEqual(default, "none")
                else:
                    self.assertEqual(default, "required")

    def test_keys_of_an_edge(self) -> None:
        """Each key of an edge has its range, its default and its need."""
        self.compare("EDGE", "## `[[edge]]`")
        self.assertIn(span(ranges()["VNI"]), dict((key, value) for key, value, _ in page_rows("## `[[edge]]`"))["vnis"])

    def test_keys_of_a_port(self) -> None:
        """Each key of a port has its range, its default and its need."""
        self.compare("PORT", "## `[[edge.port]]`")

    def test_keys_of_the_document(self) -> None:
        """Each number among the document's own keys has its range and its default in the text of its paragraph."""
        known = ranges()
        for row in rows_of("SERVED"):
            if row.kind == "Number":
                found = known[row.content or ""]
                paragraph = next(it for it in PAGE.split("\n") if it.startswith(f"`{row.key} = "))
                self.assertIn(f", {span(found)}.", paragraph)
                self.assertIn(f"The default is {found.default}.", paragraph)

    def test_length_of_a_path(self) -> None:
        """The page and the advice have the length of a path that the reader allows."""
        most = re.search(r"LONGEST_PATH: usize = (\d+);", text_of("crates/ev_config/src/values.rt"))
        assert most
        self.assertIn(f"1 to {most[1]} octets", PAGE)
        self.assertIn(f"1 to {most[1]} octets", SCHEMA)

    def test_length_of_a_device(self) -> None:
        """The page and the advice have the length of a device's name that the reader allows."""
        most = re.search(r"LONGEST_NAME: usize = (\d+);", text_of("crates/ev_links/src/device_name.rt"))
        assert most
        self.assertIn(f"1 to {most[1]} letters", dict((key, value) for key, value, _ in page_rows("## `[[edge.port]]`"))["device"])
        self.assertIn(f"1 to {most[1]} letters", SCHEMA)


if __name__ == "__main__":
    unittest.main()
