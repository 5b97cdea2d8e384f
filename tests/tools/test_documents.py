"""Facts that several documents state, or a document and the program: they have to agree."""

import os
import re
import subprocess
import sys
import tempfile
import unittest
from typing import Iterator, List, Tuple

TOP = os.path.dirname(os.path.dirname(os.path.dirname(os.path.abspath(__file__))))
sys.path.insert(0, os.path.join(TOP, "tools"))
import audit_report  # noqa: E402

PROGRAM = os.environ.get("EVPND") or audit_report.program_of(None)
SEPARATOR = re.compile(r"\|(\s*:?-+:?\s*\|)+")
TERMS = (
    *("must-fail", "goal", "hole", "lemma", "tactic", "ghost", "specification", "invariant", "kit", "cut"),
    *("zebra", "bgpd", "FDB", "VTEP", "L3VNI"),
)
# Two faults of one edge, in different keys.
FAULTY = '[[edge]]\naddress = "10.0.0.256"\nbridge = "02:aa:00:00:00"\nvnis = [5001]\n'


def text_of(path: str) -> str:
    """Returns the text of a file of the repository."""
    with open(os.path.join(TOP, path), encoding="utf-8") as stream:
        return stream.read()


def documents() -> List[str]:
    """Returns the paths of all documents."""
    words = ["git", "ls-files", "--cached", "--others", "--exclude-standard", "*.md"]
    found = subprocess.run(words, cwd=TOP, capture_output=True, text=True, check=True).stdout.split()
    return [path for path in found if os.path.exists(os.path.join(TOP, path))]


def tables(text: str) -> Iterator[Tuple[int, List[str]]]:
    """Yields the tables of a page, with the number of the first line: lines that begin with a bar and follow one another."""
    rows: List[str] = []
    in_code = False
    for number, line in enumerate([*text.split("\n"), ""], 1):
        in_code ^= line.lstrip().startswith("```")
        if line.startswith("|") and not in_code:
            rows.append(line)
        elif rows:
            yield number - len(rows), rows
            rows = []


def cells(row: str) -> List[str]:
    """Returns the cells of a row."""
    return [cell.strip() for cell in re.split(r"(?<!\\)\|", row.strip()[1:-1])]


def section(text: str, title: str) -> str:
    """Returns the text of a section, up to the next heading."""
    return text.split(f"# {title}\n", 1)[1].split("\n#", 1)[0]


def column(text: str, *names: str, of: str = "") -> List[float]:
    """Returns the numbers in these columns of the first table of a section, in the rows whose first cell begins with `of`."""
    _, rows = next(tables(text))
    places = [cells(rows[0]).index(name) for name in names]
    found = (cells(row)[place] for row in rows[2:] if cells(row)[0].startswith(of) for place in places)
    return [float(cell) for cell in found if cell]


def span(numbers: List[float], digits: int) -> str:
    """Returns the range of some numbers as the README has it."""
    return f"{min(numbers):.{digits}f} to {max(numbers):.{digits}f}"


class Tables(unittest.TestCase):
    """A blank line in a table cuts it: the rows after it have no heading, and no page shows them as a table."""

    def test_each_is_whole(self) -> None:
        count = 0
        for path in documents():
            for line, rows in tables(text_of(path)):
                count += 1
                self.assertTrue(len(rows) > 2 and SEPARATOR.fullmatch(rows[1].strip()), f"{path}:{line}: {rows[0]}")
                self.assertEqual({len(cells(row)) for row in rows}, {len(cells(rows[0]))}, f"{path}:{line}")
        self.assertGreater(count, 100)

    def test_a_cut_is_found(self) -> None:
        found = list(tables("| a | b |\n|---|---|\n| 1 | 2 |\n\n| 3 | 4 |\n"))
        self.assertEqual([line for line, rows in found if len(rows) < 2 or not SEPARATOR.fullmatch(rows[1])], [5])


class Figures(unittest.TestCase):
    """The README's figures of speed are those of the tables in docs/benchmarks.md, and no other page has different ones."""

    def test_readme_has_those_of_the_tables(self) -> None:
        page = text_of("docs/benchmarks.md")
        line = next(line for line in text_of("README.md").split("\n") if line.startswith("- **Speed**"))
        event = span(column(section(page, "Instructions an event"), "ours / plain"), 1)
        self.assertIn(f"an edge's event {event} times", line)
        report = span(column(section(page, "Reports"), "ours / ordered", "ours / flat", of="instructions"), 1)
        self.assertIn(f"a report {report} times", line)

    def test_no_page_has_others(self) -> None:
        line = next(line for line in text_of("README.md").split("\n") if line.startswith("- **Speed**"))
        for path in documents():
            for found in re.findall(r"an edge's event (?:takes )?([0-9.]+ to [0-9.]+) times", text_of(path)):
                self.assertIn(f"an edge's event {found} times", line, path)


class Pictures(unittest.TestCase):
    """docs/no_circle.svg is drawn from its text; tests of the audit and of simulations draw fault.svg and move.svg."""

    def test_no_circle(self) -> None:
        words = [sys.executable, "-B", os.path.join(TOP, "tools", "network_svg.py"), os.path.join(TOP, "docs", "no_circle.txt")]
        drawn = subprocess.run(words, capture_output=True, encoding="utf-8", check=True).stdout
        self.assertEqual(drawn, text_of("docs/no_circle.svg"))


class NotYet(unittest.TestCase):
    """The list of docs/theorems.md denies nothing that is there."""

    def test_updates_between_processes(self) -> None:
        page = text_of("docs/theorems.md")
        listed = section(page, "Not yet")
        self.assertNotRegex(listed, r"(?i)\b(nothing|no \w+|nobody) (carries|sends|exchanges)\b[^.]*\bprocess")
        for title in re.findall('"([^"]+)", above', listed):
            self.assertIn(f"**{title}", page)


class Help(unittest.TestCase):
    """`check --help` promises a line for each fault, and `check` prints them."""

    def test_check_prints_each_fault(self) -> None:
        told = subprocess.run([PROGRAM, "check", "--help"], capture_output=True, encoding="utf-8", check=False)
        told_of = told.stdout + told.stderr
        self.assertIn("each fault", told_of)
        self.assertNotIn("first fault", told_of)
        with tempfile.NamedTemporaryFile("w", suffix=".toml", encoding="utf-8") as config:
            config.write(FAULTY)
            config.flush()
            done = subprocess.run([PROGRAM, "check", "--config", config.name], capture_output=True, encoding="utf-8", check=False)
        self.assertEqual(done.returncode, 2)
        for key in ("address", "bridge"):
            self.assertTrue(any(key in line for line in done.stderr.split("\n")), done.stderr)


class Glossary(unittest.TestCase):
    """The terms of proofs, Linux and FRR are explained, and the first pages link to them."""

    def test_terms(self) -> None:
        rows = [cells(row)[0] for _, table in tables(text_of("docs/glossary.md")) for row in table]
        for term in TERMS:
            self.assertTrue(any(re.match(rf"{term}\b", row) for row in rows), term)

    def test_links_come_early(self) -> None:
        for path in ("README.md", "CONTRIBUTING.md"):
            text = text_of(path)
            linked = text.index("docs/glossary.md")
            first = min(found.start() for term in TERMS for found in [re.search(rf"\b{term}\b", text)] if found)
            self.assertLess(linked, text.index("\n\n", first) + 300, path)


class AuditReading(unittest.TestCase):
    """The reading list of the headline: each definition is in the file that the list names, and the page has their lines."""

    def lines_of(self, path: str, name: str) -> int:
        """Returns the lines of a definition, without comments: from its name to the next empty line."""
        lines = text_of(os.path.join("crates", path)).split("\n")
        heads = (number for number, line in enumerate(lines) if re.match(rf"\s*(pub |abbrev |record |struct |enum )+{name}\b", line))
        begin = next(heads, None)
        self.assertIsNotNone(begin, f"{name} is not in {path}")
        end = lines.index("", begin)
        return sum(not line.strip().startswith(("--", "//")) for line in lines[begin:end])

    def test_definitions_and_lines(self) -> None:
        page = text_of("docs/audit_reading.md")
        _, rows = next(tables(section(page, "The headline in 60 lines")))
        count = {".antt": 0, ".rt": 0}
        for row in rows[2:]:
            _, names, path, _ = cells(row)
            path = path.strip("`")
            count[os.path.splitext(path)[1]] += sum(self.lines_of(path, name) for name in re.findall("`([^`]+)`", names))
        self.assertIn(f"{count['.antt']} lines, beside {count['.rt']} lines of Rust types", page)


if __name__ == "__main__":
    unittest.main()
