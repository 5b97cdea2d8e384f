#!/usr/bin/env python3
"""Runs the built program once for each row of tests/statuses.txt, and compares the status, the output and the notes.

EVPND names the program; by default it is the one that `rt run` leaves. The last line is 'N passed, M failed'.
"""

import os
import random
import re
import resource
import shlex
import subprocess
import sys
import tempfile
import time
from typing import Dict, List, NamedTuple

TOP = os.path.dirname(os.path.dirname(os.path.abspath(__file__)))
TABLE = os.path.join(TOP, "tests", "statuses.txt")
PROGRAM = os.path.abspath(os.environ.get("EVPND") or f"{TOP}/crates/evpnd/out/evpnd")
# for how many seconds a run is waited for: many, so that a busy machine makes no failure
SECONDS = 60
FAULT = r"((edge|peer) [0-9]+(, port [0-9]+)?: )?{} is .*, (allowed|which) .*"
SUMMARY = "% ok: [0-9]+ edges?, [0-9]+ ports?, [0-9]+ VNIs?"
ESCAPE = re.compile(r"\\(?:x([0-9a-f]{2})|r)")
PLACE = re.compile(r"\{(?:(\d+)([*,x]))?(\w+)\}")


class Ran(NamedTuple):
    """What came of a run. An octet is a character."""

    status: int
    out: str
    notes: str


def read(*path: str) -> str:
    """Returns the octets of a file of the repository, each as a character."""
    with open(os.path.join(TOP, *path), encoding="latin-1", newline="") as stream:
        return stream.read()


def plain(cell: str) -> str:
    """Returns a cell with its line feeds and octets. TOML's own escapes stay."""
    return ESCAPE.sub(lambda it: chr(int(it[1], 16)) if it[1] else "\r", cell.replace("; ", "\n"))


def is_said(cell: str, said: str) -> bool:
    """Returns `True` if an output is what a cell allows."""
    kind, text = cell[:2], cell[2:]
    if cell in ("*", ">full", ">closed"):
        return True
    if cell == "+":
        return said != ""
    if kind == "~ ":
        return all(it in said for it in text.split(" & "))
    if kind == "^ ":
        return said.startswith(text)
    if kind == "% ":
        return re.fullmatch(text, said.rstrip("\n")) is not None
    return said == (cell and f"{cell}\n")


def said_by(child: "subprocess.Popen[bytes]") -> List[str]:
    """Waits for the end of a run, or ends it, and returns what it wrote to pipes."""
    try:
        said = child.communicate(timeout=SECONDS)
    except subprocess.TimeoutExpired:
        child.kill()
        said = child.communicate()
    return [(it or b"").decode("latin-1") for it in said]


class Statuses:
    """The rows, one after the other. A method `row_KIND` takes the cells of a row of this kind."""

    def __init__(self, work: str) -> None:
        self.passed = self.failed = 0
        self.work = work
        record = read("crates", "evpnd", "stdin")
        self.texts: Dict[str, str] = {
            "work": work, "conf": f"{work}/fabric.toml", "script": f"{work}/script", "control": f"{work}/control",
            "host": f"127.{random.randrange(64, 128)}.{random.randrange(1, 255)}", "program": os.path.basename(PROGRAM),
            "record": record, "cut": record[:55], "report": read("crates", "evpnd", "stdout").rstrip("\n"),
            "version": re.search(r"(?m)^## ([0-9.]+)", read("CHANGELOG.md"))[1],
        }
        os.mkfifo(f"{work}/fifo")

    def text_of(self, cell: str) -> str:
        """Returns a cell with all that it names."""

        def put(found: "re.Match[str]") -> str:
            count, how, name = found.groups()
            if how is None:
                return self.texts[name]
            if how == "x":
                return name * int(count)
            texts = (self.texts[name].replace("#x", f"{n:02x}").replace("#", str(n)) for n in range(1, int(count) + 1))
            return ("\n" if how == "*" else ",").join(texts)

        text, before = plain(cell), ""
        while text != before:
            text, before = PLACE.sub(put, text), text
        return text

    def write(self, name: str, text: str) -> None:
        """Writes a file of this text."""
        with open(self.texts[name], "w", encoding="latin-1", newline="") as stream:
            stream.write(text)

    def case(self, name: str, is_right: bool, ran: Ran) -> None:
        """Counts a case."""
        self.passed += is_right
        self.failed += not is_right
        if not is_right:
            print(f"failed: {name} (status {ran.status})\n{ran.out[:300]}{ran.notes[:300]}", flush=True)

    def run(self, words: str, given: str = "", out: str = "", notes: str = "") -> Ran:
        """Runs the program. `given` is its input, or which one it is; `out` and `notes` may be >full or >closed."""
        argv = [it.encode("latin-1") for it in shlex.split(words)]
        limit = int(argv.pop(0)[len("limit=") :]) if words.startswith("limit=") else 0

        def prepare() -> None:
            for number, text in enumerate((given, out, notes)):
                if text in ("<closed", ">closed"):
                    os.close(number)
            if limit:
                resource.setrlimit(resource.RLIMIT_NOFILE, (limit, limit))

        files = {"<zero": "/dev/zero", "<directory": self.work, "<closed": os.devnull}
        if given not in files:
            self.texts["input"] = files[given] = f"{self.work}/input"
            self.write("input", "" if given == "<later" else given)
        stdin = subprocess.PIPE if given == "<later" else os.open(files[given], os.O_RDONLY)
        ends = [os.open("/dev/full", os.O_WRONLY) if it == ">full" else subprocess.PIPE for it in (out, notes)]
        with subprocess.Popen([PROGRAM, *argv], stdin=stdin, stdout=ends[0], stderr=ends[1], preexec_fn=prepare) as child:
            for it in (stdin, *ends):
                if it != subprocess.PIPE:
                    os.close(it)
            if given == "<later":
                time.sleep(2)
            said = said_by(child)
        return Ran(child.returncode, *said)

    def judge(self, name: str, words: str, status: int, out: str, notes: str, given: str = "") -> Ran:
        """Runs the program, and counts whether it ends so."""
        ran = self.run(words, given, out, notes)
        self.case(name, ran.status == status and is_said(out, ran.out) and is_said(notes, ran.notes), ran)
        return ran

    def configure(self, toml: str) -> None:
        """Writes the configuration, if it isn't that of the row before."""
        if toml != "=":
            self.write("conf", f"{toml}\n")

    def row_text(self, name: str, text: str) -> None:
        self.texts[name] = text

    def row_conf(self, toml: str) -> None:
        self.configure(toml)

    def row_script(self, text: str) -> None:
        self.write("script", text)

    def row_words(self, words: str) -> None:
        self.row_usage(f"words: {words}", words, "+")

    def row_usage(self, name: str, words: str, notes: str) -> None:
        self.judge(name, words, 2, "", notes, self.texts["record"])

    def row_run(self, name: str, words: str, status: str, out: str = "", notes: str = "", given: str = "") -> None:
        self.judge(name, words, int(status), out, notes, given)

    def row_fine(self, name: str, toml: str, out: str = "") -> None:
        self.configure(toml)
        self.judge(name, "simulate --config " + self.texts["conf"], 0, "", "")
        self.row_ok(name, "=", out)

    def row_ok(self, name: str, toml: str, out: str = "") -> None:
        self.configure(toml)
        ran = self.judge(f"{name}, checked", "check --config " + self.texts["conf"], 0, SUMMARY, "")
        if out:
            self.case(f"{name}, summed up", is_said(out, ran.out), ran)

    def row_key(self, name: str, toml: str, key: str) -> Ran:
        self.configure(toml)
        return self.judge(name, "simulate --config " + self.texts["conf"], 2, "", f"^ config {key}\n")

    def row_faulty(self, name: str, toml: str, key: str, count: str = "1") -> None:
        behind = self.row_key(name, toml, key).notes.partition("\n")[2]
        pattern = FAULT.format(re.escape(key)) + r"(\n.*){%d}" % (int(count) - 1)
        ran = self.judge(f"{name}, checked", "check --config " + self.texts["conf"], 2, "", f"% {pattern}")
        self.case(f"{name}: the lines of a check follow the key", ran.notes == behind, ran)

    def row_wrong(self, name: str, toml: str, faults: str, flag: str = "") -> None:
        self.configure(toml)
        name = f"{name}, checked" + (f" with {flag}" if flag else "")
        self.judge(name, f"check {flag} --config " + self.texts["conf"], 2, "", faults)

    def row_unserved(self, name: str, toml: str, key: str, faults: str) -> None:
        self.configure(toml)
        self.judge(name, "serve --config " + self.texts["conf"], 2, "", f"config {key}\n{faults}")
        self.judge(f"{name}, checked", "check --serve --config " + self.texts["conf"], 2, "", faults)

    def row_looked(self, name: str, script: str, status: str, out: str, notes: str = "") -> None:
        self.write("script", script)
        self.judge(name, f"check --config {self.texts['conf']} --script {self.texts['script']}", int(status), out, notes)

    def row_bad(self, line: str, why: str) -> None:
        notes = f"{self.texts['script']}:2: {why}"
        self.row_looked(f"a bad line: {line[:40]}", f"1 announce\n{line}\n1 report\n", "1", self.texts["summary"], notes)

    def row_played(self, line: str, why: str) -> None:
        words, given = "play --config " + self.texts["conf"], f"# a remark\n\n{line}\n1 announce\n"
        self.judge(f"a bad line that is played: {line}", words, 1, "", f"line 3 bad\nstandard input:3: {why}", given)

    def row_gone(self, name: str) -> None:
        self.case(name, not os.path.lexists(self.texts["control"]), Ran(0, "", ""))

    def row_do(self, function: str) -> None:
        getattr(self, function)()

    def piped(self, given: str, names: List[str], wanted: Ran) -> None:
        """Two cases of a report whose input stays open: its notes meanwhile, and its end, which comes meanwhile after a fault."""
        words = [PROGRAM, "report", "--originators", "10.0.0.1" if wanted.out else "10.0.0.9"]
        reader, writer = os.pipe()
        os.write(writer, given.encode("latin-1"))
        with open(f"{self.work}/notes", "wb") as notes:
            with subprocess.Popen(words, stdin=reader, stdout=subprocess.PIPE, stderr=notes) as child:
                until = time.monotonic() + SECONDS
                while time.monotonic() < until and (child.poll() is None if wanted.status else not os.path.getsize(notes.name)):
                    time.sleep(0.1)
                meanwhile, is_ended = read(notes.name), child.poll() is not None
                os.close(reader)
                os.close(writer)
                out = said_by(child)[0]
        ran = Ran(child.returncode, out, read(notes.name))
        self.case(names[0], meanwhile == wanted.notes and is_ended == (wanted.status != 0), ran)
        self.case(names[1], ran == wanted, ran)

    def fault_before_silence(self) -> None:
        """A fault is reported at once, and ends a report whose input stays open."""
        wanted = Ran(1, read("crates", "evpnd", "stdout"), "fault 1 at record 2\n")
        self.piped(self.texts["record"] + "XX", ["a fault is told at once", "a fault before silence"], wanted)

    def notes_before_the_end(self) -> None:
        """The notes on a piece are there while the next one is awaited."""
        names = ["a note before the input's end", "nothing more after it"]
        self.piped(self.texts["record"], names, Ran(0, "", "record 1 refused 12\n"))

    def played_example(self) -> None:
        """`play` shows each command, and answers as `simulate`."""
        script, words = read("examples", "sites.script"), f"--config {TOP}/examples/sites.toml"
        simulated, played = self.run(f"simulate {words}", script), self.run(f"play {words}", script)
        lines = played.out.splitlines(keepends=True)
        self.case("each command is shown", "".join(it[2:] for it in lines if it.startswith("> ")) == script, played)
        answers = "".join(it for it in lines if not it.startswith("> "))
        is_same = (played.status, answers, played.notes) == (0, simulated.out, "")
        self.case("what is played answers as what is simulated", is_same, played)

    def built_tests(self) -> None:
        """The tests that refuse memory and fail devices, with this build."""
        for name in ("refused_growth", "failing_ends"):
            words = [sys.executable, "-B", f"{TOP}/tests/program/test_{name}.py"]
            done = subprocess.run(words, env={**os.environ, "EVPND": PROGRAM}, capture_output=True, encoding="latin-1", check=False)
            self.case(name, done.returncode == 0, Ran(done.returncode, done.stdout[-300:], done.stderr))


def main() -> int:
    """Goes through the table."""
    with tempfile.TemporaryDirectory() as work:
        statuses = Statuses(work)
        for line in read("tests", "statuses.txt").split("\n"):
            if line and not line.startswith("#"):
                kind, *cells = (f"{line} " if line.endswith(" |") else line).split(" | ")
                getattr(statuses, f"row_{kind}")(*map(statuses.text_of, cells))
    print(f"{statuses.passed} passed, {statuses.failed} failed")
    return 1 if statuses.failed else 0


if __name__ == "__main__":
    sys.exit(main())
