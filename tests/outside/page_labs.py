"""The labs in which the commands of the pages run; `pages.sh` starts this in a network and a mount namespace of its own.

A lab makes the hosts that some sections of a page are about. Then each block of these sections runs in one shell on the reader's
host, and its output is compared with the page. The last command of a block is repeated until its output is right, as a reader would
do while a session comes up.
"""

import os
import queue
import shutil
import signal
import subprocess
import sys
import tempfile
import threading
import time
from contextlib import contextmanager
from typing import Callable, Dict, Iterator, List, Optional, Sequence, Tuple

HERE = os.path.dirname(os.path.abspath(__file__))
TOP = os.path.dirname(os.path.dirname(HERE))
sys.path[:0] = [os.path.join(TOP, "tests"), HERE, os.path.join(HERE, "frr")]
from edge import Edge  # noqa: E402
from histories import FAULTY, Tally, short_histories, two_views  # noqa: E402
from page_leaf import PageLeaf  # noqa: E402
from pages import COMPARED, STAGES, Block, Stage, blocks_in, missing  # noqa: E402
from served_lab import Lab, Served, entering  # noqa: E402

PATIENCE = 60  # seconds until a session is up, and its routes are there
PAUSE = 0.5  # seconds between two tries
BRIEF = 3  # seconds that a command runs which only a signal ends
BUILD = 900  # seconds for a command, which may build the program
PROOF = 3600  # seconds for a proof
LOOP = 'while IFS= read -r -d "" -u "$0" chunk; do eval "$chunk" < /dev/null; printf "\\n@@ %s\\n" $?; done'
TOOLS = {"evpndctl": "evpndctl", "evpnd-audit": "evpnd_audit.py", "evpnd-bgp": "evpnd_bgp.py", "evpnd-records": "evpnd_records.py"}


class Stuck(Exception):
    """A shell that has ended, or whose commands don't end."""


class Shell:
    """A bash on a host, which runs one block after the other."""

    def __init__(self, enter: Sequence[str], folder: str, there: Dict[str, str]) -> None:
        self.how = {"cwd": folder, "env": there, "start_new_session": True}
        self.enter, self.logged = list(enter), f"{folder}.log"
        self.above, self.patience = "", BUILD
        chunks, self.chunks = os.pipe()
        with open(self.logged, "ab") as log:
            how = {**self.how, "stdin": subprocess.DEVNULL, "stdout": subprocess.PIPE, "stderr": log, "pass_fds": [chunks]}
            self.bash = subprocess.Popen([*self.enter, "bash", "-c", LOOP, str(chunks)], encoding="utf-8", **how)
        os.close(chunks)
        self.lines: "queue.Queue[Optional[str]]" = queue.Queue()
        threading.Thread(target=self.read, daemon=True).start()
        self.others: List[subprocess.Popen] = []

    def read(self) -> None:
        """Passes the output on, line by line."""
        for line in self.bash.stdout:
            self.lines.put(line)
        self.lines.put(None)

    def run(self, commands: str) -> Tuple[int, str]:
        """Runs commands; returns the status of the last one, and the output of all."""
        os.write(self.chunks, commands.encode() + b"\0")
        printed, until = "", time.monotonic() + self.patience
        while True:
            try:
                line = self.lines.get(timeout=max(0.1, until - time.monotonic()))
            except queue.Empty:
                line = None
            if line is None:
                raise Stuck(f"no end of {commands!r}, which printed {printed!r}")
            if line.startswith("@@ "):
                self.above += printed
                return int(line.split()[1]), printed[:-1]
            printed += line

    def start(self, block: Block) -> subprocess.Popen:
        """Starts a block that runs on; its output goes to a file."""
        out, log = f"{self.how['cwd']}.{block.line}", open(self.logged, "ab")
        with open(out, "wb") as stream, log:
            words = [*self.enter, "bash", "-c", "\n".join(block.lines)]
            self.others.append(subprocess.Popen(words, stdin=subprocess.DEVNULL, stdout=stream, stderr=log, **self.how))
        return self.others[-1]

    def stop(self, other: subprocess.Popen, number: int = signal.SIGTERM) -> None:
        """Ends what a shell has started, by its session's number."""
        try:
            os.killpg(other.pid, number)
        except ProcessLookupError:
            pass
        other.wait(10)

    def end(self) -> None:
        """Ends all that runs here."""
        os.close(self.chunks)
        for each in [*self.others, self.bash]:
            self.stop(each, signal.SIGKILL)

    def notes(self) -> str:
        """Returns what was printed on standard error."""
        with open(self.logged, encoding="utf-8", errors="replace") as stream:
            return stream.read()


class Reader:
    """A reader of some sections, who types their blocks and compares the output."""

    def __init__(self, shells: Dict[str, Shell], failed: int = 0) -> None:
        self.shells, self.passed, self.failed = shells, 0, failed
        self.before: Dict[str, Callable[[], object]] = {}
        self.is_left_out: Callable[[Block], bool] = lambda _block: False

    def see(self, faults: List[str], what: str, shell: Shell) -> None:
        """Counts a block."""
        self.passed += not faults
        self.failed += bool(faults)
        printed = f"{shell.above[-1500:]}\n{shell.notes()[-1500:]}"
        print(f"FAILED: {what}: {faults}\n{printed}" if faults else f"ok: {what}", flush=True)

    def read(self, blocks: List[Block]) -> None:
        """Types each block, with the texts that follow it."""
        for number, block in enumerate(blocks):
            if block.kind != "sh" or self.is_left_out(block):
                continue
            texts = []
            for each in blocks[number + 1 :]:
                if each.kind == "sh":
                    break
                texts += [each] if each.kind == "text" else []
            self.before.get(block.lines[0], lambda: None)()
            shell = self.shells[block.value("on")]
            way = self.starts if {"brief", "meanwhile"} & set(block.words) else self.types
            try:
                faults = way(shell, block, texts)
            except Stuck as stuck:
                self.see([str(stuck)], block.name, shell)
                return
            self.see(faults, f"{block.name}: {block.lines[0][:80]}", shell)

    def types(self, shell: Shell, block: Block, texts: List[Block]) -> List[str]:
        """Runs a block; its last command again until status and output are right. Returns what is wrong."""
        head, last = block.lines[:-1], block.lines[-1]
        while head and head[-1].endswith("\\"):
            last = f"{head.pop()}\n{last}"
        first = shell.run("\n".join(["set -e", *head, "set +e"]))[1] if head else ""
        until = time.monotonic() + PATIENCE
        while True:
            status, printed = shell.run(last)
            faults = self.faults(shell, texts, first + printed)
            faults += [f"status {status} of {last}"] if status != block.status() else []
            if not faults or not texts or time.monotonic() > until:
                return faults
            time.sleep(PAUSE)

    def starts(self, shell: Shell, block: Block, texts: List[Block]) -> List[str]:
        """Starts a block that runs on until it is stopped. Returns what is wrong."""
        other, until = shell.start(block), time.monotonic() + PATIENCE
        time.sleep(BRIEF)
        while True:
            with open(f"{shell.how['cwd']}.{block.line}", encoding="utf-8") as stream:
                faults = self.faults(shell, texts, stream.read())
            if not faults or time.monotonic() > until:
                break
            time.sleep(PAUSE)
        faults += [] if other.poll() is None else [f"it ended with status {other.returncode}"]
        if "brief" in block.words:
            shell.stop(other)
        return faults

    def faults(self, shell: Shell, texts: List[Block], printed: str) -> List[str]:
        """Returns the lines of the texts that were not printed."""
        above = shell.above + shell.notes()
        compared = [text for text in texts if text.words[0] in COMPARED]
        return [line for text in compared for line in missing(text, printed, above)]


@contextmanager
def desk() -> Iterator[str]:
    """A folder for a reader's files, which has everything at the top of the repository, and beside it the tools as installed."""
    with tempfile.TemporaryDirectory(prefix="evpnd-page-") as folder:
        os.mkdir(f"{folder}/top")
        os.mkdir(f"{folder}/bin")
        for name in os.listdir(TOP):
            os.symlink(os.path.join(TOP, name), f"{folder}/top/{name}")
        os.symlink("/usr/bin/python3", f"{folder}/bin/python3")
        os.symlink(os.environ.get("EVPND", "/nowhere"), f"{folder}/bin/evpnd")
        for name, tool in TOOLS.items():
            script(f"{folder}/bin/{name}", "/usr/bin/python3", "-B", f"{TOP}/tools/{tool}")
        yield folder


def script(path: str, *words: str) -> None:
    """Writes a command that passes its arguments on to another one."""
    with open(path, "w", encoding="utf-8") as out:
        quoted = " ".join("'" + word.replace("'", "'\\''") + "'" for word in words)
        out.write(f'#!/bin/sh\nexec {quoted} "$@"\n')
    os.chmod(path, 0o755)


def shell_at(folder: str, enter: Sequence[str] = (), **more: str) -> Shell:
    """Returns a reader's shell."""
    return Shell(enter, f"{folder}/top", {**os.environ, "PATH": f"{folder}/bin:{os.environ['PATH']}", "TERM": "xterm", **more})


def as_installed() -> None:
    """Makes the folders of the package, and those of this run's daemons and namespaces: only this run sees them."""
    for folder in ("/run", "/usr/share/doc"):
        subprocess.run(["mount", "-t", "tmpfs", "none", folder], check=True)
    shutil.copytree(f"{TOP}/examples", "/usr/share/doc/evpnd/examples")
    subprocess.run(["ip", "link", "set", "lo", "up"], check=True)


# ---- labs ----------------------------------------------------------------------------------------------------


@contextmanager
def proof(_stage: Stage) -> Iterator[Reader]:
    """A clone of the last commit, and the kit."""
    with tempfile.TemporaryDirectory(prefix="evpnd-page-") as folder:
        subprocess.run(["git", "clone", "-q", TOP, f"{folder}/top"], check=True)
        shell = Shell((), f"{folder}/top", dict(os.environ))
        shell.patience = PROOF
        yield Reader({"": shell})
        shell.end()


@contextmanager
def hosts(_stage: Stage) -> Iterator[Reader]:
    """One host, on which all edges run."""
    with desk() as folder:
        shell = shell_at(folder)
        yield Reader({"": shell})
        shell.end()


@contextmanager
def mesh(_stage: Stage) -> Iterator[Reader]:
    """Two hosts with an `evpnd serve` each, which are peers. In the end both have to know both."""
    with Lab() as lab, desk() as folder:
        left, right = Served(lab, "left", "10.0.0.21", ["10.0.0.22"]), Served(lab, "right", "10.0.0.22", ["10.0.0.21"])
        shells = {}
        for each in (left, right):
            each.start()
            shells[each.address] = shell_at(folder, entering(each.netns), EVPND_CONTROL=each.control)
        reader = Reader(shells)
        yield reader
        until, wanted = time.monotonic() + PATIENCE, [f"flood 5001 10.0.0.{last} 1.1 up" for last in (21, 22)]
        while any(each.ask("1", "report") != wanted for each in (left, right)) and time.monotonic() < until:
            time.sleep(PAUSE)
        reports = [each.ask("1", "report") for each in (left, right)]
        reader.see([] if reports == [wanted, wanted] else [str(reports)], "both edges know both", shells["10.0.0.21"])
        for shell in shells.values():
            shell.end()


def is_of_another_frr(version: str, block: Block) -> bool:
    """Returns `True` if a block isn't for this version; the page's differences (status 1) are faults of one version."""
    major = int(version.split(".")[0])
    is_for_it = int(block.value("since") or 0) <= major < int(block.value("before") or 1000)
    return not is_for_it or (version != FAULTY and block.status() != 0)


@contextmanager
def audit(_stage: Stage) -> Iterator[Reader]:
    """A host that runs FRR, after the two histories of the page."""
    with desk() as folder, Edge("page", os.environ.get("LEAVES", "")) as edge:
        tally = Tally()
        short_histories(edge, f"{folder}/saved", tally)
        script(f"{folder}/bin/vtysh", *(shutil.which(word) or word for word in edge.shell_words()))
        shell = shell_at(folder, ["ip", "netns", "exec", edge.inside])
        reflector = "mkdir reflector; vtysh -c 'show bgp l2vpn evpn route json' > reflector/routes.json"
        reader = Reader({"": shell}, tally.failed)
        reader.before["evpnd-audit --routes reflector"] = lambda: shell.run(reflector)
        reader.is_left_out = lambda block: is_of_another_frr(edge.version(), block)
        yield reader
        shell.end()


@contextmanager
def views(_stage: Stage) -> Iterator[Reader]:
    """The views of two routers, of which the second has not received the static advert."""
    with desk() as folder:
        tally = Tally()
        with Edge("page", os.environ.get("LEAVES", "")) as edge:
            two_views(edge, f"{folder}/saved", tally)
        os.rename(f"{folder}/saved-one", f"{folder}/top/leaf1")
        os.rename(f"{folder}/saved-two", f"{folder}/top/leaf2")
        shell = shell_at(folder)
        yield Reader({"": shell}, tally.failed)
        shell.end()


@contextmanager
def fabric() -> Iterator[Tuple[Edge, Shell]]:
    """This host, a leaf of FRR and the leaf's host, with the page's addresses."""
    with desk() as folder, PageLeaf("page", os.environ.get("LEAVES", "")) as leaf:
        words = (shutil.which(word) or word for word in leaf.shell_words())
        script(f"{folder}/bin/vtysh", "ip", "netns", "exec", leaf.inside, *words)
        shell = shell_at(folder, ["ip", "netns", "exec", leaf.outside])
        yield leaf, shell
        shell.end()


@contextmanager
def join(_stage: Stage) -> Iterator[Reader]:
    """The fabric before this host is a neighbour."""
    with fabric() as (_leaf, shell):
        yield Reader({"": shell})


@contextmanager
def watch(stage: Stage) -> Iterator[Reader]:
    """The fabric after the page's lines are in the leaf's configuration."""
    with fabric() as (leaf, shell):
        typed = next(block for block in blocks_in(stage) if block.info == "text typed")
        leaf.shell_lines("configure terminal", *(line.strip() for line in typed.lines))
        yield Reader({"": shell})


LABS = {
    "proof": proof,
    "hosts": hosts,
    "mesh": mesh,
    "audit": audit,
    "views": views,
    "join": join,
    "watch": watch,
}


def main(names: List[str]) -> int:
    """Runs these labs."""
    if names != ["proof"]:
        as_installed()
    passed = failed = 0
    for stage in (stage for stage in STAGES if stage.lab in names):
        print(f"-- {stage.lab}: {stage.page}", flush=True)
        with LABS[stage.lab](stage) as reader:
            reader.read(blocks_in(stage))
        passed, failed = passed + reader.passed, failed + reader.failed
    print(f"{passed} passed, {failed} failed")
    return 0 if passed and not failed else 1


if __name__ == "__main__":
    sys.exit(main(sys.argv[1:]))
