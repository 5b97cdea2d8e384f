"""Runs the commands of the pages as they are written, in order, at the top of the repository, and compares their output.

tests/pages.py lists the pages and explains the words after a block's fence. A page is one shell, so that variables and files stay;
if the user may make one, it has a network of its own. Commands that need root, FRR or a proof run in tests/outside/pages.sh; here
bash only parses them, and a test compares the script's sections with the pages. So a command that neither runs is a failure.
"""

import glob
import os
import re
import shlex
import shutil
import subprocess
import sys
import tempfile
import unittest
from typing import Dict, List

TOP = os.path.dirname(os.path.dirname(os.path.dirname(os.path.abspath(__file__))))
sys.path.insert(0, os.path.join(TOP, "tests"))
from pages import COMPARED, IN_SENTENCES, PAGES, STAGES, Block  # noqa: E402
from pages import blocks_in, blocks_of, commands_in_sentences, is_among, missing, with_commands  # noqa: E402

PATIENCE = 1200  # seconds; the first builds of both programs are included
KNOWN = r"sh( status=[0-9]+| debian| (root|frr|proof)( status=[0-9]+| brief| meanwhile| on=[0-9.]+| (before|since)=[0-9]+)*)?"
TEXTS = rf"text ({'|'.join(COMPARED)}|play|simulated|typed|(tested|read)=\S+)|toml( in=\S+)?|rust in=\S+"


def is_run_here(block: Block) -> bool:
    """Returns `True` if the gate runs the block on this machine."""
    is_possible = block.info != "sh debian" or shutil.which("dpkg-deb") is not None
    return block.kind == "sh" and not block.is_outside() and is_possible


def script_of(block: Block) -> str:
    """Returns the commands of the block, each of which but the last has to succeed."""
    last = f"set +e\n{block.lines[-1]}\nstatus=$?\nset -e\n[ $status = {block.status()} ]"
    body = "\n".join([*block.lines[:-1], last] if block.status() else block.lines)
    return f"echo '@@ {block.line}'\necho '@@ {block.line}' >&2\n{body}\n"


def shell(path: str) -> List[str]:
    """Returns the words that run bash on a script, in a network of its own if the user may make one."""
    alone = ["unshare", "--net", "sh", "-c", 'ip link set lo up && exec bash "$0"']
    if os.geteuid() == 0 and subprocess.run([*alone, "/dev/null"], capture_output=True, check=False).returncode == 0:
        return [*alone, path]
    return ["bash", path]


def printed_by(blocks: List[Block]) -> Dict[int, str]:
    """Runs the blocks, and returns the output of each by its line; each has to end with its status."""
    with tempfile.TemporaryDirectory() as folder:
        top = os.path.join(folder, "top")
        os.mkdir(top)
        for name in os.listdir(TOP):
            os.symlink(os.path.join(TOP, name), os.path.join(top, name))
        script = os.path.join(folder, "page")
        with open(script, "w", encoding="utf-8") as out:
            out.write("set -e -o pipefail\n" + "".join(map(script_of, blocks)) + "echo '@@ end'\n")
        there = {name: value for name, value in os.environ.items() if name not in ("EVPND", "TOOLS")}
        how = {"cwd": top, "env": there, "stdin": subprocess.DEVNULL, "timeout": PATIENCE}
        done = subprocess.run(shell(script), capture_output=True, encoding="utf-8", check=False, **how)
    parts = re.split("^@@ ([0-9]+|end)\n", done.stdout, flags=re.MULTILINE)
    printed = dict(zip(parts[1::2], parts[2::2]))
    if done.returncode != 0 or "end" not in printed:
        raise AssertionError(f"status {done.returncode} in the block at line {list(printed)[-1]}: {done.stderr.split('@@ ')[-1]}")
    return {int(line): text for line, text in printed.items() if line != "end"}


def output_of(subcommand: str, config: str, script: str) -> str:
    """Returns the output of the program for a configuration and a script of the repository."""
    with open(os.path.join(TOP, script), "rb") as stream:
        words = [os.environ["EVPND"], subcommand, "--config", os.path.join(TOP, config)]
        return subprocess.run(words, stdin=stream, capture_output=True, encoding="utf-8", check=True).stdout


def text_of(path: str) -> str:
    """Returns the text of a file of the repository."""
    with open(os.path.join(TOP, path), encoding="utf-8") as stream:
        return stream.read()


def blocks_with(word: str) -> List[Block]:
    """Returns the blocks of all pages whose words begin with this one."""
    return [block for page in PAGES for block in blocks_of(page) if block.info.startswith(word)]


class Fences(unittest.TestCase):
    """The blocks of all pages."""

    def test_blocks_are_fenced_and_known(self) -> None:
        for page in PAGES:
            for block in blocks_of(page):
                self.assertRegex(block.info, f"^({KNOWN}|{TEXTS})$", block.name)
            text = re.sub(r"^( *)```.*?^\1```$", "", text_of(page), flags=re.MULTILINE | re.DOTALL)
            self.assertEqual(re.findall(r"^(?: {4}|\t).*", text, flags=re.MULTILINE), [], page)

    def test_a_script_runs_what_the_gate_does_not(self) -> None:
        """Each block that the gate leaves out is in a section that tests/outside/pages.sh runs in one of its labs."""
        staged = {block.name for stage in STAGES for block in blocks_in(stage)}
        self.assertEqual({block.name for block in blocks_with("sh") if block.is_outside()} - staged, set())
        labs = set(re.findall(r'^    "([a-z]+)": ', text_of("tests/outside/page_labs.py"), flags=re.MULTILINE))
        self.assertEqual({stage.lab for stage in STAGES}, labs)
        self.assertIn("page_labs.py", text_of("tests/outside/pages.sh"))

    def test_output_is_compared(self) -> None:
        """Each output on a page is compared, here or by the script."""
        pairs = [pair for page in PAGES for pair in with_commands(blocks_of(page))]
        here = {text.name for block, text in pairs if block and not block.is_outside()}
        outside = {text.name for stage in STAGES for block, text in with_commands(blocks_in(stage)) if block}
        texts = {block.name for word in COMPARED for block in blocks_with(f"text {word}")}
        self.assertEqual(texts - here - outside, set())

    def test_bash_parses_what_the_gate_does_not_run(self) -> None:
        for block in blocks_with("sh"):
            if not is_run_here(block):
                print(f"not run here: {block.name}: {block.info}")
                done = subprocess.run(["bash", "-n"], input="\n".join(block.lines), capture_output=True, encoding="utf-8", check=False)
                self.assertEqual((done.returncode, done.stderr), (0, ""), block.name)


class Texts(unittest.TestCase):
    """Blocks that are not the output of a command of the page."""

    def test_play(self) -> None:
        """Each command of the block is followed by the output on its right, in the order of the script."""
        blocks = blocks_with("text play")
        printed = output_of("play", "examples/sites.toml", "examples/sites.script").split("\n")
        at = 0
        for line in (line for block in blocks for line in block.lines if line):
            command, _, answer = (part.strip() for part in line.partition("  ")) if "  " in line else (line, "", "")
            for wanted in filter(None, (f"> {command}" if re.match("[0-9]+ [a-z]+", command) else command, answer)):
                found = [number for number in range(at, len(printed)) if is_among(wanted, [printed[number]])]
                self.assertTrue(found, f"{blocks[0].page}: {wanted!r} doesn't follow line {at} of the output")
                at = found[0] + 1
        self.assertTrue(blocks)

    def test_simulated(self) -> None:
        printed = output_of("simulate", "examples/run/two_edges.toml", "tests/data/two_edges.script").split("\n")
        for block in blocks_with("text simulated"):
            self.assertEqual([line for line in block.lines if line not in printed], [], block.name)

    def test_typed(self) -> None:
        for block in blocks_with("text typed"):
            commands = [line for each in blocks_of(block.page) if each.kind == "sh" for line in each.lines]
            words = {word for line in commands for word in (shlex.split(line) if line.startswith("vtysh") else [])}
            self.assertEqual([line for line in block.lines if line.strip() not in words], [], block.name)

    def test_tested(self) -> None:
        for block in blocks_with("text tested="):
            words = set(re.findall("[a-z]+", text_of(block.value("tested"))))
            shown = set(re.findall(r"(?<![0-9a-f:])[a-z]+(?![0-9a-f:])", "\n".join(block.lines)))
            self.assertEqual(shown - words, set(), block.name)

    def test_read(self) -> None:
        for block in blocks_with("text read="):
            test = text_of(block.value("read")).replace("\\", "")
            self.assertTrue(f"```text read={block.value('read')}" in test and os.path.basename(block.page) in test, block.name)

    def test_files(self) -> None:
        """A block of a file's lines, and the keys of the other configurations."""
        paths = glob.glob(os.path.join(TOP, "examples", "**", "*.toml"), recursive=True)
        examples = "\n".join(text_of(path) for path in paths)
        for block in blocks_with("toml") + blocks_with("rust"):
            path = block.value("in")
            text = text_of(path) if path else examples
            if path and block.kind == "toml":
                self.assertIn("\n".join(block.lines), text, block.name)
            for line in block.lines:
                self.assertIn(line.strip() if path else line.partition("=")[0], text, block.name)


class Sentences(unittest.TestCase):
    """The commands in sentences: a block of a page contains each, or a test runs it."""

    def test_each_runs_somewhere(self) -> None:
        """A final word in capitals is a placeholder, so a block may have any word there."""
        pages = [page for page in PAGES if page != "CONTRIBUTING.md"]
        blocks = "\n".join(line for page in pages for block in blocks_of(page) if block.kind == "sh" for line in block.lines)
        commands = {command for page in pages for command in commands_in_sentences(page)}
        elsewhere = {it for it in commands if re.sub(r" [A-Z]+$", " ", it) not in blocks}
        self.assertEqual(elsewhere, set(IN_SENTENCES))

    def test_the_tests_exist(self) -> None:
        for command, (path, pattern) in IN_SENTENCES.items():
            self.assertRegex(text_of(path), pattern, command)

    def test_view_of_a_large_leaf(self) -> None:
        """The audit reads the view that the page names, here with 2 networks of 1,000 stations: one of each is wrong."""
        with tempfile.TemporaryDirectory() as folder:
            words = [os.path.join(TOP, "tests", "tools", "many_vnis.py"), folder, "2", "1000"]
            subprocess.run([sys.executable, *words], check=True)
            audit = [sys.executable, os.path.join(TOP, "tools", "evpnd_audit.py"), folder]
            done = subprocess.run(audit, capture_output=True, text=True, check=False)
            self.assertEqual((done.returncode, done.stdout.count(" wrong,")), (1, 2), done.stdout + done.stderr)

    def test_views_of_a_fabric(self) -> None:
        """The audit reads the views of a fabric, here with 4 leaves of 20 stations: each leaf has one wrong entry."""
        with tempfile.TemporaryDirectory() as folder:
            words = [os.path.join(TOP, "tests", "tools", "many_leaves.py"), folder, "4", "20"]
            subprocess.run([sys.executable, *words], check=True)
            audit = [sys.executable, os.path.join(TOP, "tools", "evpnd_audit.py"), "fabric", "leaves"]
            done = subprocess.run(audit, cwd=folder, capture_output=True, text=True, check=False)
            last = "fabric: 4 leaves, 4 answered; 4 differences"
            self.assertEqual((done.returncode, done.stdout.splitlines()[-1:]), (1, [last]), done.stdout + done.stderr)


class Pages(unittest.TestCase):
    """Each page whose commands the gate runs."""

    def run_page(self, page: str) -> None:
        """Runs a page's commands, and compares their output with the page."""
        blocks = blocks_of(page)
        printed = printed_by([block for block in blocks if is_run_here(block)])
        self.assertTrue(printed)
        for before, block in with_commands(blocks):
            if before and is_run_here(before):
                self.assertEqual(missing(block, printed[before.line]), [], f"{block.name}: {printed[before.line]}")

    def test_readme(self) -> None:
        self.run_page("README.md")

    def test_examples(self) -> None:
        self.run_page("examples/README.md")

    def test_tutorial(self) -> None:
        self.run_page("docs/tutorial.md")

    def test_running(self) -> None:
        self.run_page("docs/running.md")

    def test_audit(self) -> None:
        self.run_page("docs/audit.md")

    def test_every_page_with_commands_of_the_gate(self) -> None:
        """A page that gets its first command of the gate needs a test above."""
        tested = ("README.md", "examples/README.md", "docs/tutorial.md", "docs/running.md", "docs/audit.md")
        self.assertEqual({block.page for block in blocks_with("sh") if not block.is_outside()}, set(tested))


if __name__ == "__main__":
    unittest.main()
