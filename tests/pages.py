"""The fenced blocks of the pages that give a reader commands, and the comparison of their output with the page.

The word after a block's fence says what runs its commands:

    sh              the gate (tests/tools/test_pages.py); each command has to succeed
    sh status=N     the same, and the last command's status is N
    sh debian       the gate, if dpkg-deb is installed
    sh proof        tests/outside/pages.sh: it needs the kit, and proves a crate
    sh root         tests/outside/pages.sh: it needs root, namespaces and devices
    sh frr          tests/outside/pages.sh: it needs FRR or GoBGP, too

After these three there may be more words: `status=N`; `brief`, if the block runs until it is stopped; `meanwhile`, if it runs
while the reader goes on; `on=HOST`, if the page has two hosts; `before=N` or `since=N`, if it is for some versions of FRR.

The word after the fence of any other block says what its text is compared with:

    text prints     all that the block before it printed
    text among      each line is a line of that output; a line that ends with '..' is the beginning of one
    text like       as `among`, except for times, incarnations and random addresses
    text above      as `like`, in the output of all commands of the page so far, and in what they log
    text play       commands of a script on the left, and the output of `evpnd play` on the right
    text simulated  as `among`, in the reports of tests/data/two_edges.script
    text typed      each line is an argument of a command of the page
    text tested=F   each word is in the test F
    text read=F     the test F finds the block by this fence, and compares it with outputs
    toml            its keys are those of a configuration in examples/
    toml in=F       its lines follow one another in the file F
    rust in=F       each line is in the file F
"""

import os
import re
from typing import Iterator, List, NamedTuple, Tuple

TOP = os.path.dirname(os.path.dirname(os.path.abspath(__file__)))
PAGES = (
    *("README.md", "CONTRIBUTING.md", "examples/README.md"),
    *("docs/tutorial.md", "docs/running.md", "docs/audit.md", "docs/fabric.md"),
)
OUTSIDE = ("root", "frr", "proof")
COMPARED = ("prints", "among", "like", "above")
FENCE = re.compile(r"^( *)```(.*)$")
# What differs from run to run: dates and times, the seconds of a ping, MACs that the kernel chooses, and the incarnation of a
# leaf with the counter, since GoBGP sends a leaf's routes in any order.
CHANGING = re.compile(
    r"\d{4}-\d\d-\d\dT|\d\d:\d\d:\d\d(?!:)Z?|time=[0-9.]+|\b[0-9a-f][26ae](?<!02)(?::[0-9a-f]{2}){5}\b"
    r"|\b\d{10}\.\d+|( counter \d+)? incarnation \d{10}"
)


# Programs of the project and of the kit: a code span that begins with one and has an argument is a command.
PROGRAM = re.compile(r"(evpnd[a-z_-]*(\.py)?|(tools|tests|examples)/\S+|rt|bash|cat|socat) ")
# The commands in sentences that no block contains, each with the test that runs it: a file, and a pattern in that file.
IN_SENTENCES = {
    "bash .ci/run": (".ci/run", "tools/gate/make.py"),
    "cat DIRECTORY/*.records | evpnd report ..": ("tests/tools/test_audit_views.py", '"report", "--originators"'),
    "evpnd version": ("tests/statuses.txt", "\\| version \\| 0 \\|"),
    "evpnd-audit fabric LIST --run 'ssh {leaf}'": ("tests/tools/test_audit_routed.py", r'"fabric", "a,b", "--run", f"\{path\} \{\{leaf'),
    "evpnd-audit plot DIRECTORY 5001 MAC > owner.svg": ("tests/tools/test_audit_views.py", r'"plot", place, "5001", SHARED'),
    "evpnd-audit record DIRECTORY": ("tests/tools/test_audit_views.py", r'run\("record", place'),
    "evpnd-bgp --own 192.0.2.2 --socket /run/evpnd/control --gobgp 127.0.0.1:50052 --announce": (
        "tests/outside/served_failures.py",
        '"--announce"',
    ),
    "evpnd-bgp --own LIST --withdraw": ("tests/outside/bgp_fabric.py", r'gateway\("--withdraw"\)'),
    "evpnd_records.py frr --vni 5001 --before old.json new.json": ("tests/tools/test_records.py", r'"frr", "--vni", "5001", "--before"'),
    "evpndctl --json 1 counts": ("tests/program/test_serve.py", r'\["1", "counts", "--json"\]'),
    "evpndctl 1 links": ("tests/tools/test_evpndctl.py", '"1 links"'),
    "evpndctl 1 peer add 10.0.0.22": ("tests/program/test_joined.py", '"peer", "add", TWO'),
    "evpndctl 1 peer remove 10.0.0.22": ("tests/program/test_joined.py", '"peer", "remove", TWO'),
    "evpndctl 1 peers": ("tests/program/test_joined.py", 'asked\\(0, "peers"\\)'),
    "evpndctl 1 report --network 5001 --mac 02:00:00:00:00:0b": ("tests/tools/test_evpndctl.py", r'"--network", "5001", "report", "--mac"'),
    "evpndctl metrics": ("tests/tools/test_evpndctl.py", r'ask\("metrics"\)'),
    "evpndctl metrics FILE": ("tests/tools/test_evpndctl.py", r'ask\("metrics", file\)'),
    "rt run": ("tools/gate/proofs.py", r'calls\.check\(folder, "run"'),
    "rt run -- version": ("tools/gate/proofs.py", r'calls\.check\(folder, "run"'),
    'socat EXEC:"evpndctl records" EXEC:"ssh other evpndctl records"': ("tests/outside/served_fabric.py", "EXEC:.* records"),
    "tests/outside/fabric.sh EVPND failures": ("tests/outside/fabric.sh", "failures"),
    "tests/outside/fabric.sh EVPND failures gobgpds=2": ("tests/outside/served_failures.py", "gobgpds"),
    "tests/outside/package.sh --monitoring": ("tests/outside/package.sh", "monitoring"),
    "tests/outside/package.sh ROOT": ("tests/outside/package.sh", "chroot"),
    "tests/outside/tap_relay.py NETNS DEVICE HERE THERE": ("tests/outside/lab.sh", r"tap_relay\.py"),
    "tests/tools/many_vnis.py FOLDER 100 1000": ("tests/tools/test_pages.py", r'"many_vnis\.py"'),
    "tests/tools/many_leaves.py FOLDER": ("tests/tools/test_pages.py", r'"many_leaves\.py"'),
    "tools/evpndctl records": ("tests/program/test_joined.py", r'\*TOOL, path, "records"'),
    "tools/evpndctl watch": ("tests/program/test_serve.py", '"watch", "0.1"'),
    "tools/package.sh package --unproved": ("tests/outside/package.sh", r'tools/package\.sh" "\$work/made" "\$@"'),
}


class Stage(NamedTuple):
    """Sections of a page whose commands tests/outside/pages.sh runs in one lab."""

    lab: str
    page: str
    sections: Tuple[str, ...]


STAGES = (
    Stage("proof", "README.md", ("What a contract looks like",)),
    Stage("proof", "CONTRIBUTING.md", ("A one-line change",)),
    Stage("hosts", "docs/running.md", ("Running edges", "Ports on a Linux host", "What to open in a firewall", "Serving")),
    Stage("mesh", "docs/running.md", ("Edges elsewhere",)),
    Stage("audit", "docs/audit.md", ("On the host", "The truth of a route reflector", "Carried elsewhere")),
    Stage("views", "docs/audit.md", ("Two routers' views",)),
    Stage("join", "docs/fabric.md", ("Get it", "Ten commands to a pinging host", "Logs and figures")),
    Stage("watch", "docs/fabric.md", ("Peer with the fabric", "Watch a fabric's owners", "Announce our stations")),
)


class Block(NamedTuple):
    """A fenced block of a page."""

    page: str
    section: str
    line: int
    info: str
    lines: List[str]

    @property
    def kind(self) -> str:
        """The first word after the fence."""
        return self.info.split(" ")[0]

    @property
    def words(self) -> List[str]:
        """The words after the first one."""
        return self.info.split(" ")[1:]

    @property
    def name(self) -> str:
        """The page and the line."""
        return f"{self.page}:{self.line}"

    def is_outside(self) -> bool:
        """Returns `True` if a script of tests/outside/ runs the block."""
        return self.kind == "sh" and any(word in self.words for word in OUTSIDE)

    def status(self) -> int:
        """Returns the status of the last command."""
        return int(self.value("status") or 0)

    def value(self, name: str) -> str:
        """Returns the text after `name=` in the words, or nothing."""
        return next((word.partition("=")[2] for word in self.words if word.startswith(f"{name}=")), "")


def with_commands(blocks: List[Block]) -> Iterator[Tuple[Block, Block]]:
    """Yields each block whose text is output, with the block of commands before it."""
    before = None
    for block in blocks:
        if block.kind == "sh":
            before = block
        if block.kind == "text" and block.words[:1] and block.words[0] in COMPARED:
            yield before, block


def blocks_of(page: str) -> List[Block]:
    """Returns the blocks of a page, in order."""
    blocks, opened, section = [], None, ""
    with open(os.path.join(TOP, page), encoding="utf-8") as stream:
        for number, line in enumerate(stream.read().split("\n"), 1):
            fence = FENCE.match(line)
            if fence and opened is None:
                opened = Block(page, section, number, fence[2].strip(), []), len(fence[1])
            elif fence:
                blocks.append(opened[0])
                opened = None
            elif opened is not None:
                opened[0].lines.append(line[opened[1] :])
            elif line.startswith("#"):
                section = line.lstrip("# ")
    return blocks


def commands_in_sentences(page: str) -> Iterator[str]:
    """Yields the commands of a page that stand outside its blocks."""
    in_block = False
    with open(os.path.join(TOP, page), encoding="utf-8") as stream:
        for line in stream.read().split("\n"):
            if FENCE.match(line):
                in_block = not in_block
            elif not in_block:
                yield from (it for it in re.findall(r"`([^`]+)`", line) if PROGRAM.match(it))


def blocks_in(stage: Stage) -> List[Block]:
    """Returns the blocks of a stage's sections."""
    return [block for block in blocks_of(stage.page) if block.section in stage.sections]


def constant(text: str) -> str:
    """Returns the text without the parts that differ from run to run, and with one blank between words.

    FRR 10 also prints a blank between the marks of a route and the route, where FRR 8 has none.
    """
    words = CHANGING.sub("~", text).replace("*>i[", "*>i [")
    return "\n".join(" ".join(line.split()) for line in words.split("\n"))


def is_among(line: str, printed: List[str]) -> bool:
    """Returns `True` if the line was printed, or one that begins like it if it ends with '..'."""
    return any(each.startswith(line[: -len("..")]) for each in printed) if line.endswith("..") else line in printed


def missing(block: Block, printed: str, above: str = "") -> List[str]:
    """Returns the lines of a text block that the commands did not print.

    `printed` is the output of the block before it, `above` that of all blocks so far.
    """
    if block.words[0] == "prints":
        return [] if printed == "\n".join([*block.lines, ""]) else [f"{block.lines} is not all of {printed!r}"]
    wanted, there = "\n".join(block.lines), above if block.words[0] == "above" else printed
    if block.words[0] in ("like", "above"):
        wanted, there = constant(wanted), constant(there)
    return [line for line in wanted.split("\n") if line and not is_among(line, there.split("\n"))]
