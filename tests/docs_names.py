"""Finds what the documents name and the repository doesn't have, and what is too long. `docs_names.sh` says what for.

A name is a word in `backticks`, outside of blocks, that is written as code writes it: with an underscore, in CamelCase, as a
path with `::`, as a call `name(`, or as a file. A word counts as there if the sources have it outside of comments.

A sentence has at most 30 words and a cell of a table 25; a span in `backticks` is one word, a link its text. Quotations (`>`)
are not counted. README has fewer than 900 words.
"""

import os
import re
import subprocess
import sys
from typing import Iterator, List, Set, Tuple

SOURCES = (".rt", ".antt", ".py", ".sh", ".rs", ".txt", ".c", ".toml", ".edit", ".edits")
COMMENTS = {".rt": "//", ".antt": "--", ".rs": "//", ".c": "//"}
FILES = (".rt", ".antt", ".md", ".sh", ".py", ".rs", ".c", ".edit", ".edits", ".svg", ".json", ".txt", ".lines", ".report")
WORD = re.compile(r"[A-Za-z_][A-Za-z0-9_]*")
SPAN = re.compile(r"(?<!`)`([^`\n]+)`(?!`)")
LINK = re.compile(r"\[[^]\n]*\]\(([^)\s]+)\)")
BRACES = re.compile(r"\{([^{}]*)\}")
CAMEL = re.compile(r"[A-Z][a-z0-9]+([A-Z][a-z0-9]*)*$")
PATH = re.compile(r"[\w.*/-]+$")
SHOWN = re.compile(r"!?\[([^]\n]*)\]\([^)\n]*\)")
END = re.compile(r"(?<=[^\s.])[.!?][\"')*_]*(?=\s|$)")
ITEM = re.compile(r"^\s*([-*>]|\d+\.)\s+")
MOST_WORDS = {"sentence": 30, "cell": 25}
README_WORDS = 900

# Names of others: of Rust's and the kit's libraries, of tools, of formats, of the standards.
OTHERS = set(
    """
    HashMap BTreeMap Vec Option Some None Ok Err Result String Box Mutex Arc Instant Ord Eq Hash Default Drop Clone Copy Debug
    Display Iterator Read Write ArrayVec FinMap List Bool Unit Global Infallible SplitMix64 GLIBC_TUNABLES JSON
    RemoteVtep MAC_ADDRESS VNI LIST ORIGINATOR COUNTER SEQUENCE CRATE NAME PROGRAM VIEW FILE
    """.split()
)


def files_of_git() -> List[str]:
    """The files of the repository, also those that aren't committed yet."""
    words = ["git", "ls-files", "-z", "--cached", "--others", "--exclude-standard"]
    names = subprocess.run(words, capture_output=True, check=True).stdout.decode().split("\0")
    return sorted(name for name in names if name and os.path.exists(name))


def words_of_code(files: List[str]) -> Set[str]:
    """The words of the sources outside of their comments, and the parts of the files' names."""
    words: Set[str] = set()
    for name in files:
        words.update(WORD.findall(name))
        ending = os.path.splitext(name)[1]
        is_script = name.startswith(("examples/", ".ci/")) and ending == ""
        if ending not in SOURCES and not is_script:
            continue
        mark = COMMENTS.get(ending)
        with open(name, encoding="utf-8", errors="replace") as stream:
            for line in stream:
                words.update(WORD.findall(line.split(mark)[0] if mark else line))
    return words


def texts(path: str) -> Iterator[Tuple[int, str]]:
    """A document's lines outside of blocks, with their numbers."""
    in_block = False
    with open(path, encoding="utf-8") as stream:
        for number, line in enumerate(stream, 1):
            if line.lstrip().startswith(("```", "~~~")):
                in_block = not in_block
            elif not in_block and not line.startswith("    "):
                yield number, line


def expanded(text: str) -> List[str]:
    """A text with {a,b} as a shell expands it."""
    match = BRACES.search(text)
    if match is None:
        return [text]
    head, tail = text[: match.start()], text[match.end() :]
    return [each for part in match[1].split(",") for each in expanded(head + part.strip() + tail)]


def is_file_name(text: str) -> bool:
    """Whether a span names a file or a folder of the repository."""
    return PATH.match(text) is not None and text[0] not in ".-" and text.endswith(FILES + ("/",))


def has_file(text: str, base: str, files: List[str]) -> bool:
    """Whether a file or folder stands there: beside the document, or at the end of some path from the top."""
    if os.path.exists(os.path.join(base, text)):
        return True
    pattern = re.sub(r"\\\*|NAME|CRATE", "[^/]*", re.escape(text))
    place = re.compile("(^|/)" + pattern + ("" if text.endswith("/") else "$"))
    return any(place.search(name) for name in files)


def names_of(span: str) -> List[str]:
    """The words of a span that are written as code's names are."""
    if re.search(r"(^| )(rt|git|python3|bash|vtysh|apt-get|evpnd|bridge|tools/\S+|tests/\S+|bench/\S+) ", span + " ") or "--" in span:
        return []
    found = []
    for match in WORD.finditer(span):
        word, behind, before = match[0], span[match.end() :], span[: match.start()]
        is_code = "_" in word.strip("_") or CAMEL.match(word) or behind.startswith(("::", "(")) or before.endswith("::")
        if is_code and len(word) > 1 and "NAME" not in word and not before.endswith((".", "\\")):
            found.append(word)
    return found


def faults_of(path: str, files: List[str], words: Set[str]) -> Tuple[int, List[str]]:
    """How many names and links a document has, and which lead nowhere."""
    looked, faults = 0, []
    base = os.path.dirname(path)
    for number, line in texts(path):
        for match in LINK.finditer(line):
            target = match[1].split("#")[0]
            if target and "://" not in target and not target.startswith("mailto:"):
                looked += 1
                if not os.path.exists(os.path.join(base, target)):
                    faults.append(f"{path}:{number}: the link to {match[1]} leads nowhere")
        for span in SPAN.findall(line):
            for text in expanded(span):
                if is_file_name(text):
                    looked += 1
                    if not has_file(text, base, files):
                        faults.append(f"{path}:{number}: no file {text}")
                    continue
                for name in names_of(text):
                    looked += 1
                    if name not in words and name not in OTHERS:
                        faults.append(f"{path}:{number}: no name {name}")
    return looked, faults


def paragraphs(path: str) -> Iterator[Tuple[List[int], str, str]]:
    """A document's paragraphs, items and cells of tables: the numbers of their lines, 'sentence' or 'cell', and the lines."""
    numbers: List[int] = []
    lines: List[str] = []
    for number, line in [*texts(path), (0, "")]:
        text = SHOWN.sub(r"\1", SPAN.sub("code", line)).strip()
        if lines and (text == "" or text.startswith(("#", "|")) or ITEM.match(line)):
            yield numbers, "sentence", "\n".join(lines)
            numbers, lines = [], []
        if text.startswith(">"):
            continue
        if text.startswith("|"):
            for cell in text.strip("|").split("|"):
                yield [number], "cell", cell
        elif text and not text.startswith("#"):
            numbers.append(number)
            lines.append(ITEM.sub("", text, count=1))


def sentences(text: str) -> Iterator[Tuple[int, str]]:
    """The sentences of a text, each with the number of its line in it, from 0."""
    start = 0
    for end in [*(match.end() for match in END.finditer(text)), len(text)]:
        sentence = text[start:end].lstrip()
        yield text.count("\n", 0, end - len(sentence)), sentence
        start = end


def length_faults(path: str) -> List[str]:
    """The sentences and cells of a document that have too many words, and whether README has."""
    faults = []
    for numbers, kind, text in paragraphs(path):
        for place, part in sentences(text) if kind == "sentence" else [(0, text)]:
            count = sum(1 for word in part.split() if re.search(r"\w", word))
            if count > MOST_WORDS[kind]:
                words = " ".join(part.split())
                faults.append(f"{path}:{numbers[place]}: a {kind} of {count} words, where {MOST_WORDS[kind]} are meant: {words}")
    if path == "README.md":
        with open(path, encoding="utf-8") as stream:
            count = len(stream.read().split())
        if count >= README_WORDS:
            faults.append(f"{path}: {count} words, where fewer than {README_WORDS} are meant")
    return faults


def main() -> int:
    """Looks through all documents."""
    files = files_of_git()
    words = words_of_code(files)
    passed, failed, looked = 0, 0, 0
    for path in [name for name in files if name.endswith(".md")]:
        count, faults = faults_of(path, files, words)
        faults += length_faults(path)
        print(*faults, sep="\n", end="\n" if faults else "")
        looked += count
        passed += not faults
        failed += bool(faults)
    if subprocess.run([sys.executable, "tools/crates_svg.py", "--check"], check=False).returncode:
        print("note: docs/crates.svg isn't the drawing of crates.txt: run python3 tools/crates_svg.py")
    print(f"{looked} names and links in {passed + failed} documents")
    print(f"{passed} passed, {failed} failed")
    return 1 if failed or not looked else 0


if __name__ == "__main__":
    sys.exit(main())
