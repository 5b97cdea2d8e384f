"""Reads edits, and tries many of a crate in one check. `more_edits.sh` says what for.

usage: more_edits.py applies CRATE..     says which edits of both shelves can't be applied
       more_edits.py at-once CRATE..     tries those of more-edits/; meanwhile it changes the sources below crates/
       more_edits.py fold CRATE..        makes one file, all.edits, of the files in more-edits/
       more_edits.py unfold CRATE..      puts each edit of more-edits/ into must-fail/ as a file of its own, in the place of those

The second shelf of a crate is one file, more-edits/all.edits: blocks with an empty line between, each a line `edit: NAME` and
then the lines of an edit. Files more-edits/NAME.edit are read too.
"""
import re
import shutil
import subprocess
import sys
from pathlib import Path
from typing import NamedTuple

HEAD = re.compile(r"\bfn (\w+)")
BLOCK = re.compile(r"^edit: (.*)\n", re.M)


class Edit(NamedTuple):
    """An edit: where it stands, its crate, and its lines."""

    name: str
    crate: str
    text: str

    def __str__(self):
        return self.name


def apply(edit, texts):
    """Applies the edit to the texts by file, filling in those of its crate. Returns the texts, and the names of the
    functions that it changes; or why it can't be applied."""
    texts, functions, file, old = dict(texts), set(), None, None
    for line in edit.text.split("\n"):
        word, _, rest = line.partition(":")
        rest = rest[rest.startswith(" "):]
        if word == "file":
            file = Path("crates", edit.crate, rest)
            texts.setdefault(file, file.read_text())
        elif word == "old":
            old = rest
        elif word == "new":
            if file is None or not old:
                return None, "a `new:` stands without `file:` and `old:` before it"
            if texts[file].count(old) != 1:
                return None, f"in {file} this stands {texts[file].count(old)} times: {old}"
            names = HEAD.findall(texts[file].partition(old)[0] + old)
            functions.add(names[-1] if names else "")
            texts[file] = texts[file].replace(old, rest)
            old = None
    return (texts, functions) if functions else (None, "it has no pair of `old:` and `new:`")


def edits_of(crate, *shelves):
    """The edits of a crate: each file of its own, and each block of all.edits."""
    edits = []
    for shelf in shelves:
        folder = Path("crates", crate, shelf)
        edits += [Edit(str(file), crate, file.read_text()) for file in sorted(folder.glob("*.edit"))]
        if (folder / "all.edits").exists():
            edits += blocks_of(folder / "all.edits", crate)
    return edits


def blocks_of(file, crate):
    """The blocks of all.edits; what stands in front of the first one, or two of one name, is a fault of the file."""
    head, *parts = BLOCK.split(file.read_text())
    names = parts[::2]
    if head.strip() or len(set(names)) != len(names) or not all(re.fullmatch(r"[\w.-]+", name) for name in names):
        sys.exit(f"{file}: blocks begin with a line 'edit: NAME', and no two have one name")
    return [Edit(f"{file}: {name}", crate, text.rstrip("\n") + "\n") for name, text in zip(names, parts[1::2])]


def plain_name(edit):
    """The name of an edit without where it stands."""
    name = edit.name.rpartition(": ")[2].rpartition("/")[2]
    return name[: -len(".edit")] if name.endswith(".edit") else name


def fold(crates):
    for crate in crates:
        edits = sorted(edits_of(crate, "more-edits"), key=plain_name)
        folder = Path("crates", crate, "more-edits")
        if edits:
            blocks = [f"edit: {plain_name(edit)}\n{edit.text.strip()}\n" for edit in edits]
            (folder / "all.edits").write_text("\n".join(blocks))
        for file in folder.glob("*.edit"):
            file.unlink()
    return True


def unfold(crates):
    for crate in crates:
        edits = edits_of(crate, "more-edits")
        folder = Path("crates", crate, "must-fail")
        shutil.rmtree(folder, ignore_errors=True)
        if edits:
            folder.mkdir()
        for edit in edits:
            (folder / f"{plain_name(edit)}.edit").write_text(edit.text)
    return True


def applies(crates):
    edits = [edit for crate in crates for edit in edits_of(crate, "must-fail", "more-edits")]
    faults = [(edit, apply(edit, {})) for edit in edits]
    faults = [f"{edit}: {why}" for edit, (texts, why) in faults if texts is None]
    print(*faults, f"{len(edits)} edits, {len(faults)} that can't be applied", sep="\n")
    return not faults


def verdict(functions, said):
    """What the check says of the functions of these names, of which no other one is changed."""
    found = []
    for name in functions:
        line = re.search(rf"^fn \S*::{name}: (not proved|no proof: expected)", said, re.M)
        found.append(line and line[1])
    if None in found:
        return "NOT REFUSED beside the others: try it alone"
    return "refused by its proof file: try it alone to see why" if "not proved" in found else "refused"


def one_round(crate, edits):
    """Applies as many edits as change functions of different names, and checks the crate. Returns whether all these are
    refused, and the other edits."""
    texts, taken, later = {}, {}, []
    for edit in edits:
        with_edit, functions = apply(edit, texts)
        if with_edit is None or functions & {it for them in taken.values() for it in them}:
            later.append(edit)
        else:
            texts, taken[edit] = with_edit, functions
    kept = {file: file.read_text() for file in texts}
    for file, text in texts.items():
        file.write_text(text)
    ran = subprocess.run(["rt", "check", "--jobs", "1"], cwd=f"crates/{crate}", capture_output=True, text=True)
    for file, text in kept.items():
        file.write_text(text)
    said = ran.stdout + ran.stderr
    verdicts = {edit: verdict(functions, said) for edit, functions in taken.items()}
    print(*(f"{edit}: {it}" for edit, it in verdicts.items()), sep="\n", flush=True)
    return all(it.startswith("refused") for it in verdicts.values()), later


def at_once(crates):
    well = True
    for crate in crates:
        edits = edits_of(crate, "more-edits")
        while edits:
            is_well, edits = one_round(crate, edits)
            well = well and is_well
    return well


if __name__ == "__main__":
    sys.exit(not {"applies": applies, "at-once": at_once, "fold": fold, "unfold": unfold}[sys.argv[1]](sys.argv[2:]))
