"""Reads crates.txt: the crates, what each stands on, and the files that a rule reads of them."""
import hashlib
import os
import subprocess

PARTS = ("src", "specs", "proofs")
# the files beside src/ with a program's arguments and its expected output
RUN_FILES = ("args", "stdin", "stdout", "status")


class Project:
    """A repository: its top, the folder of a gate's facts and rooms, and the lines of crates.txt."""

    def __init__(self, top):
        self.top = os.path.realpath(top)
        self.gate = os.environ.get("GATE_FOLDER") or f"{self.top}/.gate"
        self.lines, uses = {}, {}
        with open(f"{self.top}/crates.txt", encoding="utf-8") as it:
            for line in it:
                line = line.partition("#")[0].strip()
                if line:
                    head, _, below = line.partition(":")
                    self.lines[head.split()[0]] = line
                    uses[head.split()[0]] = below.split()
        self.below = {name: [it for it in below if it in self.lines] for name, below in uses.items()}
        self.order = self.lowest_first()

    def lowest_first(self):
        """Returns the crates, each after those that it stands on."""
        done = []

        def place(name):
            for it in self.below[name]:
                place(it)
            if name not in done:
                done.append(name)

        for name in self.below:
            place(name)
        return done

    def reach(self, name):
        """Returns all crates of the repository below this one, lowest first."""
        found = set()
        for it in self.below[name]:
            found |= {it, *self.reach(it)}
        return [it for it in self.order if it in found]

    def wanted(self, names):
        """Returns these crates and those below them, lowest first; all if none is named."""
        return [it for it in self.order if not names or it in names or any(it in self.reach(name) for name in names)]

    def folder(self, name):
        """Returns the crate's folder."""
        return f"{self.top}/crates/{name}"

    def is_program(self, name):
        """Returns `True` if the crate has a main."""
        return os.path.exists(f"{self.folder(name)}/src/main.rt")

    def proof_out(self, name):
        """Returns the folder of what this gate's proof of the crate kept."""
        return f"{self.gate}/{name}.proof.room/crates/{name}/out"

    def lines_of(self, name):
        """Returns how many lines of source the crate has: a measure of what its proof costs."""
        count = 0
        for path in files_below(f"{self.folder(name)}/src"):
            with open(path, "rb") as it:
                count += sum(1 for _ in it)
        return count

    def inputs(self, name, more=()):
        """Returns a checksum of all that a rule reads: the kit's name, the crate and those below it, and these files or folders."""
        total = hashlib.sha256(kit_version().encode())
        paths = [f"{self.top}/HANDLES", *(f"{self.folder(name)}/{it}" for it in RUN_FILES), *more]
        for crate in [*self.reach(name), name]:
            total.update(self.lines[crate].encode())
            paths += [path for part in PARTS for path in files_below(f"{self.folder(crate)}/{part}")]
        for path in [inner for path in paths for inner in (files_below(path) if os.path.isdir(path) else [path])]:
            if os.path.exists(path):
                with open(path, "rb") as it:
                    total.update(repr((os.path.relpath(path, self.top), it.read())).encode())
        return total.hexdigest()


def files_below(folder):
    """Returns the paths of all files below a folder, in order; none if there is no such folder."""
    return sorted(f"{at}/{file}" for at, _, files in os.walk(folder) for file in files)


def kit_version():
    """Returns the kit's name, as `rt version` prints it."""
    ran = subprocess.run(["rt", "version"], stdin=subprocess.DEVNULL, stdout=subprocess.PIPE, text=True, check=False)
    return ran.stdout.strip()
