"""Rooms: the folders in which rules work.

`rt` locks the folder of a crate and those of all crates below it. Two rules run side by side only if each has copies of its own. A
room has crates.txt cut to a crate and those below it, and these crates as copies. What was kept of a proof, and the libraries below,
are hard links: kept work doesn't depend on its path, and `rt` replaces a file and never writes into one.
"""
import contextlib
import os
import shutil
import tempfile

from project import PARTS


def linked(start, to):
    """Copies a folder by hard links, or by copies if the file system refuses links."""

    def one(source, target):
        try:
            os.link(source, target)
        except OSError:
            shutil.copy2(source, target)

    shutil.copytree(start, to, copy_function=one)


def fill(project, name, room, kept=None, libraries=None):
    """Makes a room for a crate in this new folder, and returns the crate's folder in it.

    `kept` is a folder of kept work that becomes the crate's out/. `libraries` says of a crate below the folder of its out/, from
    which the library is taken.
    """
    below = project.reach(name)
    os.makedirs(f"{room}/crates")
    with open(f"{room}/crates.txt", "w", encoding="utf-8") as it:
        it.write("".join(f"{project.lines[crate]}\n" for crate in [*below, name]))
    if os.path.exists(f"{project.top}/HANDLES"):
        shutil.copy(f"{project.top}/HANDLES", room)
    for crate in [*below, name]:
        to = f"{room}/crates/{crate}"
        os.makedirs(to)
        for part in PARTS:
            if os.path.isdir(f"{project.folder(crate)}/{part}"):
                shutil.copytree(f"{project.folder(crate)}/{part}", f"{to}/{part}")
        if crate != name and libraries and os.path.isdir(f"{libraries(crate)}/rlib"):
            os.makedirs(f"{to}/out")
            linked(f"{libraries(crate)}/rlib", f"{to}/out/rlib")
    if kept:
        linked(kept, f"{room}/crates/{name}/out")
    return f"{room}/crates/{name}"


@contextlib.contextmanager
def room_for(project, name, what, kept=None, libraries=None):
    """Gives the crate's folder in a new room, which is deleted at the end."""
    os.makedirs(project.gate, exist_ok=True)
    with tempfile.TemporaryDirectory(prefix=f"{name}.{what}.", dir=project.gate) as room:
        yield fill(project, name, f"{room}/room", kept, libraries)


def sweep(project):
    """Deletes the rooms that killed rules have left."""
    for name in os.listdir(project.gate):
        if os.path.isdir(f"{project.gate}/{name}/room") or name.endswith(".proof.kept"):
            shutil.rmtree(f"{project.gate}/{name}")


def clear(project):
    """Deletes all rooms and the gate's kit, and leaves the facts. `rt ci` stops at a crates.txt anywhere but at the top."""
    for name in os.listdir(project.gate):
        if os.path.isdir(f"{project.gate}/{name}"):
            shutil.rmtree(f"{project.gate}/{name}")
