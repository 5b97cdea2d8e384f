"""A kit of the gate's own, made of links.

`rt` keeps beside the kit's folder where on this machine which crates were proved, and begins with what it finds there. A gate that
proves from nothing needs a kit that has nothing beside it. This makes one: links to the kit's folders, and a folder bin/ with the same
programs. None of them is read or changed.
"""
import os
import shutil
import subprocess


def make(folder):
    """Makes the kit in a folder's kit/rattle/, and returns its bin/; None if `rt` doesn't say where the kit is."""
    told = subprocess.run(["rt", "doc"], stdin=subprocess.DEVNULL, stdout=subprocess.PIPE, text=True, check=False).stdout.strip()
    start, to = os.path.dirname(told), f"{folder}/kit/rattle"
    if not os.path.isdir(f"{start}/bin"):
        return None
    shutil.rmtree(f"{folder}/kit", ignore_errors=True)
    os.makedirs(f"{to}/bin")
    for name in os.listdir(start):
        if name != "bin":
            os.symlink(f"{start}/{name}", f"{to}/{name}")
    for name in os.listdir(f"{start}/bin"):
        source = f"{start}/bin/{name}"
        if os.path.islink(source):
            os.symlink(os.path.realpath(source), f"{to}/bin/{name}")
            continue
        try:
            os.link(source, f"{to}/bin/{name}")
        except OSError:
            (shutil.copytree if os.path.isdir(source) else shutil.copy2)(source, f"{to}/bin/{name}")
    return f"{to}/bin"


def environment(folder):
    """Returns the environment of a gate's commands: the path has its own kit first, if it has made one."""
    path = f"{folder}/kit/rattle/bin"
    return {**os.environ, "PATH": f"{path}:{os.environ['PATH']}"} if os.path.isdir(path) else None
