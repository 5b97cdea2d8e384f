"""Calls of the kit's documented commands, what they took, and what their output says."""
import os
import re
import resource
import shutil
import subprocess
import threading
import time

import own_kit

# Lines of a check that refuses: the crate's proofs, or its text.
REFUSED = re.compile(r"^logic=not-proved|^only=\d+ proved=|\berror\[[\w-]+\]|^(?:\./)?(?:src|specs|proofs)/\S+: error\b", re.M)
# The line of a check that doesn't find a function which `--only` names.
MISSING = re.compile(r"^rattle: error: .* has no function `([^`]+)`", re.M)
# The line of a check that has proved all, but could not end a search.
UNENDED = "the search for empty contracts did not end"
RESULT = re.compile(r"^logic=(proved|not-proved)\b", re.M)
# The line of a check that has ended with a function, as `rt` prints it at once.
ENDED = re.compile(rb"checked (\S+), \d+ of \d+$")
# The seconds by the clock from which a function counts as slow, and the most slow functions of one rule that are printed.
SLOW, MOST_SLOW = 20, 5
# lines that it prints whether it refuses or not
PLAIN = re.compile(r"fn \S+: proved|so far: |statements |library |logic /|crate \w+: modules |$")


class Calls:
    """The calls of one rule: the folder whose disk they fill, the least memory and disk that was left, and how failing calls ended."""

    def __init__(self, folder):
        self.folder, self.notes, self.started = folder, [], (time.monotonic(), seconds_of_children())
        self.least, self.environment = (free_memory(), free_disk(folder)), own_kit.environment(folder)
        # seconds by the clock from one function's end to the next one's, which the first function of a check has with the check's start
        self.spans = []

    def rt(self, folder, *words, stdin=None):
        """Runs a command in a folder. Returns its status, its standard output and its standard error, as octets."""
        how = {"stdin": stdin or subprocess.DEVNULL, "stdout": subprocess.PIPE, "stderr": subprocess.PIPE, "env": self.environment}
        with subprocess.Popen(["rt", *words], cwd=folder, **how) as ran:
            errors = []
            reader = threading.Thread(target=lambda: errors.append(ran.stderr.read()))
            reader.start()
            lines = self.timed(ran.stdout)
            reader.join()
        self.least = min(self.least[0], free_memory()), min(self.least[1], free_disk(self.folder))
        return ran.returncode, b"".join(lines), errors[0]

    def timed(self, stream):
        """Returns the lines of a check's output, and notes how long each function took."""
        lines, before = [], time.monotonic()
        for line in stream:
            lines.append(line)
            ended = ENDED.match(line)
            if ended:
                self.spans.append((time.monotonic() - before, ended[1].decode()))
                before = time.monotonic()
        return lines

    def check(self, folder, *words, jobs=1, stdin=None, after=()):
        """Runs a command that proves, a second time with one job if it fails and refuses nothing. Returns status, output and errors."""
        status, out, err = self.rt(folder, *words, "--jobs", str(jobs), *after, stdin=stdin)
        if could_not_tell(status, text_of(out, err)):
            self.notes += ends_of(status, text_of(out, err))
            if stdin:
                stdin.seek(0)
            status, out, err = self.rt(folder, *words, "--jobs", "1", *after, stdin=stdin)
            self.notes.append(f"retried with one job, the check ended with status {status}")
            self.notes += ends_of(status, text_of(out, err)) if status else []
        return status, out, err

    def facts(self):
        """Returns as facts how failing calls ended, which functions took long, what the calls took, and what was left."""
        most = resource.getrusage(resource.RUSAGE_CHILDREN).ru_maxrss >> 10
        took = f"seconds {seconds_of_children() - self.started[1]:.1f} {time.monotonic() - self.started[0]:.1f} {most}"
        slow = [f"slow {seconds:.0f} {name}" for seconds, name in sorted(self.spans, reverse=True)[:MOST_SLOW] if seconds >= SLOW]
        return [*(f"note {it}" for it in self.notes), *slow, took, f"left {self.least[0]} {self.least[1]}"]


def seconds_of_children():
    """Returns the processor seconds of all commands that have ended."""
    used = resource.getrusage(resource.RUSAGE_CHILDREN)
    return used.ru_utime + used.ru_stime


def could_not_tell(status, said):
    """Returns `True` if a check failed though it refused nothing: memory, steps or the stack ran out, or it was killed. A check that
    doesn't find a function fails again."""
    is_proved = RESULT.findall(said)[-1:] == ["proved"] and UNENDED not in said
    return status != 0 and not is_proved and not REFUSED.search(said) and not MISSING.search(said)


def ends_of(status, said):
    """Returns the last lines of a check that failed."""
    lines = [it for it in said.splitlines() if not PLAIN.match(it)]
    return [f"its check ended with status {status}", *lines[-8:]]


def text_of(*outputs):
    """Returns outputs as one text."""
    return "".join(it.decode(errors="replace") for it in outputs)


def free_memory():
    """Returns how many MiB of memory are available."""
    with open("/proc/meminfo", encoding="utf-8") as it:
        return int(re.search(r"MemAvailable: *(\d+)", it.read())[1]) >> 10


def free_disk(folder):
    """Returns how many MB are free on the file system of this folder, or of the nearest one above it that exists."""
    while not os.path.exists(folder):
        folder = os.path.dirname(folder)
    return shutil.disk_usage(folder).free // 1_000_000


def processors():
    """Returns how many processors this process may use."""
    return len(os.sched_getaffinity(0))
