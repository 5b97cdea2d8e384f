#!/usr/bin/env python3
"""Runs the tests of tests/tools/ and of tests/program/; the last line is 'N passed, M failed'.

usage: tests/run.py [NAME..]      (default: all)

NAME is a module, such as test_run, or a class or a test in it, such as test_run.Carries. The tests in tests/program/ run the program
that EVPND names; by default it is the proved one. A test that is skipped counts as failed.

Without a NAME each class runs in a process of its own, as many side by side as there are processors (TEST_LANES=N: N of them). Each
process has a network of its own, if the system allows one (`unshare --net`), so no test meets an address of another. The output of a
class comes when the class has ended.
"""

import os
import re
import subprocess
import sys
import time
import unittest
from concurrent.futures import ThreadPoolExecutor
from typing import Dict, Iterator, List, Tuple

HERE = os.path.dirname(os.path.abspath(__file__))
FOLDERS = [os.path.join(HERE, name) for name in ("program", "tools")]
# these start first: the run ends no sooner than the slowest class
LONGEST = ["test_other_kit.OtherKit", "test_gate.Gate", "test_pages.Pages", "test_audit_routed.Routed"]
CLOSING = re.compile(r"^(\d+) passed, (\d+) failed$", re.M)
# how many of the slowest classes are printed
SLOWEST = 8
OWN_NETWORK = ["unshare", "--net", "sh", "-c", 'ip link set lo up && exec "$@"', "sh"]


def all_tests() -> unittest.TestSuite:
    """Returns the tests of all modules."""
    return unittest.TestSuite(unittest.TestLoader().discover(folder) for folder in FOLDERS)


def tests_of(names: List[str]) -> unittest.TestSuite:
    """Returns the tests of these names."""
    return unittest.TestLoader().loadTestsFromNames(names)


def cases(suite: unittest.TestSuite) -> Iterator[unittest.TestCase]:
    """Yields the tests of a suite, one by one."""
    for test in suite:
        if isinstance(test, unittest.TestSuite):
            yield from cases(test)
        else:
            yield test


def class_of(test: unittest.TestCase) -> str:
    """Returns the name of a test's class. A module that can't be read has a test of its own, which names the module."""
    kind = type(test)
    return f"{kind.__module__}.{kind.__qualname__}" if kind.__module__ != "unittest.loader" else test.id().rpartition(".")[2]


def run_here(names: List[str]) -> int:
    """Runs the tests of these names in this process."""
    result = unittest.TextTestRunner(stream=sys.stdout, verbosity=1).run(tests_of(names))
    bad = {str(getattr(test, "test_case", test)) for test, _ in result.failures + result.errors + result.skipped}
    for test, why in result.skipped:
        print(f"skipped: {test}: {why}")
    print(f"{result.testsRun - len(bad)} passed, {len(bad)} failed")
    return 1 if bad or result.testsRun == 0 else 0


def own_network() -> List[str]:
    """Returns the words before a command that give it a network of its own; none if the system allows none."""
    try:
        allowed = subprocess.run([*OWN_NETWORK, "true"], stdin=subprocess.DEVNULL, capture_output=True, check=False).returncode == 0
    except OSError:
        allowed = False
    return OWN_NETWORK if allowed else []


def run_apart(name: str, before: List[str]) -> Tuple[int, int, float]:
    """Runs the tests of a class in a process of its own. Returns how many passed, how many failed, and the seconds that they took."""
    begun = time.monotonic()
    words = [*before, sys.executable, os.path.abspath(__file__), name]
    done = subprocess.run(words, stdin=subprocess.DEVNULL, stdout=subprocess.PIPE, stderr=subprocess.STDOUT, check=False)
    said = done.stdout.decode(errors="replace")
    counts = CLOSING.findall(said)
    passed, failed = map(int, counts[-1]) if counts else (0, 1)
    if done.returncode and not failed:
        failed = 1
    why = "" if counts else f"ERROR: {name} ended with status {done.returncode} and without a count\n"
    sys.stdout.write(CLOSING.sub("", said).rstrip("\n") + "\n" + why)
    sys.stdout.flush()
    return passed, failed, time.monotonic() - begun


def run_all() -> int:
    """Runs each class in a process of its own, and adds up."""
    sizes: Dict[str, int] = {}
    for test in cases(all_tests()):
        sizes[class_of(test)] = sizes.get(class_of(test), 0) + 1
    before = own_network()
    if not before:
        print("the system allows no network of a process's own: all tests share one")
    lanes = int(os.environ.get("TEST_LANES") or len(os.sched_getaffinity(0)))
    order = sorted(sizes, key=lambda name: name not in LONGEST)
    with ThreadPoolExecutor(lanes) as pool:
        ended = dict(zip(order, pool.map(lambda name: run_apart(name, before), order)))
    for name, (passed, failed, _) in ended.items():
        if passed + failed < sizes[name]:
            print(f"ERROR: {name}: only {passed + failed} of its {sizes[name]} tests ran")
            ended[name] = (passed, sizes[name] - passed, ended[name][2])
    slowest = sorted(ended, key=lambda name: -ended[name][2])[:SLOWEST]
    print("slowest classes, in seconds: " + ", ".join(f"{name} {ended[name][2]:.0f}" for name in slowest))
    passed, failed = (sum(it[place] for it in ended.values()) for place in (0, 1))
    print(f"{passed} passed, {failed} failed")
    return 1 if failed or not passed else 0


def main(names: List[str]) -> int:
    """Runs the tests of these names, or all."""
    sys.dont_write_bytecode = True
    sys.path[:0] = FOLDERS
    return run_here(names) if names else run_all()


if __name__ == "__main__":
    sys.exit(main(sys.argv[1:]))
