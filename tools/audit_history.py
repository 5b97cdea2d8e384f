"""An audit over time: since when something differs, and snapshots as record streams; audit_plot.py draws them.

A directory of snapshots has for each look a file SECONDS.records with the records of what has changed since
the look before, all by the counter SECONDS, and SECONDS.json with its sums. Records are sets: the streams
up to a time, one after the other, are the table of that time (docs/records.md).
"""

import glob
import io
import json
import os
import sys
import time
from typing import Dict, Iterable, Iterator, List, Tuple

import update_records as records
from audit_print import Told, json_text, mark_text, totals_of, write_whole
from audit_compare import Result, marks_of
from update_records import Unreadable, Update


# ---- since when -------------------------------------------------------------------------------------------------------


def since_of(path: str, results: List[Result], now: int) -> Dict[str, int]:
    """Since when each difference has been seen; the file keeps those that are there now, and no others."""
    before = state_of(path)
    names = [mark_text(result.view, result.vni, mark) for result in results for mark in marks_of(result)]
    since = {name: second_of(before.get(name), now) for name in names}
    write_whole(path, json.dumps(since, indent=1) + "\n")
    return since


def second_of(value: object, now: int) -> int:
    """Returns the second that a state file has, or `now` if the value is no second of the past."""
    return value if isinstance(value, int) and not isinstance(value, bool) and 0 <= value <= now else now


def state_of(path: str) -> Dict[str, object]:
    """The state of before; a file that can't be read is told, and a new one takes its place: the audit goes on."""
    try:
        with open(path, encoding="utf-8") as stream:
            before = json.load(stream)
    except FileNotFoundError:
        return {}
    except (OSError, ValueError, RecursionError) as fault:
        before = str(fault)
    if isinstance(before, dict):
        return before
    print(f"evpnd_audit: {path}: no state of an audit, begun anew", file=sys.stderr)
    return {}


# ---- snapshots ----------------------------------------------------------------------------------------------------------


def register_of(update: Update) -> tuple:
    """What an update speaks of."""
    return update.originator, update.vni, update.mac, update.ip


def streams_of(folder: str) -> List[Tuple[int, str]]:
    """The snapshots of a directory, each with its second, in order."""
    found = []
    for path in glob.glob(os.path.join(glob.escape(folder), "*.records")):
        name = os.path.basename(path).split(".")[0]
        if name.isdecimal():
            found.append((int(name), path))
    return sorted(found)


def updates_of(path: str) -> Iterator[Update]:
    """The updates of a stream, all of which have to be readable."""
    try:
        with open(path, "rb") as stream:
            octets = stream.read()
    except OSError as fault:
        raise Unreadable(f"{path}: {fault.strerror}") from None
    for number, answer in enumerate(records.read_records(io.BytesIO(octets)), 1):
        if not isinstance(answer, Update):
            raise Unreadable(f"{path}: record {number} spells no update")
        yield answer


def newest_of(folder: str) -> Dict[tuple, Update]:
    """The newest update of each register that a directory's snapshots speak of."""
    newest: Dict[tuple, Update] = {}
    for _, path in streams_of(folder):
        for update in updates_of(path):
            old = newest.get(register_of(update))
            if old is None or update.counter >= old.counter:
                newest[register_of(update)] = update
    return newest


def record(folder: str, updates: Iterable[Update], told: Told, status: int) -> str:
    """Adds a snapshot: what is new or changed is advertised, what has vanished is withdrawn, by the present second."""
    os.makedirs(folder, exist_ok=True)
    streams = streams_of(folder)
    now = max(int(time.time()), streams[-1][0] + 1 if streams else 1)
    newest = newest_of(folder)
    present = {register_of(update): update for update in updates}
    changed = [
        update._replace(counter=now)
        for register, update in present.items()
        if register not in newest or newest[register].advert != update.advert
    ]
    changed += [
        update._replace(advert=None, counter=now)
        for register, update in newest.items()
        if update.advert is not None and register not in present
    ]
    path = os.path.join(folder, f"{now}.records")
    with open(f"{path}.new", "wb") as out:
        for update in changed:
            out.write(records.record_of(update))
    os.replace(f"{path}.new", path)
    write_whole(os.path.join(folder, f"{now}.json"), json_text(told, status))
    return f"{path}: {len(changed)} of {len(present)} registers changed; {totals_of(told.results)['wrong']} MACs wrong"


def prune(folder: str, before: int) -> None:
    """Forgets the snapshots of before a second: what they say that still holds goes into the oldest that stays.

    The table at each second that stays is the same as before: a register's newest update is kept.
    """
    streams = streams_of(folder)
    old = [(second, path) for second, path in streams if second < before]
    if len(old) < 2:
        return
    newest: Dict[tuple, Update] = {}
    for _, path in old:
        for update in updates_of(path):
            newest[register_of(update)] = update
    last, kept = old[-1]
    with open(f"{kept}.new", "wb") as out:
        for update in newest.values():
            out.write(records.record_of(update))
    os.replace(f"{kept}.new", kept)
    for second, path in old:
        if second != last:
            for name in (path, f"{path[: -len('records')]}json"):
                if os.path.exists(name):
                    os.remove(name)
