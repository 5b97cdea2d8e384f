"""The report of `evpnd` (docs/routes.md): how it is made of updates, what it says, and why an owner is the owner."""

import functools
import os
import shutil
import subprocess
import tempfile
from typing import Dict, Iterable, Iterator, List, NamedTuple, Optional, Set, Tuple

import update_records as records
from update_records import Advert, Unreadable, Update

NOWHERE = "nowhere"
WHERE_FROM = (
    "install the package evpnd (tools/package.sh makes it), or build it by `rt run` in crates/evpnd, "
    "or name it by --evpnd or by the variable EVPND"
)

Station = Tuple[int, bytes]


class Said(NamedTuple):
    """One advert of a MAC in the report."""

    originator: bytes
    advert: Advert
    ip: str


class Owned(NamedTuple):
    """A MAC's part of the report: its adverts and its owner."""

    adverts: List[Said]
    owner: Optional[bytes]


NOBODY = Owned([], None)
ADDRESS = functools.lru_cache(maxsize=None)(records.read_address)


def said_of(words: List[str]) -> Optional[Said]:
    """The advert of a line 'mac VNI MAC ORIGINATOR COUNTER ..'; nothing of a withdrawn one."""
    kind, rest = words[5], words[6:] if words[5] == "withdrawn" else words[7:]
    if not rest and kind != "withdrawn":
        return Said(ADDRESS(words[3]), advert_of(kind, words[6]), "")
    options = dict(zip(rest[::2], rest[1::2])) if rest else {}
    if len(rest) % 2 or not {*options} <= {"ip", "label2"}:
        raise ValueError(kind)
    if kind == "withdrawn":
        return None
    return Said(ADDRESS(words[3]), advert_of(kind, words[6]), options.get("ip", ""))


@functools.lru_cache(maxsize=None)
def advert_of(kind: str, sequence: str) -> Advert:
    """What two words of a line say of an advert."""
    if kind not in ("dynamic", "static") or not sequence.isdecimal():
        raise ValueError(kind)
    return Advert(kind == "static", int(sequence))


def read_report(text: str) -> Dict[Station, Owned]:
    """Each MAC's adverts and owner, as a report says them (docs/routes.md)."""
    stations: Dict[Station, Owned] = {}
    adverts: List[Said] = []
    for number, line in enumerate(text.splitlines(), 1):
        words = line.split(" ")
        try:
            if words[0] == "mac":
                said = said_of(words)
                if said is not None:
                    adverts.append(said)
            elif words[0] == "owner" and len(words) == 4:
                owner = None if words[3] == "none" else ADDRESS(words[3])
                stations[int(words[1]), records.read_mac(words[2])] = Owned(adverts, owner)
                adverts = []
            elif words[0] != "flood":
                raise ValueError(words[0])
        except (ValueError, IndexError):
            raise Unreadable(f"line {number} of the report isn't one of a report: {line[:60]!r}") from None
    return stations


# ---- why ----------------------------------------------------------------------------------------------------


def preference(said: Said) -> tuple:
    """The key of the order of preference: static, then the higher sequence, then the lower address (RFC 7432, 15)."""
    return not said.advert.static, -said.advert.sequence, said.originator, said.ip


def best_of(adverts: Iterable[Said]) -> Optional[Said]:
    """The best of some adverts."""
    return min(adverts, key=preference, default=None)


def advert_text(said: Said) -> str:
    """An advert as the reasons name it."""
    kind = "static" if said.advert.static else "dynamic"
    return f"{kind} {said.advert.sequence} of {records.address_text(said.originator)}"


def rule_between(one: Said, other: Said) -> str:
    """The rule that puts one advert before another of a different originator."""
    if one.advert.static != other.advert.static:
        return "static"
    if one.advert.sequence != other.advert.sequence:
        return f"the higher sequence {one.advert.sequence}"
    return f"the lower address at sequence {one.advert.sequence}"


def reason_of(owned: Owned) -> Tuple[str, str]:
    """Why the owner is the owner, and who is it once its adverts are withdrawn."""
    own = best_of(said for said in owned.adverts if said.originator == owned.owner)
    other = best_of(said for said in owned.adverts if said.originator != owned.owner)
    if own is None:
        return "no router advertises it", NOWHERE
    if other is None:
        return "the only advert", NOWHERE
    return f"{rule_between(own, other)}, against {advert_text(other)}", records.address_text(other.originator)


def preferences_of(owned: Owned) -> List[str]:
    """The adverts in order of preference, each with the rule that puts it before the next."""
    adverts = sorted(owned.adverts, key=preference)
    lines = []
    for said, behind in zip(adverts, [*adverts[1:], None]):
        line = advert_text(said) + (f" ip {said.ip}" if said.ip else "")
        if behind is not None:
            same = said.originator == behind.originator
            line += ", before the next: " + ("of the same router" if same else rule_between(said, behind))
        lines.append(line)
    return lines


# ---- the program ----------------------------------------------------------------------------------------------


def program_of(named: Optional[str]) -> str:
    """The program `evpnd`: named, by the variable EVPND, on the path, or where `rt run` leaves it; `evpnd_report` does as well."""
    crates = os.path.normpath(os.path.join(os.path.dirname(os.path.abspath(__file__)), "..", "crates"))
    built = [os.path.join(crates, name, "out", name) for name in ("evpnd", "evpnd_report")]
    there = next((program for program in built if os.access(program, os.X_OK)), built[0])
    return named or os.environ.get("EVPND") or shutil.which("evpnd") or shutil.which("evpnd_report") or there


def run_report(program: str, updates: List[Update]) -> str:
    """What `evpnd report` prints of some updates; it has to take all of them."""
    originators = sorted({update.originator for update in updates})
    names = ",".join(records.address_text(originator) for originator in originators)
    with tempfile.TemporaryFile() as stream:
        stream.write(b"".join(map(records.record_of, updates)))
        stream.seek(0)
        try:
            alone = os.path.basename(program) == "evpnd_report"
            words = [program, names] if alone else [program, "report", "--originators", names]
            done = subprocess.run(words, stdin=stream, capture_output=True, check=False)
        except OSError as fault:
            raise Unreadable(f"the program evpnd can't be run, {program}: {fault.strerror}; {WHERE_FROM}") from None
    if done.returncode != 0 or done.stderr:
        note = done.stderr.decode("utf-8", "replace").split("\n")[0]
        raise Unreadable(f"{program} report gave status {done.returncode}: {note}")
    return done.stdout.decode("utf-8", "replace")


def parts_of(stations: Dict[Station, List[Update]]) -> Iterator[List[Update]]:
    """The stations' updates in parts of 64 originators at most: an owner depends on its MAC's registers alone."""
    everyone = {update.originator for updates in stations.values() for update in updates}
    if stations and len(everyone) <= records.MOST_ORIGINATORS:
        yield [update for updates in stations.values() for update in updates]
        return
    part: List[Update] = []
    originators: Set[bytes] = set()
    for updates in sorted(stations.values(), key=lambda each: sorted(update.originator for update in each)):
        more = {update.originator for update in updates}
        if len(more) > records.MOST_ORIGINATORS:
            where = f"{updates[0].vni} {records.mac_text(updates[0].mac or b'')}"
            most = records.MOST_ORIGINATORS
            raise Unreadable(f"{where} is advertised by {len(more)} routers, and a table has {most} at most")
        if len(originators | more) > records.MOST_ORIGINATORS:
            yield part
            part, originators = [], set()
        part += updates
        originators |= more
    if part:
        yield part


def report_of(program: str, updates: Iterable[Update], wanted: Set[bytes]) -> Dict[Station, Owned]:
    """The report of some updates; only the wanted MACs, if any are named."""
    stations: Dict[Station, List[Update]] = {}
    for update in updates:
        if update.mac is not None and (not wanted or update.mac in wanted):
            stations.setdefault((update.vni, update.mac), []).append(update)
    owned: Dict[Station, Owned] = {}
    for part in parts_of(stations):
        owned.update(read_report(run_report(program, part)))
    return owned
