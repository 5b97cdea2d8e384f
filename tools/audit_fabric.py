"""The audit of a whole fabric: each leaf is asked side by side, twice, and all are compared with what each advertised itself.

Of a leaf that doesn't answer the others' routes of its edge stand in the place of its own. What changes between the two
looks isn't judged: a difference is told if both looks have it by the same values, and no route of the MAC was new in between.
"""

import argparse
import concurrent.futures
import os
import shlex
import time
from dataclasses import dataclass, field
from typing import Dict, Iterable, Iterator, List, NamedTuple, Optional, Set, Tuple

import audit_causes
import audit_views
import frr_routes
import update_records as records
from audit_causes import Cause
from audit_compare import Result, Truth, Verdict, differs, marks_of, results_of, seen_twice, truth_of
from audit_report import Owned, Station, report_of
from audit_views import Texts, View
from update_records import Unreadable

SIDE_BY_SIDE = 16
JITTER = 2  # seconds
DETAIL = "show bgp l2vpn evpn route detail json"  # it has `lastUpdate`


Route = Tuple[int, Optional[bytes], bytes, bytes, records.Advert, str]  # VNI, MAC, IP, VTEP, advert, communities


@dataclass
class Look:
    """One look at all leaves: the views of those that answered, and why the others didn't."""

    views: Dict[str, View] = field(default_factory=dict)
    silent: Dict[str, str] = field(default_factory=dict)
    results: Dict[str, List[Result]] = field(default_factory=dict)
    causes: Dict[str, List[Cause]] = field(default_factory=dict)
    own: Dict["Route", None] = field(default_factory=dict)
    heard: Dict["Route", None] = field(default_factory=dict)
    reflected: Dict[bytes, records.Advert] = field(default_factory=dict)

    def take(self, leaf: str, view: View) -> None:
        """Takes a leaf's view; of its paths each is kept once for all leaves."""
        for _, vni, mac, ip, vtep, advert, _, _, is_own, targets in view.snapshot.paths or ():
            kept = self.own if is_own else self.heard
            kept[vni, mac, ip, vtep, advert, targets] = None
        view.snapshot.paths = None
        self.views[leaf] = view


class Lack(NamedTuple):
    """Routes of an edge that a leaf doesn't show."""

    leaf: str
    edge: str
    stations: int
    sessions: str


@dataclass
class Report:
    """What a fabric's audit says."""

    silent: Dict[str, str]
    lacks: List[Lack]
    causes: List[Tuple[str, int, Cause]]
    macs: Dict[Tuple[int, bytes], List[Tuple[str, Verdict]]]
    entries: List[Tuple[str, int, object]]
    networks: List[Tuple[str, int]]
    leaves: int
    unreflected: Dict[str, int] = field(default_factory=dict)
    keeps: List[Lack] = field(default_factory=list)

    def differs(self) -> bool:
        """Returns whether anything differs."""
        return bool(self.lacks or self.causes or self.macs or self.entries or self.unreflected or self.keeps)


# ---- leaves ----------------------------------------------------------------------------------------------------------


def leaves_of(name: str) -> List[str]:
    """The leaves that a file lists, one a line; a comma between names is a list on the command line."""
    if "," in name or not os.path.isfile(name):
        found = [leaf for leaf in name.split(",") if leaf]
    else:
        with records.open_text(name) as stream:
            found = [line.split("#")[0].strip() for line in audit_views.whole(stream, name).splitlines()]
    found = [leaf for leaf in dict.fromkeys(found) if leaf]
    if not found:
        raise Unreadable(f"{name}: no leaf is listed")
    return found


def prefix_of(run: str, leaf: str) -> List[str]:
    """The words before each command of a leaf."""
    return [word.replace("{leaf}", leaf) for word in shlex.split(run)]


def texts_of(leaf: str, arguments: argparse.Namespace) -> Texts:
    """A leaf's texts: of a directory of that name where no command is given, else by that command."""
    if not arguments.run:
        return audit_views.texts_of_directory(leaf)
    before = tuple(prefix_of(arguments.run, leaf))
    return audit_views.texts_of_host(audit_views.Host(arguments.vtysh, arguments.timeout, before, leaf, DETAIL))


def look(leaves: List[str], arguments: argparse.Namespace) -> Look:
    """Asks all leaves, so many side by side, and compares each with what all advertised."""
    found = Look()

    def asked(leaf: str) -> Tuple[str, Optional[Texts], str]:
        try:
            return leaf, texts_of(leaf, arguments), ""
        except Unreadable as fault:
            return leaf, None, str(fault)

    with concurrent.futures.ThreadPoolExecutor(SIDE_BY_SIDE) as pool:
        for leaf, texts, fault in pool.map(asked, leaves):
            try:
                if texts is None:
                    raise Unreadable(fault)
                found.take(leaf, audit_views.view_of(texts, arguments)._replace(name=leaf))
            except Unreadable as unread:
                found.silent[leaf] = str(unread)
    truths = Truths(found, arguments)
    found.reflected = {key: advert for snapshot in truths.reflected() for key, (advert, _) in snapshot.registers.items()}
    for leaf, view in found.views.items():
        results = results_of(view, truths.of(view), set(arguments.mac))
        found.results[leaf] = [result._replace(macs=[each for each in result.macs if differs(each)]) for result in results]
        found.causes[leaf] = audit_causes.of_router(view)
    return found


# ---- the fabric's adverts ----------------------------------------------------------------------------------------


class Truths:
    """What each leaf should know: of those with the same imports it is computed once."""

    def __init__(self, seen: Look, arguments: argparse.Namespace) -> None:
        self.arguments, self.seen = arguments, seen
        self.known: Dict[tuple, Truth] = {}
        answering = set().union(*(view.own for view in seen.views.values()))
        self.routes = [*seen.own, *(route for route in seen.heard if route[3] not in answering)]

    def of(self, view: View) -> Truth:
        """The truth of a leaf."""
        routes = view.snapshot.routes
        key = tuple(sorted(view.vnis)), tuple(sorted(view.routed)), imports_key(routes.imports)
        if key not in self.known:
            self.known[key] = self.made(routes)
        return with_segments(self.known[key], view.snapshot)

    def made(self, like: frr_routes.Routes) -> Truth:
        """What a leaf with these imports should know."""
        snapshots = self.reflected_as(like) if self.arguments.routes else [self.advertised(like)]
        updates = (update for snapshot in snapshots for update in snapshot.updates(lambda _: 1))
        report: Dict[Station, Owned] = report_of(self.arguments.program, updates, set(self.arguments.mac))
        return truth_of(report, snapshots)

    def advertised(self, like: frr_routes.Routes) -> frr_routes.Snapshot:
        """What the leaves advertised themselves, as one with these imports takes it."""
        routes = routes_like(like)
        snapshot = frr_routes.Snapshot(routes)
        for _, mac, ip, vtep, advert, targets in self.routes:
            for vni in routes.community(targets).vnis:
                snapshot.take(frr_routes.Path("", vni, mac, ip, vtep, advert, 0, False, False, targets))
        routes.told.pop(frr_routes.FOLDED, None)
        return snapshot

    def reflected_as(self, like: frr_routes.Routes) -> List[frr_routes.Snapshot]:
        """What the reflectors of --routes have, as a leaf with these imports takes it."""
        return [audit_views.reflected(path, routes_like(like)) for path in self.arguments.routes]

    def reflected(self) -> List[frr_routes.Snapshot]:
        """What the reflectors of --routes have of all networks of the fabric, by the first leaf's imports."""
        views = list(self.seen.views.values())
        if not self.arguments.routes or not views:
            return []
        like = routes_like(views[0].snapshot.routes)
        like.vnis = {vni for view in views for vni in view.vnis}
        return self.reflected_as(like)


def routes_like(like: frr_routes.Routes) -> frr_routes.Routes:
    """A reader of routes with the same networks and imports."""
    return frr_routes.Routes(like.vnis, like.any_rd, like.targets.items(), True, like.imports, like.routed)


def with_segments(truth: Truth, snapshot: frr_routes.Snapshot) -> Truth:
    """A truth with the router MACs and segments of a leaf's own routes: paths of these aren't kept."""
    own = truth_of({}, [frr_routes.Snapshot(snapshot.routes)])
    return truth._replace(routers=own.routers, needed=own.needed, multihomed=own.multihomed, segments=own.segments)


def imports_key(imports: Optional[frr_routes.Imports]) -> tuple:
    """What two leaves with the same imports have in common."""
    if imports is None:
        return ()
    return tuple(sorted(imports.exact.items())), tuple(sorted(imports.by_number.items()))


# ---- two looks -------------------------------------------------------------------------------------------------------------


def audited(arguments: argparse.Namespace) -> Report:
    """Looks at all leaves, and once more where the first look finds something."""
    leaves = leaves_of(arguments.leaves)
    first = look(leaves, arguments)
    if not first.views:
        leaf, fault = next(iter(first.silent.items()))
        raise Unreadable(f"no leaf answers; {leaf}: {fault}")
    unreflected = lost_of(first)
    if not arguments.run or not (unreflected or any(marks_of(each) for found in first.results.values() for each in found)):
        return report_of_look(first, unreflected)
    time.sleep(arguments.again if arguments.again is not None else 5.0)
    second = look(leaves, arguments)
    moving = moved(first, second)
    for leaf, results in second.results.items():
        kept = seen_twice(first.results.get(leaf, []), results)
        second.results[leaf] = [without(result, moving) for result in kept]
        second.causes[leaf] = audit_causes.both(first.causes.get(leaf, []), second.causes[leaf])
    both = {key: None for key in lost_of(second) if key in unreflected and (int.from_bytes(key[4:7], "big"), key[7:13]) not in moving}
    return report_of_look(second, both)


def lost_of(seen: Look) -> Dict[bytes, None]:
    """The registers that a leaf advertises itself in a network that its look shows, and of which the reflectors have no route."""
    if not seen.reflected:
        return {}
    found = {}
    for view in seen.views.values():
        for key in view.snapshot.registers:
            if key[:4] in view.own and key not in seen.reflected:
                found[key] = None
    return found


def moved(first: Look, second: Look) -> Set[Tuple[int, bytes]]:
    """The stations of which some leaf shows another route than before, or the same one heard again."""
    found: Set[Tuple[int, bytes]] = set()
    for leaf, view in second.views.items():
        before = first.views.get(leaf)
        if before is not None:
            old, new = before.snapshot.registers, view.snapshot.registers
            for key in {*old, *new}:
                if is_another(old.get(key), new.get(key)):
                    found.add((int.from_bytes(key[4:7], "big"), key[7:13]))
    for key in {*first.reflected, *second.reflected}:
        if first.reflected.get(key) != second.reflected.get(key):
            found.add((int.from_bytes(key[4:7], "big"), key[7:13]))
    return found


def is_another(old: Optional[Tuple[records.Advert, int]], new: Optional[Tuple[records.Advert, int]]) -> bool:
    """Returns whether a route is another one than before; FRR's times of one route differ by a second or two between looks."""
    return old is None or new is None or old[0] != new[0] or abs(old[1] - new[1]) > JITTER


def without(result: Result, moving: Set[Tuple[int, bytes]]) -> Result:
    """A result without what moved between both looks."""
    macs = [
        each._replace(kind="equal", mend="", see="") if differs(each) and (result.vni, each.mac) in moving else each
        for each in result.macs
    ]
    causes = []
    for cause in result.causes:
        members = frozenset(mac for mac in cause.members if (result.vni, mac) not in moving)
        if cause.kind not in audit_causes.PASSING:
            causes.append(cause)
        elif members:
            causes.append(Cause(cause.kind, cause.what, members))
    floods = result.floods if (result.vni, b"") not in moving else None
    names = {records.mac_text(mac) for vni, mac in moving if vni == result.vni}
    neighbours = None
    if result.neighbours is not None:
        neighbours = [each for each in result.neighbours if not names & {*each.wanted.split(" or "), each.found}]
    return result._replace(macs=macs, causes=causes, floods=floods, neighbours=neighbours)


# ---- the report --------------------------------------------------------------------------------------------------------------


def report_of_look(seen: Look, unreflected: Iterable[bytes] = ()) -> Report:
    """Sorts what differs by what stands behind it."""
    report = Report(dict(seen.silent), [], [], {}, [], lacking(seen), len(seen.views) + len(seen.silent))
    for key in unreflected:
        edge = records.address_text(key[:4])
        report.unreflected[edge] = report.unreflected.get(edge, 0) + 1
    for leaf, results in seen.results.items():
        report.causes += ((leaf, 0, cause) for cause in seen.causes[leaf])
        unheard: Dict[str, int] = {}
        stale: Dict[str, int] = {}
        for result in results:
            for entry in marks_of(result).values():
                if isinstance(entry, Cause):
                    report.causes.append((leaf, result.vni, entry))
                elif isinstance(entry, Verdict) and entry.cause == "unheard":
                    unheard[entry.owner] = unheard.get(entry.owner, 0) + 1
                elif isinstance(entry, Verdict) and entry.kind == "extra" and entry.bgpd == entry.zebra == entry.kernel:
                    stale[entry.bgpd] = stale.get(entry.bgpd, 0) + 1
                elif isinstance(entry, Verdict):
                    report.macs.setdefault((result.vni, entry.mac), []).append((leaf, entry))
                else:
                    report.entries.append((leaf, result.vni, entry))
        down = [f"{peer} is {state}" for peer, state in seen.views[leaf].sessions.items() if state != audit_causes.ESTABLISHED]
        sessions = ", ".join(down) or "each of its sessions stands"
        report.lacks += (Lack(leaf, edge, count, sessions) for edge, count in sorted(unheard.items()))
        report.keeps += (Lack(leaf, edge, count, sessions) for edge, count in sorted(stale.items()))
    return report


def lacking(seen: Look) -> List[Tuple[str, int]]:
    """The networks that one leaf lacks, and all others of at least two have."""
    found = []
    having: Dict[int, Set[str]] = {}
    for leaf, view in seen.views.items():
        for vni in view.vnis:
            having.setdefault(vni, set()).add(leaf)
    for vni, leaves in sorted(having.items()):
        others = set(seen.views) - leaves
        if len(others) == 1 and len(leaves) > 1:
            found.append((next(iter(others)), vni))
    return found


def lines_of(report: Report) -> Iterator[str]:
    """The report: leaves that don't answer, causes, routes that a leaf lacks, conclusions that differ, entries, networks."""
    for leaf, fault in report.silent.items():
        yield f"{leaf}: doesn't answer: {fault}"
    for leaf, vni, cause in report.causes:
        yield f"{leaf}: cause{f' {vni}' if vni else ''}: {cause.line()}"
    for words, lacks in (("lacks the routes of", report.lacks), ("keeps routes that are gone, of", report.keeps)):
        for lack in lacks:
            stations = "station" if lack.stations == 1 else "stations"
            yield f"{lack.leaf}: {words} {lack.edge}: {lack.stations} {stations}; {lack.sessions}"
    for edge, count in sorted(report.unreflected.items()):
        yield f"reflector: lacks {count} route{'s' * (count != 1)} of {edge}, which {edge} advertises itself"
    for (vni, mac), verdicts in sorted(report.macs.items()):
        places: Dict[str, List[str]] = {}
        for leaf, each in verdicts:
            what = f"{each.kind}, bgpd {each.bgpd}, zebra {each.zebra}, kernel {each.kernel}"
            places.setdefault(what, []).append(leaf)
        owner, reason = verdicts[0][1].owner, verdicts[0][1].reason
        said = "; ".join(f"{', '.join(leaves)}: {what}" for what, leaves in places.items())
        yield f"{vni} {records.mac_text(mac)} owner {owner} ({reason}); {said}"
    yield from entry_lines(report.entries)
    for leaf, vni in report.networks:
        yield f"{leaf}: lacks network {vni}, which all others have"
    answered = report.leaves - len(report.silent)
    told = sum(map(len, (report.causes, report.lacks, report.keeps, report.unreflected, report.macs, report.entries)))
    yield f"fabric: {report.leaves} leaves, {answered} answered; {told} differences"


def entry_lines(entries: Iterable[Tuple[str, int, object]]) -> Iterator[str]:
    """Flood lists, neighbours and router MACs, each with the leaves that have them so."""
    grouped: Dict[Tuple[str, int, str, str, str], List[str]] = {}
    for leaf, vni, entry in entries:
        grouped.setdefault((entry.kind, vni, entry.what, entry.wanted, entry.found), []).append(leaf)
    for (kind, vni, what, wanted, found), leaves in grouped.items():
        yield f"{kind} {vni} {what}: by the routes {wanted}, found {found}: {', '.join(leaves)}"


def dict_of(report: Report) -> dict:
    """The report as JSON has it."""
    return {
        "schema": 2,
        "leaves": report.leaves,
        "silent": report.silent,
        "causes": [{"leaf": leaf, "vni": vni or None, "text": cause.line()} for leaf, vni, cause in report.causes],
        "lacks": [lack._asdict() for lack in report.lacks],
        "keeps": [keep._asdict() for keep in report.keeps],
        "reflector lacks": report.unreflected,
        "macs": [
            {
                "vni": vni,
                "mac": records.mac_text(mac),
                "owner": verdicts[0][1].owner,
                "leaves": {leaf: [each.kind, each.bgpd, each.zebra, each.kernel] for leaf, each in verdicts},
            }
            for (vni, mac), verdicts in sorted(report.macs.items())
        ],
        "entries": [{"leaf": leaf, "vni": vni, **entry._asdict()} for leaf, vni, entry in report.entries],
        "networks": [{"leaf": leaf, "vni": vni} for leaf, vni in report.networks],
    }
