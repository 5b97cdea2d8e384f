"""How an audit's results are printed: lines, JSON, one line for Nagios, a text for Prometheus; and the status."""

import json
import os
import time
from typing import Dict, Iterable, Iterator, List, NamedTuple, Tuple

import update_records as records
from audit_causes import Cause
from audit_compare import CAUSES, Difference, Result, Verdict, differs, marks_of, sums_of

AGREE, DIFFER, UNREADABLE, UNSAID, UNJUDGED = 0, 1, 2, 3, 4
NAGIOS_OK, NAGIOS_WARNING, NAGIOS_CRITICAL, NAGIOS_UNKNOWN = 0, 1, 2, 3
FIGURES = ("MACs", "wrong", "missing", "extra", "foreign", "not judged", "flood entries", "neighbours", "routers", "causes")
SCHEMA = 2  # of --json; docs/audit.md has it


class Told(NamedTuple):
    """All results, what was left out of the routes and what was taken in a way that one should know, by view and cause.

    `causes` has each view's causes that are of no network, `devices` its VXLAN devices that FRR doesn't run.
    """

    results: List[Result]
    left_out: Dict[str, Dict[str, int]]
    told: Dict[str, Dict[str, int]]
    since: Dict[str, int]
    causes: Dict[str, List[Cause]] = {}
    devices: Dict[str, Tuple[str, ...]] = {}

    def differs(self) -> bool:
        """Returns whether anything differs."""
        return any(self.causes.values()) or any(marks_of(result) for result in self.results)


def mark_text(view: str, vni: int, mark: tuple) -> str:
    """The name of a difference in a state file."""
    return " ".join([view, str(vni), *(str(part) for part in mark[:5])])


def status_of(results: List[Result], skips_are_fine: bool, causes: Iterable[List[Cause]] = ()) -> int:
    """1 where something differs; 3 where a VNI couldn't be audited, 4 where a MAC couldn't be judged; else 0."""
    if any(causes) or any(marks_of(result) for result in results):
        return DIFFER
    if any(result.fault for result in results):
        return UNSAID
    unjudged = any(verdict.kind == "not judged" for result in results for verdict in result.macs)
    return UNJUDGED if unjudged and not skips_are_fine else AGREE


def totals_of(results: List[Result]) -> Dict[str, int]:
    """The sums over all results."""
    totals: Dict[str, int] = dict.fromkeys(FIGURES, 0)
    for result in results:
        for name, count in sums_of(result).items():
            totals[name] = totals.get(name, 0) + count
    return totals


# ---- lines ----------------------------------------------------------------------------------------------------------


def line_of(vni: int, verdict: Verdict) -> str:
    """The line of a MAC."""
    line = (
        f"{verdict.kind} {vni} {records.mac_text(verdict.mac)} owner {verdict.owner} ({verdict.reason}); "
        f"bgpd {verdict.bgpd}, zebra {verdict.zebra}, kernel {verdict.kernel}; after a withdrawal {verdict.heir}"
    )
    return f"{line}; {CAUSES[verdict.cause]}" if differs(verdict) else line


def entry_line(vni: int, entry: object) -> str:
    """The line of whatever differs."""
    if isinstance(entry, Cause):
        return f"cause {vni} {entry.line()}"
    return line_of(vni, entry) if isinstance(entry, Verdict) else difference_line(vni, entry)


def difference_line(vni: int, entry: Difference) -> str:
    """The line of a flood list's entry, of a neighbour or of a router's MAC."""
    if entry.kind.startswith("flood"):
        says = "its route is there, and the kernel doesn't flood to it" if entry.found == "not there" else "no route of it"
        return f"{entry.kind} {vni} {entry.what}: {says}"
    where = "found" if entry.kind.startswith(("router", "next hop")) else "in the kernel"
    return f"{entry.kind} {vni} {entry.what}: by the routes {entry.wanted}, {where} {entry.found}"


def time_text(seconds: int) -> str:
    """A time as everybody reads it."""
    return time.strftime("%Y-%m-%dT%H:%M:%SZ", time.gmtime(seconds))


def lines_of(result: Result, told: Told, is_brief: bool) -> Iterator[str]:
    """The lines of what differs in a result, each with why, since when and what mends it, and the sums."""
    if result.fault:
        yield f"{result.view}: VNI {result.vni}: can't be audited: {result.fault}"
        return
    for mark, entry in marks_of(result).items():
        yield entry_line(result.vni, entry)
        if is_brief:
            continue
        for number, advert in enumerate(entry.adverts if isinstance(entry, Verdict) else [], 1):
            yield f"    {number}. {advert}"
        since = told.since.get(mark_text(result.view, result.vni, mark))
        if since is not None:
            yield f"    since {time_text(since)}"
        if not isinstance(entry, Cause):
            yield from [f"    mend: {entry.mend}"] if entry.mend else []
            yield from [f"    see {entry.see}"] if entry.see else []
    sums = sums_of(result)
    if result.routers is not None:
        yield f"{result.view}: VNI {result.vni}: L3VNI, {len(result.routers)} router MACs and next hops differ"
        return
    counts = ", ".join(f"{sums[name]} {name}" for name in ("MACs", "equal", "wrong", "missing", "extra", "not judged"))
    alone = sums["by rule"] + sums["by unheard"] + sums["by unknown"]
    causes = f"{sums['by forwarding']} unlike bgpd's own best path, {alone} unlike the report alone"
    yield f"{result.view}: VNI {result.vni}: {counts}; {causes}; {entries_text(result)}"


def entries_text(result: Result) -> str:
    """The sums of flood lists and neighbours, or that they aren't compared."""
    floods = "flood list not compared" if result.floods is None else f"{len(result.floods)} flood entries differ"
    neighbours = "neighbours not compared" if result.neighbours is None else f"{len(result.neighbours)} neighbours differ"
    return f"{floods}, {neighbours}"


# ---- JSON, Nagios, Prometheus ---------------------------------------------------------------------------------------


def dict_of(verdict: Verdict) -> dict:
    """A verdict as JSON has it."""
    fields = verdict._asdict()
    fields["mac"] = records.mac_text(verdict.mac)
    return fields


def cause_dict(cause: Cause) -> dict:
    """A cause as JSON has it."""
    stations = [records.mac_text(mac) for mac in sorted(cause.members)]
    return {"kind": cause.kind.name.lower(), "what": cause.what, "text": cause.line(), "stops": cause.kind.stops, "stations": stations}


def result_dict(result: Result, told: Told) -> dict:
    """A result as JSON has it."""
    marks = [(mark, each) for mark, each in marks_of(result).items() if isinstance(each, Verdict)]
    since = {mark: told.since.get(mark_text(result.view, result.vni, mark)) for mark, _ in marks}
    return {
        "vni": result.vni,
        "view": result.view,
        "kind": "L2" if result.routers is None else "L3",
        "fault": result.fault or None,
        "sums": sums_of(result),
        "causes": [cause_dict(cause) for cause in result.causes],
        "macs": [{**dict_of(each), "since": since[mark]} for mark, each in marks],
        "not judged": [records.mac_text(each.mac) for each in result.macs if each.kind == "not judged"],
        "floods": None if result.floods is None else [entry._asdict() for entry in result.floods],
        "neighbours": None if result.neighbours is None else [entry._asdict() for entry in result.neighbours],
        "routers": None if result.routers is None else [entry._asdict() for entry in result.routers],
        "left out": told.left_out.get(result.view, {}),
        "told": told.told.get(result.view, {}),
    }


def json_text(told: Told, status: int) -> str:
    """All that is known, every count with it."""
    views = [
        {"view": view, "causes": [cause_dict(cause) for cause in causes], "devices left out": list(told.devices.get(view, ()))}
        for view, causes in told.causes.items()
    ]
    results = [result_dict(result, told) for result in told.results]
    return json.dumps({"schema": SCHEMA, "status": status, "views": views, "results": results}, indent=1)


def first_cause(told: Told) -> str:
    """The first thing that differs, as its line says it: a cause before a MAC."""
    for view, causes in told.causes.items():
        for cause in causes:
            return f"{view}: {cause.line()}"
    marks = [(result.vni, entry) for result in told.results for entry in marks_of(result).values()]
    marks.sort(key=lambda mark: not isinstance(mark[1], Cause))
    return entry_line(*marks[0]) if marks else ""


def nagios_line(told: Told, status: int) -> str:
    """One line with the first cause and figures, as Nagios, Icinga and their kin read it."""
    totals = totals_of(told.results)
    totals["causes"] += sum(len(causes) for causes in told.causes.values())
    says = [f"VNI {result.vni}: {result.fault}" for result in told.results if result.fault]
    first = first_cause(told)
    says = [", ".join(f"{totals[name]} {name}" for name in FIGURES), *([first] if first else []), *says]
    word = {NAGIOS_OK: "OK", NAGIOS_WARNING: "WARNING", NAGIOS_CRITICAL: "CRITICAL"}.get(status, "UNKNOWN")
    figures = " ".join(f"'{name}'={totals[name]}" for name in FIGURES)
    return f"EVPN {word}: {'; '.join(says).replace('|', '/')} | {figures}"


def nagios_status(status: int) -> int:
    """The status that Nagios wants."""
    return {AGREE: NAGIOS_OK, DIFFER: NAGIOS_CRITICAL, UNJUDGED: NAGIOS_WARNING}.get(status, NAGIOS_UNKNOWN)


def label_text(text: str) -> str:
    """A label's value in the text form of Prometheus."""
    return text.replace("\\", "\\\\").replace('"', '\\"').replace("\n", "\\n")


def prometheus_text(told: Told, status: int, fault: str = "") -> str:
    """The text form of Prometheus, for the directory that node_exporter's textfile collector reads."""
    lines = [
        "# HELP evpnd_audit_status 0 all agree, 1 something differs, 2 unreadable, 3 a VNI could not be audited, 4 a MAC not judged.",
        "# TYPE evpnd_audit_status gauge",
        f"evpnd_audit_status {status}",
        "# HELP evpnd_audit_time_seconds When the audit ended.",
        "# TYPE evpnd_audit_time_seconds gauge",
        f"evpnd_audit_time_seconds {int(time.time())}",
        "# HELP evpnd_audit_entries How many MACs, flood entries and neighbours are of each kind.",
        "# TYPE evpnd_audit_entries gauge",
    ]
    for result in told.results:
        place = f'view="{label_text(result.view)}",vni="{result.vni}"'
        for name, count in sums_of(result).items():
            lines.append(f'evpnd_audit_entries{{{place},kind="{name}"}} {count}')
    lines += ["# HELP evpnd_audit_unreadable Whether a VNI could not be audited.", "# TYPE evpnd_audit_unreadable gauge"]
    for result in told.results:
        lines.append(f'evpnd_audit_unreadable{{view="{label_text(result.view)}",vni="{result.vni}"}} {int(bool(result.fault))}')
    lines += ["# HELP evpnd_audit_causes Causes of a router that are of no network, by kind.", "# TYPE evpnd_audit_causes gauge"]
    for view, causes in told.causes.items():
        for kind in sorted({cause.kind.name.lower() for cause in causes}):
            count = sum(cause.kind.name.lower() == kind for cause in causes)
            lines.append(f'evpnd_audit_causes{{view="{label_text(view)}",cause="{kind}"}} {count}')
    lines += ["# HELP evpnd_audit_left_out Paths left out of the records, by cause.", "# TYPE evpnd_audit_left_out gauge"]
    for view, counts in told.left_out.items():
        for cause, count in sorted(counts.items()):
            lines.append(f'evpnd_audit_left_out{{view="{label_text(view)}",cause="{label_text(cause)}"}} {count}')
    lines += [f"# {fault}"] if fault else []
    return "\n".join(lines) + "\n"


def write_whole(path: str, text: str) -> None:
    """Writes a file so that a reader finds the old one or the new one, whole."""
    try:
        with open(f"{path}.new", "w", encoding="utf-8") as out:
            out.write(text)
        os.replace(f"{path}.new", path)
    except OSError as fault:
        raise records.Unreadable(f"{path}: can't be written: {fault.strerror}") from None
