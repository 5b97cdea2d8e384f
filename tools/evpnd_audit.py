#!/usr/bin/env python3
"""Says where a running fabric forwards a MAC to another edge than the owner by RFC 7432, 15 and 15.2.

    evpnd_audit.py [--vni N[,N]]           on the host itself: runs vtysh, bridge and ip, each once for all VNIs
    evpnd_audit.py [--vni N] VIEW ..       of directories, one a router, that hold its outputs:
        routes.json    vtysh -c 'show bgp l2vpn evpn route json'
        best.json      vtysh -c 'show bgp vni all json', before FRR 10 'show bgp l2vpn evpn route vni all json'
        vnis.json      vtysh -c 'show evpn vni json'
        macs.json      vtysh -c 'show evpn mac vni all json'
        fdb.json       bridge -j fdb show
        links.json     ip -j -d link show
        vlans.json     bridge -j vlan show
        tunnels.json   bridge -j vlan tunnelshow
        neigh.json     ip -j neigh show
        bgpvnis.json   vtysh -c 'show bgp l2vpn evpn vni json': which VNI is an L3VNI, and who imports what
        rmacs.json     vtysh -c 'show evpn rmac vni all json'
        nexthops.json  vtysh -c 'show evpn next-hops vni all json'
        sessions.json  vtysh -c 'show bgp l2vpn evpn summary json'
        arps.json      vtysh -c 'show evpn arp-cache vni all json'
        groups.json    ip -j nexthop show
        ways.json      ip -4 -j route show table all proto bgp
        underlay.json  what `ip -j route get` says of each edge, or why it fails
    evpnd_audit.py save DIRECTORY          keeps what this host prints now as such a directory
    evpnd_audit.py mac VNI MAC [VIEW ..]   all that is known of one station
    evpnd_audit.py record DIRECTORY [VIEW ..]   audits, and keeps a snapshot of the routes as update records
    evpnd_audit.py fabric LIST --run 'ssh {leaf}'   audits all leaves of a list (a file, or names with commas) together
    evpnd_audit.py plot DIRECTORY [VNI MAC]   draws where a MAC was by the routes and in the kernel, or how many MACs differed, as SVG

The routes become records (evpnd_records.py), `evpnd report` gives the owners, and each MAC is compared with
where zebra and the kernel send it, each flood list with the inclusive multicast routes, and each ARP and ND
entry with the routes that name an IP address. All files but routes.json and one of macs.json and fdb.json may
be missing; what can't be compared then is said. Several views give one report, of all their routes together;
with --routes, only the routes of that directory (a route reflector's, say) are the truth, or the update records in that
file, which `evpnd_bgp.py --watch` writes all the time.

Each difference is a line, with the adverts in order of preference and what mends it below, then sums. Status
0: all agree; 1: something differs; 2: usage, or nothing that can be read; 3: nothing differs, and a VNI could
not be audited; 4: nothing differs, and a MAC could not be judged. docs/audit.md says what each difference means. Nothing here is proved; the report is.
"""

import argparse
import gc
import json
import os
import sys
import time
from typing import List, NoReturn, Tuple

import audit_causes
import audit_fabric
import audit_history
import audit_plot
import audit_print
import audit_views
import evpnd_records
import frr_routes
import update_records as records
from audit_compare import Truth, marks_of, results_of, seen_twice, truth_of
from audit_print import Told
from audit_report import program_of, read_report, report_of
from audit_views import View
from update_records import Unreadable

MONITORED = 30  # seconds between two looks for monitoring


# ---- looks -------------------------------------------------------------------------------------------------------


def views_of(arguments: argparse.Namespace) -> List[View]:
    """The views of the named directories, or of this host."""
    if arguments.views:
        return [audit_views.view_of(audit_views.texts_of_directory(path), arguments) for path in arguments.views]
    return [audit_views.view_of(audit_views.texts_of_host(host_of(arguments)), arguments)]


def host_of(arguments: argparse.Namespace) -> audit_views.Host:
    """This host, asked as the words say."""
    return audit_views.Host(arguments.vtysh, arguments.timeout)


def snapshots_of(views: List[View], arguments: argparse.Namespace) -> List[frr_routes.Snapshot]:
    """The routes that are taken for the truth: those of the directories of --routes, else of all views."""
    if not arguments.routes:
        return [view.snapshot for view in views]
    vnis = sorted({vni for view in views for vni in view.vnis})
    routed = sorted({vni for view in views for vni in view.routed})
    imports = views[0].snapshot.routes.imports
    snapshots = []
    for path in arguments.routes:
        snapshots.append(audit_views.reflected(path, audit_views.routes_of(vnis, arguments, imports, routed)))
    return snapshots


def truth_for(snapshots: List[frr_routes.Snapshot], arguments: argparse.Namespace) -> Truth:
    """What those routes say, by the program's report or by one that was made before."""
    if arguments.report is not None:
        with records.open_text(arguments.report) as stream:
            report = read_report(audit_views.whole(stream, arguments.report))
    else:
        updates = (update for snapshot in snapshots for update in snapshot.updates(lambda _: 1))
        report = report_of(program_of(arguments.evpnd), updates, set(arguments.mac))
    return truth_of(report, snapshots)


def look(arguments: argparse.Namespace) -> Tuple[Told, List[View], List[frr_routes.Snapshot]]:
    """One look at all views."""
    views = views_of(arguments)
    unknown = [view.faults[vni] for view in views for vni in view.unknown]
    if unknown and all(set(view.vnis) <= set(view.unknown) and not view.routed for view in views):
        raise Unreadable(f"{views[0].name}: VNI {views[0].unknown[0]}: {unknown[0]}")
    snapshots = snapshots_of(views, arguments)
    truth = truth_for(snapshots, arguments)
    results = [result for view in views for result in results_of(view, truth, set(arguments.mac))]
    left_out = {view.name: dict(view.snapshot.routes.left_out) for view in views}
    told = {view.name: dict(view.snapshot.routes.told) for view in views}
    causes = {view.name: audit_causes.of_router(view) if not arguments.mac else [] for view in views}
    devices = {view.name: view.left_out for view in views}
    return Told(results, left_out, told, {}, causes, devices), views, snapshots


def audited(arguments: argparse.Namespace) -> Tuple[Told, List[View], List[frr_routes.Snapshot]]:
    """One look, or two where the first finds something and --again is given: what both saw by the same values stays."""
    told, views, snapshots = look(arguments)
    if arguments.again is not None and told.differs():
        time.sleep(arguments.again)
        second, views, snapshots = look(arguments)
        causes = {name: audit_causes.both(told.causes.get(name, []), found) for name, found in second.causes.items()}
        told = second._replace(results=seen_twice(told.results, second.results), causes=causes)
    if arguments.state is not None:
        told = told._replace(since=audit_history.since_of(arguments.state, told.results, int(time.time())))
    return told, views, snapshots


def status_of(told: Told, arguments: argparse.Namespace) -> int:
    """The status of an audit."""
    return audit_print.status_of(told.results, arguments.accept_unjudged, told.causes.values())


# ---- the arguments ------------------------------------------------------------------------------------------------


def audit(arguments: argparse.Namespace) -> int:
    """Audits what the words name."""
    if arguments.again is None and not arguments.views and (arguments.nagios or arguments.prometheus):
        arguments.again = MONITORED
    if arguments.again is not None and arguments.views:
        raise Unreadable("a directory doesn't change: --again is for an audit of this host")
    told, views, _ = audited(arguments)
    status = status_of(told, arguments)
    if arguments.prometheus:
        audit_print.write_whole(arguments.prometheus, audit_print.prometheus_text(told, status))
    if arguments.nagios:
        print(audit_print.nagios_line(told, audit_print.nagios_status(status)))
        return audit_print.nagios_status(status)
    if arguments.json:
        print(audit_print.json_text(told, status))
    elif not arguments.prometheus:
        say(told, views, arguments.brief)
    return status


def say(told: Told, views: List[View], is_brief: bool) -> None:
    """Prints what differs, and on standard error what was left out."""
    for name, causes in told.causes.items():
        for cause in causes:
            print(f"{name}: cause: {cause.line()}")
    for result in told.results:
        for line in audit_print.lines_of(result, told, is_brief):
            is_sum = line.startswith((" ", f"{result.view}: "))
            print(line if is_sum or len(views) == 1 else f"{result.view}: {line}")
    for view in views:
        view.snapshot.routes.tell(sys.stderr)
        for device in view.left_out:
            print(f"left out: VXLAN device {device}, which FRR doesn't run", file=sys.stderr)


def mac(arguments: argparse.Namespace) -> int:
    """All that is known of one station."""
    told, views, snapshots = audited(arguments)
    vni, station = arguments.vni[0], arguments.mac[0]
    for result in told.results:
        for verdict in result.macs:
            print(f"{result.view}: {audit_print.line_of(vni, verdict)}")
            for number, advert in enumerate(verdict.adverts, 1):
                print(f"    {number}. {advert}")
            for word, text in (("mend:", verdict.mend), ("see", verdict.see)):
                print(f"    {word} {text}\n" if text else "", end="")
        if not result.macs:
            print(f"{result.view}: " + (result.fault or "neither a route nor zebra nor the kernel knows it"))
        for entry in result.neighbours or []:
            print(f"{result.view}: {audit_print.difference_line(vni, entry)}")
    key = vni.to_bytes(3, "big") + station
    ips = {registered[13:] for each in snapshots for registered in each.registers if registered[4:13] == key}
    print("addresses by the routes: " + (", ".join(sorted(map(records.ip_text, ips - {b""}))) or "none"))
    for view in views:
        network = view.networks.get(vni)
        if network is not None:
            vlan = "" if network.vlan is None else f", VLAN {network.vlan}"
            bridge, gateway = network.bridge or "none", network.gateway or "no interface"
            print(f"{view.name}: VXLAN device {network.device}, bridge {bridge}{vlan}, neighbours at {gateway}")
    return status_of(told, arguments)


def record(arguments: argparse.Namespace) -> int:
    """Audits, and adds a snapshot."""
    told, _, snapshots = audited(arguments)
    updates = [update for snapshot in snapshots for update in snapshot.updates(lambda _: 1)]
    if arguments.keep is not None:
        audit_history.prune(arguments.directory, int(time.time() - arguments.keep * 86400))
    status = status_of(told, arguments)
    print(audit_history.record(arguments.directory, updates, told, status))
    return status


def save(arguments: argparse.Namespace) -> int:
    """Keeps what this host prints."""
    audit_views.save(audit_views.texts_of_host(host_of(arguments)), arguments.directory)
    return 0


def fabric(arguments: argparse.Namespace) -> int:
    """Audits all leaves of a list."""
    arguments.program = program_of(arguments.evpnd)
    found = audit_fabric.audited(arguments)
    if arguments.json:
        print(json.dumps(audit_fabric.dict_of(found), indent=1))
    else:
        print("\n".join(audit_fabric.lines_of(found)))
    return audit_print.DIFFER if found.differs() else audit_print.UNSAID if found.silent else audit_print.AGREE


def plot(arguments: argparse.Namespace) -> int:
    """Draws."""
    station = mac_word(arguments.station) if arguments.station else b""
    vni = arguments.of_vni[0] if arguments.of_vni else 0
    if bool(station) != bool(arguments.of_vni):
        raise Unreadable("a drawing of an owner needs a VNI and a MAC")
    print(audit_plot.plot(arguments.directory, vni, station), end="")
    return 0


# ---- the command line -----------------------------------------------------------------------------------------


def mac_word(text: str) -> bytes:
    """A MAC as a word of the command line."""
    try:
        return records.read_mac(text)
    except Unreadable as fault:
        raise argparse.ArgumentTypeError(str(fault)) from None


def seconds_word(text: str) -> float:
    """Seconds as a word of the command line."""
    try:
        seconds = float(text)
    except ValueError:
        seconds = -1
    if not 0 <= seconds <= 86400:
        raise argparse.ArgumentTypeError(f"{text!r} is no number of seconds up to 86400")
    return seconds


def add_look_words(words: argparse.ArgumentParser) -> None:
    """The words that say what is looked at."""
    truth = "the routes of this directory are the truth, or the records that evpnd_bgp.py --watch writes there; may stand more than once"
    words.add_argument("--routes", action="append", default=[], metavar="PATH", help=truth)
    twice = "look twice where something differs, and tell what differs twice by the same values"
    words.add_argument("--again", type=seconds_word, metavar="SECONDS", help=twice)
    words.add_argument("--state", metavar="FILE", help="keep there since when each difference is seen")
    words.add_argument("--accept-unjudged", action="store_true", help="status 0 although MACs couldn't be judged")
    words.add_argument("--evpnd", metavar="PROGRAM", help="the program evpnd")
    words.add_argument("--report", metavar="FILE", help="a report that was made before, in the place of running evpnd")
    words.add_argument("--vtysh", default="vtysh", metavar="COMMAND", help="vtysh with its options")
    limit = "how long a command may take (60)"
    words.add_argument("--timeout", type=seconds_word, default=60.0, metavar="SECONDS", help=limit)
    words.add_argument("--device", metavar="NAME", help="the VXLAN device, if neither links.json nor vnis.json says it")
    evpnd_records.add_route_words(words)


class Words(argparse.ArgumentParser):
    """The command line; a fault of usage is Nagios's UNKNOWN where a line for it is asked for."""

    for_nagios = False

    def error(self, message: str) -> NoReturn:
        """Ends with the status of a fault of usage."""
        if self.for_nagios:
            print(f"EVPN UNKNOWN: {message}")
            sys.exit(audit_print.NAGIOS_UNKNOWN)
        super().error(message)


def parser() -> Words:
    """The words of the command line: a command and what it is about may stand anywhere among the options."""
    words = Words(description=__doc__, formatter_class=argparse.RawDescriptionHelpFormatter)
    words.add_argument("--version", action="version", version=f"evpnd-audit {records.VERSION}")
    words.add_argument(
        "--vni", type=evpnd_records.vnis_of, metavar="N[,N]", help="the VNIs; all that the host or the view has, if none is named"
    )
    words.add_argument(
        "--mac", type=mac_word, action="append", default=[], metavar="MAC", help="only this MAC; may stand more than once"
    )
    words.add_argument("--brief", action="store_true", help="a line a difference, without why and what mends it")
    words.add_argument("--json", action="store_true", help="print JSON, every count with it")
    line = "print one line with figures; status 0, 1 (a MAC isn't judged), 2 (something differs) or 3"
    words.add_argument("--nagios", action="store_true", help=line)
    words.add_argument("--prometheus", metavar="FILE", help="write a text file for node_exporter")
    before = "with fabric: the words before each command of a leaf, as 'ssh {leaf}'; without, LIST names directories"
    words.add_argument("--run", default="", metavar="WORDS", help=before)
    words.add_argument("--keep", type=days_word, metavar="DAYS", help="with record: forget snapshots that are older")
    add_look_words(words)
    words.add_argument("words", nargs="*", metavar="WORD", help="a command and what it is about, or directories, one a router")
    return words


def days_word(text: str) -> float:
    """Days as a word of the command line."""
    try:
        days = float(text)
    except ValueError:
        days = -1
    if not 0 < days <= 36500:
        raise argparse.ArgumentTypeError(f"{text!r} is no number of days up to 36500")
    return days


# The arguments of each command: how many at least and at most, and their names.
OPERANDS = {
    "mac": (2, None, "VNI MAC [VIEW ..]"),
    "record": (1, None, "DIRECTORY [VIEW ..]"),
    "save": (1, 1, "DIRECTORY"),
    "fabric": (1, 1, "LIST"),
    "plot": (1, 3, "DIRECTORY [VNI MAC]"),
}
COMMANDS = {"mac": mac, "record": record, "save": save, "plot": plot, "fabric": fabric}


def asked(line: List[str]) -> Tuple[str, argparse.Namespace]:
    """The command that a command line names, if any, and its words."""
    words = parser()
    words.for_nagios = "--nagios" in line
    arguments = words.parse_intermixed_args(line)
    given = arguments.words
    command = given[0] if given and given[0] in COMMANDS else ""
    arguments.views, arguments.leaves = given, None
    if command:
        least, most, names = OPERANDS[command]
        operands = given[1:]
        if not least <= len(operands) <= (most or len(operands)):
            words.error(f"{command} is followed by {names}")
        take_operands(command, operands, arguments, words)
    return command, arguments


def take_operands(command: str, operands: List[str], arguments: argparse.Namespace, words: Words) -> None:
    """Puts what a command is about where the command looks for it."""
    try:
        if command == "mac":
            arguments.vni, arguments.mac = evpnd_records.vnis_of(operands[0]), [mac_word(operands[1])]
            arguments.views = operands[2:]
        elif command == "fabric":
            arguments.leaves, arguments.views = operands[0], []
        else:
            arguments.directory = operands[0]
            arguments.views = operands[1:] if command == "record" else []
        if command == "plot":
            arguments.of_vni = evpnd_records.vnis_of(operands[1]) if len(operands) > 1 else []
            arguments.station = operands[2] if len(operands) > 2 else ""
    except argparse.ArgumentTypeError as fault:
        words.error(str(fault))


def run(line: List[str]) -> int:
    """Runs what a command line asks for."""
    command, arguments = asked(line)
    if command:
        return COMMANDS[command](arguments)
    try:
        return audit(arguments)
    except Unreadable as fault:
        if arguments.prometheus:
            text = audit_print.prometheus_text(Told([], {}, {}, {}), audit_print.UNREADABLE, str(fault))
            audit_print.write_whole(arguments.prometheus, text)
        if arguments.nagios:
            print(f"EVPN UNKNOWN: {fault}")
            return audit_print.NAGIOS_UNKNOWN
        raise


def main() -> int:
    """Runs the audit; what can't be read is one line and status 2."""
    gc.disable()  # nothing here makes cycles of any size, and looking for them takes a seventh of the time
    try:
        return run(sys.argv[1:])
    except (Unreadable, argparse.ArgumentTypeError) as fault:
        print(f"evpnd_audit: {fault}", file=sys.stderr)
    except BrokenPipeError:
        sys.stderr.close()
    return audit_print.UNREADABLE


if __name__ == "__main__":
    sys.exit(main())
