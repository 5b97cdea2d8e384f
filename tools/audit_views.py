"""Where the audit's texts come from: a directory that holds what a router printed, or the commands of this host."""

import argparse
import codecs
import json
import os
import re
import shlex
import shutil
import signal
import subprocess
import tempfile
from dataclasses import dataclass
from typing import Callable, Dict, FrozenSet, Iterable, Iterator, List, Mapping, NamedTuple, Optional, Set, TextIO, Tuple

import audit_frr
import audit_kernel
import frr_routes
import update_records as records
from audit_kernel import Kernel, Link, Network
from audit_report import Station
from update_records import Unreadable

ROUTES = "show bgp l2vpn evpn route json"
BEST = "show bgp vni all json"  # FRR 10; its bgpd 10.3 ends by a fault of its own at the other one
BEST_BEFORE = "show bgp l2vpn evpn route vni all json"
SHOWN = {
    "vnis": "show evpn vni json",
    "macs": "show evpn mac vni all json",
    "bgpvnis": "show bgp l2vpn evpn vni json",
    "rmacs": "show evpn rmac vni all json",
    "nexthops": "show evpn next-hops vni all json",
    "sessions": "show bgp l2vpn evpn summary json",
    "arps": "show evpn arp-cache vni all json",
}
MAY_FAIL = ("bgpvnis", "rmacs", "nexthops", "sessions", "arps")
ENDS = 300  # octets that are looked at of both ends of a large text
UNDERLAY = "underlay"  # what `ip -j route get` prints of each edge
EDGES = re.compile(r'"(?:dst|remoteVtep|nexthopIp)":\s*"([0-9]+(?:\.[0-9]+){3})"')
REMOTE_EDGES = re.compile(r'"remoteVteps":\s*\[([^]]*)\]')
HARMLESS = re.compile(r"^(?:% )?(?:Can't open configuration file|Configuration file\[)")
KERNEL = {
    "fdb": ["bridge", "-j", "fdb", "show"],
    "links": ["ip", "-j", "-d", "link", "show"],
    "vlans": ["bridge", "-j", "vlan", "show"],
    "tunnels": ["bridge", "-j", "vlan", "tunnelshow"],
    "neigh": ["ip", "-j", "neigh", "show"],
    "groups": ["ip", "-j", "nexthop", "show"],
    "ways": ["ip", "-4", "-j", "route", "show", "table", "all", "proto", "bgp"],
}


class Texts(NamedTuple):
    """What one router printed: the two that may be large are opened when they are read, the others are whole.

    `places` has each text's file, or the command that printed it: what can't be read is told by that name.
    """

    name: str
    places: Dict[str, str]
    routes: Optional[Callable[[], TextIO]]
    best: Optional[Callable[[], TextIO]]
    whole: Dict[str, str]


class View(NamedTuple):
    """What one router shows of its VNIs."""

    name: str
    vnis: List[int]
    snapshot: frr_routes.Snapshot
    own: Set[bytes]
    best: Callable[[Set[Station]], Optional[audit_frr.Best]]
    zebra: Optional[Dict[int, Dict[bytes, str]]]
    kernel: Dict[int, Kernel]
    networks: Dict[int, Network]
    faults: Dict[int, str]
    routed: Dict[int, Optional[audit_frr.Routed]] = {}
    links: Dict[str, Link] = {}
    instance: Optional[audit_frr.Instance] = None
    sessions: Dict[str, str] = {}
    underlay: Dict[str, str] = {}
    stopped: Tuple[int, ...] = ()
    left_out: Tuple[str, ...] = ()
    unknown: Tuple[int, ...] = ()
    floods: Dict[int, FrozenSet[str]] = {}
    arps: Dict[int, Dict[bytes, bytes]] = {}
    ways: Mapping[str, Set[str]] = {}


# ---- texts ----------------------------------------------------------------------------------------------------


def whole(stream: TextIO, name: str) -> str:
    """A stream's text."""
    with stream:
        try:
            return stream.read()
        except UnicodeDecodeError as fault:
            raise Unreadable(f"{name}: a binary file, no text ({fault.reason})") from None
        except OSError as fault:
            raise Unreadable(f"{name}: {fault}") from None


def texts_of_directory(path: str) -> Texts:
    """The texts of a directory."""
    if not os.path.isdir(path):
        raise Unreadable(f"{path}: no such directory")

    places = {name: os.path.join(path, f"{name}.json") for name in ("routes", "best", *SHOWN, *KERNEL, UNDERLAY)}

    def opened(name: str) -> Optional[Callable[[], TextIO]]:
        place = places[name]
        return (lambda: records.open_text(place)) if os.path.exists(place) else None

    if opened("routes") is None:
        raise Unreadable(f"{places['routes']}: no such file (vtysh -c '{ROUTES}')")
    texts = {name: opened(name) for name in (*SHOWN, *KERNEL, UNDERLAY)}
    read = {name: whole(text(), places[name]) for name, text in texts.items() if text is not None}
    if "macs" not in read and "fdb" not in read:
        raise Unreadable(f"{path}: neither macs.json nor fdb.json is there, so there is nothing to compare with")
    return Texts(path, places, opened("routes"), opened("best"), read)


def output_of(words: List[str], seconds: float) -> TextIO:
    """What a command of this host prints: it is run now, and read later; one that hangs is ended."""
    out = tempfile.TemporaryFile("w+", encoding="utf-8")
    command = shlex.join(words)
    status, errors = ended(words, out, seconds)
    said = f"{errors}\n{start_of(out, 4096 if status != 0 else 300)}"
    if "is not running" in said:
        raise Unreadable(f"{command}: {next(line for line in said.splitlines() if 'is not running' in line).strip()}")
    if "failed to connect to any daemons" in said:
        who = "" if os.geteuid() == 0 else ", or run this as root or in the group frrvty"
        raise Unreadable(f"{command}: no daemon of FRR answers: start it{who}")
    if status != 0:
        lines = [line.strip() for line in said.splitlines() if line.strip()]
        causes = [line for line in lines if not HARMLESS.match(line)]  # before FRR 10 vtysh warns that it has no vtysh.conf
        raise Unreadable(f"{command}: status {status}: {next(iter(causes or lines), 'nothing said')}")
    return out


def ended(words: List[str], out: TextIO, seconds: float) -> Tuple[int, str]:
    """A command's status and its standard error; its process group is ended once the time is over."""
    pipe = subprocess.PIPE
    try:
        child = subprocess.Popen(words, stdin=subprocess.DEVNULL, stdout=out, stderr=pipe, start_new_session=True)
    except OSError as fault:
        raise Unreadable(f"the command {words[0]} can't be run: {fault.strerror}") from None
    with child:
        try:
            errors = child.communicate(timeout=seconds)[1]
        except subprocess.TimeoutExpired:
            os.killpg(child.pid, signal.SIGKILL)
            child.communicate()
            raise Unreadable(f"{shlex.join(words)}: no end within {seconds:g} s (--timeout)") from None
    return child.returncode, errors.decode("utf-8", "replace").strip()


def start_of(out: TextIO, octets: int) -> str:
    """How an output begins, even where it is no text; it is read from its start afterwards."""
    out.seek(0)
    start = out.buffer.read(octets).decode("utf-8", "replace").strip()
    out.seek(0)
    return start


@dataclass(frozen=True)
class Host:
    """Where commands are run: here, or behind the words of `before`. Behind ssh a command is one word, for the shell there."""

    vtysh: str = "vtysh"
    seconds: float = 60.0
    before: Tuple[str, ...] = ()
    name: str = "this host"
    routes: str = ROUTES

    def words(self, command: List[str]) -> List[str]:
        """Returns the words that run a command."""
        if self.before and os.path.basename(self.before[0]) == "ssh":
            return [*self.before, shlex.join(command)]
        return [*self.before, *command]

    def shell(self, command: str) -> List[str]:
        """Returns the words that run a command of FRR."""
        return self.words([*shlex.split(self.vtysh), "-c", command])


def best_of_host(host: Host) -> Tuple[List[str], TextIO]:
    """The command that this version has for bgpd's tables of all VNIs, and what it prints."""
    newer, older = host.shell(BEST), host.shell(BEST_BEFORE)
    try:
        out = output_of(newer, host.seconds)
    except Unreadable as fault:
        if "Unknown command" not in str(fault):
            raise
        return older, output_of(older, host.seconds)
    return (older, output_of(older, host.seconds)) if start_of(out, 40).startswith("% Unknown") else (newer, out)


def texts_of_host(host: Host) -> Texts:
    """The texts that a host prints: each command is run once, for all VNIs, one right behind the other."""
    routes = output_of(host.shell(host.routes), host.seconds)
    best_words, best = best_of_host(host)
    words = {name: host.shell(command) for name, command in SHOWN.items()}
    words.update((name, host.words(command)) for name, command in KERNEL.items())
    places, read = {}, {}
    for name, command in words.items():
        places[name] = shlex.join(command)
        text = text_of_host(command, host.seconds, name in MAY_FAIL)
        if text is not None:
            read[name] = text
    places.update(routes=shlex.join(host.shell(host.routes)), best=shlex.join(best_words), underlay="ip -j route get")
    read[UNDERLAY] = underlay_of_host(edges_of(read), host)
    return Texts(host.name, places, lambda: routes, lambda: best, read)


def text_of_host(command: List[str], seconds: float, may_be_unknown: bool) -> Optional[str]:
    """What a command prints; nothing where this version of FRR doesn't know a command that may be missing."""
    try:
        text = whole(output_of(command, seconds), shlex.join(command))
    except Unreadable as fault:
        if may_be_unknown and "Unknown command" in str(fault):
            return None
        raise
    return None if may_be_unknown and text.startswith("% Unknown") else text


def edges_of(read: Dict[str, str]) -> List[str]:
    """The other edges that zebra's and the kernel's texts name."""
    found = {edge for name in ("macs", "fdb", "nexthops") for edge in EDGES.findall(read.get(name, ""))}
    for part in REMOTE_EDGES.findall(read.get("vnis", "")):
        found.update(re.findall(r"[0-9]+(?:\.[0-9]+){3}", part))
    return sorted(found)


def underlay_of_host(edges: List[str], host: Host) -> str:
    """What `ip -j route get` prints of each edge, or why it fails, as an object of JSON; all are asked by one command."""
    asks = 'for edge; do echo "= $edge"; ip -j route get "$edge" 2>&1; done; true'
    with output_of(host.words(["sh", "-c", asks, "sh", *edges]), host.seconds) as out:
        text = whole(out, "ip -j route get")
    said: Dict[str, object] = {}
    for part in text.split("= ")[1:]:
        edge, _, answer = part.partition("\n")
        try:
            said[edge] = json.loads(answer)
        except ValueError:
            said[edge] = answer.strip()
    return json.dumps(said, indent=1) + "\n"


def save(texts: Texts, folder: str) -> None:
    """Keeps the texts in a directory, which is a view then."""
    os.makedirs(folder, exist_ok=True)
    for name, text in texts.whole.items():
        with open(os.path.join(folder, f"{name}.json"), "w", encoding="utf-8") as out:
            out.write(text)
    for name, opened in (("routes", texts.routes), ("best", texts.best)):
        if opened is not None:
            with opened() as stream, open(os.path.join(folder, f"{name}.json"), "w", encoding="utf-8") as out:
                shutil.copyfileobj(stream, out)


# ---- a reflector's routes ---------------------------------------------------------------------------------------


def reflected(path: str, routes: frr_routes.Routes) -> frr_routes.Snapshot:
    """The routes that a reflector has: what it printed, or the records that `evpnd_bgp.py --watch` writes into a file all the time.

    Of records each register's newest update counts. They name networks, and no route targets.
    """
    name = os.path.join(path, "routes.json") if os.path.isdir(path) else path
    if not is_of_records(name):
        with records.open_text(name) as stream:
            return frr_routes.snapshot_of(routes, stream, name)
    newest: Dict[records.Register, records.Update] = {}
    for update in updates_of(name):
        old = newest.get(records.register_of(update))
        if old is None or records.newness_of(update) > records.newness_of(old):
            newest[records.register_of(update)] = update
    snapshot = frr_routes.Snapshot(routes)
    for update in newest.values():
        if update.advert is not None and update.vni in routes.vnis:
            path_of = frr_routes.Path("", update.vni, update.mac, update.ip, update.originator, update.advert, 0, False, False)
            snapshot.take(path_of)
    return snapshot


def is_of_records(name: str) -> bool:
    """Whether a file begins as a record does; one that is empty so far has none."""
    try:
        with open(name, "rb") as stream:
            return stream.read(len(records.MAGIC)) in (b"", records.MAGIC)
    except OSError as fault:
        raise Unreadable(f"{name}: {fault.strerror}") from None


def updates_of(name: str) -> Iterator[records.Update]:
    """The updates of a file of records, whose last record may be unfinished: its writer goes on."""
    with open(name, "rb") as stream:
        for number, answer in enumerate(records.read_records(stream), 1):
            if isinstance(answer, records.Update):
                yield answer
            elif not isinstance(answer, records.Truncated):
                raise Unreadable(f"{name}: record {number} spells no update")


# ---- views ------------------------------------------------------------------------------------------------------


def routes_of(
    vnis: Iterable[int],
    arguments: argparse.Namespace,
    imports: Optional[frr_routes.Imports] = None,
    routed: Iterable[int] = (),
) -> frr_routes.Routes:
    """A reader of FRR's routes of some VNIs."""
    return frr_routes.Routes(vnis, arguments.any_rd, arguments.rt, True, imports, routed)


class Kinds(NamedTuple):
    """A router's VNIs: networks of layer 2, L3VNIs, networks of the kernel that bgpd doesn't run, and devices of others."""

    bridged: Dict[int, str]
    routed: Tuple[int, ...]
    stopped: Tuple[int, ...]
    left_out: Tuple[str, ...]


def kinds_of(
    networks: Dict[int, Network],
    links: Dict[str, Link],
    zebra: Optional[Dict[int, audit_frr.Vni]],
    instance: Optional[audit_frr.Instance],
) -> Kinds:
    """Tells a router's VNIs apart, by what zebra and bgpd run."""
    run = dict(zebra or {})
    if instance is not None:
        run = {vni: each for vni, each in run.items() if vni in instance.vnis or each.is_routed}
        run.update({vni: each for vni, each in instance.vnis.items() if vni not in run})
    if zebra is None and instance is None:
        return Kinds({vni: network.device for vni, network in networks.items()}, (), (), ())
    bridged = {vni: each.device or device_of(networks, vni) for vni, each in run.items() if not each.is_routed}
    routed = tuple(sorted(vni for vni, each in run.items() if each.is_routed))
    ports = {links[network.device].udp_port for vni, network in networks.items() if vni in run and network.device in links}
    others = {vni: network for vni, network in networks.items() if vni not in run}
    ours = ports or {audit_kernel.VXLAN_PORT}
    stopped = tuple(sorted(vni for vni, each in others.items() if each.bridge or links[each.device].udp_port in ours))
    named = tuple(f"{each.device} (VNI {vni})" for vni, each in sorted(others.items()) if vni not in stopped)
    return Kinds(bridged, routed, stopped, named)


def device_of(networks: Dict[int, Network], vni: int) -> str:
    """The VXLAN device of a VNI, as far as the links say it."""
    return networks[vni].device if vni in networks else ""


def view_of(texts: Texts, arguments: argparse.Namespace) -> View:
    """What a router's texts show of the wanted VNIs, or of all that it has."""
    read, places = texts.whole, texts.places
    networks, links = networks_of(texts)
    instance = audit_frr.read_instance(read["bgpvnis"], places["bgpvnis"]) if "bgpvnis" in read else None
    is_off = instance is not None and not instance.advertises_all  # FRR 8.4.4 prints nothing at all then
    known = audit_frr.read_vnis(read["vnis"], places["vnis"], is_off) if "vnis" in read else None
    kinds = kinds_of(networks, links, known, instance)
    devices = {**{vni: networks[vni].device for vni in kinds.stopped}, **kinds.bridged}
    vnis = [vni for vni in arguments.vni if vni not in kinds.routed] if arguments.vni else sorted(devices)
    routed = tuple(vni for vni in kinds.routed if not arguments.vni or vni in arguments.vni)
    if not vnis and not routed:
        why = "zebra knows no VNI" if devices or "vnis" in read else "name the VNI by --vni"
        raise Unreadable(f"{texts.name}: {why}, so there is nothing to audit")
    imports = instance.imports(list(kinds.stopped)) if instance is not None else None
    with texts.routes() as stream:
        routes = routes_of(vnis, arguments, imports, kinds.routed)
        snapshot = frr_routes.snapshot_of(routes, stream, places["routes"], arguments.leaves is not None)
    best = best_when_asked(texts, lambda: routes_of(vnis, arguments, imports, kinds.routed))
    zebra = audit_frr.read_macs(read["macs"], places["macs"], vnis) if "macs" in read else None
    own = set(snapshot.own)
    own |= {records.read_address(each.address) for each in networks.values() if each.address.count(".") == 3}
    faults = unknown_of(vnis, devices, snapshot)
    unknown = tuple(sorted(faults))
    kernel = kernels_of(texts, [*vnis, *routed], networks, devices, arguments.device or "", faults)
    stopped, left_out = stopped_of(kinds, networks, snapshot)
    is_run = [vni for vni in vnis if vni not in kinds.stopped or not is_off and (vni in stopped or arguments.vni)]
    return View(
        texts.name,
        is_run,
        snapshot,
        own,
        best,
        zebra,
        kernel,
        networks,
        faults,
        routed_of(read, places, routed),
        links,
        instance,
        audit_frr.read_peers(read["sessions"], places["sessions"]) if "sessions" in read else {},
        underlay_of(read[UNDERLAY], places[UNDERLAY]) if UNDERLAY in read else {},
        stopped,
        left_out,
        unknown,
        {vni: each.floods for vni, each in (known or {}).items()},
        audit_frr.read_arps(read["arps"], places["arps"]) if "arps" in read else {},
        audit_kernel.ways_of(audit_kernel.read_list(read.get("ways", ""), places["ways"], shlex.join(KERNEL["ways"]))),
    )


def best_when_asked(
    texts: Texts, routes: Callable[[], frr_routes.Routes]
) -> Callable[[Set[Station]], Optional[audit_frr.Best]]:
    """bgpd's own best paths, which are read once something differs: no MAC that agrees depends on them."""
    if texts.best is None:
        return lambda wanted: None
    stream, name = texts.best(), texts.places["best"]
    start, end = ends_of(stream, name)
    if start.startswith("% Unknown command"):
        raise Unreadable(f"{name}: {start.splitlines()[0]!r}; before FRR 10 the command is '{BEST_BEFORE}', since then '{BEST}'")
    if not (start.startswith("{") and end.endswith("}")):
        raise Unreadable(f"{name}: {'no JSON, or the JSON text is cut' if start else 'empty'}")

    def best(wanted: Set[Station]) -> audit_frr.Best:
        stream.seek(0)
        return audit_frr.read_best(stream, name, routes(), wanted)

    return best


def ends_of(stream: TextIO, name: str) -> Tuple[str, str]:
    """How a text begins and ends, without blanks."""
    octets = stream.buffer
    try:
        start = codecs.getincrementaldecoder("utf-8")().decode(octets.read(ENDS))
        octets.seek(max(octets.seek(0, os.SEEK_END) - ENDS, 0))
        return start.strip(), octets.read().decode("utf-8", "ignore").strip()
    except UnicodeDecodeError as fault:
        raise Unreadable(f"{name}: a binary file, no text ({fault.reason})") from None
    except OSError as fault:
        raise Unreadable(f"{name}: {fault}") from None


def stopped_of(
    kinds: Kinds, networks: Dict[int, Network], snapshot: frr_routes.Snapshot
) -> Tuple[Tuple[int, ...], Tuple[str, ...]]:
    """The networks that bgpd should run and doesn't: in a bridge, or told by others' routes; and the devices of others."""
    told = {int.from_bytes(key[4:7], "big") for key in snapshot.registers} if kinds.stopped else set()
    stopped = tuple(vni for vni in kinds.stopped if networks[vni].bridge or vni in told)
    named = [f"{networks[vni].device} (VNI {vni})" for vni in kinds.stopped if vni not in stopped]
    return stopped, (*kinds.left_out, *named)


def unknown_of(vnis: List[int], devices: Dict[int, str], snapshot: frr_routes.Snapshot) -> Dict[int, str]:
    """The wanted VNIs that aren't there: neither zebra nor the kernel has them, or routes of other VNIs only are there."""
    if devices:
        there = ", ".join(map(str, sorted(devices)))
        return {vni: f"zebra and the kernel have no such VNI; they have {there}" for vni in vnis if vni not in devices}
    told = {int.from_bytes(key[4:7], "big") for key in snapshot.registers} | {vni for vni, _ in snapshot.routes.unjudged}
    others = any(cause.startswith("another route target") for cause in snapshot.routes.left_out)
    return {vni: "routes.json has no route of it, and routes of other VNIs" for vni in vnis if others and vni not in told}


def routed_of(read: Dict[str, str], places: Dict[str, str], vnis: Iterable[int]) -> Dict[int, Optional[audit_frr.Routed]]:
    """What zebra has of each L3VNI; nothing where its texts aren't there."""
    if "rmacs" not in read or "nexthops" not in read:
        return dict.fromkeys(vnis)
    found = audit_frr.read_routed(read["rmacs"], read["nexthops"], (places["rmacs"], places["nexthops"]))
    return {vni: found.get(vni, audit_frr.Routed()) for vni in vnis}


def underlay_of(text: str, name: str) -> Dict[str, str]:
    """The edges without a route of the underlay, each with what `ip route get` said."""
    table = audit_frr.read_table(text, name, "ip -j route get")
    return {edge: said for edge, said in table.items() if isinstance(said, str) and said}


def networks_of(texts: Texts) -> Tuple[Dict[int, Network], Dict[str, Link]]:
    """The kernel's networks and its links, where these are there."""
    if "links" not in texts.whole:
        return {}, {}
    entries, vlans, tunnels = (
        audit_kernel.read_list(texts.whole.get(each, ""), texts.places[each], shlex.join(KERNEL[each]))
        for each in ("links", "vlans", "tunnels")
    )
    name = texts.places["links"]
    return audit_kernel.networks_of(entries, vlans, tunnels, name), audit_kernel.links_of(entries, name)


def kernels_of(
    texts: Texts, vnis: List[int], networks: Dict[int, Network], devices: Dict[int, str], device: str, faults: Dict[int, str]
) -> Dict[int, Kernel]:
    """What the kernel does with each VNI; a VNI of which that can't be said is a fault of its own."""
    if "fdb" not in texts.whole:
        return {}
    name = texts.places["fdb"]
    entries = audit_kernel.read_list(texts.whole["fdb"], name, "bridge -j fdb show")
    neighbours = None
    if "neigh" in texts.whole:
        neighbours = audit_kernel.read_list(texts.whole["neigh"], texts.places["neigh"], "ip -j neigh show")
    groups = audit_kernel.read_list(texts.whole.get("groups", ""), texts.places["groups"], "ip -j nexthop show")
    tables = audit_kernel.Tables(
        entries, neighbours, name, audit_kernel.groups_of(groups, texts.places["groups"]), texts.places["neigh"]
    )
    found = {}
    for vni in vnis:
        if vni in networks:
            found[vni] = tables.of_network(networks[vni])
        elif networks:
            faults.setdefault(vni, "no VXLAN device of the kernel carries it")
        elif vni not in faults:
            found[vni] = tables.of_one_device(vni, device or devices.get(vni, ""))
    return found
