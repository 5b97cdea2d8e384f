"""The gateway between records and a real BGP EVPN fabric; `bgp.sh` starts this in a network namespace of its own.

GoBGP stands beside the gateway. The fabric's leaves are a second GoBGP and, as root, FRR in namespaces of its own
(frr/edge.py). Daemons are children of ours, each ended by its own process id; their interfaces are Unix sockets.
"""

import os
import random
import re
import shutil
import signal
import socket
import subprocess
import sys
import tempfile
import time
from typing import Callable, Dict, Iterable, List, Optional, Tuple

HERE = os.path.dirname(os.path.abspath(__file__))
TOP = os.path.dirname(os.path.dirname(HERE))
sys.path[:0] = [os.path.join(HERE, "frr"), os.path.join(TOP, "tools")]
import edge as lab  # noqa: E402
from bgp_routes import Pmsi, Route  # noqa: E402
from edge import Edge, Trouble, run  # noqa: E402
from gobgp import Daemon, NoDaemon  # noqa: E402
from histories import Tally  # noqa: E402
from update_records import Update, address_text, mac_text  # noqa: E402
from update_records import read_mac, read_records, record_of, update_of_line  # noqa: E402

GATEWAY, LEAF = "127.0.0.2", "127.0.0.3"  # the sessions' ends beside GoBGP
FRR_LEAF, FRR_GATEWAY = "192.168.77.1", "192.168.77.2"
FAR = "10.0.0.7"  # what GoBGP's leaf is called in its routes
OURS = "10.0.0.1,10.0.0.2"
STATION, MOVED, PINNED, HOME = (f"02:00:00:00:00:{last}" for last in ("0a", "0b", "0c", "aa"))
MANY, CHANGES = 10000, 3000
PATIENCE = 60
HOLD = 10  # the gateway's, in which edges may announce the routes of its earlier life again
REFLECTED = """  [neighbors.route-reflector.config]
    route-reflector-client = true
    route-reflector-cluster-id = "192.0.2.9"
"""
HELPING = """  [neighbors.graceful-restart.config]
    enabled = true
    restart-time = 20
"""
NEIGHBOUR = """[[neighbors]]
  [neighbors.config]
    neighbor-address = "{0}"
    peer-as = {1}
  [neighbors.transport.config]
    local-address = "{2}"
  [neighbors.timers.config]
    connect-retry = 1
    idle-hold-time-after-reset = 1
  [[neighbors.afi-safis]]
    [neighbors.afi-safis.config]
      afi-safi-name = "l2vpn-evpn"
    [neighbors.afi-safis.mp-graceful-restart.config]
      enabled = true
"""


def waited(holds: Callable[[], object], seconds: float = PATIENCE) -> Optional[float]:
    """The seconds until something holds, or nothing where it doesn't in time."""
    begun = time.monotonic()
    while not holds():
        if time.monotonic() - begun > seconds:
            return None
        time.sleep(0.05)
    return time.monotonic() - begun


def mac_of(number: int) -> str:
    """One of many stations."""
    return mac_text(bytes([2, 1, 0]) + number.to_bytes(3, "big"))


class Child:
    """A process of ours, in the namespace that some words enter."""

    def __init__(self, words: List[str], **how: object) -> None:
        self.process = subprocess.Popen(words, **how)

    def kill(self, number: int = signal.SIGKILL) -> int:
        """Ends it; gives its status."""
        self.process.send_signal(number)
        return self.process.wait(PATIENCE)

    def processor(self) -> float:
        """The seconds of a processor that it has taken."""
        with open(f"/proc/{self.process.pid}/stat", encoding="ascii") as stream:
            user, system = stream.read().rpartition(")")[2].split()[11:13]
        return (int(user) + int(system)) / os.sysconf("SC_CLK_TCK")

    def most_memory(self) -> int:
        """The most memory that it has held, in MB."""
        with open(f"/proc/{self.process.pid}/status", encoding="ascii") as stream:
            return int(re.search(r"VmHWM:\s+([0-9]+) kB", stream.read())[1]) // 1024


class Gobgpd(Child):
    """A running gobgpd, with its interface at a Unix socket."""

    def __init__(self, enter: List[str], folder: str, name: str, text: str) -> None:
        self.again = (enter, folder, name, text)
        self.path = os.path.join(folder, f"{name}.sock")
        with open(os.path.join(folder, f"{name}.toml"), "w", encoding="utf-8") as stream:
            stream.write(text)
        if os.path.exists(self.path):
            os.unlink(self.path)  # of one that was killed
        words = [*enter, "gobgpd", "-f", os.path.join(folder, f"{name}.toml"), "--api-hosts", f"unix://{self.path}"]
        with open(os.path.join(folder, f"{name}.log"), "ab") as log:
            super().__init__(words, stdout=log, stderr=log)
        self.daemon = Daemon(f"unix:{self.path}")
        if waited(self.is_up, 15) is None:
            raise Trouble(f"gobgpd {name} doesn't answer")

    def is_up(self) -> bool:
        """Whether it answers."""
        try:
            return self.daemon.autonomous() != 0
        except NoDaemon:
            return False

    def rib(self) -> int:
        """How many routes its own table has."""
        words = ["gobgp", "--target", f"unix://{self.path}", "global", "rib", "summary", "-a", "evpn"]
        return int(re.search(r"Destination: ([0-9]+)", run(*words))[1])


def leaf_text(address: str, neighbour: str = GATEWAY, autonomous: int = 65000) -> str:
    """The configuration of a leaf that is GoBGP: it takes and gives all."""
    lines = ["[global.config]", f"  as = {autonomous}", f'  router-id = "{FAR}"']
    lines += [f'  local-address-list = ["{address}"]', ""]
    return "\n".join(lines) + NEIGHBOUR.format(neighbour, 65000, address)


def reflector_text(address: str, neighbours: Iterable[str]) -> str:
    """The configuration of a route reflector."""
    text = leaf_text(address)
    sessions = (NEIGHBOUR.format(each, 65000, address) + HELPING + REFLECTED for each in neighbours)
    return text[: text.index("[[neighbors]]")].replace(FAR, "192.0.2.9") + "".join(sessions)


def gateway_text(neighbour: str, own: str, autonomous: int = 65000) -> str:
    """The configuration of examples/fabric/gobgpd.toml, with a run's addresses and the neighbour's AS."""
    with open(os.path.join(TOP, "examples", "fabric", "gobgpd.toml"), encoding="utf-8") as stream:
        text = stream.read()
    # two with one router-id would drop each other's routes, which a reflector sends with it
    text = text.replace('"192.0.2.2"', f'"{own}"').replace('"192.0.2.1"', f'"{neighbour}"')
    return text.replace("peer-as = 65000", f"peer-as = {autonomous}")


class Gateway(Child):
    """A running gateway, at standard input and output if nothing else is said."""

    def __init__(self, folder: str, path: str, name: str, way: Tuple[str, ...] = ("--stdio",), own: str = OURS) -> None:
        self.out, self.notes = (os.path.join(folder, f"{name}.{kind}") for kind in ("records", "notes"))
        words = ["/usr/bin/python3", "-B", os.path.join(TOP, "tools", "evpnd_bgp.py"), "--gobgp", f"unix:{path}"]
        with open(self.out, "wb") as out, open(self.notes, "wb") as notes:
            super().__init__([*words, "--own", own, *way], stdin=subprocess.PIPE, stdout=out, stderr=notes)

    def tell(self, *lines: str) -> None:
        """Gives it records."""
        self.process.stdin.write(b"".join(record_of(update_of_line(line)) for line in lines))
        self.process.stdin.flush()

    def end(self) -> int:
        """Ends its input; gives its status."""
        self.process.stdin.close()
        return self.process.wait(PATIENCE)

    def records(self) -> List[Update]:
        """The records that it has written."""
        with open(self.out, "rb") as stream:
            return [each for each in read_records(stream) if isinstance(each, Update)]

    def table(self, originator: str) -> Dict[Tuple[int, str], Update]:
        """The last record of each of an edge's registers without an address."""
        found = {}
        for each in self.records():
            if address_text(each.originator) == originator and not each.ip:
                found[each.vni, "flood" if each.mac is None else mac_text(each.mac)] = each
        return found

    def says(self, originator: str, mac: str) -> object:
        """What it last said of a station in VNI 5001: sequence number, 'withdrawn', or nothing."""
        found = self.table(originator).get((5001, mac))
        return None if found is None else "withdrawn" if found.advert is None else found.advert.sequence

    def noted(self) -> str:
        """What it has told."""
        with open(self.notes, encoding="utf-8") as stream:
            return stream.read()

    def owner(self, mac: str, *more: str) -> str:
        """The owner of a station in VNI 5001 by `evpnd report`, of its records and some lines more."""
        with open(self.out, "rb") as stream:
            octets = stream.read() + b"".join(record_of(update_of_line(line)) for line in more)
        words = [os.environ["EVPND"], "report", "--originators", f"{OURS},{FAR},{lab.OWN}"]
        done = subprocess.run(words, input=octets, capture_output=True, check=False)
        found = re.search(rf"^owner 5001 {mac} (\S+)$", done.stdout.decode(), re.MULTILINE)
        return found[1] if found else f"none is told: status {done.returncode} {done.stderr.decode().strip()}"


def far(mac: str, **fields: object) -> Route:
    """A MAC route of GoBGP's leaf."""
    usual = {"labels": (5001,), "hop": FAR, "targets": ("65000:5001",), "mobility": (False, 0)}
    return Route(2, f"{FAR}:1", mac, **{**usual, **fields})


def seconds(found: Optional[float]) -> str:
    """A figure, or what is told in its place."""
    return "not in time" if found is None else f"{found:.1f} s"


# ---- beside GoBGP -------------------------------------------------------------------------------------------


class Pair:
    """Two gobgpds with a session: the gateway's and a leaf."""

    def __init__(self, folder: str) -> None:
        self.folder = folder
        self.near = Gobgpd([], folder, "near", gateway_text(LEAF, GATEWAY))
        self.leaf = Gobgpd([], folder, "leaf", leaf_text(LEAF))
        self.count = 0

    def gateway(self, *way: str) -> Gateway:
        """A new gateway."""
        self.count += 1
        return Gateway(self.folder, self.near.path, f"gateway{self.count}", way or ("--stdio",))

    def leaf_has(self) -> Dict[Tuple[str, str], Optional[Tuple[bool, int]]]:
        """What the leaf has heard: next hop and MAC, with static flag and sequence number."""
        found = {}
        daemon = self.leaf.daemon
        request = daemon.gobgp.ListPathRequest(table_type=daemon.gobgp.GLOBAL, family=daemon.messages.family)
        for response in daemon.call("ListPath", "unary_stream", "ListPathResponse", request):
            for path in response.destination.paths:
                if path.neighbor_ip == GATEWAY:
                    route = daemon.messages.route(path)
                    found[route.hop, route.mac or "flood"] = route.mobility
        return found

    def leaf_gets(self, wanted: Dict[Tuple[str, str], Optional[Tuple[bool, int]]]) -> bool:
        """Whether the leaf soon has these routes of ours and no others."""
        return waited(lambda: self.leaf_has() == wanted, 15) is not None


def both_ways(pair: Pair, tally: Tally) -> None:
    """A station of each side, each change of ours, and the end of our input."""
    gateway = pair.gateway()
    flood = Route(3, f"{FAR}:1", ip=FAR, hop=FAR, targets=("65000:5001",), pmsi=Pmsi(6, 5001, bytes([10, 0, 0, 7])))
    pair.leaf.daemon.change([(far(STATION, mobility=(False, 4)), False), (flood, False)])
    tally.see(waited(lambda: gateway.says(FAR, STATION) == 4) is not None, "a leaf's route is a record")
    tally.see(gateway.owner(STATION) == FAR, "evpnd report says that the leaf owns the station")
    gateway.tell("advert 10.0.0.1 5001 flood", f"advert 10.0.0.1 5001 {MOVED} seq 3")
    gateway.tell(f"advert 10.0.0.2 5001 {MOVED} seq 1", f"advert 10.0.0.2 5001 {PINNED} static seq 0")
    gateway.tell(f"advert 10.0.0.2 5001 {STATION} seq 2", f"advert {FAR} 5001 {PINNED} seq 9")
    wanted = {("10.0.0.1", "flood"): None, ("10.0.0.1", MOVED): (False, 3), ("10.0.0.2", MOVED): (False, 1)}
    wanted.update({("10.0.0.2", PINNED): (True, 0), ("10.0.0.2", STATION): (False, 2)})
    tally.see(pair.leaf_gets(wanted), "our records are the leaf's routes, also below others' numbers")
    gateway.tell(f"withdraw 10.0.0.1 5001 {MOVED} counter 2", f"advert 10.0.0.2 5001 {STATION} seq 1 counter 3")
    del wanted["10.0.0.1", MOVED]
    wanted["10.0.0.2", STATION] = (False, 1)
    tally.see(pair.leaf_gets(wanted), "a withdrawal, and a lower sequence number")
    is_left_out(pair, gateway, tally)
    tally.see(gateway.end() == 0 and pair.leaf_gets({}), "the input's end withdraws all of ours")


def is_left_out(pair: Pair, gateway: Gateway, tally: Tally) -> None:
    """Routes of the leaf that a record can't say."""
    odd = [{"esi": bytes(9) + b"\1"}, {"hop": "2001:db8::7"}, {"labels": (5002,)}]
    pair.leaf.daemon.change((far(mac_of(number), **fields), False) for number, fields in enumerate(odd))
    words = ["gobgp", "--target", f"unix://{pair.leaf.path}", "global", "rib", "add", "-a", "evpn", "prefix"]
    words += ["192.0.2.0/24", "gw", "10.0.0.7", "etag", "0", "label", "5001", "rd", "10.0.0.7:1", "rt", "65000:5001"]
    run(*words)
    causes = ["nonzero ESI", "isn't an IPv4 address", "isn't the VNI of the route target", "neither a MAC route"]
    told = waited(lambda: all(cause in gateway.noted() for cause in causes), 15)
    tally.see(told is not None, "what a record can't say is told by its cause")
    tally.see(len(gateway.table(FAR)) == 2, "and is no record")
    pair.leaf.daemon.change((far(mac_of(number), **fields), True) for number, fields in enumerate(odd))


def garbage(pair: Pair, tally: Tally) -> None:
    """Octets that are no record."""
    gateway = pair.gateway()
    gateway.tell(f"advert 10.0.0.1 5001 {MOVED} seq 3")
    waited(lambda: pair.leaf_has())
    gateway.process.stdin.write(b"garbage")
    gateway.process.stdin.flush()
    status = gateway.process.wait(PATIENCE)
    tally.see(status == 1 and "fault 1 at record 2" in gateway.noted(), "garbage ends the stream with a line")
    tally.see(pair.leaf_gets({}), "and what it brought is withdrawn")


def sessions(pair: Pair, tally: Tally) -> None:
    """Two sessions at a Unix socket, each with a station of both sides; the gateway is there before the socket."""
    path = os.path.join(pair.folder, "records.sock")
    gateway = pair.gateway("--socket", path)
    time.sleep(2)
    with socket.socket(socket.AF_UNIX) as server:
        server.bind(path)
        server.listen()
        server.settimeout(15)
        for count in ("first", "second"):
            connection, _ = server.accept()
            with connection, connection.makefile("rb") as stream:
                tally.see(stream.readline() == b"records\n", f"the {count} session begins with its word")
                connection.sendall(record_of(update_of_line(f"advert 10.0.0.1 5001 {MOVED} seq 3")))
                tally.see(pair.leaf_gets({("10.0.0.1", MOVED): (False, 3)}), "its record is a route")
                heard = {next(read_records(stream)).mac for _ in range(2)}
                tally.see(heard == {None, read_mac(STATION)}, "and all of the fabric is told to it")
            tally.see(pair.leaf_gets({}), "its end withdraws what it brought")
        connection, _ = server.accept()
        with connection:
            tally.see(gateway.kill(signal.SIGTERM) == 0, "SIGTERM ends the gateway")


def lives(pair: Pair, tally: Tally) -> Gateway:
    """The gateway is killed and begins anew; gives the second one."""
    first = pair.gateway()
    first.tell(f"advert 10.0.0.1 5001 {MOVED} seq 3", f"advert 10.0.0.1 5001 {PINNED} seq 0")
    waited(lambda: len(pair.leaf_has()) == 2 and first.says(FAR, STATION) == 4)
    first.kill()
    tally.see(len(pair.leaf_has()) == 2, "a gateway that is killed leaves its routes")
    old = first.records()
    pair.leaf.daemon.change([(far(STATION), True)])
    second = pair.gateway()
    second.tell(f"advert 10.0.0.1 5001 {MOVED} seq 3")
    second.process.stdin.write(b"".join(map(record_of, old)))
    second.process.stdin.flush()
    time.sleep(HOLD / 2)
    tally.see(len(pair.leaf_has()) == 2, "which stay for some seconds")
    gone = waited(lambda: set(pair.leaf_has()) == {("10.0.0.1", MOVED)}, HOLD * 2)
    tally.see(gone is not None, "until what nobody says anew is withdrawn")
    answered = waited(lambda: second.says(FAR, STATION) == "withdrawn", 15)
    tally.see(answered is not None, "an old record of what BGP no longer says is withdrawn")
    newer = second.table(FAR)[5001, STATION]
    tally.see(newer.incarnation > old[0].incarnation, "and the second life's incarnation is higher")
    return second


def deaths(pair: Pair, tally: Tally) -> None:
    """The gateway's gobgpd and the leaf's are killed and begin anew; the gateway is ended by a signal."""
    gateway, ours = lives(pair, tally), {("10.0.0.1", MOVED): (False, 3)}
    is_withdrawn = lambda: gateway.says(FAR, STATION) == "withdrawn"  # noqa: E731
    pair.leaf.daemon.change([(far(STATION, mobility=(False, 4)), False)])
    waited(lambda: gateway.says(FAR, STATION) == 4)
    count = len(gateway.records())
    pair.near.kill()
    time.sleep(2)
    pair.near = Gobgpd(*pair.near.again)
    back = waited(lambda: pair.leaf_has() == ours)
    pair.leaf.daemon.change([(far(HOME), False)])
    again = waited(lambda: gateway.says(FAR, HOME) == 0)
    what = f"gobgpd dies and begins anew (ours are back after {seconds(back)}), and no record says so"
    tally.see(back is not None and again is not None and len(gateway.records()) == count + 1, what)
    pair.leaf.daemon.change([(far(HOME), True)])
    is_alone(pair, gateway, tally)
    pair.leaf.kill()
    lost = waited(is_withdrawn, 30)
    what = f"a leaf that dies is withdrawn (after {seconds(lost)})"
    tally.see(lost is not None and gateway.owner(STATION) == "none", what)
    pair.leaf = Gobgpd(*pair.leaf.again)
    tally.see(waited(lambda: pair.leaf_has() == ours) is not None, "a leaf that begins anew is told ours")
    status = gateway.kill(signal.SIGTERM)
    time.sleep(2)
    tally.see(status == 0 and pair.leaf_has() == ours, "SIGTERM leaves our routes")
    status = pair.gateway("--withdraw").process.wait(PATIENCE)
    tally.see(status == 0 and pair.leaf_gets({}), "--withdraw takes them back")
    leftover(pair, tally)


def is_alone(pair: Pair, gateway: Gateway, tally: Tally) -> None:
    """A second gateway of an edge; and somebody who changes our routes at gobgpd."""
    ours = {("10.0.0.1", MOVED): (False, 3)}
    second = pair.gateway("--socket", os.path.join(pair.folder, "nowhere"))
    told = second.process.wait(PATIENCE) == 2 and f"another gateway runs there (process {gateway.process.pid})" in second.noted()
    tally.see(told and pair.leaf_has() == ours, "a second gateway of the same edges ends with a line, and changes nothing")
    before = gateway.noted().count("mended")
    pair.near.daemon.clear()
    waited(lambda: not pair.leaf_has())
    back = waited(lambda: pair.leaf_has() == ours)
    tally.see(back is not None, f"what somebody withdraws at gobgpd is announced again (after {seconds(back)})")
    tally.see(gateway.noted().count("mended") == before + 1, "and that is logged once")


def leftover(pair: Pair, tally: Tally) -> None:
    """A gateway is killed, and its edges never come back: the next one withdraws their routes."""
    first = pair.gateway()
    first.tell(f"advert 10.0.0.1 5001 {MOVED} seq 3")
    waited(lambda: len(pair.leaf_has()) == 1)
    first.kill()
    second = pair.gateway("--socket", os.path.join(pair.folder, "nowhere"))
    gone = waited(lambda: not pair.leaf_has(), 2 * HOLD + 5)
    tally.see(gone is not None, f"the routes of edges that never come back are withdrawn (after {seconds(gone)})")
    second.kill(signal.SIGTERM)


def churn(pair: Pair, tally: Tally) -> None:
    """Random changes on both sides at once: what is left is what was said last, and GoBGP has declined nothing."""
    gateway, draw = pair.gateway(), random.Random(7)
    gateway.tell("advert 10.0.0.1 5001 flood")
    ours: Dict[Tuple[str, str], Optional[Tuple[bool, int]]] = {("10.0.0.1", "flood"): None}
    waited(lambda: pair.leaf_has() == ours)
    theirs: Dict[str, Optional[int]] = {}
    for first in range(1, CHANGES, 50):
        lines, routes = [], []
        for counter in range(first, first + 50):
            edge, mac, sequence = f"10.0.0.{draw.randint(1, 2)}", mac_of(draw.randrange(40)), draw.randrange(6)
            content = draw.choice(("withdraw", "advert", "advert", "static"))
            ours[edge, mac] = (content == "static", sequence)
            if content == "withdraw":
                del ours[edge, mac]
            said = {"advert": f"seq {sequence}", "static": f"static seq {sequence}"}.get(content, "")
            lines.append(f"{'advert' if said else 'withdraw'} {edge} 5001 {mac} {said} counter {counter}")
            mac, sequence = mac_of(1000 + draw.randrange(40)), draw.choice((None, 0, 1, 2, 3))
            theirs[mac] = sequence
            routes += [(far(mac), True)] + ([] if sequence is None else [(far(mac, mobility=(False, sequence)), False)])
        gateway.tell(*lines)
        pair.leaf.daemon.change(routes)
    tally.see(pair.leaf_gets(ours), f"after {CHANGES} random changes the leaf has what our records said last")
    wanted = {mac: sequence for mac, sequence in theirs.items() if sequence is not None}
    heard = lambda: {mac: gateway.says(FAR, mac) for mac in theirs}  # noqa: E731
    said = lambda: {mac: found for mac, found in heard().items() if found not in (None, "withdrawn")}  # noqa: E731
    tally.see(waited(lambda: said() == wanted, 15) is not None, "and the records say what the leaf said last")
    tally.see("declined" not in gateway.noted(), "and GoBGP has declined nothing")
    gateway.end()
    pair.leaf.daemon.change((far(mac), True) for mac in theirs)


def give(pair: Pair, is_withdrawn: bool) -> float:
    """Lets the leaf say many stations, or withdraw them, some in each call; gives the seconds."""
    begun = time.monotonic()
    for first in range(0, MANY, 200):
        pair.leaf.daemon.change((far(mac_of(number)), is_withdrawn) for number in range(first, first + 200))
    return time.monotonic() - begun


def many(pair: Pair, tally: Tally) -> List[str]:
    """Ten thousand routes in each direction; gives the figures."""
    gateway = pair.gateway()
    time.sleep(2)
    given = give(pair, False)
    heard = waited(lambda: os.path.getsize(gateway.out) >= 60 * MANY and len(gateway.table(FAR)) >= MANY)
    tally.see(heard is not None, f"{MANY} routes of a leaf are records")
    told = f"{given:.1f} s until GoBGP has told them, then {seconds(heard)} until all are records"
    figures = [f"{MANY} routes of a leaf: {told}"]
    give(pair, True)
    gone = waited(lambda: all(each.advert is None for each in gateway.table(FAR).values()))
    tally.see(gone is not None, "and withdrawn")
    gateway.tell(*(f"advert 10.0.0.1 5001 {mac_of(number)} seq 1" for number in range(MANY)))
    told = waited(lambda: pair.leaf.rib() >= MANY, 120)
    tally.see(told is not None, f"{MANY} records are routes at the leaf")
    memory = f"memory at most: gateway {gateway.most_memory()} MB, its gobgpd {pair.near.most_memory()} MB"
    memory += f"; the gateway took {gateway.processor():.1f} s of a processor for all"
    begun = time.monotonic()
    status = gateway.end()
    ended = time.monotonic() - begun
    tally.see(status == 0 and waited(lambda: pair.leaf.rib() < MANY, 30) is not None, "and withdrawn at the end")
    there = f"{seconds(told)} until the leaf has them"
    figures.append(f"{MANY} records: {there}; {ended:.1f} s to withdraw them at the end")
    return [*figures, memory]


def elsewhere(folder: str, tally: Tally) -> None:
    """The leaf behind a route reflector, and in another AS."""
    ours, theirs, middle = "127.0.0.4", "127.0.0.5", "127.0.0.6"
    behind = [("near2", gateway_text(middle, ours)), ("reflector", reflector_text(middle, [ours, theirs]))]
    behind.append(("leaf2", leaf_text(theirs, middle)))
    across = [("near3", gateway_text(theirs, ours, 65100)), ("leaf3", leaf_text(theirs, ours, 65100))]
    for where, texts in (("behind a route reflector", behind), ("in another AS", across)):
        daemons = [Gobgpd([], folder, *each) for each in texts]
        gateway = Gateway(folder, daemons[0].path, texts[0][0])
        daemons[-1].daemon.change([(far(STATION, mobility=(False, 4)), False)])
        gateway.tell(f"advert 10.0.0.1 5001 {MOVED} seq 3")
        heard = waited(lambda: gateway.says(FAR, STATION) == 4)
        tally.see(heard is not None, f"a leaf {where}: its route is a record")
        told = waited(lambda: daemons[-1].rib() == 2)
        tally.see(told is not None and not gateway.table("10.0.0.1"), "ours is its route, and doesn't come back")
        daemons[-1].kill()
        lost = waited(lambda: gateway.says(FAR, STATION) == "withdrawn", 30)
        tally.see(lost is not None and gateway.end() == 0, "it dies, and is withdrawn")
        for each in daemons[:-1]:
            each.kill()


def beside_gobgp(tally: Tally) -> List[str]:
    """All of it with GoBGP on both sides."""
    run("ip", "link", "set", "lo", "up")
    folder = tempfile.mkdtemp(prefix="evpnd-bgp-")
    pair = None
    try:
        pair = Pair(folder)
        for case in (both_ways, garbage, sessions, deaths, churn):
            case(pair, tally)
        elsewhere(folder, tally)
        return many(pair, tally)
    finally:
        for each in () if pair is None else (pair.near, pair.leaf):
            each.kill()
        shutil.rmtree(folder)


# ---- beside FRR ---------------------------------------------------------------------------------------------


class Fabric(Edge):
    """An FRR leaf with access ports, and GoBGP with the gateway in the place of the speaker."""

    def start_speaker(self) -> None:
        """GoBGP, until its session stands."""
        enter = ["ip", "netns", "exec", self.outside]
        self.near = Gobgpd(enter, self.folder, "near", gateway_text(FRR_LEAF, FRR_GATEWAY))
        self.children.append(self.near.process)
        self.wait_for(lambda: "Established" in self.shell("show bgp l2vpn evpn summary json"), "the session")

    def routes(self, mac: str) -> str:
        """What FRR shows of a station, a line a route: its RD, and the rest with one blank between words."""
        parts = re.split(r"\n(?=Route Distinguisher: )", self.shell("show bgp l2vpn evpn route type macip"))
        shown = [(part.split()[2], each) for part in parts[1:] for each in part.split("*>") if mac in each]
        return "\n".join(f"{rd} {' '.join(each.split())}" for rd, each in shown)

    def count(self) -> int:
        """How many MAC routes FRR has."""
        found = re.search(r"Displayed ([0-9]+) prefixes", self.shell("show bgp l2vpn evpn route type macip"))
        return int(found[1]) if found else 0


def stations(leaf: Fabric, gateway: Gateway, tally: Tally) -> None:
    """A station of the leaf's and some of ours, with real frames."""
    leaf.heard(5001, HOME)
    heard = waited(lambda: gateway.says(lab.OWN, HOME) == 0)
    tally.see(heard is not None, f"a station that FRR {leaf.version()} has learnt is a record")
    tally.see(gateway.owner(HOME) == lab.OWN, f"evpnd report says that {lab.OWN} owns it")
    tally.see((5001, "flood") in gateway.table(lab.OWN), "and that edge's flood list")
    gateway.tell("advert 10.0.0.1 5001 flood", f"advert 10.0.0.1 5001 {MOVED} seq 3")
    gateway.tell(f"advert 10.0.0.2 5001 {PINNED} static seq 0")
    waited(lambda: "MM" in leaf.routes(PINNED), 15)
    shown = f"10.0.0.1:5001 i[2]:[0]:[48]:[{MOVED}] 10.0.0.1 100 0 i RT:65000:5001 ET:8 MM:3"
    tally.see(shown in leaf.routes(MOVED), "FRR shows our route with its sequence number")
    shown = f"10.0.0.2:5001 i[2]:[0]:[48]:[{PINNED}] 10.0.0.2 100 0 i RT:65000:5001 ET:8 MM:0, sticky MAC"
    tally.see(shown in leaf.routes(PINNED), "and the sticky bit")
    forwarded = waited(lambda: leaf.goes(5001, MOVED) == "10.0.0.1", 10)
    tally.see(forwarded is not None, "a real frame from the leaf goes to our edge")
    flooded = waited(lambda: "10.0.0.1" in leaf.goes(5001, "02:00:00:00:77:77"), 10)
    tally.see(flooded is not None, "and one to nobody's address, too: our flood list")


def moves(leaf: Fabric, gateway: Gateway, tally: Tally) -> None:
    """A station moves from the leaf to one of our edges, and back."""
    ours = f"advert 10.0.0.1 5001 {HOME} seq 1"
    gateway.tell(ours)
    moved = waited(lambda: gateway.says(lab.OWN, HOME) == "withdrawn", 15)
    told = "a station moves from the leaf to us: FRR withdraws it"
    tally.see(moved is not None and gateway.owner(HOME, ours) == "10.0.0.1", told)
    leaf.heard(5001, HOME)
    back = waited(lambda: gateway.says(lab.OWN, HOME) == 2, 15)
    tally.see(back is not None, "and back: FRR says it with the next sequence number")
    tally.see(gateway.owner(HOME, ours) == lab.OWN, "evpnd report says that the leaf owns it again")


def beside_frr(tally: Tally) -> List[str]:
    """An FRR leaf, with ten thousand routes of ours, until it is killed; gives the figures."""
    with Fabric("bgp", access=True) as leaf:
        gateway = Gateway(leaf.folder, leaf.near.path, "gateway")
        stations(leaf, gateway, tally)
        moves(leaf, gateway, tally)
        there = leaf.count()
        gateway.tell(*(f"advert 10.0.0.2 5001 {mac_of(number)} seq 1" for number in range(MANY)))
        told = waited(lambda: leaf.count() == there + MANY, 120)
        tally.see(told is not None, f"{MANY} records are routes at FRR")
        version, memory = leaf.version(), gateway.most_memory()
        leaf.daemons["bgpd"].kill()
        leaf.daemons["bgpd"].wait(10)
        lost = waited(lambda: gateway.says(lab.OWN, HOME) == "withdrawn", 30)
        what = f"the leaf's bgpd is killed: its routes are withdrawn (after {seconds(lost)})"
        tally.see(lost is not None and gateway.owner(HOME) == "none", what)
        tally.see(gateway.end() == 0, "the gateway ends with its input")
    return [f"{MANY} records: {seconds(told)} until FRR {version} has them; memory at most: gateway {memory} MB"]


def main() -> int:
    """Both halves; the last line is `ok` where all passed."""
    tally = Tally()
    figures = beside_gobgp(tally)
    if os.environ["ROOT"] != "0":
        figures.append("beside FRR: not run, it needs root")
    elif not os.path.exists(f"{lab.DAEMONS}/bgpd"):
        figures.append("beside FRR: not run, it needs the package frr")
    else:
        figures += beside_frr(tally)
    print("\n".join(figures))
    print(f"{tally.passed} passed, {tally.failed} failed")
    if tally.failed:
        return 1
    print("ok")
    return 0


if __name__ == "__main__":
    try:
        sys.exit(main())
    except Trouble as trouble:
        print(f"FAILED: {trouble}")
        sys.exit(1)
