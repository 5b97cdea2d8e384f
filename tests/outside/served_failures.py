"""What each failure costs; `fabric.sh EVPND failures [KEY=VALUE..] [NAME..]` starts this in a network namespace of its own.

The fabric is that of served_fabric.py: our edge, two FRR leaves, a route reflector of GoBGP, a host at each. While something
is killed, stopped or cut off, hosts ping each other ten times a second. A line a failure: pings lost, and seconds until all
agree. A goal that is missed is a failure of the script.

Keys change the fabric: `reflector=frr` has FRR as the route reflector. `hold=SECONDS` and `restart=SECONDS` are the hold time and
the restart time of examples/fabric/gobgpd.toml, `restart=0` is no graceful restart. `gobgpds=2` has a second GoBGP beside the
first one, with a gateway that only announces, both without graceful restart. A name may stand several times.
"""

import re
import signal
import sys
import time
from typing import Callable, Dict, List, Optional

from served_fabric import ONE, OURS, REFLECTOR, TWO, Fabric
from served_lab import NOBODY, Lab, Pings, Reflector, differing, entering

from bgp_fabric import Child, Gateway, Gobgpd, seconds, waited  # noqa: E402, isort: skip
from edge import Trouble, run  # noqa: E402, isort: skip
from histories import Tally  # noqa: E402, isort: skip

SECOND = "10.0.0.2"  # the second GoBGP's address
EVERY = 0.1  # seconds between two pings
AWAY = 30  # seconds for which a link is away
SETTLED = 25  # seconds that are watched after a daemon has come back: longer than any timer here
POWER = 10  # seconds after which a host without power has to be gone
UNSAID = 15  # seconds after which a route that ended while gobgpd was away has to be gone at our edge
GUEST = "02:00:00:00:78:01"  # a station at a leaf that goes away
RETURNED = 15  # seconds after which all have to agree once the link is back
LIFE = 2  # seconds after which all have to agree on an edge that has started again


class Varied(Fabric):
    """The fabric with other timers, or with FRR as the route reflector."""

    is_numbered = False

    def __init__(self, lab: Lab, tally: Tally, keys: Dict[str, str]) -> None:
        self.keys = {"restart": "0", **keys} if keys.get("gobgpds") == "2" else keys
        self.seconds: List[Child] = []
        if self.keys.get("gobgpds") == "2":
            self.neighbours = [*Fabric.neighbours, SECOND]
        super().__init__(lab, tally)
        if self.keys.get("gobgpds") == "2":
            run("ip", "-n", self.served.netns, "address", "add", f"{SECOND}/24", "dev", "up0")
            self.start_second()

    def start_second(self) -> None:
        """A second GoBGP, at a second address of the edge's host, and the gateway that announces by it."""
        netns = self.served.netns
        text = self.near_text().replace(f'"{OURS}"', f'"{SECOND}"')
        second = Gobgpd(entering(netns), self.lab.folder, "second", text)
        way = ("--socket", self.served.control, "--announce")
        self.seconds = [second, Gateway(self.lab.folder, second.path, "announcer", way, OURS)]
        for child in self.seconds:
            self.lab.keep(child)

    def make_reflector(self) -> None:
        """The route reflector, GoBGP or FRR."""
        if self.keys.get("reflector") == "frr":
            self.reflector = Reflector(self.lab, REFLECTOR, self.neighbours)
        else:
            super().make_reflector()

    def restart_reflector(self) -> None:
        """It is killed and begins anew."""
        if not isinstance(self.reflector, Reflector):
            super().restart_reflector()
            return
        self.reflector.die()
        time.sleep(1)
        self.reflector.start_daemons()

    def near_text(self) -> str:
        """The example's configuration with these timers."""
        text, hold, restart = super().near_text(), self.keys.get("hold"), self.keys.get("restart")
        if hold:
            text = re.sub("hold-time = .*", f"hold-time = {hold}", text)
            text = re.sub("keepalive-interval = .*", f"keepalive-interval = {max(1, int(hold) // 3)}", text)
        if restart == "0":
            text = text.replace("enabled = true", "enabled = false")
        elif restart:
            text = re.sub("restart-time = .*", f"restart-time = {restart}", text)
        return text


class Failures:
    """The failures, one after the other, in one fabric."""

    def __init__(self, fabric: Varied, tally: Tally) -> None:
        self.fabric, self.tally = fabric, tally
        self.near_host, self.one_host, self.two_host = fabric.hosts[:3]

    def ping(self, failure: Callable[[], object], after: float = 3) -> int:
        """Lets our host and a leaf's ping each other through a failure; gives how many pings were lost."""
        pings = [Pings(self.near_host, [self.one_host], EVERY), Pings(self.one_host, [self.near_host], EVERY)]
        time.sleep(1)
        failure()
        time.sleep(after)
        return sum(each.end() for each in pings)

    def agreed(self, but: Optional[object] = None) -> Optional[float]:
        """The seconds until all but one name the wanted owners."""
        asked = [each for each in (self.fabric.served, self.fabric.one, self.fabric.two) if each is not but]
        return waited(lambda: not differing(asked, self.fabric.homes), 120)

    def see_lossless(self, what: str, lost: int) -> None:
        """Sees that nothing was lost, and all agree."""
        found = self.agreed()
        self.tally.see(lost == 0 and found is not None, f"{what}: {lost} pings lost")

    def gateway(self, number: int, name: str) -> None:
        """The gateway is ended and begins anew."""

        def failure() -> None:
            self.fabric.gateway.kill(number)
            time.sleep(1)
            self.fabric.start_gateway()

        self.see_lossless(f"gateway restarted after {name}", self.ping(failure, SETTLED))

    def gobgpd(self, number: int, name: str, is_goal: bool) -> None:
        """GoBGP beside the gateway is ended and begins anew."""

        def failure() -> None:
            self.fabric.near.kill(number)
            time.sleep(1)
            self.fabric.near = Gobgpd(*self.fabric.near.again)
            self.fabric.lab.keep(self.fabric.near)

        lost = self.ping(failure, SETTLED)
        what = f"gobgpd restarted after {name}"
        if is_goal:
            self.see_lossless(what, lost)
        else:
            self.tally.see(self.agreed() is not None, f"{what}: {lost} pings lost, {lost * EVERY / 2:.1f} s")

    def second(self) -> None:
        """The second GoBGP and its gateway are killed and begin anew."""

        def failure() -> None:
            for child in self.fabric.seconds:
                child.kill()
            time.sleep(1)
            self.fabric.start_second()

        self.see_lossless("second gobgpd and its gateway restarted after SIGKILL", self.ping(failure, SETTLED))

    def ended(self) -> None:
        """A station of a leaf goes away while GoBGP beside the gateway is away."""
        leaf, homes = self.fabric.one, dict(self.fabric.homes)
        leaf.within("bridge", "fdb", "replace", GUEST, "dev", "acc1", "master", "static")
        self.fabric.homes = {**homes, GUEST: ONE}
        if self.agreed() is None:
            raise Trouble("a leaf's station isn't known")
        took = 0.0

        def failure() -> None:
            nonlocal took
            self.fabric.near.kill()
            begun = time.monotonic()
            leaf.within("bridge", "fdb", "del", GUEST, "dev", "acc1", "master")
            self.fabric.homes = homes
            time.sleep(1)
            self.fabric.near = Gobgpd(*self.fabric.near.again)
            self.fabric.lab.keep(self.fabric.near)
            waited(lambda: GUEST not in self.fabric.served.owners(), 120)
            took = time.monotonic() - begun

        lost = self.ping(failure)
        what = f"a route ends while gobgpd is away: our edge has withdrawn it {took:.1f} s after gobgpd was killed"
        self.tally.see(lost == 0 and took <= UNSAID, f"{what}; {lost} pings lost")

    def reflector(self) -> None:
        """The route reflector is killed and begins anew."""

        lost = self.ping(self.fabric.restart_reflector, SETTLED)
        self.tally.see(self.agreed() is not None, f"route reflector restarted after SIGKILL: {lost} pings lost, {lost * EVERY / 2:.1f} s")

    def edge(self) -> None:
        """`evpnd serve` is killed, and begins anew as its unit starts it: with the same configuration."""
        homes = dict(self.fabric.homes)
        self.fabric.served.child.kill()
        self.fabric.homes = {mac: NOBODY if home == OURS else home for mac, home in homes.items()}
        gone = waited(lambda: not differing([self.fabric.one, self.fabric.two], self.fabric.homes))
        self.tally.see(gone is not None, f"edge killed: the leaves have withdrawn its host after {seconds(gone)}")
        begun = time.monotonic()
        self.fabric.served.start()
        answered = time.monotonic() - begun
        self.fabric.homes = homes
        pings = Pings(self.near_host, [self.one_host], EVERY)
        found = self.agreed()
        took = time.monotonic() - begun
        pings.end()
        self.tally.see(found is not None and took <= LIFE, f"it begins anew: answers after {answered:.1f} s, all agree after {took:.1f} s")

    def link(self) -> None:
        """The edge's link is away for some time, in which a host moves from one leaf to the other."""
        netns, mover = self.fabric.served.netns, self.fabric.mover
        run("ip", "-n", netns, "link", "set", "up0", "down")
        begun = time.monotonic()
        mover.plug(self.fabric.two.port(2))
        homes = {**self.fabric.homes, mover.mac: TWO}
        self.fabric.homes = {mac: NOBODY if home == OURS else home for mac, home in homes.items()}
        waited(lambda: mover.reaches(self.one_host), 20)
        gone = waited(lambda: not differing([self.fabric.one, self.fabric.two], self.fabric.homes), AWAY)
        gone = None if gone is None else time.monotonic() - begun
        time.sleep(max(0.0, begun + AWAY - time.monotonic()))
        run("ip", "-n", netns, "link", "set", "up0", "up")
        self.fabric.homes = homes
        found = self.agreed()
        mover.plug(self.fabric.one.port(2))
        self.fabric.homes[mover.mac] = ONE
        waited(lambda: mover.reaches(self.two_host), 20)
        said = f"the leaves have withdrawn its host after {seconds(gone)}; back, all agree after {seconds(found)}"
        is_right = found is not None and found <= RETURNED and self.agreed() is not None
        self.tally.see(is_right, f"edge's link away for {AWAY} s, while a host moves: {said}")

    def leaf(self) -> None:
        """A leaf's daemons are killed and begin anew."""
        homes = dict(self.fabric.homes)
        self.fabric.one.die()
        self.fabric.homes = {mac: NOBODY if home == ONE else home for mac, home in homes.items()}
        gone = self.agreed(but=self.fabric.one)
        self.fabric.one.start_daemons()
        self.fabric.homes = homes
        hosts = [self.one_host, self.fabric.mover]
        begun = time.monotonic()
        waited(lambda: all(host.reaches(self.near_host) for host in hosts), 60)
        found = self.agreed()
        took = time.monotonic() - begun
        self.tally.see(None not in (gone, found), f"leaf killed: all others agree after {seconds(gone)}; it begins anew: {took:.1f} s")

    def power(self) -> None:
        """The edge's host loses power: no packet says so."""
        netns = self.fabric.served.netns
        run("ip", "-n", netns, "link", "set", "up0", "down")
        for child in (self.fabric.gateway, self.fabric.served.child, self.fabric.near, *self.fabric.seconds):
            child.kill()
        self.fabric.homes = {mac: NOBODY if home == OURS else home for mac, home in self.fabric.homes.items()}
        gone = waited(lambda: not differing([self.fabric.one, self.fabric.two], self.fabric.homes), 120)
        self.tally.see(gone is not None and gone <= POWER, f"power lost: the leaves have withdrawn its host after {seconds(gone)}")


def main(words: List[str]) -> int:
    """All of them, or those that are named; the last line is `ok` if all passed."""
    tally, keys = Tally(), dict(word.split("=") for word in words if "=" in word)
    names = [word for word in words if "=" not in word]
    with Lab() as lab:
        fabric = Varied(lab, tally, keys)
        fabric.all_ping("at first")
        failures = Failures(fabric, tally)
        steps = {
            "gateway-stopped": lambda: failures.gateway(signal.SIGTERM, "SIGTERM"),
            "gateway-killed": lambda: failures.gateway(signal.SIGKILL, "SIGKILL"),
            "gobgpd-stopped": lambda: failures.gobgpd(signal.SIGTERM, "SIGTERM", False),
            "gobgpd-killed": lambda: failures.gobgpd(signal.SIGKILL, "SIGKILL", True),
            **({"second-killed": failures.second} if fabric.seconds else {}),
            "ended": failures.ended,
            "reflector": failures.reflector,
            "edge": failures.edge,
            "link": failures.link,
            "leaf": failures.leaf,
            "power": failures.power,
        }
        for name in names or steps:
            steps[name]()
        print(f"the gateway has told: {fabric.gateway.noted()}", flush=True)
    print(f"{tally.passed} passed, {tally.failed} failed")
    if not tally.failed:
        print("ok")
    return 1 if tally.failed else 0


if __name__ == "__main__":
    try:
        sys.exit(main(sys.argv[1:]))
    except Trouble as trouble:
        print(f"FAILED: {trouble}")
        sys.exit(1)
