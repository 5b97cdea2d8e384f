#!/usr/bin/python3
"""A gateway between update records of evpnd (docs/records.md) and a BGP EVPN fabric, by GoBGP beside it.

    evpnd_bgp.py --watch [SECONDS]            the fabric's routes and their changes, as records on standard output
    evpnd_bgp.py --own LIST --stdio           the same; records on standard input are announced, until it ends
    evpnd_bgp.py --own LIST --socket PATH     the same at the control socket of edges that run (`evpnd serve`)
    evpnd_bgp.py --own LIST --socket PATH --announce    announces only, by a second GoBGP beside the first one
    evpnd_bgp.py --own LIST --withdraw        withdraws the routes of an earlier gateway, and ends

LIST has the addresses of our edges, with commas: all that speak records there, also those of other hosts. A record of
one of them becomes a route of BGP; of any other it is never announced, since it is the fabric's own. A route whose next
hop is one of our edges becomes no record. So nothing comes back to where it came from. What can't be said is left out:
each kind is logged once on standard error, and counted at the end.

One gateway runs at a time for an edge at a GoBGP, and for a control socket. Every 30 seconds it reads what GoBGP has of
our edges, and what the edges have of the fabric, and mends what differs. A signal ends it and leaves its routes at GoBGP
for the next gateway, as SIGKILL does; the end of standard input withdraws them.

GoBGP's daemon runs with an API (`gobgpd --api-hosts 127.0.0.1:50051`). docs/fabric.md has its configuration. Status 0;
1 if a stream ended by a fault or in a record, or no daemon answered; 2 for usage, if a package is missing, or if another
gateway runs there. Nothing here is proved.
"""

import argparse
import gc
import itertools
import os
import signal
import socket
import sys
import threading
import time
from typing import BinaryIO, Callable, Dict, Iterable, List, Optional, Tuple

from bgp_routes import Heard, Names, Own, announced_by, is_target, lacking_in, route_of, said_by
from bgp_service import AT_ONCE, LOG, Family, Kinds, Lock, Pending, log_to_standard_error, prometheus_text, write_whole
from evpnd_records import add_route_words, vnis_of
from frr_routes import FOLDED, Routes
from gobgp import PROTOS, Daemon, Declined, Event, NoDaemon, Session
from update_records import VERSION, Fault, Refused, Register, Unreadable, Update, address_text
from update_records import read_address, read_records, record_of, register_of, update_of_report

HOLD = 10  # seconds in which routes of an earlier life may be announced again, before they are withdrawn
KEEP = 60  # seconds for which the fabric's routes are kept at most after gobgpd has ended, until it says them again
QUIET = 3  # seconds without a new route after which a neighbour that sends no End-of-RIB has sent all
LOOK = 30  # seconds between two looks at what gobgpd and the edges have
SHARE = 20  # a look that took one second is followed by no other for this many seconds
TICK = 1  # seconds between two checks for due work
AGAIN = 0.1  # seconds between two tries to reach gobgpd: it has to have our routes before its sessions are back
CONNECT = 0.2  # seconds between two tries to reach the edges
LONGEST = 30  # seconds between two tries, at most, while the edges answer that they are busy
PATIENCE = 60  # seconds that a gateway takes at most to withdraw its routes, or to wait for an answer
BUSY = b"busy\n"
EVENTS = 500  # events that are taken in one piece
NEW_OBJECTS = 100000  # new objects between two searches for garbage in cycles: routes are none, and a search looks at them
EVERY_VNI = range(1 << 24)


def with_no_fault(call: Callable[[], None]) -> None:
    """A call on a connection that may be gone."""
    try:
        call()
    except OSError:
        pass


class Busy(OSError):
    """The edges have no seat for this client."""


class Gateway:
    """What the fabric says and what our edges say, with the threads that carry each to the other side."""

    def __init__(self, daemon: Daemon, routes: Routes, originators: Iterable[bytes], names: Names) -> None:
        self.daemon, self.routes, self.names = daemon, routes, names
        self.originators = frozenset(originators)
        self.left_out, self.told, self.refused = Kinds("left out"), Kinds("told"), Kinds("refused")
        routes.left_out, routes.told = self.left_out, self.told
        self.lock = threading.Lock()
        self.heard = Heard(int(time.time()))
        self.own = Own()
        self.outgoing = Pending()
        self.announcing = Pending()
        self.strangers: Optional[Dict[Register, Update]] = {}
        self.declined: Dict[Optional[bytes], set] = {}
        self.neighbours: Dict[str, bool] = {}
        self.is_known = self.is_alone = self.is_up = self.is_joined = False
        self.announces_only = False
        self.was_up, self.stopping = threading.Event(), threading.Event()
        self.control: Optional[str] = None
        self.metrics: Optional[str] = None
        self.settles_at: Optional[float] = None
        self.doubt_ends_at: Optional[float] = None
        self.lives = 0
        self.progress: Dict[str, Tuple[tuple, float]] = {}
        self.looked_at: Dict[str, float] = {}
        self.next_look: Dict[str, float] = {}

    # ---- from BGP to records

    def watch(self) -> None:
        """Follows what the daemon reports, and begins again when it ends; what it said is in doubt meanwhile."""
        while not self.stopping.is_set():
            try:
                for events in self.daemon.watch(not self.announces_only):
                    self.begin()
                    for place in range(0, len(events), EVENTS):
                        self.hear(events[place : place + EVENTS])
            except (NoDaemon, Declined) as fault:
                self.told[f"{fault}; tried again"] += 1
            self.lose_daemon()
            self.stopping.wait(AGAIN)

    def begin(self) -> None:
        """Notes a daemon's first word: what it has of ours isn't known, and what is older has its time to be said anew."""
        if self.is_up:
            return
        self.is_up, self.is_known = True, False
        self.was_up.set()
        if self.settles_at is None:
            self.settles_at = time.monotonic() + HOLD

    def lose_daemon(self) -> None:
        """Puts in doubt what the daemon said: it is withdrawn if no daemon says it again in time."""
        if not self.is_up:
            return
        self.is_up = False
        with self.lock:
            self.lives += 1
            self.neighbours = dict.fromkeys(self.neighbours, False)
            self.heard.doubt_all()
            if self.doubt_ends_at is None:
                self.doubt_ends_at = time.monotonic() + KEEP

    def hear(self, events: List[Event]) -> None:
        """Takes changes of routes, and neighbours' sessions that begin or end."""
        changed: Dict[Register, None] = {}
        with self.lock:
            for event in events:
                changed.update(dict.fromkeys(self.changed_by(event)))
        self.push(list(changed))

    def changed_by(self, event: Event) -> List[Register]:
        """Takes one event; gives the registers that changed."""
        if event.route is None:
            self.neighbours[event.neighbour] = event.is_up
            return [] if event.is_up else self.heard.lose(event.neighbour)
        said = None if event.is_withdrawn else said_by(event.route, self.routes)
        if said is not None and said[0][0] in self.originators:
            said = self.routes.leave("a next hop that is one of our own edges")
        changed = self.heard.take(event.neighbour, (event.route.key(), event.identifier), said)
        if said is not None and self.heard.is_folded(event.neighbour, said[0]):
            self.told[FOLDED] += 1
        return changed

    def push(self, changed: List[Register]) -> None:
        """Queues changes for the other side; what the daemon declined is tried again if its MAC has changed."""
        self.outgoing.add(changed)
        for register in changed if self.declined else ():
            self.announcing.add(self.declined.pop(register[2], ()))

    def write(self, out: BinaryIO, pending: Pending) -> None:
        """Writes what waits, until nothing comes any more; not in the second that is this life's incarnation."""
        time.sleep(max(0.0, self.heard.incarnation + 1 - time.time()))
        while (registers := pending.take()) is not None:
            with self.lock:
                octets = b"".join(record_of(self.heard.updates[register]) for register in registers)
            out.write(octets)
            out.flush()

    # ---- due work

    def tend(self) -> None:
        """Does what is due, each second."""
        while not self.stopping.wait(TICK):
            now = time.monotonic()
            if self.doubt_ends_at is not None and now >= self.doubt_ends_at:
                self.end_doubt()
            if self.strangers is not None and self.is_settled():
                self.settle()
            self.write_metrics()

    def end_doubt(self) -> None:
        """Withdraws what a daemon said that has ended, and no daemon has said again."""
        with self.lock:
            self.doubt_ends_at = None
            changed = self.heard.expire()
        self.withdraw_unsaid(changed)

    def withdraw_unsaid(self, changed: List[Register]) -> None:
        """Logs and queues what is withdrawn because no daemon has said it again."""
        if changed:
            LOG.warning("%d registers of the fabric are withdrawn: gobgpd has not said them again", len(changed))
        self.push(changed)

    def resolve(self) -> None:
        """Ends the doubt about each neighbour that has sent all of its routes to the daemon that runs now."""
        while not self.stopping.wait(TICK):
            if self.doubt_ends_at is None or not self.is_up:
                continue
            try:
                for session in self.daemon.sessions():
                    if self.has_sent_all(session):
                        self.confirm(session.neighbour)
            except (NoDaemon, Declined):
                pass  # the watch logs it, and tries again
            with self.lock:
                if not self.heard.doubted:
                    self.doubt_ends_at = None

    def has_sent_all(self, session: Session) -> bool:
        """Whether a neighbour with routes in doubt has sent all: by its End-of-RIB; if it sends none, after a silence."""
        now = time.monotonic()
        with self.lock:
            doubted = self.heard.doubted_of(session.neighbour)
        progress = session.is_up, doubted, None if session.has_all else session.received
        before, since = self.progress.get(session.neighbour, (None, now))
        if progress != before:
            self.progress[session.neighbour] = progress, now
            return False
        is_silent = not session.marks_end and now >= since + QUIET
        return session.is_up and doubted > 0 and (session.has_all or is_silent)

    def confirm(self, neighbour: str) -> None:
        """Withdraws what is in doubt of a neighbour and the daemon doesn't hold; what it holds is no longer in doubt."""
        life = self.lives
        held = set(self.daemon.held_of(neighbour))
        with self.lock:
            changed = self.heard.confirm(neighbour, held) if life == self.lives else []
        self.withdraw_unsaid(changed)

    def is_settled(self) -> bool:
        """Whether what an earlier life left has had its time to be said anew; longer while no neighbour is up."""
        if self.settles_at is None:
            return False
        longer = 0 if True in self.neighbours.values() else KEEP - HOLD
        return time.monotonic() >= self.settles_at + longer

    def settle(self) -> None:
        """Withdraws what an earlier life left and nobody has said anew: at gobgpd by its next look, at the edges here."""
        with self.lock:
            met, self.strangers = self.strangers or {}, None
        for update in met.values():
            self.answer(update)
        self.next_look.clear()

    def is_due(self, where: str) -> bool:
        """Whether it is time to look there."""
        return time.monotonic() >= self.next_look.get(where, 0.0)

    def note_look(self, where: str, begun: float) -> None:
        """Notes that a look that began at some time has ended, and when the next one is due."""
        now = time.monotonic()
        self.looked_at[where] = now
        self.next_look[where] = now + max(LOOK, SHARE * (now - begun))

    def look_often(self) -> None:
        """Looks at what the edges have of the fabric, each time that is due."""
        while not self.stopping.wait(TICK):
            if self.is_joined and self.strangers is None and self.is_due("edges") and not self.outgoing.waiting():
                self.look_at_edges()

    def look_at_edges(self) -> None:
        """Mends what the edges have of the fabric: tells them what they lack, and withdraws what BGP doesn't say."""
        begun = time.monotonic()
        with self.lock:
            said = dict(self.heard.updates)
        self.stopping.wait(TICK)  # in which the edges take the updates that are on their way
        try:
            tables = reported(self.control)
        except (OSError, ValueError, Unreadable) as fault:
            self.told[f"the edges don't report what they have of the fabric ({fault})"] += 1
            self.note_look("edges", begun)
            return
        for table in tables:
            found = {each: update for each, update in table.items() if each[0] not in self.originators}
            self.tell_again(said, found)
            for update in found.values():
                self.answer(update)
        self.note_look("edges", begun)

    def tell_again(self, said: Dict[Register, Update], found: Dict[Register, Update]) -> None:
        """Tells an edge that has these registers of the fabric what it lacks of what was said; logs whose it never takes."""
        lacking = lacking_in(found, said)
        known = {register[0] for register in found}
        for originator in sorted({register[0] for register in lacking} - known):
            self.told[f"an edge takes nothing of {address_text(originator)}: no [[peer]] names it"] += 1
        lacking = [register for register in lacking if register[0] in known]
        if lacking:
            LOG.warning("an edge lacked %d registers of the fabric; they are told again", len(lacking))
            self.outgoing.add(lacking)

    # ---- from records to BGP

    def read(self, stream: BinaryIO) -> Optional[str]:
        """Takes a stream's records; gives the fault that ended it."""
        for number, answer in enumerate(read_records(stream), 1):
            if isinstance(answer, Update):
                self.meet(answer)
            elif isinstance(answer, Refused):
                self.refused[f"a record, for cause {answer.number} (docs/records.md)"] += 1
            elif isinstance(answer, Fault):
                return f"fault {answer.number} at record {number}"
            else:
                return f"truncated {answer.octets} at record {number}"
        return None

    def meet(self, update: Update) -> None:
        """Takes a record of one of our edges, or one that they hold of the fabric and send back."""
        if update.originator in self.originators:
            with self.lock:
                is_new = self.own.take(update)
            if is_new:
                self.announcing.add([register_of(update)])
            return
        if self.announces_only:
            return
        with self.lock:
            if self.strangers is not None:
                self.strangers[register_of(update)] = update
                return
        self.answer(update)

    def answer(self, update: Update) -> None:
        """Withdraws what a record of the fabric's says and BGP doesn't."""
        try:
            with self.lock:
                is_answered = self.heard.repeat(update)
        except Unreadable as fault:
            self.told[str(fault)] += 1
            return
        if is_answered:
            self.told["an edge held a route that BGP doesn't advertise: withdrawn there"] += 1
            self.push([register_of(update)])

    def announce(self) -> None:
        """Announces what waits, and mends what the daemon has of ours each time that is due, until nothing comes any more."""
        while (registers := self.announcing.take(AGAIN)) is not None:
            if not registers and not self.is_look_due():
                continue
            try:
                self.announce_these(registers)
            except (NoDaemon, Declined) as fault:
                self.is_known = False
                if self.stopping.is_set():
                    LOG.error("%s: what was announced stays there until a gateway begins, or --withdraw", fault)
                    return
                self.told[f"{fault}; tried again"] += 1
                self.announcing.add(registers)
                self.stopping.wait(AGAIN)

    def is_look_due(self) -> bool:
        """Whether it is time to look what the daemon has of ours."""
        return self.is_up and bool(self.originators) and (not self.is_known or self.is_due("gobgpd"))

    def announce_these(self, registers: List[Register]) -> None:
        """Announces some registers; if the daemon declines one of them, each alone."""
        if not self.is_known or (self.is_look_due() and not self.announcing.waiting()):
            self.look(registers)
        try:
            if registers and not self.own.wanted and len(self.own.announced) > AT_ONCE:
                self.withdraw_all()
            self.change(registers)
        except Declined as fault:
            self.look(registers)
            if len(registers) == 1:
                self.told[f"declined by gobgpd (docs/fabric.md): {fault}"] += 1
                self.declined.setdefault(registers[0][2], set()).add(registers[0])
                return
            for register in registers:
                self.announce_these([register])

    def look(self, besides: Iterable[Register] = ()) -> None:
        """Reads what the daemon has of ours, and queues what differs from what our edges say, but for some registers."""
        begun, was_known = time.monotonic(), self.is_known
        self.names.autonomous = self.daemon.autonomous()
        routes = list(self.daemon.own())
        found = [announced_by(route, self.originators, self.names) for route in routes]
        self.is_alone = None not in found
        changed = [
            register_of(update)
            for route, update in zip(routes, found)
            if update is not None and route != route_of(update, self.names)
        ]
        waiting = self.announcing.waiting().union(besides)
        with self.lock:
            self.own.renew(update for update in found if update is not None)
            differing = [*self.own.differing(self.is_settled()), *(each for each in changed if each in self.own.wanted)]
        differing = [each for each in dict.fromkeys(differing) if each not in waiting]
        if differing and was_known:
            LOG.warning("gobgpd had %d routes of our edges otherwise than they say; mended", len(differing))
        self.announcing.add(differing)
        self.is_known = True
        self.note_look("gobgpd", begun)

    def withdraw_all(self) -> None:
        """Withdraws all of ours in one call, if the daemon has no other routes of its interface."""
        self.look()
        if self.is_alone:
            self.daemon.clear()
            with self.lock:
                self.own.renew(())

    def change(self, registers: List[Register]) -> None:
        """One call for some registers."""
        with self.lock:
            steps = self.own.plan(registers)
        try:
            changes = [(route_of(step, self.names), step.advert is None) for step in steps]
        except Unreadable as fault:
            raise Declined(str(fault)) from None
        if changes:
            self.daemon.change(changes)

    def withdraw(self) -> int:
        """Withdraws what an earlier life announced; gives the status."""
        try:
            self.look()
            left = list(self.own.announced)
            for place in range(0, len(left), AT_ONCE):
                self.change(left[place : place + AT_ONCE])
        except (NoDaemon, Declined) as fault:
            LOG.error("%s: not all of our edges' routes are withdrawn", fault)
            return 1
        LOG.info("%d routes of our edges are withdrawn", len(left))
        return 0

    # ---- a session of records

    def begin_session(self) -> Pending:
        """Queues all that is known of the fabric for the new session."""
        self.outgoing = pending = Pending()
        with self.lock:
            pending.add(list(self.heard.updates))
        return pending

    def end_session(self) -> None:
        """Withdraws what a session brought; if it brought nothing, what an earlier life left has its time still."""
        self.is_joined = False
        with self.lock:
            brought = self.own.forget() if self.own.wanted else []
        self.announcing.add(brought)

    def by_socket(self, path: str) -> None:
        """Sessions at a Unix socket, one after the other; each time that the edges are busy it waits longer."""
        trouble, self.control, wait = "", path, CONNECT
        while not self.stopping.is_set():
            try:
                with socket.socket(socket.AF_UNIX) as connection:
                    connection.connect(path)
                    connection.sendall(b"records\n")
                    self.session(connection)
                trouble, wait = "", CONNECT
            except OSError as fault:
                wait = min(2 * max(wait, TICK), LONGEST) if isinstance(fault, Busy) else CONNECT
                if str(fault) != trouble:
                    LOG.warning("%s: %s; tried again", path, fault.strerror or fault)
                    trouble = str(fault)
            self.end_session()
            self.stopping.wait(wait)

    def session(self, connection: socket.socket) -> None:
        """One session, until either side ends it; raises Busy if the edges have no seat."""
        pending = self.begin_session()
        writer = None if self.announces_only else started(self.write_socket, connection, pending)
        try:
            with connection.makefile("rb") as stream:
                if stream.peek(len(BUSY))[: len(BUSY)] == BUSY:
                    raise Busy("busy: the edges answer as many clients as they can")
                LOG.info("%s: connected", self.control)
                self.is_joined = True
                self.next_look.pop("edges", None)
                LOG.warning("session ended: %s", self.read(stream) or "by the other side")
        finally:
            pending.close()
            with_no_fault(lambda: connection.shutdown(socket.SHUT_RDWR))
            if writer is not None:
                writer.join()

    def write_socket(self, connection: socket.socket, pending: Pending) -> None:
        """Writes to a session; if that fails, its reading ends too."""
        try:
            with connection.makefile("wb") as out:
                self.write(out, pending)
        except OSError:
            pass  # the reader logs that the session ended
        with_no_fault(lambda: connection.shutdown(socket.SHUT_RDWR))

    def by_stdio(self, seconds: Optional[float], is_read: bool) -> int:
        """One session at standard input and output, or at the output alone for some seconds; gives the status."""
        pending = self.begin_session()
        writer = started(self.write_stdout, pending)
        fault = None
        try:
            if is_read:
                fault = self.read(sys.stdin.buffer)
            else:
                self.stopping.wait(seconds)
                fault = None if self.was_up.is_set() else "the daemon never answered"
        finally:
            pending.close()
            writer.join(PATIENCE)
        if fault is not None:
            LOG.error(fault)
        return 0 if fault is None else 1

    def write_stdout(self, pending: Pending) -> None:
        """Writes to standard output; if nobody reads it, the gateway ends."""
        try:
            self.write(sys.stdout.buffer, pending)
        except OSError as fault:
            LOG.error("standard output: %s", fault.strerror)
            os.kill(os.getpid(), signal.SIGTERM)

    def end(self, announcer: threading.Thread) -> None:
        """Withdraws all of ours at the end of the input."""
        self.end_session()
        self.stopping.set()
        self.announcing.close()
        announcer.join(PATIENCE)
        if announcer.is_alive():
            LOG.error("not all of ours is withdrawn: --withdraw, this gateway's next life, or gobgpd's end does the rest")

    def log_counts(self) -> None:
        """Logs how often what was met."""
        for kinds in (self.left_out, self.told, self.refused):
            kinds.log_counts()

    # ---- figures

    def write_metrics(self) -> None:
        """Writes the figures, if a path was named."""
        if self.metrics is None:
            return
        try:
            write_whole(self.metrics, prometheus_text(self.figures()))
        except OSError as fault:
            self.told[f"{self.metrics}: {fault.strerror}"] += 1

    def figures(self) -> Dict[str, Family]:
        """What --metrics writes."""
        with self.lock:
            heard = sum(update.advert is not None for update in list(self.heard.updates.values()))
            announced = len(self.own.announced)
            neighbours = dict(self.neighbours)
        up = Family("gauge", "1 if the session is up: of records with the edges, of gRPC with gobgpd.")
        up.set(int(self.is_joined), session="records").set(int(self.is_up), session="gobgpd")
        peers = Family("gauge", "1 if gobgpd's BGP session with this neighbor is established.")
        for neighbour, is_up in sorted(neighbours.items()):
            peers.set(int(is_up), neighbor=neighbour)
        routes = Family("gauge", "Routes: in, told to the edges; out, announced for them.")
        routes.set(heard, direction="in").set(announced, direction="out")
        looks = Family("gauge", "Seconds since the gateway last compared what it says with what is held there.")
        for where, at in sorted(self.looked_at.items()):
            looks.set(round(time.monotonic() - at, 1), at=where)
        refused = Family("counter", "Routes and records that were left out, refused, or taken with a remark, by reason.")
        for kinds in (self.left_out, self.refused, self.told):
            for reason, count in sorted(dict(kinds).items()):
                refused.set(count, kind=kinds.what, reason=reason)
        return {
            "evpnd_bgp_session_up": up,
            "evpnd_bgp_neighbor_up": peers,
            "evpnd_bgp_routes": routes,
            "evpnd_bgp_seconds_since_look": looks,
            "evpnd_bgp_refused_total": refused,
        }


def asked(path: str, *lines: str) -> List[str]:
    """What edges at a control socket answer to lines of their console (docs/script.md); nothing where there is none."""
    with socket.socket(socket.AF_UNIX) as connection:
        connection.settimeout(PATIENCE)
        connection.connect(path)
        connection.sendall("\n".join(["console", *lines, ""]).encode())
        answers: List[str] = []
        with connection.makefile(encoding="utf-8") as stream:
            for _ in lines:
                answers += itertools.takewhile(bool, (line.rstrip("\n") for line in stream))
        return answers


def reported(path: str) -> List[Dict[Register, Update]]:
    """The registers that each edge at a control socket has in its table."""
    edges = asked(path, "edges")
    if not edges or not edges[0][:1].isdigit():
        raise Unreadable(edges[0] if edges else "no answer")
    return [table_of(asked(path, f"{line.split(' ')[0]} report")) for line in edges]


def table_of(lines: Iterable[str]) -> Dict[Register, Update]:
    """The registers that a report's lines say."""
    return {register_of(update): update for update in map(update_of_report, lines) if update is not None}


def started(body: Callable, *words: object) -> threading.Thread:
    """A thread that doesn't keep the program from ending."""
    thread = threading.Thread(target=body, args=words, daemon=True)
    thread.start()
    return thread


# ---- the program -------------------------------------------------------------------------------------------


class Stopped(Exception):
    """A signal has ended the gateway."""


def stop(_number: int, _frame: object) -> None:
    """The handler of the first signal; a second one ends the program at once."""
    for number in (signal.SIGINT, signal.SIGTERM, signal.SIGHUP):
        signal.signal(number, signal.SIG_DFL)
    raise Stopped


def end_all(what: threading.ExceptHookArgs) -> None:
    """Ends the gateway if a thread failed: half a gateway helps nobody, and a supervisor begins it anew."""
    sys.excepthook(what.exc_type, what.exc_value, what.exc_traceback)
    os.kill(os.getpid(), signal.SIGTERM)


def own_of(text: str) -> List[bytes]:
    """Addresses with commas."""
    try:
        return [read_address(part) for part in text.split(",")]
    except Unreadable as fault:
        raise argparse.ArgumentTypeError(str(fault)) from None


def parser() -> argparse.ArgumentParser:
    """The words of the command line."""
    words = argparse.ArgumentParser(description=__doc__, formatter_class=argparse.RawDescriptionHelpFormatter)
    words.add_argument("--version", action="version", version=f"evpnd-bgp {VERSION}")
    way = words.add_mutually_exclusive_group(required=True)
    told = "records out, for some seconds or until a signal"
    way.add_argument("--watch", nargs="?", type=float, const=None, default=False, metavar="SECONDS", help=told)
    way.add_argument("--stdio", action="store_true", help="records at standard input and output")
    way.add_argument("--socket", metavar="PATH", help="records at a Unix socket, as its client")
    way.add_argument("--withdraw", action="store_true", help="withdraw the routes of an earlier gateway, and end")
    only = "with --socket: announce records by a second GoBGP; another gateway tells the edges what the fabric says"
    words.add_argument("--announce", action="store_true", help=only)
    words.add_argument("--own", type=own_of, default=[], metavar="LIST", help="our edges: their records are announced")
    words.add_argument("--gobgp", default="127.0.0.1:50051", metavar="HOST:PORT", help="the daemon's API")
    words.add_argument("--protos", default=PROTOS, metavar="FOLDER", help="GoBGP's protos, if they aren't Debian's")
    words.add_argument("--vni", type=vnis_of, default=EVERY_VNI, metavar="N[,N]", help="take only these VNIs' routes")
    words.add_argument("--auto-rt", action="store_true", help="announce route targets in RFC 8365's automatic form")
    words.add_argument("--metrics", metavar="PATH", help="write figures there each second, as Prometheus' text format")
    add_route_words(words)
    return words


def lock_names(arguments: argparse.Namespace) -> List[str]:
    """What no two gateways may share: an edge at a GoBGP, and a control socket."""
    names = [f"edge {address_text(each)} at GoBGP {arguments.gobgp}" for each in arguments.own]
    tells = arguments.socket is not None and not arguments.announce
    return names + ([os.path.realpath(arguments.socket)] if tells else [])


def run(gateway: Gateway, arguments: argparse.Namespace) -> int:
    """Runs a gateway until its input or a signal ends it; gives the status."""
    threading.excepthook = end_all
    gc.set_threshold(NEW_OBJECTS)
    for number in (signal.SIGINT, signal.SIGTERM, signal.SIGHUP):
        signal.signal(number, stop)
    try:
        if arguments.withdraw:
            return gateway.withdraw()
        announcer = started(gateway.announce)
        told = () if arguments.announce else (gateway.resolve, gateway.look_often)
        for body in (gateway.watch, gateway.tend, *told):
            started(body)
        if arguments.socket is not None:
            gateway.by_socket(arguments.socket)
        status = gateway.by_stdio(arguments.watch, arguments.stdio)
        gateway.end(announcer)
    except Stopped:
        status = 0
        if gateway.own.announced:
            LOG.info("%d routes stay at gobgpd for the next gateway; --withdraw takes them back", len(gateway.own.announced))
    gateway.log_counts()
    return status


def main() -> int:
    """Runs the gateway; what keeps it from beginning is one line and status 2."""
    words = parser()
    arguments = words.parse_args()
    if bool(arguments.own) == (arguments.watch is not False):
        words.error("--stdio, --socket and --withdraw need --own, and --watch announces nothing")
    if arguments.announce and arguments.socket is None:
        words.error("--announce needs --socket")
    for target, _ in arguments.rt:
        if not is_target(target):
            words.error(f"{target!r} is no route target: AS:NUMBER or ADDRESS:NUMBER")
    log_to_standard_error()
    try:
        lock = Lock(lock_names(arguments))
        daemon = Daemon(arguments.gobgp, arguments.protos)
    except Unreadable as fault:
        LOG.error(fault)
        return 2
    routes = Routes(arguments.vni, arguments.any_rd, arguments.rt)
    gateway = Gateway(daemon, routes, arguments.own, Names(0, arguments.rt, arguments.auto_rt))
    gateway.metrics, gateway.announces_only = arguments.metrics, arguments.announce
    try:
        return run(gateway, arguments)
    finally:
        lock.free()


if __name__ == "__main__":
    sys.exit(main())
