#!/usr/bin/env python3
"""Update records of evpnd (docs/records.md) from readable lines, from FRR's routes, and back.

    evpnd_records.py make                        lines on standard input, records on standard output
    evpnd_records.py show                        records on standard input, lines on standard output
    evpnd_records.py frr --vni 5001 [FILE ..]    what FRR printed, records on standard output
    evpnd_records.py originators                 records on standard input, the LIST for `evpnd report`

`frr` reads what `vtysh -c 'show bgp l2vpn evpn route json'` prints, with `detail` before `json` or
without, from the files or from standard input. What it leaves out or folds is counted on standard
error. A readable line is

    advert ORIGINATOR VNI MAC [ip IP] [static] seq N [label2 N] [counter N] [incarnation N]
    advert ORIGINATOR VNI flood [counter N] [incarnation N]
    withdraw ORIGINATOR VNI MAC [ip IP] [counter N] [incarnation N]
    withdraw ORIGINATOR VNI flood [counter N] [incarnation N]

with counter 1 and incarnation 0 where none is written. Lines that begin with '#' and empty lines say
nothing. Status 0; 1 where a stream ended by a fault or in a record; 2 for usage or for input that
can't be read. Nothing here is proved: it is plain Python, with tests in tests/tools/.
"""

import argparse
import re
import sys
from typing import BinaryIO, List, TextIO, Tuple

from frr_routes import Routes, snapshot_of, updates_between
from update_records import MOST_ORIGINATORS, VERSION, Fault, Refused, Unreadable, Update
from update_records import address_text, line_of, open_text, read_number, read_records, record_of, update_of_line


def make(lines: TextIO, out: BinaryIO) -> int:
    """Lines to records."""
    for number, line in enumerate(lines, 1):
        text = line.split("#")[0].strip()
        if text:
            try:
                out.write(record_of(update_of_line(text)))
            except Unreadable as fault:
                raise Unreadable(f"line {number}: {fault}") from None
    return 0


def show(stream: BinaryIO, out: TextIO) -> int:
    """Records to lines; what spells no update is a comment."""
    for number, answer in enumerate(read_records(stream), 1):
        if isinstance(answer, Update):
            print(line_of(answer), file=out)
        elif isinstance(answer, Refused):
            print(f"# record {number} refused {answer.number}", file=out)
        elif isinstance(answer, Fault):
            print(f"# fault {answer.number} at record {number}", file=out)
            return 1
        else:
            print(f"# truncated {answer.octets} at record {number}", file=out)
            return 1
    return 0


def originators_of(stream: BinaryIO) -> str:
    """The LIST that `evpnd report` takes: the originators of a stream's updates, lowest first."""
    found = {answer.originator for answer in read_records(stream) if isinstance(answer, Update)}
    if not 1 <= len(found) <= MOST_ORIGINATORS:
        raise Unreadable(f"a table has 1 to {MOST_ORIGINATORS} originators, and the records are of {len(found)}")
    return ",".join(address_text(originator) for originator in sorted(found))


def frr(arguments: argparse.Namespace, out: BinaryIO) -> int:
    """FRR's routes to records; several files are several routers' views, whose records simply follow each other."""
    routes = Routes(arguments.vni, arguments.any_rd, arguments.rt)
    counter_of = (lambda seconds: max(seconds, 1)) if arguments.time else (lambda _: 1)
    older = None
    if arguments.before is not None:
        with open_text(arguments.before) as stream:
            older = snapshot_of(routes, stream, arguments.before)
    count = 0
    for name in arguments.files or ["-"]:
        with open_text(name) as stream:
            snapshot = snapshot_of(routes, stream, "standard input" if name == "-" else name)
        updates = snapshot.updates(counter_of)
        if older is not None:
            updates = updates_between(older, snapshot, arguments.time)
        for update in updates:
            count += 1
            out.write(record_of(update))
    print(f"read {routes.routes} paths, wrote {count} records", file=sys.stderr)
    routes.tell(sys.stderr)
    return 0


def vnis_of(text: str) -> List[int]:
    """VNIs with commas."""
    try:
        return [read_number(part, 1 << 24, "VNI") for part in text.split(",")]
    except Unreadable as fault:
        raise argparse.ArgumentTypeError(str(fault)) from None


def target_of(text: str) -> Tuple[str, int]:
    """A route target and the VNI that it stands for, as 65000:77=5001."""
    target, _, vni = text.partition("=")
    if not re.fullmatch(r"\S+:[0-9]+", target):
        raise argparse.ArgumentTypeError(f"{text!r} isn't of the form RT=VNI")
    return target, vnis_of(vni)[0]


def add_route_words(words: argparse.ArgumentParser) -> None:
    """The words that say which routes are taken."""
    words.add_argument(
        "--rt",
        type=target_of,
        action="append",
        default=[],
        metavar="RT=N",
        help="a route target that stands for VNI N; may stand more than once",
    )
    words.add_argument("--any-rd", action="store_true", help="take routes whose RD isn't an address too")


def parser() -> argparse.ArgumentParser:
    """The words of the command line."""
    words = argparse.ArgumentParser(description=__doc__, formatter_class=argparse.RawDescriptionHelpFormatter)
    words.add_argument("--version", action="version", version=f"evpnd-records {VERSION}")
    commands = words.add_subparsers(dest="command", required=True, metavar="COMMAND")
    commands.add_parser("make", help="readable lines to records")
    commands.add_parser("show", help="records to readable lines")
    commands.add_parser("originators", help="the LIST for `evpnd report` of a stream of records")
    routes = commands.add_parser("frr", help="FRR's routes to records")
    routes.add_argument("--vni", type=vnis_of, required=True, metavar="N[,N]", help="the VNIs whose routes are taken")
    routes.add_argument("--time", action="store_true", help="counters are the times of the last updates (detail json)")
    routes.add_argument(
        "--before", metavar="FILE", help="an older table of the same router: what has vanished since is withdrawn"
    )
    add_route_words(routes)
    routes.add_argument("files", nargs="*", metavar="FILE", help="what FRR printed; standard input if none is named")
    return words


def main() -> int:
    """Runs a command; what can't be read is one line and status 2."""
    arguments = parser().parse_args()
    out = sys.stdout.buffer
    try:
        if arguments.command == "make":
            status = make(open_text("-"), out)
        elif arguments.command == "show":
            status = show(sys.stdin.buffer, sys.stdout)
        elif arguments.command == "originators":
            print(originators_of(sys.stdin.buffer))
            status = 0
        else:
            status = frr(arguments, out)
        sys.stdout.flush()
        return status
    except Unreadable as fault:
        print(f"evpnd_records: {fault}", file=sys.stderr)
    except UnicodeDecodeError:
        print("evpnd_records: standard input isn't UTF-8", file=sys.stderr)
    except BrokenPipeError:
        sys.stderr.close()
    return 2


if __name__ == "__main__":
    sys.exit(main())
