"""evpndctl (tools/evpndctl) against a console that answers as it is told here."""

import json
import os
import re
import signal
import socket
import subprocess
import sys
import tempfile
import threading
import unittest
from typing import Dict, List, Tuple, Union

from test_records import TOP

TOOL = os.path.join(TOP, "tools", "evpndctl")
COMPLETION = os.path.join(TOP, "tools", "evpndctl.bash")
HELP = b"E pin VNI MAC P\nE port P\nE report\nedges\nhelp\n\n"
EDGES = b"1 edge 10.0.0.1 ports 1:5001 networks 5001\n2 edge 10.0.0.2 ports - networks 5001\n\n"
REPORT = b"flood 5001 10.0.0.1 1 up\n\n"


STATION, OTHER = "02:00:00:00:00:0a", "02:00:00:00:00:0b"
RECORD = b"EV\x03\x01" + bytes(36)

WITHOUT_IP = {"ip": None, "label2": None, "incarnation": 0}
WHOLE_REPORT = f"""\
flood 5001 10.0.0.1 1 up
mac 5001 {STATION} 10.0.0.1 7 dynamic 2
mac 5001 {STATION} 10.0.0.2 3.4 withdrawn ip 192.0.2.10
owner 5001 {STATION} 10.0.0.1
mac 5001 {OTHER} 10.0.0.2 2 static 0 label2 9
owner 5001 {OTHER} 10.0.0.2
flood 5002 10.0.0.1 2 withdrawn
mac 5002 {STATION} 10.0.0.1 8 withdrawn
owner 5002 {STATION} none
"""

NUMBERS_OF_LINK = (
    "in 1 octets 2 failed 3 idle 13 long 4 malformed 5 unlisted 6 network 7 storm 16 memory 8 system 15 "
    "out 9 octets 10 dropped 11 failed 12 idle 14"
)
OBJECT_OF_LINK = {
    **{"received": 1, "received_octets": 2, "failed_reads": 3, "idle_in": 13, "too_long": 4, "malformed": 5, "unlisted": 6},
    **{"other_network": 7, "storm": 16, "no_memory": 8, "by_system": 15, "sent": 9, "sent_octets": 10, "dropped": 11, "failed_sends": 12},
    "idle_out": 14,
}

# each command of a console: a line, its answer, and the answer's objects
OBJECTS = {
    "E up P": ("1 up 1", "1 bpdu 1 0000020279\n", [{"line": "bpdu", "edge": 1, "port": 1, "octets": "0000020279"}]),
    "E down P": ("1 down 1", "", []),
    "E mcheck P": ("1 mcheck 7", "1 refused edge 16\n", [{"line": "refused", "edge": 1, "part": "edge", "number": 16}]),
    "E pin VNI MAC P": (f"1 pin 5001 {STATION} 1", "1 alert 6\n", [{"line": "alert", "edge": 1, "number": 6}]),
    "E unpin VNI MAC": (f"1 unpin 5001 {STATION}", "", []),
    "E thaw VNI MAC": (f"2 thaw 5001 {STATION}", "2 ended\n", [{"line": "ended", "edge": 2}]),
    "E away ADDR": ("1 away 10.0.0.2", "", []),
    "E back ADDR": ("1 back 10.0.0.9", "1 refused edge 12\n", [{"line": "refused", "edge": 1, "part": "edge", "number": 12}]),
    "E port P": (
        "1 port 1",
        "1 port 1 designated learning blocks\n",
        [{"line": "port", "edge": 1, "port": 1, "role": "designated", "state": "learning", "passes": False}],
    ),
    "E report": (
        "1 report",
        WHOLE_REPORT,
        [
            {"line": "flood", "vni": 5001, "originator": "10.0.0.1", "incarnation": 0, "counter": 1, "state": "up"},
            {"line": "mac", "vni": 5001, "mac": STATION, "originator": "10.0.0.1", "counter": 7, "state": "dynamic", "sequence": 2, **WITHOUT_IP},
            {
                **{"line": "mac", "vni": 5001, "mac": STATION, "originator": "10.0.0.2", "incarnation": 3, "counter": 4},
                **{"state": "withdrawn", "sequence": None, "ip": "192.0.2.10", "label2": None},
            },
            {"line": "owner", "vni": 5001, "mac": STATION, "owner": "10.0.0.1"},
            {
                **{"line": "mac", "vni": 5001, "mac": OTHER, "originator": "10.0.0.2", "counter": 2, "state": "static", "sequence": 0},
                **{**WITHOUT_IP, "label2": 9},
            },
            {"line": "owner", "vni": 5001, "mac": OTHER, "owner": "10.0.0.2"},
            {"line": "flood", "vni": 5002, "originator": "10.0.0.1", "incarnation": 0, "counter": 2, "state": "withdrawn"},
            {"line": "mac", "vni": 5002, "mac": STATION, "originator": "10.0.0.1", "counter": 8, "state": "withdrawn", "sequence": None, **WITHOUT_IP},
            {"line": "owner", "vni": 5002, "mac": STATION, "owner": None},
        ],
    ),
    "E owner VNI MAC": (
        f"1 owner 5001 {STATION}",
        "1 owner 10.0.0.1\n1 advert 10.0.0.1 static 0\n1 advert 10.0.0.2 dynamic 3\n",
        [
            {"line": "owner", "edge": 1, "owner": "10.0.0.1"},
            {"line": "advert", "edge": 1, "originator": "10.0.0.1", "state": "static", "sequence": 0},
            {"line": "advert", "edge": 1, "originator": "10.0.0.2", "state": "dynamic", "sequence": 3},
        ],
    ),
    "E counts": (
        "1 counts",
        "1 counts stations 1 pinned 0 frozen 2 registers 9 own 4 foreign 5 pending 3\n",
        [
            {
                **{"line": "counts", "edge": 1, "stations": 1, "pinned": 0, "frozen": 2, "registers": 9, "own": 4},
                **{"foreign": 5, "pending": 3},
            },
        ],
    ),
    "E stations [VNI]": (
        "1 stations",
        f"1 station 5001 {STATION} port 1 age 3\n1 station 5001 {OTHER} port 2 pinned\n1 station 5002 {STATION} frozen\n",
        [
            {"line": "station", "edge": 1, "vni": 5001, "mac": STATION, "port": 1, "age": 3, "pinned": False, "frozen": False},
            {"line": "station", "edge": 1, "vni": 5001, "mac": OTHER, "port": 2, "age": None, "pinned": True, "frozen": False},
            {"line": "station", "edge": 1, "vni": 5002, "mac": STATION, "port": None, "age": None, "pinned": False, "frozen": True},
        ],
    ),
    "E peers": (
        "1 peers",
        "1 peer 10.0.0.2 up\n1 peer 10.0.0.9 away\n1 peer 10.0.0.23 unlisted\n1 unlisted 64 or more\n",
        [
            {"line": "peer", "edge": 1, "address": "10.0.0.2", "state": "up"},
            {"line": "peer", "edge": 1, "address": "10.0.0.9", "state": "away"},
            {"line": "peer", "edge": 1, "address": "10.0.0.23", "state": "unlisted"},
            {"line": "unlisted", "edge": 1, "least": 64},
        ],
    ),
    "E links": (
        "1 links",
        f"1 link tunnel {NUMBERS_OF_LINK}\n1 link 2 {NUMBERS_OF_LINK.replace(' system 15', '')}\n",
        [
            {"line": "link", "edge": 1, "link": "tunnel", **OBJECT_OF_LINK},
            {"line": "link", "edge": 1, "link": "2", **OBJECT_OF_LINK, "by_system": None},
        ],
    ),
    "edges": (
        "edges",
        EDGES.decode().rstrip("\n") + "\n",
        [
            {"line": "edge", "edge": 1, "address": "10.0.0.1", "ports": [{"port": 1, "vni": 5001}], "networks": [5001]},
            {"line": "edge", "edge": 2, "address": "10.0.0.2", "ports": [], "networks": [5001]},
        ],
    ),
    "help": ("help", "edges\nhelp\n", [{"line": "text", "text": "edges"}, {"line": "text", "text": "help"}]),
}


def commands_of_console() -> List[str]:
    """The commands that a console has, by its source."""
    with open(os.path.join(TOP, "crates", "ev_console", "src", "printing.rt"), encoding="utf-8") as source:
        text = source.read()
    return re.search(r'b"(E up P\\n.*?)",\n', text, re.S).group(1).replace("\\n", "").replace("\\", "").split("\n")


class Server:
    """A socket at a path, where each line gets the answer that is told here. Behind one that isn't whole the connection ends.

    Of several answers to a line each is given once, but the last one again and again.
    """

    def __init__(self, path: str, answers: Dict[str, Union[bytes, List[bytes]]]) -> None:
        told = {line: answer if isinstance(answer, list) else [answer] for line, answer in answers.items()}
        self.answers, self.heard = {"console": [b""], **told}, []
        self.listener = socket.socket(socket.AF_UNIX, socket.SOCK_STREAM)
        self.listener.bind(path)
        self.listener.listen()
        self.thread = threading.Thread(target=self.serve, daemon=True)
        self.thread.start()

    def serve(self) -> None:
        """Answers one connection after the other."""
        while True:
            try:
                connection, _ = self.listener.accept()
            except OSError:
                return
            with connection, connection.makefile("rb") as lines:
                heard: List[bytes] = []
                self.heard.append(heard)
                for line in lines:
                    heard.append(line)
                    answers = self.answers[line.decode().rstrip("\n")]
                    answer = answers.pop(0) if len(answers) > 1 else answers[0]
                    connection.sendall(answer)
                    if answer and not answer.endswith(b"\n\n") and answer != b"\n":
                        break

    def end(self) -> None:
        """Listens no more."""
        if self.thread.is_alive():
            self.listener.shutdown(socket.SHUT_RDWR)
            self.thread.join()
            self.listener.close()


class Evpndctl(unittest.TestCase):
    """The tool as a program."""

    def setUp(self) -> None:
        folder = tempfile.TemporaryDirectory()
        self.addCleanup(folder.cleanup)
        self.path = os.path.join(folder.name, "control")

    def server(self, answers: Dict[str, bytes]) -> Server:
        """A console with these answers, at this test's path."""
        server = Server(self.path, answers)
        self.addCleanup(server.end)
        return server

    def run_tool(self, *words: str, typed: bytes = b"", **there: str) -> Tuple[int, str, str]:
        """Its status, and what it printed and noted."""
        named = {key: value for key, value in os.environ.items() if key != "EVPND_CONTROL"}
        done = subprocess.run([sys.executable, TOOL, *words], input=typed, capture_output=True, timeout=60, check=False, env={**named, **there})
        return done.returncode, done.stdout.decode(), done.stderr.decode()

    def ask(self, *words: str, typed: bytes = b"") -> Tuple[int, str, str]:
        """So at this test's socket."""
        return self.run_tool("--control", self.path, *words, typed=typed)

    def test_answer(self) -> None:
        """The words are a line behind `console`; what is printed is the answer, without the empty line behind it."""
        server = self.server({"1 report": REPORT})
        self.assertEqual(self.ask("1", "report"), (0, "flood 5001 10.0.0.1 1 up\n", ""))
        self.assertEqual(self.ask("1 report"), (0, "flood 5001 10.0.0.1 1 up\n", ""))
        self.assertEqual(server.heard, [[b"console\n", b"1 report\n"]] * 2)

    def test_empty_answer(self) -> None:
        self.server({"1 thaw 5001 02:00:00:00:00:01": b"\n"})
        self.assertEqual(self.ask("1", "thaw", "5001", "02:00:00:00:00:01"), (0, "", ""))

    def test_peers_are_added_and_removed(self) -> None:
        """By the lines of the console."""
        server = self.server({"1 away 10.0.0.2": b"\n", "2 back 10.0.0.2": b"2 refused edge 12\n\n"})
        self.assertEqual(self.ask("1", "peer", "remove", "10.0.0.2"), (0, "", ""))
        self.assertEqual(
            self.ask("2", "peer", "add", "10.0.0.2"),
            (1, "2 refused edge 12\n", "evpndctl: edge 2 lists no edge 10.0.0.2 (edge 12)\n"),
        )
        lines = [heard[1] for heard in server.heard if len(heard) > 1]
        self.assertEqual(lines[:2], [b"1 away 10.0.0.2\n", b"2 back 10.0.0.2\n"])

    def test_refusals(self) -> None:
        """What an edge refuses, one that has ended and a line that is none are printed as any answer; the status tells of them."""
        answers = {"1 port 9": "1 refused edge 16\n", "12 port 1": "12 ended\n", "1 port": "bad: expected E port P\n"}
        self.server({"help": HELP, **{line: f"{answer}\n".encode() for line, answer in answers.items()}})
        for line, answer in answers.items():
            self.assertEqual(self.ask(line)[:2], (1, answer))

    def test_causes(self) -> None:
        """Standard error names what was refused and why, behind it the number; the answer stays as it is."""
        causes = {
            f"1 pin 5001 {STATION} 7": ("1 refused edge 16\n", "edge 1 has no port 7 (edge 16)"),
            "1 port 9": ("1 refused edge 16\n", "edge 1 has no port 9 (edge 16)"),
            f"2 pin 5009 {STATION} 1": ("2 refused edge 17\n", "edge 2 doesn't serve network 5009, or its port 1 isn't of this network (edge 17)"),
            "9 report": ("9 refused edge 18\n", "there is no edge 9 (edge 18)"),
            "1 pin 5001 01:00:00:00:00:01 1": ("1 refused edge 11\n", "01:00:00:00:00:01 is a group address, which can't be pinned (edge 11)"),
            "1 pin": ("1 refused edge 13\n", "edge 1 refused it (edge 13)"),
        }
        self.server({line: f"{answer}\n".encode() for line, (answer, _) in causes.items()})
        for line, (answer, cause) in causes.items():
            self.assertEqual(self.ask(*line.split()), (1, answer, f"evpndctl: {cause}\n"))

    def test_unknown_words(self) -> None:
        """Standard error has the words that a console accepts, not a script's, and the nearest one."""
        script = "bad: expected up, down, mcheck or report behind the edge\n"
        self.server({"help": HELP, **{line: f"{script}\n".encode() for line in ("1 foo", "1 reprot", "hlep")}})
        forms = "A console accepts E pin VNI MAC P, E port P, E report, edges, help"
        self.assertEqual(self.ask("1", "foo"), (1, script, f"evpndctl: no such command: foo; {forms}\n"))
        self.assertEqual(self.ask("1", "reprot"), (1, script, f"evpndctl: no such command: reprot; did you mean `E report`? {forms}\n"))
        self.assertEqual(self.ask("hlep"), (1, script, f"evpndctl: no such command: hlep; did you mean `help`? {forms}\n"))

    def test_json(self) -> None:
        """`--json` prints the answer to each command of a console as one array, whose objects are its lines; the status stays."""
        self.assertEqual(sorted(OBJECTS), sorted(commands_of_console()))
        self.server({line: f"{answer}\n".encode() for line, answer, _ in OBJECTS.values()})
        for line, answer, objects in OBJECTS.values():
            status, out, _ = self.ask("--json", *line.split())
            self.assertEqual((status, json.loads(out)), (int("refused" in answer or "ended" in answer), objects), line)
            self.assertEqual(out.count("\n"), 1)

    def test_json_of_lines(self) -> None:
        """Of several lines each answer is an array on a line of its own, an invalid line's too."""
        self.server({"edges": EDGES, "help": HELP, "1 foo": b"bad: why\n\n", "1 down 1": b"\n"})
        status, out, _ = self.ask("--json", typed=b"1 down 1\n1 foo\nedges\n")
        self.assertEqual(status, 1)
        self.assertEqual([json.loads(line) for line in out.splitlines()], [[], [{"line": "bad", "why": "why"}], OBJECTS["edges"][2]])

    def test_parts_of_a_report(self) -> None:
        """`--network` and `--mac` leave out the other lines of a report, and nothing of a refusal."""
        lines = WHOLE_REPORT.splitlines(keepends=True)
        self.server({"1 report": f"{WHOLE_REPORT}\n".encode(), "9 report": b"9 refused edge 18\n\n"})
        self.assertEqual(self.ask("1", "report", "--network", "5001"), (0, "".join(lines[:6]), ""))
        self.assertEqual(self.ask("--mac", STATION.upper(), "1", "report"), (0, "".join(lines[1:4] + lines[7:]), ""))
        self.assertEqual(self.ask("1", "--network", "5001", "report", "--mac", OTHER), (0, "".join(lines[4:6]), ""))
        self.assertEqual(self.ask("1 report", "--network", "7"), (0, "", ""))
        self.assertEqual(self.ask("9", "report", "--network", "5001")[:2], (1, "9 refused edge 18\n"))
        status, out, _ = self.ask("--json", "1", "report", "--mac", OTHER)
        self.assertEqual((status, json.loads(out)), (0, OBJECTS["E report"][2][4:6]))

    def test_wrong_parts(self) -> None:
        """They are for a report, of a network and a MAC; and what runs on and on has no JSON."""
        wrong = (
            (["1", "stations", "--network", "5001"], "--network and --mac are for the line `E report`"),
            (["--mac", STATION], "--network and --mac are for the line `E report`"),
            (["1", "report", "--network", "16777216"], "'16777216' is no VNI: a number from 0 to 16777215"),
            (["1", "report", "--network", "-"], "'-' is no VNI"),
            (["1", "report", "--mac", "02:00"], "'02:00' is no MAC, as in 02:00:00:00:00:0a"),
            (["watch", "--json"], "--json isn't for watch"),
            (["--json", "records"], "--json isn't for records"),
        )
        for words, why in wrong:
            status, out, notes = self.ask(*words)
            self.assertEqual((status, out), (2, ""), words)
            self.assertIn(why, notes)

    def test_lines_of_standard_input(self) -> None:
        """Each is answered, what asks for nothing is passed over, and one refusal among them is the status."""
        server = self.server({"edges": EDGES, "1 port 9": b"1 refused edge 16\n\n", "1 report": REPORT})
        status, out, notes = self.ask(typed=b"edges\n\n# the ports\n1 port 9\n1 report")
        self.assertEqual((status, notes), (1, "evpndctl: edge 1 has no port 9 (edge 16)\n"))
        self.assertEqual(out, (EDGES[:-1] + b"1 refused edge 16\n" + REPORT[:-1]).decode())
        self.assertEqual(server.heard, [[b"console\n", b"edges\n", b"1 port 9\n", b"1 report\n"]])

    def test_socket_of_the_environment(self) -> None:
        self.server({"edges": EDGES})
        self.assertEqual(self.run_tool("edges", EVPND_CONTROL=self.path), (0, EDGES[:-1].decode(), ""))

    def test_nobody_listens(self) -> None:
        """Where there is no socket, or nobody at it, the words say where."""
        status, out, notes = self.ask("edges")
        self.assertEqual((status, out), (2, ""))
        self.assertIn(f"{self.path}: there is no such socket", notes)
        self.server({}).end()
        status, out, notes = self.ask("edges")
        self.assertEqual((status, out), (2, ""))
        self.assertIn(f"{self.path}: nobody listens there", notes)

    def test_too_long_a_path(self) -> None:
        status, _, notes = self.run_tool("--control", "/tmp/" + "x" * 200, "edges")
        self.assertEqual(status, 2)
        self.assertIn("/tmp/xxx", notes)
        self.assertNotIn("Traceback", notes)

    def test_busy(self) -> None:
        """A server that answers others says so, and ends the connection."""
        self.server({"console": b"busy\n"})
        status, out, notes = self.ask("edges")
        self.assertEqual((status, out), (2, ""))
        self.assertIn(f"{self.path}: busy", notes)

    def test_connection_that_ends(self) -> None:
        """An answer that isn't whole isn't printed."""
        self.server({"1 report": b"flood 5001 10.0.0.1 1 up\nflood 5001"})
        status, out, notes = self.ask("1", "report")
        self.assertEqual((status, out), (2, ""))
        self.assertIn(f"{self.path}: it ended the connection", notes)

    def test_words(self) -> None:
        wrong = (["watch", "0"], ["watch", "1", "2"], ["watch", "soon"], ["watch", "nan"])
        for words in (["--contro"], ["--control"], ["--port", "1"], ["edges\n1 report"], *wrong):
            status, out, notes = self.ask(*words)
            self.assertEqual((status, out), (2, ""), words)
            self.assertIn("usage: evpndctl", notes)

    def test_help_of_its_own(self) -> None:
        status, out, _ = self.run_tool("--help")
        self.assertEqual(status, 0)
        self.assertIn("EVPND_CONTROL", out)

    def watch(self, edges: str, *rounds: Dict[str, str], lines: int) -> List[str]:
        """So many lines of a watch whose looks find these answers, without the time; then SIGINT ends it."""
        answers = {line: [f"{found[line]}\n".encode() for found in rounds] for line in rounds[0]}
        links = {f"{number} links": b"\n" for number in (1, 2)}
        self.server({"edges": f"{edges}\n".encode(), **links, **answers})
        words = [sys.executable, TOOL, "--control", self.path, "watch", "0.05"]
        with subprocess.Popen(words, stdout=subprocess.PIPE, stderr=subprocess.PIPE, encoding="utf-8") as tool:
            told = [tool.stdout.readline() for _ in range(lines)]
            tool.send_signal(signal.SIGINT)
            rest, notes = tool.communicate(timeout=60)
        self.assertEqual((tool.returncode, rest, notes), (0, "", ""))
        for line in told:
            self.assertRegex(line, "^[0-2][0-9]:[0-5][0-9]:[0-6][0-9] ")
        return [line.split(" ", 1)[1].rstrip("\n") for line in told]

    def test_watch(self) -> None:
        """A station that is there at first, then one more, a move to another edge, one from port to port, and a station that goes."""
        edge = "1 edge 10.0.0.1 ports 1:5001,2:5001 networks 5001\n"
        here, away = f"owner 5001 {STATION} 10.0.0.1\n", f"owner 5001 {STATION} 10.0.0.7\n"
        heard = f"1 station 5001 {STATION} port 1 age 3\n"
        other, nobody = f"1 station 5001 {OTHER} port 2 pinned\n", f"owner 5001 {OTHER} none\n"
        pinned = f"owner 5001 {OTHER} 10.0.0.1\n"
        told = self.watch(
            edge,
            {"1 stations": heard, "1 report": "flood 5001 10.0.0.1 1 up\n" + here},
            {"1 stations": heard.replace("3", "4") + other, "1 report": here + pinned},
            {"1 stations": other, "1 report": away + pinned},
            {"1 stations": heard.replace("port 1", "port 2") + other, "1 report": here + pinned},
            {"1 stations": heard, "1 report": here + nobody},
            lines=6,
        )
        wanted = [
            f"known 5001 {STATION} at 10.0.0.1 port 1",
            f"new 5001 {OTHER} at 10.0.0.1 port 2 pinned",
            f"moved 5001 {STATION} from 10.0.0.1 port 1 to 10.0.0.7",
            f"moved 5001 {STATION} from 10.0.0.7 to 10.0.0.1 port 2",
            f"moved 5001 {STATION} from 10.0.0.1 port 2 to 10.0.0.1 port 1",
            f"gone 5001 {OTHER} from 10.0.0.1 port 2 pinned",
        ]
        self.assertEqual(told, wanted)

    def test_watch_of_two_edges(self) -> None:
        """What they agree on is one line; where they don't, both are told. A frozen station is told, whoever owns it."""
        edges = "1 edge 10.0.0.1 ports 1:5001 networks 5001\n2 edge 10.0.0.2 ports 1:5001 networks 5001\n"
        one, two = f"owner 5001 {STATION} 10.0.0.1\n", f"owner 5001 {STATION} 10.0.0.2\n"
        at_one, at_two = (f"{number} station 5001 {STATION} port 1 age 0\n" for number in (1, 2))
        frozen = f"1 station 5001 {STATION} frozen\n"
        told = self.watch(
            edges,
            {"1 stations": at_one, "2 stations": "", "1 report": one, "2 report": one},
            {"1 stations": at_one, "2 stations": at_two, "1 report": one, "2 report": two},
            {"1 stations": frozen, "2 stations": at_two, "1 report": two, "2 report": two},
            {"1 stations": "", "2 stations": at_two, "1 report": two, "2 report": two},
            lines=5,
        )
        both = "10.0.0.1 port 1 or 10.0.0.2 port 1"
        wanted = [
            f"known 5001 {STATION} at 10.0.0.1 port 1",
            f"moved 5001 {STATION} from 10.0.0.1 port 1 to {both}",
            f"moved 5001 {STATION} from {both} to 10.0.0.2 port 1",
            f"frozen 5001 {STATION} at 10.0.0.1",
            f"thawed 5001 {STATION} at 10.0.0.1",
        ]
        self.assertEqual(told, wanted)

    def test_watch_in_mid_step(self) -> None:
        """Where an edge has withdrawn the port between two questions nothing is told, until it is clear where the station is."""
        edge, here = "1 edge 10.0.0.1 ports 1:5001 networks 5001\n", f"owner 5001 {STATION} 10.0.0.1\n"
        told = self.watch(
            edge,
            {"1 stations": f"1 station 5001 {STATION} port 1 age 3\n", "1 report": here},
            {"1 stations": "", "1 report": here},
            {"1 stations": "", "1 report": here.replace("10.0.0.1", "none")},
            lines=2,
        )
        self.assertEqual(told, [f"known 5001 {STATION} at 10.0.0.1 port 1", f"gone 5001 {STATION} from 10.0.0.1 port 1"])

    def test_watch_of_links(self) -> None:
        """What was lost before is not told; what is lost from then on is, once."""
        edge = "1 edge 10.0.0.1 ports 1:5001 networks 5001\n"
        rest = {"1 stations": "", "1 report": ""}
        line = f"1 link 2 {NUMBERS_OF_LINK}\n"
        told = self.watch(
            edge,
            {"1 links": line, **rest},
            {"1 links": line.replace("dropped 11", "dropped 20").replace("unlisted 6", "unlisted 7"), **rest},
            {"1 links": line.replace(" system 15", ""), **rest},
            {"1 links": line.replace("system 15", "system 16"), **rest},
            {"1 links": line.replace("system 15", "system 18"), **rest},
            lines=3,
        )
        wanted = ["9 dropped: no room", "1 dropped: from an unlisted edge", "2 dropped by the system"]
        self.assertEqual(told, [f"edge 1 port 2: {each}" for each in wanted])

    def test_metrics(self) -> None:
        """Each number is a line with its labels, printed or in a file."""
        self.server({"edges": EDGES, "1 links": f"1 link tunnel {NUMBERS_OF_LINK}\n\n".encode(), "2 links": b"\n"})
        status, out, notes = self.ask("metrics")
        self.assertEqual((status, notes), (0, ""))
        self.assertEqual(
            [line for line in out.splitlines() if not line.startswith("#")],
            [
                'evpnd_link_datagrams_total{edge="1",link="tunnel",way="in"} 1',
                'evpnd_link_datagrams_total{edge="1",link="tunnel",way="out"} 9',
                'evpnd_link_octets_total{edge="1",link="tunnel",way="in"} 2',
                'evpnd_link_octets_total{edge="1",link="tunnel",way="out"} 10',
                'evpnd_link_failures_total{edge="1",link="tunnel",way="in"} 3',
                'evpnd_link_failures_total{edge="1",link="tunnel",way="out"} 12',
                'evpnd_link_drops_total{edge="1",link="tunnel",cause="no_room"} 11',
                'evpnd_link_drops_total{edge="1",link="tunnel",cause="too_long"} 4',
                'evpnd_link_drops_total{edge="1",link="tunnel",cause="malformed"} 5',
                'evpnd_link_drops_total{edge="1",link="tunnel",cause="unlisted"} 6',
                'evpnd_link_drops_total{edge="1",link="tunnel",cause="other_network"} 7',
                'evpnd_link_drops_total{edge="1",link="tunnel",cause="storm"} 16',
                'evpnd_link_drops_total{edge="1",link="tunnel",cause="no_memory"} 8',
                'evpnd_link_drops_total{edge="1",link="tunnel",cause="by_system"} 15',
                'evpnd_link_idle_seconds{edge="1",link="tunnel",way="in"} 13',
                'evpnd_link_idle_seconds{edge="1",link="tunnel",way="out"} 14',
            ],
        )
        file = f"{self.path}.prom"
        self.assertEqual(self.ask("metrics", file), (0, "", ""))
        with open(file, encoding="ascii") as it:
            self.assertEqual(it.read(), out)
        self.assertEqual([name for name in os.listdir(os.path.dirname(file)) if name.endswith(".new")], [])

    def test_end_of_what_is_watched(self) -> None:
        """The edges' end is told, and ends the watch."""
        nothing = {f"{number} {word}": b"\n" for number in (1, 2) for word in ("stations", "report", "links")}
        self.server({"edges": [EDGES, b"1 edge 10.0.0.1"], **nothing})
        status, out, notes = self.ask("watch", "0.05")
        self.assertEqual((status, out), (2, ""))
        self.assertIn(f"{self.path}: it ended the connection", notes)

    def test_records(self) -> None:
        """What stands on standard input comes behind `records`, and what comes is printed, until either side ends."""
        server = self.server({"records": RECORD + b"\n\n", RECORD.decode(): b""})
        status, out, notes = self.ask("records", typed=RECORD + b"\n")
        self.assertEqual((status, out.encode(), notes), (0, RECORD + b"\n\n", ""))
        self.assertEqual(server.heard, [[b"records\n", RECORD + b"\n"]])

    def test_records_until_the_edges_end(self) -> None:
        """An end that isn't ours is told, and so is what there is instead of records."""
        for answer, why in ((RECORD, "it ended the connection"), (b"busy\n", "busy"), (b"error: why\n", "error: why")):
            with self.subTest(why=why):
                server = self.server({"records": answer})
                words = [sys.executable, TOOL, "--control", self.path, "records"]
                with subprocess.Popen(words, stdin=subprocess.PIPE, stdout=subprocess.PIPE, stderr=subprocess.PIPE) as tool:
                    self.assertEqual(tool.stdout.read(), answer if answer == RECORD else b"")
                    self.assertRegex(tool.stderr.read().decode(), f"^evpndctl: {re.escape(self.path)}: {why}.*\n$")
                    self.assertEqual(tool.wait(60), 2)
                server.end()
                os.unlink(self.path)

    def complete(self, *words: str) -> List[str]:
        """What bash offers for the last of these words."""
        script = 'source "$1"; shift; COMP_WORDS=("$@"); COMP_CWORD=$(($# - 1)); _evpndctl; printf "%s\\n" "${COMPREPLY[@]}"'
        there = {**os.environ, "EVPND_CONTROL": self.path}
        bash = ["bash", "-c", script, "bash", COMPLETION, TOOL, *words]
        return subprocess.run(bash, capture_output=True, encoding="utf-8", check=True, timeout=60, env=there).stdout.split()

    def test_completion(self) -> None:
        """The first word is an edge, or one of those that name none; the second what an edge does."""
        self.server({"edges": EDGES, "help": HELP})
        self.assertEqual(self.complete(""), ["--control", "1", "2", "edges", "help", "metrics", "records", "watch"])
        self.assertEqual(self.complete("1", ""), ["pin", "port", "report"])
        self.assertEqual(self.complete("1", "p"), ["pin", "port"])
        self.assertEqual(self.complete("--control", self.path, "1", "r"), ["report"])
        self.assertEqual(self.complete("1", "port", ""), [])
        self.assertEqual(self.complete("w"), ["watch"])
        self.assertEqual(self.complete("1", "report", "--n"), ["--network"])
        self.assertEqual(self.complete("--"), ["--control", "--help", "--json", "--mac", "--network", "--version"])
        self.assertEqual(self.complete("watch", ""), [])

    def test_completion_where_nobody_answers(self) -> None:
        self.assertEqual(self.complete(""), ["--control", "metrics", "records", "watch"])
        self.assertEqual(self.complete("1", ""), [])


if __name__ == "__main__":
    unittest.main()
