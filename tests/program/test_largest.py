"""Configurations of 64 edges with 64 ports each, the most that there can be: no memory is refused while memory is left.

No clause says when the allocator refuses memory. So a body that reported refused memory for a large configuration would be proved.
"""

import tests_path  # noqa: F401
import os
import socket
import subprocess
import tempfile
import time
import unittest

from test_audit import PROGRAM, needs_program
from test_run import HOST, Cable, Running, frame, station
from test_simulations import HEARD, lines

EDGES = PORTS = 64
# one of them is the network of all ports of an edge
NETWORKS = range(16777216 - 64, 16777216)
SECONDS = 300


def edge(number: int, address: str, keys: str = "", port_keys: str = "") -> str:
    """An edge with 64 networks and 64 ports; {} in the keys of a port is its number."""
    head = f'[[edge]]\naddress = "{address}"\nbridge = "02:aa:00:00:00:{number:02x}"\nvnis = {list(NETWORKS)}\n{keys}\n'
    ports = (f"[[edge.port]]\nvni = {NETWORKS[-1]}\nadmin_edge = true\n{port_keys.format(port)}\n" for port in range(1, PORTS + 1))
    return head + "".join(ports)


LARGE_TABLES = "capacity = 65536\nbuckets = 65536"
ALL = "".join(edge(number, f"10.0.0.{number}", LARGE_TABLES) for number in range(1, EDGES + 1))


@needs_program
class Largest(unittest.TestCase):
    """64 edges with 64 ports each, and learning tables for 65,536 stations."""

    def evpnd(self, word: str, script: str = "") -> tuple:
        """Runs a subcommand on this configuration. Returns its status, its output and its notes."""
        with tempfile.NamedTemporaryFile("w", suffix=".toml") as config:
            config.write(ALL)
            config.flush()
            words = [PROGRAM, word, "--config", config.name]
            done = subprocess.run(words, input=script, capture_output=True, text=True, timeout=SECONDS, check=False)
        return done.returncode, done.stdout, done.stderr

    def test_check(self) -> None:
        self.assertEqual(self.evpnd("check"), (0, "ok: 64 edges, 4096 ports, 64 VNIs\n", ""))

    def test_simulation_reaches_the_last_port(self) -> None:
        script = lines("64 up 64", "64 " + HEARD.replace("frame 1", "frame 64"), "64 announce", "1 deliver 1", "64 restart 1", "64 port 64")
        bridge = "800002aa00000040"
        bpdu = f"64 bpdu 64 000002023c{bridge}00000000{bridge}80400000140002000f0000\n"
        says = bpdu + lines("64 local - remote -", "64 pool 1", "1 newer", "64 port 64 disabled discarding blocks")
        self.assertEqual(self.evpnd("simulate", script), (0, says, ""))


@needs_program
class LargestRun(unittest.TestCase):
    """The same number of edges and ports over sockets, some 8,000 threads."""

    def test_run(self) -> None:
        self.carries("run", "")

    def test_serve(self) -> None:
        with tempfile.TemporaryDirectory() as folder:
            self.carries("serve", f'control = "{folder}/control"\n')

    def carries(self, word: str, text: str) -> None:
        """A frame goes from the last port of the last edge to the first port of the first, and each edge reports at the end."""
        sender, receiver = Cable(f"{HOST}64", 10_000 + PORTS), Cable(f"{HOST}1", 10_001)
        for it in sender, receiver:
            self.addCleanup(it.here.close)
        with socket.socket(socket.AF_INET, socket.SOCK_DGRAM) as nobody:
            nobody.bind((f"{HOST}65", 0))
            for number in range(1, EDGES + 1):
                address = f"{HOST}{number}"
                keys = f'local = "{address}:{{}}"\nremote = "{HOST}65:{nobody.getsockname()[1]}"\n'
                ports = (keys.format(10_000 + port) for port in range(1, PORTS + 1))
                head, *bodies = edge(number, address).split("[[edge.port]]\n")
                text += head + "".join(f"[[edge.port]]\n{body}{own}" for body, own in zip(bodies, ports))
            for it in sender, receiver:
                old = f'local = "{it.address}:{it.port}"\nremote = "{HOST}65:{nobody.getsockname()[1]}"\n'
                text = text.replace(old, it.keys())
            running = Running(text, subcommand=word)
            self.addCleanup(running.kill)
            octets, came, end = frame(b"\xff" * 6, station(10), b"to all"), b"", time.monotonic() + SECONDS
            while came != octets and time.monotonic() < end:
                sender.send(octets)
                came = receiver.receive(1)
            self.assertEqual(came, octets)
            out, _ = running.program.communicate(timeout=SECONDS)
        self.assertEqual(running.program.returncode, 0)
        self.assertEqual([it for it in out.decode().splitlines() if it.startswith("edge ")], [f"edge {it}" for it in range(1, EDGES + 1)])
