"""A running FRR edge in network namespaces of its own, and the speaker that tells it routes.

Two namespaces with a link between them: one has bridges, VXLAN devices, access ports where they are wanted,
zebra and bgpd, the other the speaker. No packet leaves them. Each daemon is a child of ours and is ended
by its own process id. FRR is the host's, or that of a folder with another Debian (debootstrap), which is
entered by chroot.
"""

import json
import os
import shlex
import shutil
import subprocess
import sys
import tempfile
import time
from typing import Dict, List, Optional, Sequence

HERE = os.path.dirname(os.path.abspath(__file__))
TOOLS = os.path.join(HERE, "..", "..", "..", "tools")
DAEMONS = "/usr/lib/frr"
VNI = 5001
OWN = "10.0.0.100"
PATIENCE = 60


class Trouble(Exception):
    """What keeps the test from being run."""


def run(*words: str) -> str:
    """A command's output; it has to succeed."""
    done = subprocess.run(words, capture_output=True, encoding="utf-8", check=False)
    if done.returncode != 0:
        raise Trouble(f"{' '.join(words)}: {done.stderr.strip() or done.stdout.strip()}")
    return done.stdout


class Edge:
    """One edge; use it by `with`."""

    def __init__(
        self,
        name: str,
        root: str = "",
        vnis: Sequence[int] = (VNI,),
        access: bool = False,
        single: bool = False,
        routed: int = 0,
        vrf: str = "",
    ) -> None:
        self.inside = f"evpnd-{os.getpid()}-{name}"
        self.outside = f"{self.inside}-pe"
        self.root = root.rstrip("/")
        self.vnis, self.access, self.single = list(vnis), access, single
        self.address, self.bgpd_lines, self.routed, self.vrf = OWN, BGPD_LINES, routed, vrf
        self.folder = tempfile.mkdtemp(prefix="evpnd-frr-", dir=f"{self.root}/var/tmp" if root else None)
        self.frr_folder = self.folder[len(self.root) :]
        self.run_folder = os.path.join(self.folder, "run")  # an edge's own /run/frr: mgmtd always has its sockets there
        for folder in (self.run_folder, f"{self.root}/run/frr") if root else ():
            os.makedirs(folder, exist_ok=True)
        self.children: List[subprocess.Popen] = []
        self.speaker: Optional[subprocess.Popen] = None
        self.speaker_words: List[str] = []
        self.daemons: Dict[str, subprocess.Popen] = {}
        self.marks = 0

    def __enter__(self) -> "Edge":
        try:
            self.make_links()
            self.start_daemons()
            self.start_speaker()
        except BaseException:
            self.__exit__()
            raise
        return self

    def __exit__(self, *_cause: object) -> None:
        for child in reversed(self.children):
            child.terminate()
        for child in self.children:
            try:
                child.wait(10)
            except subprocess.TimeoutExpired:
                child.kill()
                child.wait()
        for namespace in (self.inside, self.outside):
            subprocess.run(["ip", "netns", "del", namespace], capture_output=True, check=False)
        shutil.rmtree(self.folder, ignore_errors=True)

    def within(self, *words: str) -> str:
        """A command's output in the edge's namespace."""
        return run("ip", "netns", "exec", self.inside, *words)

    def make_links(self) -> None:
        """The namespaces, the link between them, the bridge and its VXLAN device."""
        for namespace in (self.inside, self.outside):
            run("ip", "netns", "add", namespace)
            run("ip", "-n", namespace, "link", "set", "lo", "up")
        run("ip", "link", "add", "up0", "netns", self.inside, "type", "veth", "peer", "name", "up0", "netns", self.outside)
        for namespace, address in ((self.inside, "192.168.77.1/24"), (self.outside, "192.168.77.2/24")):
            run("ip", "-n", namespace, "addr", "add", address, "dev", "up0")
            run("ip", "-n", namespace, "link", "set", "up0", "up")
        inside = ["ip", "-n", self.inside]
        run(*inside, "addr", "add", f"{self.address}/32", "dev", "lo")
        run(*inside, "route", "add", "10.0.0.0/24", "via", "192.168.77.2")
        if self.single:
            self.make_single_device()
        else:
            for vni in self.vnis:
                self.make_network(vni)
                if self.access:
                    self.make_access(vni, f"br{vni}")
                    run(*inside, "addr", "add", f"198.18.{vni % 250}.1/24", "dev", f"br{vni}")
        if self.routed:
            self.make_network(self.routed)
        if self.vrf:
            run(*inside, "link", "add", self.vrf, "type", "vrf", "table", "10")
            run(*inside, "link", "set", self.vrf, "up")
            for vni in (*self.vnis, self.routed):
                run(*inside, "link", "set", f"br{vni}", "master", self.vrf)

    def make_network(self, vni: int) -> None:
        """A VNI's bridge and its VXLAN device."""
        inside = ["ip", "-n", self.inside]
        run(*inside, "link", "add", f"br{vni}", "type", "bridge")
        vxlan = ["type", "vxlan", "id", str(vni), "dstport", "4789", "local", self.address, "nolearning"]
        run(*inside, "link", "add", f"vxlan{vni}", *vxlan)
        run(*inside, "link", "set", f"vxlan{vni}", "master", f"br{vni}")
        for device in (f"br{vni}", f"vxlan{vni}"):
            run(*inside, "link", "set", device, "up")

    def make_access(self, vni: int, bridge: str) -> None:
        """An access port of a bridge; its host is the other end, from which frames are sent as any station."""
        inside = ["ip", "-n", self.inside]
        run(*inside, "link", "add", f"acc{vni}", "type", "veth", "peer", "name", f"host{vni}")
        run("ip", "netns", "exec", self.inside, "sysctl", "-qw", f"net.ipv6.conf.host{vni}.disable_ipv6=1")
        run(*inside, "link", "set", f"acc{vni}", "master", bridge)
        for device in (f"acc{vni}", f"host{vni}"):
            run(*inside, "link", "set", device, "up")

    def make_single_device(self) -> None:
        """One VXLAN device for all VNIs in one bridge with VLANs: VLAN 10, 11, .. are the VNIs in order."""
        inside, bridge = ["ip", "-n", self.inside], ["bridge", "-n", self.inside]
        run(*inside, "link", "add", "br0", "type", "bridge", "vlan_filtering", "1", "vlan_default_pvid", "0")
        vxlan = ["type", "vxlan", "dstport", "4789", "local", self.address, "nolearning", "external", "vnifilter"]
        run(*inside, "link", "add", "vxlan0", *vxlan)
        run(*inside, "link", "set", "vxlan0", "master", "br0")
        run(*bridge, "link", "set", "dev", "vxlan0", "vlan_tunnel", "on")
        for device in ("br0", "vxlan0"):
            run(*inside, "link", "set", device, "up")
        for vlan, vni in enumerate(self.vnis, 10):
            for device in ("br0", "vxlan0"):
                run(*bridge, "vlan", "add", "dev", device, "vid", str(vlan), *(["self"] if device == "br0" else []))
            run(*bridge, "vni", "add", "dev", "vxlan0", "vni", str(vni))
            run(*bridge, "vlan", "add", "dev", "vxlan0", "vid", str(vlan), "tunnel_info", "id", str(vni))
            if self.access:
                self.make_access(vni, "br0")
                run(*bridge, "vlan", "add", "dev", f"acc{vni}", "vid", str(vlan), "pvid", "untagged")

    def heard(self, vni: int, mac: str) -> None:
        """A real frame of a station at the access port of a VNI."""
        self.within(sys.executable, os.path.join(HERE, "frames.py"), "heard", f"host{vni}", mac)

    def goes(self, vni: int, mac: str) -> str:
        """Where a real frame to a MAC goes: 'local' at the access port, the edges of its VXLAN datagrams, or 'nowhere'."""
        program = os.path.join(HERE, "frames.py")
        return self.within(sys.executable, program, "goes", f"br{vni}", mac, f"host{vni}", "up0").strip()

    def frr(self, *words: str) -> List[str]:
        """A command of FRR, in its folder's Debian where there is one."""
        enter = f'mount -t proc proc "$0/proc" && mount --bind {shlex.quote(self.run_folder)} "$0/run/frr" && exec chroot "$0" "$@"'
        return ["sh", "-c", enter, self.root, *words] if self.root else list(words)

    def start_daemons(self) -> None:
        """zebra, then bgpd, in the foreground, with their sockets in our folder."""
        os.chmod(self.folder, 0o755)
        inner = self.frr_folder
        self.within(*self.frr("chown", "frr:frr", inner))
        by_mgmtd = bool(self.routed) and os.path.exists(f"{self.root}{DAEMONS}/mgmtd")
        if by_mgmtd:
            self.within(*self.frr("install", "-d", "-o", "frr", "-g", "frr", "/run/frr"))
            self.start_daemon("mgmtd", "")
        routed = f"vni {self.routed}\n" if self.routed and not by_mgmtd else ""
        routed = f"vrf {self.vrf}\n {routed}exit-vrf\n" if self.vrf else routed
        self.start_daemon("zebra", f"hostname edge\n{routed}")
        if by_mgmtd:
            self.wait_for(self.takes_routed, "mgmtd")
        self.start_daemon("bgpd", self.bgpd_lines)
        known = lambda: all(str(vni) in self.shell("show evpn vni json") for vni in self.vnis)  # noqa: E731
        self.wait_for(known, "the VNIs")

    def start_daemon(self, daemon: str, text: str) -> None:
        """A daemon with its configuration, until it answers."""
        inner = self.frr_folder
        path = os.path.join(self.folder, f"{daemon}.conf")
        with open(path, "w", encoding="utf-8") as stream:
            stream.write(text)
        self.within(*self.frr("chown", "frr:frr", f"{inner}/{daemon}.conf"))
        words = [f"{DAEMONS}/{daemon}", "-i", f"{inner}/{daemon}.pid", "--vty_socket", inner]
        words += ["-f", f"{inner}/{daemon}.conf", "-A", "127.0.0.1", "-z", f"{inner}/zserv.api"] if daemon != "mgmtd" else []
        with open(os.path.join(self.folder, f"{daemon}.log"), "wb") as log:
            how = {"stdin": subprocess.DEVNULL, "stdout": log, "stderr": log}
            self.daemons[daemon] = self.start(self.inside, self.frr(*words), **how)
            self.children.append(self.daemons[daemon])
        self.wait_for(lambda: os.path.exists(os.path.join(self.folder, f"{daemon}.vty")), daemon)

    def takes_routed(self) -> bool:
        """Makes the L3VNI one of the default VRF by mgmtd, which has to know zebra by then; while it starts it is locked."""
        try:
            self.shell_lines("configure terminal", f"vni {self.routed}")
        except Trouble:
            return False
        return f"vni {self.routed}" in self.shell("show running-config")

    def start_speaker(self) -> None:
        """The speaker, until its session stands."""
        words = [sys.executable, os.path.join(HERE, "speaker.py"), "192.168.77.1", "192.168.77.2", *self.speaker_words]
        pipe = subprocess.PIPE
        self.speaker = self.start(self.outside, words, stdin=pipe, stdout=pipe, encoding="utf-8")
        self.children.append(self.speaker)
        said = self.speaker.stdout.readline().strip()
        if said != "up":
            raise Trouble(f"the session doesn't stand: {said}")

    def start(self, namespace: str, words: List[str], **how: object) -> subprocess.Popen:
        """A child in a namespace: `ip netns exec` becomes the program, so the process id is its own."""
        return subprocess.Popen(["ip", "netns", "exec", namespace, *words], **how)

    def wait_for(self, holds, what: str) -> None:
        """Waits until something holds."""
        end = time.monotonic() + PATIENCE
        while not holds():
            if time.monotonic() > end:
                raise Trouble(f"{what} didn't come within {PATIENCE} s")
            time.sleep(0.05)

    def shell_words(self) -> List[str]:
        """vtysh for this edge's daemons."""
        return self.frr("vtysh", "--vty_socket", self.frr_folder)

    def shell(self, command: str) -> str:
        """What vtysh prints."""
        return self.within(*self.shell_words(), "-c", command)

    def shell_lines(self, *commands: str) -> str:
        """What vtysh prints of several commands in one session."""
        return self.within(*self.shell_words(), *(word for command in commands for word in ("-c", command)))

    def entries(self) -> str:
        """The kernel's forwarding entries at the VXLAN device."""
        return self.within("bridge", "-j", "fdb", "show", "dev", "vxlan0" if self.single else f"vxlan{self.vnis[0]}")

    def tell(self, lines: List[str]) -> None:
        """Says some lines, and waits until the kernel has a mark that was said behind them."""
        self.marks += 1
        mark = f"02:ff:ff:ff:{self.marks >> 8:02x}:{self.marks & 255:02x}"
        for line in [*lines, f"advert 10.0.0.1 {self.vnis[0]} {mark} seq 0"]:
            self.speaker.stdin.write(line + "\n")
        self.speaker.stdin.flush()
        self.wait_for(lambda: self.has_mark(mark), "the mark")

    def has_mark(self, mark: str) -> bool:
        """Whether the kernel forwards the mark."""
        return any(entry["mac"] == mark and "dst" in entry for entry in json.loads(self.entries()))

    def version(self) -> str:
        """FRR's version."""
        return self.shell("show version").split("\n")[0].split()[1]

    def audit_words(self, *words: str) -> List[str]:
        """The audit of this edge, run in its namespace."""
        tool = os.path.join(TOOLS, "evpnd_audit.py")
        there = ["ip", "netns", "exec", self.inside, sys.executable, tool]
        shell = " ".join(shlex.quote(word) for word in self.shell_words())
        return [*there, *words, "--vtysh", shell]

    def save(self, folder: str) -> None:
        """A view of this edge, as docs/audit.md has it."""
        run(*self.audit_words("save", folder))


BGPD_LINES = f"""router bgp 65000
 bgp router-id {OWN}
 no bgp default ipv4-unicast
 neighbor 192.168.77.2 remote-as 65000
 address-family l2vpn evpn
  neighbor 192.168.77.2 activate
  advertise-all-vni
 exit-address-family
"""
