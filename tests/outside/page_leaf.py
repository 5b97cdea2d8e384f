"""The leaf of docs/fabric.md, FRR at 192.0.2.1 with the VXLAN address 10.0.0.100; its host 192.168.77.3; this host 192.0.2.2."""

import subprocess

from edge import OWN, VNI, Edge, run

STATION, STATION_ADDRESS = "02:00:00:00:00:aa", "192.168.77.3"
LEAF, HERE = "192.0.2.1", "192.0.2.2"


class PageLeaf(Edge):
    """The leaf, whose `outside` is this host; no neighbour is configured."""

    def make_links(self) -> None:
        """Makes the three namespaces and the links between them."""
        self.bgpd_lines = f"router bgp 65000\n bgp router-id {OWN}\n no bgp default ipv4-unicast\n"
        self.bgpd_lines += " address-family l2vpn evpn\n  advertise-all-vni\n exit-address-family\n"
        self.station = f"{self.inside}-host"
        for namespace in (self.inside, self.outside, self.station):
            run("ip", "netns", "add", namespace)
            run("ip", "-n", namespace, "link", "set", "lo", "up")
        run("ip", "link", "add", "up0", "netns", self.inside, "type", "veth", "peer", "name", "up0", "netns", self.outside)
        for namespace, address in ((self.inside, LEAF), (self.outside, HERE)):
            run("ip", "-n", namespace, "addr", "add", f"{address}/24", "dev", "up0")
            run("ip", "-n", namespace, "link", "set", "up0", "up")
        run("ip", "-n", self.inside, "addr", "add", f"{OWN}/32", "dev", "lo")
        run("ip", "-n", self.inside, "route", "add", "10.0.0.0/24", "via", HERE)
        run("ip", "-n", self.outside, "route", "add", OWN, "via", LEAF)
        self.make_network(VNI)
        port = f"acc{VNI}"
        run("ip", "-n", self.inside, "link", "add", port, "type", "veth", "peer", "name", "eth", "netns", self.station)
        for namespace, device in ((self.inside, port), (self.inside, f"br{VNI}"), (self.station, "eth")):
            run("ip", "netns", "exec", namespace, "sysctl", "-qw", f"net.ipv6.conf.{device}.disable_ipv6=1")
        run("ip", "-n", self.inside, "link", "set", port, "master", f"br{VNI}", "up")
        run("ip", "-n", self.station, "link", "set", "eth", "address", STATION, "mtu", "1450", "up")
        run("ip", "-n", self.station, "addr", "add", f"{STATION_ADDRESS}/24", "dev", "eth")

    def start_speaker(self) -> None:
        """Lets the leaf learn its host; there is no speaker."""
        words = ["ip", "netns", "exec", self.station, "ping", "-c", "1", "-W", "1", "192.168.77.254"]
        subprocess.run(words, capture_output=True, check=False)
        self.wait_for(lambda: STATION in self.shell(f"show evpn mac vni {VNI}"), "the leaf's host")

    def __exit__(self, *cause: object) -> None:
        super().__exit__(*cause)
        subprocess.run(["ip", "netns", "del", self.station], capture_output=True, check=False)
