#!/usr/bin/env bash
# usage: tests/outside/pages.sh [LAB..]        (default: all of them)
#
# Runs the commands of README, CONTRIBUTING, running, audit and fabric that the gate leaves out, as the pages have them, and
# compares their output with the pages (tests/pages.py). Each lab has the hosts of some sections: proof, hosts, mesh, audit, views, join, watch.
#
# It needs root, /dev/net/tun and Debian's packages frr, gobgpd, golang-github-osrg-gobgp-dev, protobuf-compiler,
# libprotobuf-dev, python3-grpcio, python3-protobuf, iproute2, iputils-ping, nftables, procps and socat; it names the missing
# ones. `proof` needs the kit instead, and some minutes of proofs. EVPND is the built program, by default the one that
# tools/try builds. Networks, folders and daemons are this run's own. It takes some two minutes without `proof`, and is no part
# of the gate. The last line is `N passed, M failed`; with `proof` and other labs there is one such line for each part.
set -u
here=$(cd "$(dirname "$0")" && pwd)
labs=("$@")
[ $# != 0 ] || labs=(proof hosts mesh audit views join watch)
status=0
others=()
for lab in "${labs[@]}"; do
  if [ "$lab" != proof ]; then others+=("$lab"); else python3 -B "$here/page_labs.py" proof || status=1; fi
done
[ ${#others[@]} != 0 ] || exit $status
evpnd=${EVPND:-$("$here/../../tools/try" --build evpnd)} || exit 2
. "$here/bgp_needs.sh" "$evpnd"
[ "$(id -u)" = 0 ] || { echo "this needs root"; exit 2; }
needs "FRR's bgpd" frr test -x /usr/lib/frr/bgpd
needs bridge iproute2 command -v bridge
needs ping iputils-ping command -v ping
needs nft nftables command -v nft
needs watch procps command -v watch
needs socat socat command -v socat
needs "tap devices" "nothing, but the kernel's module tun" test -e /dev/net/tun
EVPND=$(realpath "$evpnd")
export EVPND
unshare --net --mount --propagation private /usr/bin/python3 -B "$here/page_labs.py" "${others[@]}" && exit $status
