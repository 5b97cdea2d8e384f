#!/usr/bin/env bash
# usage: tests/outside/fabric.sh [evpnd]                        (the built program; by default the one that `rt run` leaves)
#        tests/outside/fabric.sh evpnd PART..                   (of it only these of bgp, joined and power: served_fabric.py)
#        tests/outside/fabric.sh evpnd failures [KEY=VALUE..] [NAME..]  (the cost of each failure: served_failures.py)
#        tests/outside/fabric.sh evpnd rounds [ROUNDS] [SEED]  (random histories: fabric_rounds.py; 20 rounds, seed 1)
#        tests/outside/fabric.sh evpnd ROUTES MINUTES
#
# One `evpnd serve` in a fabric of two FRR leaves with Linux's bridges and VXLAN devices, by the gateway tools/evpnd_bgp.py
# and a route reflector, all of them real; then two `evpnd serve` without BGP, joined by socat. Hosts ping each other while
# one of them moves, and while a leaf, the gateway and the edges are killed and started. Last, the host of one of the two
# loses power. It prints the losses, and how long it took until all agreed. It needs root, /dev/net/tun, and Debian's packages
# gobgpd, golang-github-osrg-gobgp-dev, protobuf-compiler, libprotobuf-dev, python3-grpcio, python3-protobuf, frr, iproute2,
# iputils-ping and socat; it names the missing ones. Networks, folders and daemons are this run's own. The last line is `ok`.
# It takes some five minutes, and is no part of the gate. With ROUTES it brings that number of routes into one `evpnd serve`,
# and then lets stations move ten times a second for MINUTES minutes, while hosts ping each other. LEAVES is a folder with
# another Debian that has frr (frr/leaves.py), for another version of FRR than this host's.
set -u
here=$(cd "$(dirname "$0")" && pwd)
. "$here/bgp_needs.sh"
[ "$(id -u)" = 0 ] || { echo "this needs root"; exit 2; }
needs "FRR's bgpd" frr test -x /usr/lib/frr/bgpd
needs bridge iproute2 command -v bridge
needs ping iputils-ping command -v ping
needs socat socat command -v socat
needs "tap devices" "nothing, but the kernel's module tun" test -e /dev/net/tun
program=("$here/served_fabric.py")
case ${2-} in
  failures) program=("$here/served_failures.py" "${@:3}") ;;
  rounds) program=("$here/fabric_rounds.py" "${3:-20}" "${4:-1}") ;;
  [0-9]*) program=("$here/served_load.py" "$2" "$3") ;;
  *) program+=("${@:2}") ;;
esac
EVPND=$(realpath "$evpnd") exec unshare --net /usr/bin/python3 -B "${program[@]}"
