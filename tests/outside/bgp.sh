#!/usr/bin/env bash
# usage: tests/outside/bgp.sh [evpnd]        (the built program; by default the one that `rt run` leaves)
#
# Runs the gateway tools/evpnd_bgp.py between records and a real BGP EVPN fabric: beside GoBGP with a second GoBGP as a
# leaf, root or not, and as root beside an FRR leaf, whose kernel then forwards real frames. It needs Debian's packages
# gobgpd, golang-github-osrg-gobgp-dev, protobuf-compiler, libprotobuf-dev, python3-grpcio, python3-protobuf, iproute2,
# and frr for the second half; it names the missing ones. Networks, folders and daemons are this run's own. The last line
# is `ok`, above it stand the figures. It takes some minutes, and is no part of the gate.
set -u
here=$(cd "$(dirname "$0")" && pwd)
. "$here/bgp_needs.sh"
apart=(unshare --net)
[ "$(id -u)" = 0 ] || apart=(unshare --user --map-root-user --net)
"${apart[@]}" true || { echo "this needs a network namespace of its own: root, or user namespaces"; exit 2; }
ROOT=$(id -u) EVPND=$(realpath "$evpnd") exec "${apart[@]}" /usr/bin/python3 -B "$here/bgp_fabric.py"
