# Sourced by the scripts here that speak BGP, behind `here`: their needs of Debian's packages. It names the missing ones.
# $1 is the built program; by default it is EVPND, or the one that `rt run` leaves.
evpnd=${1:-${EVPND:-$here/../../crates/evpnd/out/evpnd}}
[ -x "$evpnd" ] || { echo "this needs the built program, as word or by rt run in crates/evpnd"; exit 2; }
needs() { # WHAT PACKAGE COMMAND..
  local what=$1 package=$2
  shift 2
  "$@" > /dev/null 2>&1 || { echo "this needs $what: apt-get install $package"; exit 2; }
}
PATH=$PATH:/usr/sbin:/sbin
needs gobgpd gobgpd command -v gobgpd
needs "GoBGP's protos" golang-github-osrg-gobgp-dev test -e /usr/share/gocode/src/github.com/osrg/gobgp/api/gobgp.proto
needs protoc protobuf-compiler command -v protoc
needs "protobuf's own protos" libprotobuf-dev test -e /usr/include/google/protobuf/any.proto
needs "grpc for Debian's Python" python3-grpcio /usr/bin/python3 -c 'import grpc'
needs "protobuf for Debian's Python" python3-protobuf /usr/bin/python3 -c 'import google.protobuf'
needs ip iproute2 command -v ip
