#!/usr/bin/env bash
# Measures TCP between two hosts at two edges, beside the same hosts without edges, and beside Linux's own bridges and vxlan devices.
#   bench/tcp.sh [EVPND]        (the built program; by default the one that `rt run` leaves)
# Each host is a network namespace with an MTU of 1450. At the edges it has a tap device, whose frames a relay carries to a port:
# tests/outside/tap_relay.py, and bench/tcp/relay.c if gcc is there. Or the device itself is the port (evpnd-attach). Without edges the relays of both hosts send to each other. The
# devices of the kernel's way have no offloads (ethtool), as tap devices have none. Prints a table of the medians of 3 runs of 5
# seconds, which take turns. Then it prints the ways that were not measured, with the reasons. The last line is `ok` if all ways that
# this machine can measure carried TCP.
# Needs root, /dev/net/tun, iproute2, sysctl and python3; iperf3 measures if it is there, and a sender in Python otherwise. Takes two
# minutes.
set -u
if [ $# -gt 0 ]; then export EVPND=$1; fi
bench=$(cd "$(dirname "$0")" && pwd)
# shellcheck disable=SC1091,SC2154
. "$bench/../tests/outside/lab.sh"
needs ip python3 sysctl
runs=3 seconds=5
lacks=()

for edge in 1 2; do
  printf '[[edge]]\naddress = "127.0.0.%d"\nbridge = "02:aa:00:00:00:0%d"\nvnis = [5001, 5002, 5003]\n' "$edge" "$edge"
  for port in 1 2; do
    printf '[[edge.port]]\nvni = 500%d\nadmin_edge = true\nlocal = "127.0.0.%d:2000%d"\nremote = "127.0.0.%d:3000%d"\n' \
      "$port" "$edge" "$port" "$edge" "$port"
  done
  printf '[[edge.port]]\nvni = 5003\nadmin_edge = true\ndevice = "port%d"\n' "$edge"
done > "$work/edges.toml"

# relayed NETNS HERE THERE RELAY..: this relay carries the frames of the host's device
relayed() {
  local netns=$1 here=$2 there=$3
  shift 3
  "$@" "$netns" eth "$here" "$there" 2> "$work/relay" 7>&- &
  pids+=($!)
  for _ in $(seq 100); do
    ip -n "$netns" link show dev eth up 2> "$work/ignored" | grep -q LOWER_UP && return
    sleep 0.1
  done
  echo "no cable at $netns: $(cat "$work/relay")"
  exit 1
}

ways=()
declare -A sender receiver figures
# way NAME NAME1 NAME2: a way between these hosts
way() {
  ways+=("$1")
  sender[$1]=evpnd-$$-$2
  receiver[$1]=evpnd-$$-$3
}

# pair NAME: two hosts with tap devices
pair() {
  host "$1a" 192.168.80.1 02:00:00:00:00:01
  host "$1b" 192.168.80.2 02:00:00:00:00:02
}

# taps NAME NUMBER RELAY..: two ways by this relay, over port NUMBER of both edges, and without edges
taps() {
  local name=$1 number=$2 letter=${1:0:1}
  shift 2
  pair "${letter}e"
  relayed "evpnd-$$-${letter}ea" "127.0.0.1:3000$number" "127.0.0.1:2000$number" "$@"
  relayed "evpnd-$$-${letter}eb" "127.0.0.2:3000$number" "127.0.0.2:2000$number" "$@"
  way "two edges, relay in $name" "${letter}ea" "${letter}eb"
  pair "${letter}d"
  relayed "evpnd-$$-${letter}da" "127.0.0.3:3000$number" "127.0.0.4:3000$number" "$@"
  relayed "evpnd-$$-${letter}db" "127.0.0.4:3000$number" "127.0.0.3:3000$number" "$@"
  way "no edges, relay in $name" "${letter}da" "${letter}db"
}

# bare NETNS DEVICE..: without offloads and IPv6
bare() {
  local netns=$1 device
  shift
  for device in "$@"; do
    unasked "$netns" "$device"
    ip netns exec "$netns" ethtool -K "$device" tso off gso off gro off rx off tx off sg off > "$work/ignored" 2>&1
    ip netns exec "$netns" ethtool -k "$device" > "$work/offloads"
    if grep -qE '^(tcp-segmentation-offload|generic-segmentation-offload|generic-receive-offload|tx-checksumming): on' "$work/offloads"; then
      lacks+=("offloads of $device stay on")
    fi
  done
}

# kernel: a way over Linux's own devices
kernel() {
  local number
  command -v ethtool > "$work/found" || { lacks+=("the kernel's bridge and vxlan: ethtool isn't here"); return; }
  space probe
  if ! ip -n "$it" link add br0 type bridge 2> "$work/probe" || ! ip -n "$it" link add vx type vxlan id 1 dstport 4789 local 127.0.0.1 2>> "$work/probe"; then
    lacks+=("the kernel's bridge and vxlan: $(tr '\n' ' ' < "$work/probe")")
    return
  fi
  space va
  space vb
  ip -n "evpnd-$$-va" link add cable type veth peer name cable netns "evpnd-$$-vb"
  for number in 1 2; do
    local vtep=evpnd-$$-va letter=a
    [ $number = 2 ] && vtep=evpnd-$$-vb letter=b
    space "h$letter"
    ip -n "$vtep" address add "10.80.0.$number/24" dev cable
    ip -n "$vtep" link set cable up
    ip -n "$vtep" link add br0 type bridge
    ip -n "$vtep" link add vx type vxlan id 5001 local "10.80.0.$number" remote "10.80.0.$((3 - number))" dstport 4789
    ip -n "$vtep" link add leg mtu 1450 type veth peer name eth mtu 1450 netns "$it"
    for device in vx leg; do ip -n "$vtep" link set $device master br0; done
    bare "$vtep" cable br0 vx leg
    bare "$it" eth
    for device in br0 vx leg; do ip -n "$vtep" link set $device up; done
    ip -n "$it" link set eth address "02:00:00:00:00:0$number" up
    ip -n "$it" address add "192.168.80.$number/24" dev eth
  done
  way "the kernel's bridge and vxlan, no offloads" ha hb
}

# A sender and a receiver, without iperf3. The receiver prints the Mbit/s from its first octet to its last one.
cat > "$work/tcp.py" << 'PY'
import socket, sys, time

if sys.argv[1] == "receive":
    listening = socket.create_server(("192.168.80.2", 5201))
    print("ready", flush=True)
    link, octets, begun = listening.accept()[0], 0, time.monotonic()
    while text := link.recv(1 << 20):
        octets += len(text)
    print(f"{octets * 8e-6 / (time.monotonic() - begun):.1f}")
else:
    link, end = socket.create_connection(("192.168.80.2", 5201), 10), time.monotonic() + float(sys.argv[2])
    while time.monotonic() < end:
        link.sendall(bytes(1 << 17))
PY

# measured FROM TO: prints the Mbit/s that a run carries, or nothing
measured() {
  local receiving
  if command -v iperf3 > "$work/found"; then
    ip netns exec "$2" timeout 60 iperf3 --server --one-off > "$work/received" 7>&- &
    receiving=$!
    for _ in $(seq 100); do ip netns exec "$2" grep -q ':1451 ' /proc/net/tcp /proc/net/tcp6 && break; sleep 0.1; done
    ip netns exec "$1" timeout 50 iperf3 --client 192.168.80.2 --time $seconds --json > "$work/sent" 7>&-
    python3 -c 'import json, sys; print(round(json.load(sys.stdin)["end"]["sum_received"]["bits_per_second"] / 1e6, 1))' \
      < "$work/sent" 2> "$work/ignored"
    kill $receiving 2> "$work/ignored"
    wait $receiving 2> "$work/ignored"
  else
    ip netns exec "$2" timeout 60 python3 "$work/tcp.py" receive > "$work/received" 7>&- &
    receiving=$!
    for _ in $(seq 100); do grep -q ready "$work/received" && break; sleep 0.1; done
    ip netns exec "$1" timeout 50 python3 "$work/tcp.py" send $seconds 7>&-
    wait $receiving
    sed -n 2p "$work/received"
  fi
}

for number in 1 2; do device_host "dev$number" "port$number" "192.168.80.$number" "02:00:00:00:00:0$number"; done
start python3 "$outside/../../tools/evpnd-attach" "evpnd-$$-dev1/port1" "evpnd-$$-dev2/port2" --
way "two edges, devices" dev1 dev2
taps Python 1 python3 "$outside/tap_relay.py"
if command -v gcc > "$work/found"; then
  gcc -O2 -pthread -o "$work/relay-c" "$bench/tcp/relay.c" || exit 1
  taps C 2 "$work/relay-c"
else
  lacks+=("the relay in C: gcc isn't here")
fi
kernel

for _ in $(seq $runs); do
  for each in "${ways[@]}"; do figures[$each]+="$(measured "${sender[$each]}" "${receiver[$each]}") "; done
done
stop > "$work/stopped"
# frames that a queue dropped are no fault: TCP sends as many as it can
tell "evpnd's status is 0" [ "$status" = 0 ]
tell "evpnd printed only drops" [ -z "$(grep -vE ': [0-9]+ (frames dropped: no room|datagrams dropped by the system)$' "$work/notes")" ]

measure=Python
command -v iperf3 > "$work/found" && measure=$(iperf3 --version | head -n 1)
machine="$(sed -n 's/^model name\s*: //p' /proc/cpuinfo | head -n 1), $(nproc) processors, load $(cut -d ' ' -f 1 /proc/loadavg)"
echo "| way | Mbit/s | runs | date, machine |"
echo "|---|---|---|---|"
for each in "${ways[@]}"; do
  middle=$(tr ' ' '\n' <<< "${figures[$each]}" | grep . | sort -n | awk '{ n[NR] = $1 } END { if (NR) print n[int((NR + 1) / 2)] }')
  echo "| $each | ${middle:-none} | ${figures[$each]% }| $(date +%F), $machine |"
done
for each in "${ways[@]}"; do tell "$each: all $runs runs carried TCP" [ "$(wc -w <<< "${figures[$each]}")" = $runs ]; done
echo "by $measure; what the edges dropped in all runs:"
cat "$work/notes"
for each in "${lacks[@]}"; do echo "not measured: $each"; done
end
