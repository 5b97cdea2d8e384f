#!/usr/bin/env bash
# Needs Linux with its vxlan device, root, /dev/net/tun, iproute2, ping (iputils), python3 and tshark (Debian's); takes some
# 20 seconds. It is no part of the gate.
#
# Linux's own vxlan device in an edge's place: it has the address of the second edge of the configuration, behind a cable to the
# first one. So it gets the datagrams that the first edge means for the second, and the first edge gets its. A host at the
# first edge's port and the device's own address ping each other; tshark reads the datagrams on the cable, of both kinds.
set -u
. "$(dirname "$0")/lab.sh"
needs ip ping python3 sysctl tshark

cat > "$work/edges.toml" << 'TOML'
[[edge]]
address = "10.77.0.1"
bridge = "02:aa:00:00:00:01"
vnis = [5001]
[[edge.port]]
vni = 5001
admin_edge = true
local = "127.0.0.1:20001"
remote = "127.0.0.1:30001"
[[edge]]
address = "10.77.0.2"
bridge = "02:aa:00:00:00:02"
vnis = [5001]
[[edge.port]]
vni = 5001
admin_edge = true
local = "127.0.0.1:20002"
remote = "127.0.0.1:30002"
TOML

space edges
edges=$it
space kernel
kernel=$it
space host
host=$it
ip -n "$edges" link add cable type veth peer name cable netns "$kernel"
for it in "$edges" "$kernel"; do ip netns exec "$it" sysctl -qw net.ipv6.conf.cable.disable_ipv6=1; done
ip -n "$edges" address add 10.77.0.1/24 dev cable
ip -n "$kernel" address add 10.77.0.2/24 dev cable
ip -n "$edges" link set cable up
ip -n "$kernel" link set cable up
# the second edge of the configuration binds an address that isn't its host's
ip netns exec "$edges" sysctl -qw net.ipv4.ip_nonlocal_bind=1
ip -n "$kernel" link add vx type vxlan id 5001 local 10.77.0.2 remote 10.77.0.1 dstport 4789
ip netns exec "$kernel" sysctl -qw net.ipv6.conf.vx.disable_ipv6=1
ip -n "$kernel" link set vx address 02:00:00:00:00:0b up
ip -n "$kernel" address add 192.168.79.2/24 dev vx
tap "$host" eth
ip -n "$host" link set eth address 02:00:00:00:00:0a
ip -n "$host" address add 192.168.79.1/24 dev eth

start ip netns exec "$edges"
# the relay's socket has to be where the edge's port is
ip netns exec "$edges" python3 "$outside/tap_relay.py" "$host" eth 127.0.0.1:30001 127.0.0.1:20001 7>&- &
pids+=($!)
ip netns exec "$edges" tshark -q -i cable -f 'udp port 4789' -w "$work/datagrams" 2> "$work/tshark" 7>&- &
watching=$!
for _ in $(seq 100); do grep -q Capturing "$work/tshark" && break; sleep 0.1; done
sleep 1

received() { grep -c 'bytes from' "$1"; }
ip netns exec "$host" ping -c 10 -i 0.2 -W 2 192.168.79.2 | tee "$work/out" | tail -2
tell "ten pings of the host to the kernel's device are answered" [ "$(received "$work/out")" = 10 ]
ip netns exec "$kernel" ping -c 10 -i 0.2 -W 2 192.168.79.1 | tee "$work/in" | tail -2
tell "ten pings of the kernel's device to the host are answered" [ "$(received "$work/in")" = 10 ]
ip netns exec "$host" ping -c 3 -i 0.2 -W 2 -s 1400 -M do 192.168.79.2 | tee "$work/long" | tail -2
tell "three long ones too" [ "$(received "$work/long")" = 3 ]
sleep 1
kill -INT "$watching"
wait "$watching" 2> "$work/ignored"

# fields FILTER FIELD..: what tshark reads of the datagrams, a line each
fields() {
  local filter=$1 words=() field
  shift
  for field in "$@"; do words+=(-e "$field"); done
  tshark -r "$work/datagrams" -Y "$filter" -T fields "${words[@]}" 2> "$work/ignored"
}
echo "what tshark reads, a line for each kind: sender, flags, VNI, the frame's sender, and what it holds"
fields vxlan ip.src vxlan.flags vxlan.vni eth.src _ws.col.Protocol | sort | uniq -c | tee "$work/kinds"
tell "our datagrams are VXLAN with flag I and network 5001, and hold the host's frames" \
  [ "$(fields 'vxlan && ip.src == 10.77.0.1' vxlan.flags vxlan.vni | sort -u)" = $'0x0800\t5001' ]
tell "the kernel's are so, too" [ "$(fields 'vxlan && ip.src == 10.77.0.2' vxlan.flags vxlan.vni | sort -u)" = $'0x0800\t5001' ]
tell "tshark finds no datagram at port 4789 that it can't read" [ -z "$(fields 'udp.port == 4789 && !vxlan' frame.number)" ]
tell "nor a malformed one" [ -z "$(fields '_ws.malformed' frame.number)" ]
tell "pings of both senders are in them" \
  [ "$(fields 'vxlan && icmp.type == 8 && ip.src == 10.77.0.1' frame.number | wc -l) $(fields 'vxlan && icmp.type == 8 && ip.src == 10.77.0.2' frame.number | wc -l)" = "13 10" ]

# so that the second edge's socket can be woken
ip -n "$kernel" link set cable down
ip -n "$edges" address add 10.77.0.2/32 dev lo
stop
tell "its status is 0" [ "$status" = 0 ]
tell "the host is the first edge's, and nothing else was learnt" \
  [ "$(sed -n '/^edge 1/,/^edge 2/p' "$work/report" | grep ^owner)" = "owner 5001 02:00:00:00:00:0a 10.77.0.1" ]
end
