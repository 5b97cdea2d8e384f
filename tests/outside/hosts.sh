#!/usr/bin/env bash
# Needs Linux, root, /dev/net/tun, iproute2, ping (iputils) and python3; takes some 20 seconds. It is no part of the gate.
#
# Two hosts, each a network namespace with a tap device whose frames a relay carries to a port of an edge. They ping each
# other over VXLAN; then the first host's cable goes to a port of the other edge, and the pings go on; the report at the end
# names the new owner.
set -u
. "$(dirname "$0")/lab.sh"
needs ip ping python3 sysctl

cat > "$work/edges.toml" << 'TOML'
[[edge]]
address = "127.0.0.1"
bridge = "02:aa:00:00:00:01"
vnis = [5001]
[[edge.port]]
vni = 5001
admin_edge = true
local = "127.0.0.1:20001"
remote = "127.0.0.1:30001"
[[edge]]
address = "127.0.0.2"
bridge = "02:aa:00:00:00:02"
vnis = [5001]
[[edge.port]]
vni = 5001
admin_edge = true
local = "127.0.0.2:20001"
remote = "127.0.0.1:30002"
[[edge.port]]
vni = 5001
admin_edge = true
local = "127.0.0.2:20002"
remote = "127.0.0.1:30003"
TOML

# received FILE: how many of the pings in the file were answered
received() { grep -c 'bytes from' "$1"; }

host one 192.168.77.1 02:00:00:00:00:01
one=$it
host two 192.168.77.2 02:00:00:00:00:02
two=$it
start
plug "$one" eth 127.0.0.1:30001 127.0.0.1:20001
plug "$two" eth 127.0.0.1:30002 127.0.0.2:20001

ip netns exec "$one" ping -c 10 -i 0.2 -W 2 192.168.77.2 | tee "$work/first" | tail -2
tell "ten pings of the first host are answered" [ "$(received "$work/first")" = 10 ]
ip netns exec "$two" ping -c 10 -i 0.2 -W 2 192.168.77.1 | tee "$work/second" | tail -2
tell "ten pings of the second host are answered" [ "$(received "$work/second")" = 10 ]
ip netns exec "$two" ping -c 3 -i 0.2 -W 2 -s 1400 -M do 192.168.77.1 | tee "$work/long" | tail -2
tell "three long ones too" [ "$(received "$work/long")" = 3 ]

# five pings a second, from two seconds before the cable moves to four seconds later
ip netns exec "$one" ping -i 0.2 -W 2 192.168.77.2 > "$work/moving" &
pinging=$!
sleep 2
begun=$(date +%s%N)
unplug "$one" eth
plug "$one" eth 127.0.0.1:30003 127.0.0.2:20002
meanwhile=$((($(date +%s%N) - begun) / 200000000))
sleep 4
kill -INT "$pinging"
wait "$pinging"
tail -2 "$work/moving"
lost=$(($(grep -oE '^[0-9]+ packets' "$work/moving" | grep -oE '[0-9]+') - $(received "$work/moving")))
echo "$lost were lost; $meanwhile are sent in the time that the cable took"
tell "pings go on when the cable has moved (at most 8 more are lost)" [ "$lost" -le $((meanwhile + 8)) ]
ip netns exec "$two" ping -c 10 -i 0.2 -W 2 192.168.77.1 | tee "$work/last" | tail -2
tell "ten pings to the host that has moved are answered" [ "$(received "$work/last")" = 10 ]

stop
tell "its status is 0" [ "$status" = 0 ]
tell "nothing was lost" [ ! -s "$work/notes" ]
tell "the new owner, at both edges" [ "$(grep -cx 'owner 5001 02:00:00:00:00:01 127.0.0.2' "$work/report")" = 2 ]
tell "with sequence 1" [ "$(grep -cxE 'mac 5001 02:00:00:00:00:01 127.0.0.2 [0-9]+ dynamic 1' "$work/report")" = 2 ]
tell "the old one has withdrawn" [ "$(grep -cxE 'mac 5001 02:00:00:00:00:01 127.0.0.1 [0-9]+ withdrawn' "$work/report")" = 2 ]
tell "the host that stayed" [ "$(grep -cxE 'mac 5001 02:00:00:00:00:02 127.0.0.2 [0-9]+ dynamic 0' "$work/report")" = 2 ]
sed -n '/^edge 1/,/^edge 2/p' "$work/report" | grep -v '^edge' > "$work/edge1"
sed -n '/^edge 2/,$p' "$work/report" | grep -v '^edge' > "$work/edge2"
tell "both edges report the same" cmp "$work/edge1" "$work/edge2"
end
