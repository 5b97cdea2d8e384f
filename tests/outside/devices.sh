#!/usr/bin/env bash
# Needs Linux, root, /dev/net/tun, iproute2, ping (iputils), setpriv (util-linux) and python3; takes some 40 seconds. It is no part
# of the gate.
#
# Two hosts, each a network namespace with a tap device that is a port of an edge (`device`), opened by evpnd-attach and without a
# relay. A third host has a relay to a port with a socket at the first edge. They ping each other. Then a device's link goes down
# and comes back, and another device is deleted. Then the input ends. After that evpnd starts without a device's descriptor, as a
# simulation, and evpnd-attach without the right to open a device.
set -u
. "$(dirname "$0")/lab.sh"
needs ip ping python3 setpriv sysctl
attach=$outside/../../tools/evpnd-attach

cat > "$work/edges.toml" << 'TOML'
[[edge]]
address = "127.0.0.1"
bridge = "02:aa:00:00:00:01"
vnis = [5001]
[[edge.port]]
vni = 5001
admin_edge = true
device = "one"
[[edge.port]]
vni = 5001
admin_edge = true
local = "127.0.0.1:20002"
remote = "127.0.0.1:30002"
[[edge]]
address = "127.0.0.2"
bridge = "02:aa:00:00:00:02"
vnis = [5001]
[[edge.port]]
vni = 5001
admin_edge = true
device = "two"
TOML

# pings FROM TO COUNT WORD..: how many pings of COUNT are answered
pings() {
  local from=$1 to=$2 count=$3
  shift 3
  ip netns exec "$from" ping -c "$count" -i 0.2 -W 2 "$@" "$to" > "$work/pings"
  grep -c 'bytes from' "$work/pings"
}

device_host one one 192.168.77.1 02:00:00:00:00:01
one=$it
device_host two two 192.168.77.2 02:00:00:00:00:02
two=$it
host three 192.168.77.3 02:00:00:00:00:03
three=$it
start python3 "$attach" "$one/one" "$two/two" --
plug "$three" eth 127.0.0.1:30002 127.0.0.1:20002

tell "ten pings from device to device over the tunnel" [ "$(pings "$one" 192.168.77.2 10)" = 10 ]
tell "ten from a device to a socket at one edge" [ "$(pings "$one" 192.168.77.3 10)" = 10 ]
tell "ten from a socket to a device over the tunnel" [ "$(pings "$three" 192.168.77.2 10)" = 10 ]
tell "three of 1,450 octets" [ "$(pings "$two" 192.168.77.1 3 -s 1422 -M do)" = 3 ]

ip -n "$one" link set one down
sleep 3
tell "while a device's link is down, the others go on" [ "$(pings "$three" 192.168.77.2 5)" = 5 ]
ip -n "$one" link set one up
sleep 3
tell "after it is up again, its host is there" [ "$(pings "$one" 192.168.77.2 5)" = 5 ]

ip -n "$two" link del two
sleep 3
tell "after a device is deleted, the others go on" [ "$(pings "$one" 192.168.77.3 5)" = 5 ]

begun=$(date +%s%N)
stop
took=$((($(date +%s%N) - begun) / 1000000))
echo "the end took $took ms"
tell "it ends within 3 seconds" [ "$took" -lt 3000 ]
tell "its status is 4: a device has failed" [ "$status" = 4 ]
tell "the first edge owns its two hosts" [ "$(grep -cxE 'owner 5001 02:00:00:00:00:0[13] 127.0.0.1' "$work/report")" -ge 2 ]
tell "the host of the deleted device is withdrawn" grep -qxE 'mac 5001 02:00:00:00:00:02 127.0.0.2 [0-9]+ withdrawn' "$work/report"

# without a descriptor
"$evpnd" run --config "$work/edges.toml" < /dev/null > "$work/report" 2> "$work/notes"
tell "without evpnd-attach its status is 4" [ $? = 4 ]
tell "and it names the device" grep -qx "can't use device one: evpnd has no descriptor of it; start evpnd by evpnd-attach" "$work/notes"
"$evpnd" check --run --config "$work/edges.toml" > "$work/report" 2> "$work/notes"
tell "check --run accepts the configuration" [ $? = 0 ]
"$evpnd" simulate --config "$work/edges.toml" < /dev/null > "$work/report" 2> "$work/notes"
tell "a simulation has status 2" [ $? = 2 ]
tell "and names the key" grep -q device "$work/notes"

# who may not open a device
setpriv --bounding-set=-net_admin --inh-caps=-net_admin python3 "$attach" three -- true 2> "$work/notes"
tell "evpnd-attach without CAP_NET_ADMIN has status 4" [ $? = 4 ]
tell "and says what is needed" grep -q CAP_NET_ADMIN "$work/notes"
end
