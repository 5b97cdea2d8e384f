#!/usr/bin/env bash
# Needs Linux, root, /dev/net/tun, iproute2 (ip, bridge), ping (iputils) and python3, and for its last part openvswitch-switch
# (Debian's); takes some three minutes. It is no part of the gate.
#
# A bridge that isn't ours, with its own spanning tree, wired by two links to two ports of one edge; a host is at the
# edge's third port, and one behind the bridge. It tests that one of the two links ends up blocked; broadcasts, both ways, come
# once; when the link that passes is cut, the other takes over. First Linux's bridge below the edge, then above it, then
# Open vSwitch's RSTP.
#
# The second host has a cable to the bridge, in place of an address of the bridge's own: a bridge of the older spanning tree
# that is designated for no port doesn't announce that it has another root port now (802.1D-1998, 8.6.14).
set -u
. "$(dirname "$0")/lab.sh"
needs ip bridge ping python3 sysctl

# edges PRIORITY: an edge of this bridge priority, with two ports to the bridge and one to the host, and quick timers
edges() {
  cat > "$work/edges.toml" << TOML
[[edge]]
address = "127.0.0.1"
bridge = "02:aa:00:00:00:01"
vnis = [5001]
priority = $1
hello = 1
max_age = 6
forward_delay = 4
TOML
  local port
  for port in 1 2 3; do
    printf '[[edge.port]]\nvni = 5001\nlocal = "127.0.0.1:2000%s"\nremote = "127.0.0.1:3000%s"\n' $port $port
    [ $port = 3 ] && echo 'admin_edge = true'
  done >> "$work/edges.toml"
}

# above NAME: a host at the edge's third port; sets `host`
above() {
  host "$1" 192.168.78.2 02:00:00:00:00:02
  host=$it
  plug "$host" eth 127.0.0.1:30003 127.0.0.1:20003
}

# below NAME: two devices for cables to the edge in the namespace `switch`, and a host whose cable ends there; sets `leaf`
below() {
  tap "$switch" p1
  tap "$switch" p2
  leaf "$1" 192.168.78.1 02:00:00:00:00:01 "$switch" leg
  leaf=$it
}

# linux_below NAME PRIORITY: Linux's bridge with these three as its ports; sets `switch` and `leaf`
linux_below() {
  linux "$1" "$2"
  switch=$it
  below "$1-leaf"
  local device
  for device in p1 p2 leg; do ip -n "$switch" link set "$device" master br0; done
}

# state DEVICE: how Linux's bridge has a port
state() { bridge -n "$switch" link show dev "$1" | grep -o 'state [a-z]*'; }

answered() { ip netns exec "$host" ping -c "$1" -i 0.2 -W 1 192.168.78.1 > "$work/pings"; tail -2 "$work/pings" | head -1; }
received() { grep -c 'bytes from' "$work/pings"; }

# waits SECONDS: until a ping is answered; prints after how many seconds
waits() {
  local begun=$SECONDS
  until ip netns exec "$host" ping -c 1 -W 1 192.168.78.1 > "$work/pings"; do
    [ $((SECONDS - begun)) -ge "$1" ] && { echo "no answer for $1 seconds"; return 1; }
  done
  echo "answered after $((SECONDS - begun)) seconds"
}

# whole: pings are answered, and broadcasts come once
whole() {
  answered 10
  tell "ten pings are answered" [ "$(received)" = 10 ]
  once "$host" "$leaf" 100 > "$work/once" || touch "$work/twice"
  cat "$work/once"
  tell "broadcasts of the edge's host come once" [ ! -e "$work/twice" ]
  once "$leaf" "$host" 100 > "$work/once" || touch "$work/twice"
  cat "$work/once"
  tell "broadcasts of the bridge's host come once" [ ! -e "$work/twice" ]
  rm -f "$work/twice"
}

# wired: two cables between the bridge and the edge
wired() {
  plug "$switch" p1 127.0.0.1:30001 127.0.0.1:20001
  plug "$switch" p2 127.0.0.1:30002 127.0.0.1:20002
}

# unwired: none of this round's cables is left, and the edge has ended
unwired() {
  unplug "$switch" p1
  unplug "$switch" p2
  unplug "$host" eth
  stop
  tell "its status is 0" [ "$status" = 0 ]
  tell "nothing was lost" [ ! -s "$work/notes" ]
}

echo "-- Linux's bridge below the edge: it blocks one of its ports"
edges 4096
start
linux_below below 61440
wired
above host1
waits 30
sleep 2
echo "p1 $(state p1), p2 $(state p2)"
tell "one of its ports is blocked, the other forwards" [ "$(state p1) $(state p2)" = "state forwarding state blocking" ]
whole
echo "-- the passing link is cut"
unplug "$switch" p1
waits 30 > "$work/waited"; answer=$?
cat "$work/waited"
tell "the other link takes over" [ "$answer" = 0 ]
sleep 2
echo "p1 $(state p1), p2 $(state p2)"
whole
unwired

echo "-- Linux's bridge above the edge: the edge blocks one of its ports"
edges 61440
start
linux_below above 4096
wired
above host2
waits 30
sleep 2
echo "p1 $(state p1), p2 $(state p2)"
tell "both of its ports forward" [ "$(state p1) $(state p2)" = "state forwarding state forwarding" ]
whole
echo "-- the passing link is cut"
unplug "$switch" p1
waits 30 > "$work/waited"; answer=$?
cat "$work/waited"
tell "the other link takes over" [ "$answer" = 0 ]
sleep 2
whole
unwired

if command -v ovs-vswitchd > "$work/found"; then
  echo "-- Open vSwitch's bridge below the edge"
  edges 4096
  start
  ovs ovs
  switch=$it
  below ovs-leaf
  ovs_bridge "$switch" ovs0 61440 p1 p2 leg
  wired
  above host3
  waits 30
  sleep 2
  ovs_shows ovs0
  tell "one of its ports is the root port and forwards, the other an alternate one and discards" \
    [ "$(ovs_shows ovs0 | grep -cE '^ *p[12] +Root +Forwarding') $(ovs_shows ovs0 | grep -cE '^ *p[12] +Alternate +Discarding')" = "1 1" ]
  whole
  passing=$(ovs_shows ovs0 | grep -oE '^ *p[12] +Root' | grep -oE 'p[12]')
  echo "-- the passing link, $passing, is cut"
  unplug "$switch" "$passing"
  waits 30 > "$work/waited"; answer=$?
  cat "$work/waited"
  tell "the other link takes over" [ "$answer" = 0 ]
  sleep 2
  ovs_shows ovs0
  whole
  unwired
else
  echo "-- Open vSwitch isn't installed (openvswitch-switch): left out"
fi
end
