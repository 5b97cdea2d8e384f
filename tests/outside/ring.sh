#!/usr/bin/env bash
# Needs Linux, root, /dev/net/tun, iproute2, ping (iputils) and python3, and for its second ring openvswitch-switch (Debian's); takes
# some five minutes, and little of a processor. It is no part of the gate.
#
# Two rings, each cut and healed at two places in turn. In each there are four hosts. Each sends fifty broadcasts a second, and
# counts the frames of the other three:
#
# - of two edges and two Linux bridges with their spanning tree (802.1D): edge 1, bridge 1, edge 2, bridge 2. The edges serve two
#   networks, so that there is no tunnel between them: a site at two edges of one network isn't supported. A host is attached to each.
#   Linux has no RSTP of its own: that wants mstpd, which Debian 12 hasn't;
# - of three bridges, one edge and two of Open vSwitch, with RSTP. A host is attached to each, and the fourth one to a second edge,
#   behind the tunnel.
#
# No frame may come twice, at any time, except as stated below. None may be lost while nothing is cut or healed. When a cable is
# cut or healed, none may come for as long as the spanning tree needs, at most: with 802.1D until the root's last message is too old,
# 6 seconds, and twice the forward delay, 8 seconds; with RSTP three hellos of 2 seconds. A busy machine has 2 seconds more. After
# that all come again.
#
# While a cable to a bridge of Open vSwitch is healed, frames may come twice to the hosts of these bridges, within 2 seconds. They are
# counted and told. The bridge has to close its old root port before it opens the new one, and by its log Open vSwitch (3.1.0) does so.
# But its datapath passes frames by flows that it keeps. Six that came twice it had taken in and passed by the old root port 1 to 20
# milliseconds after that was closed, before it wrote the flow again, to drop. Rings of three bridges of Open vSwitch did so too, with no
# edge of ours and the same cables: 0.3 to 24 milliseconds after, and 170 on a busier machine. There the root's end of the cable was
# cut, too, and nine frames came twice since one of the two ways was slow: they came by the new root port once it was open.
#
# So this looks, in the second ring, at each frame at each device. At no time may edge 1 send one by a cable more often than it was
# given it. Nor may one come twice to a host of an edge, unless the bridges gave it to edge 1 twice while a cable was healed.
#
# Between a cut and the next healing lie 13 seconds or more. In rings that changed every 2 to 4 seconds, Open vSwitch's datapath
# sometimes went on dropping frames of a port that its RSTP had opened, until the next change; in its own ring, too.
set -u
. "$(dirname "$0")/lab.sh"
needs ip ping python3 sysctl

# the hosts' names and namespaces; the host with number N has the address 192.168.80.N and the MAC 02:00:00:00:00:0N
names=()
hosts=()
watched=

# edge NUMBER NETWORK PRIORITY PORTS: an edge with PORTS ports, of which the last one is a host's, and quick timers
edge() {
  cat << TOML
[[edge]]
address = "127.0.0.$1"
bridge = "02:aa:00:00:00:0$1"
vnis = [$2]
priority = $3
hello = 1
max_age = 6
forward_delay = 4
TOML
  local port
  for port in $(seq "$4"); do
    printf '[[edge.port]]\nvni = %s\nlocal = "127.0.0.%s:2000%s"\nremote = "127.0.0.%s:3000%s"\n' "$2" "$1" "$port" "$1" "$port"
  done
  echo 'admin_edge = true'
}

# cable EDGE PORT NETNS DEVICE: from an edge's port to a device
cable() { plug "$3" "$4" "127.0.0.$1:3000$2" "127.0.0.$1:2000$2"; }

# at_edge NAME EDGE PORT: the next host, at an edge's port
at_edge() {
  local number=${#hosts[@]}
  host "$ring-$number" "192.168.80.$number" "02:00:00:00:00:0$number"
  cable "$2" "$3" "$it" eth
  names+=("$1")
  hosts+=("$it")
}

# at_bridge NAME NETNS DEVICE: the next host, whose cable ends at a new device there
at_bridge() {
  local number=${#hosts[@]}
  leaf "$ring-$number" "192.168.80.$number" "02:00:00:00:00:0$number" "$2" "$3"
  names+=("$1")
  hosts+=("$it")
}

# settled: waits until the first host's pings are answered by all, 40 seconds at most
settled() {
  local begun=$SECONDS number
  for number in 1 2 3; do
    until ip netns exec "${hosts[0]}" ping -c 1 -W 1 "192.168.80.$number" > "$work/pings"; do
      [ $((SECONDS - begun)) -lt 40 ] || break
    done
  done
  tell "pings are answered by all after $((SECONDS - begun)) seconds" [ $((SECONDS - begun)) -lt 40 ]
}

# talk SECONDS [ACTION..]: all hosts speak for so long; two seconds after they have begun something is done. What passes in
# `watched`, the namespace of bridges with cables to an edge, is looked at
talk() {
  local number other others talking=()
  spoken=$1
  shift
  rm -f "$work/begin" "$work"/heard-* "$work/watched"
  if [ -n "$watched" ]; then
    ip netns exec "$watched" python3 "$outside/bridge_probe.py" watch "$work/begin" "$spoken" > "$work/watched" 7>&- &
    talking+=($!)
    until grep -q ready "$work/watched"; do sleep 0.1; done
  fi
  for number in "${!hosts[@]}"; do
    others=()
    for other in "${!hosts[@]}"; do [ "$other" = "$number" ] || others+=("02:00:00:00:00:0$other"); done
    ip netns exec "${hosts[number]}" python3 "$outside/bridge_probe.py" talk eth "$work/begin" "$spoken" "${others[@]}" \
      > "$work/heard-$number" 7>&- &
    talking+=($!)
  done
  until [ "$(cat "$work"/heard-* 2> "$work/ignored" | grep -c ready)" = 4 ]; do sleep 0.1; done
  echo $(($(date +%s) + 1)) > "$work/beginning"
  mv "$work/beginning" "$work/begin"
  sleep 3
  [ $# = 0 ] || "$@"
  wait "${talking[@]}"
  for number in "${!hosts[@]}"; do
    grep -v ready "$work/heard-$number" | while read -r other figures; do
      echo "$figures ${names[${other: -1}]} to ${names[number]}"
    done
  done > "$work/heard"
}

# looks WHAT SILENCE [none|healed]: no frame was doubled, silence lasted at most SILENCE seconds, and the last frames came,
# from each host to each other; and if none may be lost, none was. If a cable was healed in the ring with Open vSwitch, some
# may have been doubled by its bridges
looks() {
  local before=$differs lost edges bridges silence pair
  read -r lost edges bridges silence pair < <(awk '
    { lost += $1; if (/to the host at edge/) edges += $2; else bridges += $2
      if ($3 >= silence) { silence = $3; pair = substr($0, index($0, "the host")) } }
    END { print lost + 0, edges + 0, bridges + 0, silence + 0, pair }' "$work/heard")
  echo "-- $1: $lost lost, $((edges + bridges)) doubled; none came for $silence seconds at most, $pair"
  if [ -n "$watched" ]; then sees "$@"; else tell "$1: no frame comes twice" [ $((edges + bridges)) = 0 ]; fi
  [ "${3-}" != none ] || tell "$1: no frame is lost" [ "$lost" = 0 ]
  tell "$1: they pass again within $2 seconds, from each host to each other" \
    [ "$(awk -v most="$2" '$3 <= most && $4 <= 1' "$work/heard" | wc -l)" = 12 ]
  [ "$differs" = "$before" ] || sed 's/^/lost, doubled, silence, end: /' "$work/heard"
}

# sees WHAT SILENCE [none|healed]: the result of `looks` for doubled frames, if all devices were watched
sees() {
  local frames more again twice within
  read -r frames more again twice within < <(tail -n 1 "$work/watched")
  echo "   of $frames frames edge 1 sent $more once too often, and the bridges gave it $again twice; to their hosts $twice came twice"
  tell "$1: of all frames 9 in 10 were seen" [ "$frames" -ge $((spoken * 180)) ]
  tell "$1: edge 1 sends no frame more often than it was given it" [ "$more" = 0 ]
  tell "$1: what came twice to the bridges' hosts was seen" [ "$bridges" -le "$twice" ]
  if [ "${3-}" = healed ]; then
    tell "$1: none comes twice to an edge's host that edge 1 was given once" [ "$edges" -le $((again * 2)) ]
    tell "$1: what comes twice to the bridges' hosts was sent within 2 seconds ($within)" awk -v it="$within" 'BEGIN { exit it > 2 }'
  else
    tell "$1: no frame comes twice" [ $((edges + bridges)) = 0 ]
  fi
}

# cuts NAME SECONDS EDGE PORT NETNS DEVICE: a cable is pulled and put back
cuts() {
  local name=$1 seconds=$2
  shift 2
  talk $((seconds + 4)) unplug "$3" "$4"
  looks "$name is cut" "$seconds"
  tell "it was cut: its device has no carrier" [ -z "$(ip -n "$3" link show dev "$4" | grep LOWER_UP)" ]
  talk $((seconds + 4)) cable "$@"
  looks "$name is healed" "$seconds" healed
  talk 5
  looks "after that" 1 none
}

# over: the edges end, and the next ring has hosts of its own
over() {
  local number
  for number in "${!relays[@]}"; do
    # shellcheck disable=SC2086
    unplug ${relays[$number]}
  done
  stop
  tell "its status is 0, and nothing was lost" [ "$status $(cat "$work/notes")" = "0 " ]
  names=()
  hosts=()
}

echo "-- a ring of two edges and two Linux bridges"
ring=linux
{ edge 1 5001 4096 3; edge 2 5002 61440 3; } > "$work/edges.toml"
start
bridges=()
for number in 1 2; do
  linux "bridge$number" $((number * 16384))
  bridges+=("$it")
  for device in edge1 edge2; do
    tap "$it" $device
    ip -n "$it" link set $device master br0
  done
done
for number in 1 2; do
  cable 1 $number "${bridges[number - 1]}" edge1
  cable 2 $number "${bridges[number - 1]}" edge2
done
at_edge "the host at edge 1" 1 3
at_edge "the host at edge 2" 2 3
for number in 1 2; do
  at_bridge "the host at bridge $number" "${bridges[number - 1]}" leg
  ip -n "${bridges[number - 1]}" link set leg master br0
done
settled
sleep 5
talk 8
looks "at rest" 1 none
cuts "the cable from edge 1 to bridge 1" 16 1 1 "${bridges[0]}" edge1
cuts "the cable from bridge 1 to edge 2" 16 2 1 "${bridges[0]}" edge2
over

if command -v ovs-vswitchd > "$work/found"; then
  echo "-- a ring of an edge and two bridges of Open vSwitch, with a second edge behind the tunnel"
  ring=ovs
  { edge 1 5001 4096 3; edge 2 5001 4096 1; } > "$work/edges.toml"
  start
  ovs ovs
  switch=$it
  for device in up1 up2; do tap "$switch" $device; done
  ip -n "$switch" link add between1 type veth peer name between2
  for device in between1 between2; do
    unasked "$switch" $device
    ip -n "$switch" link set $device up
  done
  at_edge "the host at edge 1" 1 3
  at_edge "the host at edge 2" 2 1
  for number in 1 2; do
    at_bridge "the host at bridge $number" "$switch" leg$number
    ovs_bridge "$switch" ovs$number $((number * 16384)) up$number between$number leg$number
  done
  for number in 1 2; do cable 1 $number "$switch" up$number; done
  settled
  sleep 5
  for number in 1 2; do ovs_shows ovs$number; done
  watched=$switch
  talk 8
  looks "at rest" 1 none
  cuts "the cable from edge 1 to bridge 1" 6 1 1 "$switch" up1
  cuts "the cable from edge 1 to bridge 2" 6 1 2 "$switch" up2
  over
else
  echo "-- Open vSwitch isn't installed (openvswitch-switch): left out"
fi
end
