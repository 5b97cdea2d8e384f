# Sourced by the scripts here that need Linux, root and network namespaces: namespaces, hosts, bridges, relays and a running evpnd.
# Namespaces, folders, processes and the loopback device with its ports are only this run's, and go with it. EVPND names the
# program; by default it is the one that `rt run` leaves.
outside=$(cd "$(dirname "${BASH_SOURCE[0]}")" && pwd)
evpnd=${EVPND:-$outside/../../crates/evpnd/out/evpnd}
words=("$@")
work=$(mktemp -d)
spaces=()
pids=()
relays=()
differs=0

clean() {
  local it
  for it in "${pids[@]}"; do kill "$it" 2> "$work/ignored" && wait "$it" 2> "$work/ignored"; done
  for it in "${spaces[@]}"; do ip netns del "$it"; done
  rm -rf "$work"
}
trap clean EXIT
trap 'exit 1' INT TERM HUP

# needs COMMAND..: ends the run where one of them isn't there; else it goes on in a network namespace without a name
needs() {
  local it
  for it in "$@"; do command -v "$it" > "$work/found" || { echo "this needs $it"; exit 2; }; done
  [ "$(id -u)" = 0 ] || { echo "this needs root"; exit 2; }
  [ -x "$evpnd" ] || { echo "this needs the built program: EVPND, or rt run in crates/evpnd"; exit 2; }
  [ -n "${APART-}" ] || { rm -rf "$work"; APART=yes exec unshare --net bash "$0" "${words[@]}"; }
  ip link set lo up
}

# space NAME: a network namespace of this run, with its loopback up; sets `it` to its full name
space() {
  it=evpnd-$$-$1
  ip netns add "$it"
  spaces+=("$it")
  ip -n "$it" link set lo up
}

# unasked NETNS DEVICE: without IPv6 at the device nothing speaks unasked
unasked() { ip netns exec "$1" sysctl -qw "net.ipv6.conf.$2.disable_ipv6=1"; }

# tap NETNS DEVICE: a tap device that outlives its relays
tap() {
  ip -n "$1" tuntap add dev "$2" mode tap
  unasked "$1" "$2"
  ip -n "$1" link set "$2" mtu 1450 up
}

# device_host NAME DEVICE ADDRESS MAC: a namespace with a tap device of this name; sets `it`
device_host() {
  space "$1"
  tap "$it" "$2"
  ip -n "$it" link set "$2" address "$4"
  ip -n "$it" address add "$3/24" dev "$2"
}

# host NAME ADDRESS MAC: a namespace with a tap device, for a cable to an edge; sets `it`
host() { device_host "$1" eth "$2" "$3"; }

# leaf NAME ADDRESS MAC NETNS DEVICE: a namespace with a cable to a new device, for a bridge, in another one; sets `it`
leaf() {
  space "$1"
  ip -n "$4" link add "$5" type veth peer name eth netns "$it"
  unasked "$4" "$5"
  unasked "$it" eth
  ip -n "$it" link set eth address "$3" up
  ip -n "$it" address add "$2/24" dev eth
  ip -n "$4" link set "$5" up
}

# linux NAME PRIORITY: a namespace with Linux's bridge br0 of this priority, with the quickest timers; sets `it`
linux() {
  space "$1"
  ip -n "$it" link add br0 type bridge stp_state 1 priority "$2" hello_time 100 max_age 600 forward_delay 400
  unasked "$it" br0
  ip -n "$it" link set br0 up
}

# ovs NAME: a namespace with Open vSwitch, of this run's own, for bridges by `ovs_bridge`; sets `it`
ovs() {
  space "$1"
  export OVS_RUNDIR=$work/ovs OVS_LOGDIR=$work/ovs OVS_DBDIR=$work/ovs
  mkdir "$work/ovs"
  ovsdb-tool create "$work/ovs/conf.db" /usr/share/openvswitch/vswitch.ovsschema
  ip netns exec "$it" ovsdb-server "$work/ovs/conf.db" --remote="punix:$work/ovs/db.sock" 2> "$work/ovs/server" 7>&- &
  pids+=($!)
  sleep 1
  ovs-vsctl --db="unix:$work/ovs/db.sock" --no-wait init
  ip netns exec "$it" ovs-vswitchd "unix:$work/ovs/db.sock" --unixctl="$work/ovs/ctl" 2> "$work/ovs/switch" 7>&- &
  pids+=($!)
}

# ovs_bridge NETNS NAME PRIORITY DEVICE..: a bridge with RSTP and these devices as its ports
ovs_bridge() {
  local netns=$1 name=$2 priority=$3 device words=()
  shift 3
  for device in "$@"; do words+=(-- add-port "$name" "$device"); done
  ovs-vsctl --db="unix:$work/ovs/db.sock" -t 20 add-br "$name" -- set bridge "$name" datapath_type=netdev rstp_enable=true \
    other_config:rstp-priority="$priority" other_config:rstp-max-age=6 other_config:rstp-forward-delay=4 "${words[@]}"
  unasked "$netns" "$name"
  ip -n "$netns" link set "$name" up
}

# ovs_shows NAME: the spanning tree of the bridge, as it shows it
ovs_shows() { ovs-appctl -t "$work/ovs/ctl" rstp/show "$1" | sed -n '/Interface/,$p'; }

# plug NETNS DEVICE HERE THERE: a cable from the device to an edge's port
plug() {
  python3 "$outside/tap_relay.py" "$@" 2> "$work/relay-$2" 7>&- &
  pids+=($!)
  relays[$!]="$1 $2"
  local wait
  for wait in $(seq 50); do
    [ -n "$(ip -n "$1" link show dev "$2" up 2> "$work/ignored" | grep LOWER_UP)" ] && return
    sleep 0.1
  done
  echo "no cable at $2: $(cat "$work/relay-$2")"
  exit 1
}

# unplug NETNS DEVICE: takes the cable out of the device
unplug() {
  local it
  for it in "${!relays[@]}"; do
    [ "${relays[$it]}" = "$1 $2" ] || continue
    kill "$it" 2> "$work/ignored"
    wait "$it" 2> "$work/ignored"
    unset "relays[$it]"
  done
}

# once FROM TO COUNT: COUNT broadcasts from a host's device come to another's exactly once
once() {
  : > "$work/count"
  ip netns exec "$2" python3 "$outside/bridge_probe.py" count eth 3 > "$work/count" 7>&- &
  local counting=$!
  for _ in $(seq 100); do grep -q ready "$work/count" && break; sleep 0.1; done
  ip netns exec "$1" python3 "$outside/bridge_probe.py" send eth "$3"
  wait "$counting"
  echo "of $3 broadcasts came, and were new: $(tail -n 1 "$work/count")"
  [ "$(tail -n 1 "$work/count")" = "$3 $3" ]
}

# start [COMMAND..]: evpnd on $work/edges.toml, after these words, until `stop`
start() {
  mkfifo "$work/input"
  "$@" "$evpnd" run --config "$work/edges.toml" < "$work/input" > "$work/report" 2> "$work/notes" &
  running=$!
  pids+=("$running")
  exec 7> "$work/input"
  sleep 0.5
  kill -0 "$running" || { echo "evpnd doesn't run: $(cat "$work/notes")"; exit 1; }
}

# stop: ends evpnd's input, and waits for its report; sets `status`
stop() {
  exec 7>&-
  status=0
  wait "$running" || status=$?
  local it
  for it in "${!pids[@]}"; do [ "${pids[$it]}" = "$running" ] && unset "pids[$it]"; done
  rm "$work/input"
  echo "evpnd ended with status $status and said:"
  cat "$work/report" "$work/notes"
}

# tell WHAT CONDITION..: prints whether the condition holds
tell() {
  local what=$1
  shift
  if "$@" > "$work/told" 2>&1; then
    echo "as said: $what"
  else
    echo "DIFFERS: $what"
    head -c 1000 "$work/told"
    differs=$((differs + 1))
  fi
}

# end: the last line
end() {
  if [ "$differs" = 0 ]; then echo ok; else echo "$differs differed"; fi
  [ "$differs" = 0 ]
}
