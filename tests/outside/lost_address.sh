#!/usr/bin/env bash
# usage: tests/outside/lost_address.sh [evpnd]        (the built program; by default the one that `rt run` leaves)
#
# Runs two edges in a network namespace, takes the address of a tunnel or of a port away while they run, and closes their input: the
# run has to end within three seconds. It tries the address of a tunnel, that of a port, both, and for served edges both and the whole
# device. It needs root, iproute2 and some twenty seconds. It is no part of the gate.
set -u
cd "$(dirname "$0")/../.."
EVPND=${1:-$PWD/crates/evpnd/out/evpnd}
[ -x "$EVPND" ] || { echo "this needs the built program, as word or by rt run in crates/evpnd"; exit 2; }
work=$(mktemp -d)
space=evpnd-lost-$$
trap 'ip netns del $space 2> "$work/ended"; rm -rf "$work"' EXIT
differs=0
tell() { if [ "$2" = "$3" ]; then echo "as said: $1"; else echo "DIFFERS: $1: $2, not $3"; differs=$((differs + 1)); fi; }

edge() { # NUMBER TUNNEL PORT: an edge with a port
  printf '[[edge]]\naddress = "%s"\nbridge = "02:aa:00:00:00:0%s"\nvnis = [5001]\n' "$2" "$1"
  printf '[[edge.port]]\nvni = 5001\nadmin_edge = true\nlocal = "%s:20001"\nremote = "127.0.0.1:3000%s"\n' "$3" "$1"
}
edge 1 10.77.0.1 10.77.0.2 > "$work/edges"
edge 2 127.0.0.2 127.0.0.3 >> "$work/edges"
{ echo "control = \"$work/control\""; cat "$work/edges"; } > "$work/served"

lose() { # WHAT WORD FILE COMMAND..: what is lost, by this command of ip in the namespace, while `evpnd WORD --config FILE` runs
  local what=$1 word=$2 file=$3
  shift 3
  ip netns add $space
  ip -n $space link set lo up
  ip -n $space address add 10.77.0.1/32 dev lo
  ip -n $space address add 10.77.0.2/32 dev lo
  mkfifo "$work/input"
  ip netns exec $space "$EVPND" "$word" --config "$file" < "$work/input" > "$work/report" 2> "$work/notes" &
  exec 9> "$work/input"
  for _ in $(seq 100); do ip netns exec $space grep -q '0200007F:12B5' /proc/net/udp && break; sleep 0.1; done
  sleep 1
  tell "$word, $what: it runs before" "$(kill -0 $! && echo runs)" runs
  ip -n $space "$@"
  sleep 1
  exec 9>&-
  for _ in $(seq 30); do kill -0 $! 2> "$work/ended" || break; sleep 0.1; done
  if kill -KILL $! 2> "$work/ended"; then tell "$word, $what: it ends within three seconds" no yes; fi
  wait $! 2> "$work/ended"
  tell "$word, $what: both reports are there" "$(grep -c '^edge [12]$' "$work/report")" 2
  rm "$work/input"
  ip netns del $space
}

lose "the tunnel's address" run "$work/edges" address del 10.77.0.1/32 dev lo
lose "the port's address" run "$work/edges" address del 10.77.0.2/32 dev lo
lose "both addresses" run "$work/edges" address flush dev lo to 10.77.0.0/24
lose "both addresses" serve "$work/served" address flush dev lo to 10.77.0.0/24
lose "all addresses" serve "$work/served" link set lo down
if [ "$differs" = 0 ]; then echo ok; else echo "$differs differed"; exit 1; fi
