#!/usr/bin/env bash
# usage: tests/outside/signals.sh [evpnd]        (the built program; by default the one that `rt run` leaves)
#
# Runs two edges by examples/run/evpnd-run, and serves two; ends them by SIGTERM and by SIGINT, and looks whether both reports come; starts it with
# each of the descriptors 0 to 2 closed, which it has to refuse; and has systemd-analyze look at the units, if it is installed. It
# needs no root, the UDP ports of examples/run/two_edges.toml, the socket of served.toml, and some ten seconds. It is no part of the gate.
set -u
cd "$(dirname "$0")/../.."
export EVPND=${1:-$PWD/crates/evpnd/out/evpnd}
[ -x "$EVPND" ] || { echo "this needs the built program, as word or by rt run in crates/evpnd"; exit 2; }
work=$(mktemp -d)
trap 'rm -rf "$work"' EXIT
differs=0
tell() { if [ "$2" = "$3" ]; then echo "as said: $1"; else echo "DIFFERS: $1: $2, not $3"; differs=$((differs + 1)); fi; }

for way in "TERM two_edges.toml" "INT two_edges.toml" "TERM served.toml serve" "INT served.toml serve"; do
  read -r signal file word <<< "$way"
  # bash lets no background job of a script have SIGINT: python3 gives it back
  python3 -c 'import os, signal, sys; signal.signal(signal.SIGINT, signal.SIG_DFL); os.execv(sys.argv[1], sys.argv[1:])' \
    examples/run/evpnd-run "examples/run/$file" $word < /dev/null > "$work/report" 2> "$work/notes" &
  # the edges have begun, and signals are caught, when their tunnels are there (port 4789): ten seconds at the most
  for _ in $(seq 100); do grep -q '0200007F:12B5' /proc/net/udp && break; sleep 0.1; done
  sleep 0.5
  kill -s "$signal" $!
  wait $!
  tell "SIG$way: the status is 0" $? 0
  tell "SIG$way: both reports are there" "$(grep -c '^edge [12]$' "$work/report")" 2
  tell "SIG$way: nothing is told" "$(cat "$work/notes")" ""
done

examples/run/evpnd-run examples/run/two_edges.toml <&- > "$work/out" 2> "$work/notes"
tell "descriptor 0 closed: the status is 4" $? 4
tell "descriptor 0 closed: that is told" "$(cat "$work/notes")" "error: descriptor 0 is closed"
examples/run/evpnd-run examples/run/two_edges.toml < /dev/null >&- 2> "$work/notes"
tell "descriptor 1 closed: the status is 4" $? 4
tell "descriptor 1 closed: that is told" "$(cat "$work/notes")" "error: descriptor 1 is closed"
examples/run/evpnd-run examples/run/two_edges.toml < /dev/null > "$work/out" 2>&-
tell "descriptor 2 closed: the status is 4" $? 4

if command -v systemd-analyze > "$work/found"; then
  for unit in examples/run/evpnd.service examples/fabric/evpnd-serve.service examples/fabric/evpnd-bgp.service examples/fabric/evpnd-bgp2.service; do
    sed -e 's#/usr/local/bin/evpnd-run#/bin/true#' -e 's#/usr/bin/evpnd-bgp#/bin/true#' $unit > "$work/${unit##*/}"
    systemd-analyze verify "$work/${unit##*/}" > "$work/verified" 2>&1
    tell "systemd reads $unit" "$? $(cat "$work/verified")" "0 "
  done
else
  echo "not tried: systemd-analyze isn't here"
fi
if [ "$differs" = 0 ]; then echo ok; else echo "$differs differed"; exit 1; fi
