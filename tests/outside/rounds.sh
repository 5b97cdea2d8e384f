#!/usr/bin/env bash
# usage: tests/outside/rounds.sh [STATIONS] [ROUNDS]          (default: 20,000 stations, 20 rounds)
#
# Needs Linux, root, iproute2 and python3; takes some 20 seconds a round, and little of a processor. It is no part of the gate.
#
# Stations that stay, at one of two edges which forget after ten seconds. In each round each station speaks once, and then none does
# until all are forgotten: so each is advertised and withdrawn once a round, at both edges. After each round the memory of the process is
# looked at (VmRSS). After the last one it may be a twentieth above that after the second one, for memory that the system's allocator
# leaves here and there. An edge that kept each update was seen to grow by 6 MB a round.
set -u
. "$(dirname "$0")/lab.sh"
needs ip python3
stations=${1-20000}
rounds=${2-20}
speaking=6

for number in 1 2; do
  cat << TOML
[[edge]]
address = "127.0.0.$number"
bridge = "02:aa:00:00:00:0$number"
vnis = [5001]
ageing = 10
capacity = 32768
[[edge.port]]
vni = 5001
admin_edge = true
stations = 65536
new_stations = 4294967295
local = "127.0.0.$number:20001"
remote = "127.0.0.$number:30001"
TOML
done > "$work/edges.toml"

start
after=()
for number in $(seq "$rounds"); do
  python3 "$outside/port_probe.py" stations 127.0.0.1:30001 127.0.0.1:20001 "$stations" "$speaking" 7>&-
  # the last one that has spoken is forgotten ten to eleven seconds later, and then the other edge hears of it
  sleep 13
  after+=("$(awk '/^VmRSS/ { print $2 }' "/proc/$running/status")")
  echo "round $number: ${after[-1]} KiB"
done
stop > "$work/stopped"
# (a busy machine's system drops datagrams at a socket that is full, and the run tells how many)
tell "its status is 0, and it lost nothing itself" [ "$status $(grep -v 'datagrams dropped by the system$' "$work/notes")" = "0 " ]

# an edge counts its updates: each advert, each withdrawal and its flood line
said=$(awk '$1 == "mac" && $5 > most { most = $5 } END { print most + 0 }' "$work/report")
known=$(grep -c '^mac ' "$work/report")
echo "$known registers, $said things said; $((2 * stations)) and $((2 * stations * rounds + 1)) where each frame came"
tell "nearly all stations were heard in nearly all rounds" [ "$said" -gt $((2 * stations * rounds / 10 * 9)) ]
tell "after the last round ${after[-1]} KiB are at most a twentieth above ${after[1]}" [ "${after[-1]}" -le $((after[1] + after[1] / 20)) ]
end
