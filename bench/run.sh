#!/usr/bin/env bash
# Times `evpnd run` beside plain Rust edges with the same threads, sockets and lock: frames a second over loopback sockets, from
# port to port of one edge and from edge to edge, the microseconds of processor time a frame, and the share of it that was the
# system's. Medians and ratios. It also measures a program that receives and sends each frame without an edge, from port to port:
# the system's calls alone.
#   bench/run.sh [RUNS] [FRAMES] [WINDOW]        (default: 15 60000 64)
# Needs rustc, python3 and the built program (EVPND). So many frames are under way at once; both programs are measured in turn. Single
# runs of a row can differ by a factor of 5, so a median of few runs says little.
set -eu
cd "$(dirname "$0")/.."
runs=${1:-15} frames=${2:-60000} window=${3:-64}
evpnd=${EVPND:-crates/evpnd/out/evpnd}
work=$(mktemp -d)
running=
clean() {
  if [ -n "$running" ]; then kill "$running" 2> "$work/ignored" || true; fi
  rm -rf "$work"
}
trap clean EXIT

for it in plain calls load; do rustc --edition 2024 -C opt-level=3 -o "$work/$it" "bench/run/$it.rs"; done
one=127.0.0.1 two=127.0.0.2
python3 - "$one" "$two" > "$work/edges.toml" << 'PY'
import sys
for number, address in enumerate(sys.argv[1:], 1):
    print(f'[[edge]]\naddress = "{address}"\nbridge = "02:aa:00:00:00:0{number}"\nvnis = [5001]')
    for port in (1, 2):
        print(f'[[edge.port]]\nvni = 5001\nadmin_edge = true\nlocal = "{address}:2000{port}"\nremote = "{address}:3000{port}"')
PY
mkfifo "$work/input"

# begin COMMAND..: it runs until `finish`
begin() {
  "$@" < "$work/input" > "$work/report" &
  running=$!
  exec 7> "$work/input"
  sleep 1
}

finish() {
  exec 7>&-
  wait "$running"
  running=
}

# measure NAME WAY..: these ways at three lengths
measure() {
  local name=$1 way size there
  shift
  for size in 64 500 1400; do
    for way; do
      if [ "$way" = port-to-port ]; then there="$one:30002 $one:20002"; else there="$two:30001 $two:20001"; fi
      echo "$way $size $("$work/load" "$running" $one:30001 $one:20001 $there "$frames" "$size" "$window" 7>&-)" >> "$work/times-$name"
    done
  done
}

for _ in $(seq "$runs"); do
  begin "$evpnd" run --config "$work/edges.toml"
  measure ours port-to-port edge-to-edge
  finish
  begin "$work/plain" "$one;$one:20001=$one:30001;$one:20002=$one:30002" "$two;$two:20001=$two:30001;$two:20002=$two:30002"
  measure plain port-to-port edge-to-edge
  finish
  begin "$work/calls" "$one:20001=$one:30001" "$one:20002=$one:30002"
  measure calls port-to-port
  finish
done

# figure FILE WAY SIZE COLUMN: the middle one of the runs
figure() {
  awk -v way="$2" -v size="$3" -v column="$4" '$1 == way && $2 == size { print $column }' "$work/times-$1" | sort -n | awk '{ n[NR] = $1 } END { print n[int((NR + 1) / 2)] }'
}

# ratio NUMBER NUMBER
ratio() { awk -v a="$1" -v b="$2" 'BEGIN { printf "%.2f", a / b }'; }

echo "| way | octets | ours (frames/s) | plain | ours / plain | ours (µs a frame) | plain | plain / ours | the system's share: ours, plain (%) |"
echo "|---|---|---|---|---|---|---|---|---|"
for way in port-to-port edge-to-edge; do
  for size in 64 500 1400; do
    ours=$(figure ours $way $size 3) plain=$(figure plain $way $size 3)
    time=$(figure ours $way $size 5) time_plain=$(figure plain $way $size 5)
    echo "| $way | $size | $ours | $plain | $(ratio "$ours" "$plain") | $time | $time_plain | $(ratio "$time_plain" "$time") |" \
      "$(figure ours $way $size 6), $(figure plain $way $size 6) |"
  done
done
for size in 64 500 1400; do
  echo "the system's calls alone, $size octets: $(figure calls port-to-port $size 3) frames/s, $(figure calls port-to-port $size 5) µs a frame"
done
echo "lost in all runs: ours $(awk '{ n += $4 } END { print n }' "$work/times-ours"), plain $(awk '{ n += $4 } END { print n }' "$work/times-plain")"
