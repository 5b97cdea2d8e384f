#!/usr/bin/env bash
# Times the workers of two edges over links in memory, without sockets, beside plain Rust edges with the same threads, channels,
# links and lock: frames a second from port to port of one edge and from edge to edge, and the share of the programs' time that
# was the system's. Medians and ratios. It also prints how many frames a thread passes from one of our channels to another,
# without an edge, beside the plain edge's from port to port.
#   bench/run_memory.sh [RUNS]        (default: 5)
# Needs rustc and the kit. The driver is no crate of this repository: it is proved and built in a copy of ev_peers and the
# crates below it. It measures both programs in turn; if OURS names a built driver, it takes that one.
set -eu
cd "$(dirname "$0")/.."
runs=${1:-5}
work=$(mktemp -d)
trap 'rm -rf "$work"' EXIT

rustc --edition 2024 -C opt-level=3 -o "$work/plain" bench/run_memory/plain.rs

# The copy includes the work that earlier checks kept, if any. The driver's files end in .txt here, since the gate stops
# at a Rattle file that is in none of the repository's crates.
below() { sed -n "s/^$1\( [^:]*\)\{0,1\}: //p" crates.txt; }
build() {
  local copy=$work/copy crate
  mkdir -p "$copy/crates"
  cp HANDLES "$copy/"
  for crate in $(for one in ev_peers $(below ev_peers); do echo "$one" "$(below "$one")"; done | tr ' ' '\n' | sort -u); do
    [ -d "crates/$crate" ] || continue
    cp -a "crates/$crate" "$copy/crates/"
    grep -E "^$crate( [^:]*)?:" crates.txt >> "$copy/crates.txt"
  done
  (cd bench/run_memory/driver && find . -name '*.txt') | while read -r file; do
    install -D -m 644 "bench/run_memory/driver/$file" "$copy/crates/run_bench/${file%.txt}"
  done
  echo 'run_bench: ev_book logbook ev_peers ev_mailboxes ev_links ev_edge route_join ether_wire rstp_state bpdu_wire crossbeam_channel arrayvec' >> "$copy/crates.txt"
  git init -q "$copy"
  (cd "$copy/crates/run_bench" && rt run --jobs 1) > "$work/build" 2>&1 || { tail -20 "$work/build"; exit 1; }
  ours=$copy/crates/run_bench/out/run_bench
}
ours=${OURS:-}
if [ -z "$ours" ]; then build; fi

TIMEFORMAT='%U %S'
for _ in $(seq "$runs"); do
  { time "$ours" >> "$work/times-ours"; } 2>> "$work/shares-ours"
  { time "$work/plain" >> "$work/times-plain"; } 2>> "$work/shares-plain"
done

# figure PROGRAM WAY SIZE: the middle one of the runs' frames a second
figure() {
  awk -v way="$2" -v size="$3" '$1 == way && $2 == size { printf "%.0f\n", $3 * 1e9 / $4 }' "$work/times-$1" | sort -n \
    | awk '{ n[NR] = $1 } END { print n[int((NR + 1) / 2)] }'
}

# seconds PROGRAM, share PROGRAM: the seconds of processor time of all its runs, and how much of that was the system's
seconds() { awk '{ all += $1 + $2 } END { printf "%.1f", all }' "$work/shares-$1"; }
share() { awk '{ all += $1 + $2; kernel += $2 } END { printf "%.0f", 100 * kernel / all }' "$work/shares-$1"; }

echo "| way | octets | ours (frames/s) | plain | ratio |"
echo "|---|---|---|---|---|"
for way in port-to-port edge-to-edge; do
  for size in 64 500 1400; do
    ours=$(figure ours $way $size) plain=$(figure plain $way $size)
    echo "| $way | $size | $ours | $plain | $(awk -v a="$ours" -v b="$plain" 'BEGIN { printf "%.2f", a / b }') |"
  done
done
for size in 64 500 1400; do
  ours=$(figure ours channels $size) plain=$(figure plain port-to-port $size)
  echo "| our channels alone | $size | $ours | $plain | $(awk -v a="$ours" -v b="$plain" 'BEGIN { printf "%.2f", a / b }') |"
done
ours=$(seconds ours) plain=$(seconds plain)
echo "processor time of all runs: ours $ours s, plain $plain s, ratio $(awk -v a="$ours" -v b="$plain" 'BEGIN { printf "%.2f", b / a }')"
echo "of that the system's: ours $(share ours) %, plain $(share plain) %"
