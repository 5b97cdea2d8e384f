#!/usr/bin/env bash
# Times an edge beside a plain Rust one on the same seeded events: nanoseconds an event at 1,000 and at 65,536 stations,
# medians and ratios.
#   bench/edge.sh [RUNS]        (default: 5)
#   COUNT=1 bench/edge.sh       counts instructions an event by callgrind in the place of time, in one round of each size, and
#                               calls on the way: clears (memset), copies (memcpy, memmove), allocations (needs valgrind)
# Needs rustc and the kit. The driver is no crate of this repository: it is proved and built in a copy of ev_edge and the
# crates below it. Checksums over every answer of the two programs have to agree.
set -eu
cd "$(dirname "$0")/.."
runs=${1:-5}
work=$(mktemp -d)
trap 'rm -rf "$work"' EXIT

# It counts one round of each size.
once() { if [ -n "${COUNT:-}" ]; then sed -i -e 's/1_000, 300)/1_000, 1)/' -e 's/65_536, 4)/65_536, 1)/' "$1"; fi; }

cp bench/edge/plain.rs "$work/plain.rs"
once "$work/plain.rs"
rustc --edition 2024 -C opt-level=3 -o "$work/plain" "$work/plain.rs"

# The copy includes the work that earlier checks kept, if any. The driver's files end in .txt here, since the gate stops
# at a Rattle file that is in none of the repository's crates.
copy=$work/copy
mkdir -p "$copy/crates"
below() { sed -n "s/^$1: //p" crates.txt; }
for crate in $(for one in ev_edge $(below ev_edge); do echo "$one" "$(below "$one")"; done | tr ' ' '\n' | sort -u); do
  [ -d "crates/$crate" ] || continue
  cp -a "crates/$crate" "$copy/crates/"
  grep "^$crate:" crates.txt >> "$copy/crates.txt"
done
(cd bench/edge/driver && find . -name '*.txt') | while read -r file; do
  install -D -m 644 "bench/edge/driver/$file" "$copy/crates/edge_bench/${file%.txt}"
done
echo 'edge_bench: ev_edge ev_tunnel route_join route_wire ether_wire rstp_state bpdu_wire arrayvec' >> "$copy/crates.txt"
once "$copy/crates/edge_bench/src/main.rt"
git init -q "$copy"
(cd "$copy/crates/edge_bench" && rt run --jobs 1) > "$work/build" 2>&1 || { tail -20 "$work/build"; exit 1; }
ours=$copy/crates/edge_bench/out/edge_bench

if [ -n "${COUNT:-}" ]; then
  # Each event's calls have a part of their own, between two looks at the clock.
  for name in ours plain; do
    program=$ours
    [ $name = ours ] || program=$work/plain
    mkdir "$work/$name.parts"
    (cd "$work/$name.parts" && valgrind --tool=callgrind '--dump-before=clock_gettime*' --callgrind-out-file=part "$program" > ../$name.said 2> /dev/null)
  done
  cmp <(grep checksum "$work/ours.said") <(grep checksum "$work/plain.said")
  python3 bench/edge_counts.py "$work/ours.parts" "$work/plain.parts"
  exit
fi

for _ in $(seq "$runs"); do
  "$ours" >> "$work/ours"
  "$work/plain" >> "$work/theirs"
done
if ! cmp -s <(grep checksum "$work/ours" | sort -u) <(grep checksum "$work/theirs" | sort -u); then
  echo "the answers differ"
  exit 1
fi

# The middle one of the runs' nanoseconds an event: of a program, a kind of event and a number of stations.
figure() {
  awk -v name="$2" -v count="$3" '$1 == name && $2 == count { print $4 / $3 }' "$work/$1" | sort -n \
    | awk '{ n[NR] = $1 } END { printf "%.0f", n[int((NR + 1) / 2)] }'
}

ratio() { awk -v a="$1" -v b="$2" 'BEGIN { printf "%.2f", a / b }'; }

echo "| event | 1,000: ours, plain (ns) | ratio | 65,536: ours, plain (ns) | ratio |"
echo "|---|---|---|---|---|"
for name in new local remote flood move take_new take_newer take_known announce; do
  few=$(figure ours "$name" 1000) many=$(figure ours "$name" 65536)
  few_plain=$(figure theirs "$name" 1000) many_plain=$(figure theirs "$name" 65536)
  echo "| $name | $few, $few_plain | $(ratio "$few" "$few_plain") | $many, $many_plain | $(ratio "$many" "$many_plain") |"
done
echo "| second | $(figure ours second 1000), | | $(figure ours second 65536), | |"
