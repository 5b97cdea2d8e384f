#!/usr/bin/env bash
# Times the learning table beside a plain Rust one (std's HashMap and lists by index) on the same seeded calls:
# nanoseconds a call at 1,000 and at 65,536 stations, medians and ratios.
#   bench/learning.sh [RUNS]        (default: 5)
# Needs rustc and the kit. The driver is no crate of this repository: it is proved and built in a copy of the three
# crates below it. Checksums over every answer of the two programs have to agree.
set -eu
cd "$(dirname "$0")/.."
runs=${1:-5}
work=$(mktemp -d)
trap 'rm -rf "$work"' EXIT

rustc --edition 2024 -C opt-level=3 -o "$work/plain" bench/learning/plain.rs

# The copy includes the work that earlier checks kept, if any. The driver's files end in .txt here, since the gate stops
# at a Rattle file that is in none of the repository's crates.
copy=$work/copy
mkdir -p "$copy/crates"
for crate in ether_wire idx_links mac_arena; do
  cp -a "crates/$crate" "$copy/crates/"
  grep "^$crate:" crates.txt >> "$copy/crates.txt"
done
(cd bench/learning/driver && find . -name '*.txt') | while read -r file; do
  install -D -m 644 "bench/learning/driver/$file" "$copy/crates/learning_bench/${file%.txt}"
done
echo 'learning_bench: mac_arena ether_wire' >> "$copy/crates.txt"
git init -q "$copy"
(cd "$copy/crates/learning_bench" && rt run --jobs 1) > "$work/build" 2>&1 || { tail -20 "$work/build"; exit 1; }
ours=$copy/crates/learning_bench/out/learning_bench

for _ in $(seq "$runs"); do
  "$ours" >> "$work/ours"
  "$work/plain" >> "$work/theirs"
done
if ! cmp -s <(grep checksum "$work/ours" | sort -u) <(grep checksum "$work/theirs" | sort -u); then
  echo "the answers differ"
  exit 1
fi

# The middle one of the runs' nanoseconds a call: of a program, a kind of call and a number of stations.
figure() {
  awk -v name="$2" -v count="$3" '$1 == name && $2 == count { print $4 / $3 }' "$work/$1" | sort -n \
    | awk '{ n[NR] = $1 } END { printf "%.1f", n[int((NR + 1) / 2)] }'
}

ratio() { awk -v a="$1" -v b="$2" 'BEGIN { printf "%.2f", a / b }'; }

echo "| call | 1,000: ours, plain (ns) | ratio | 65,536: ours, plain (ns) | ratio | 65,536 / 1,000: ours, plain |"
echo "|---|---|---|---|---|---|"
for name in new refresh move look remove; do
  few=$(figure ours "$name" 1000) many=$(figure ours "$name" 65536)
  few_plain=$(figure theirs "$name" 1000) many_plain=$(figure theirs "$name" 65536)
  echo "| $name | $few, $few_plain | $(ratio "$few" "$few_plain") | $many, $many_plain | $(ratio "$many" "$many_plain")" \
    "| $(ratio "$many" "$few"), $(ratio "$many_plain" "$few_plain") |"
done
