#!/usr/bin/env bash
# Times the updates between running edges: a million updates from one edge's worker to three others, without frames. Prints the
# updates a second and the microseconds of processor time for each delivery, each the middle one of the runs.
#   bench/records.sh [RUNS]        (default: 5)
# Needs the kit. The driver is no crate of this repository: tools/try builds it, without a proof, in a copy.
set -eu
cd "$(dirname "$0")/.."
runs=${1:-5}
work=$(mktemp -d)
trap 'rm -rf "$work"' EXIT

git ls-files -z -- HANDLES crates crates.txt tools | xargs -0 cp --parents -t "$work"
install -D -m 644 bench/records/main.rt.txt "$work/crates/records_bench/src/main.rt"
echo "records_bench: $(sed -n 's/^ev_mailboxes: //p' crates.txt) ev_mailboxes" >> "$work/crates.txt"
git init -q "$work"
driver=$(cd "$work" && tools/try --fast --build records_bench)

TIMEFORMAT='%U %S'
for _ in $(seq "$runs"); do
  { time "$driver" >> "$work/milliseconds"; } 2>> "$work/seconds"
done
middle() { sort -n | awk '{ n[NR] = $1 } END { print n[int((NR + 1) / 2)] }'; }
echo "updates a second: $(middle < "$work/milliseconds" | awk '{ printf "%.0f", 1e9 / $1 }')"
echo "microseconds of processor time a delivery: $(awk '{ print ($1 + $2) / 3 }' "$work/seconds" | middle)"
