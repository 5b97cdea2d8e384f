#!/usr/bin/env bash
# Runs the tests that are too long for the gate: a million calls of eight threads on one book, whose counts have to be exact and whose
# journal has to replay to the same report before and after it is compacted; and compacts journals of 10,000 and of 100,000
# updates, and prints the time of each. Then it measures the memory of a book, each in a process of its own: UPDATES updates of 1,000
# registers have to fit in what 4,000 registers take, and 20 rounds of 20,000 stations in what two took.
#   bench/book.sh [UPDATES]        (default: 10,000,000)
# Needs the kit. It is no crate of this repository and proves nothing: its tests are built beside those of ev_book, without the
# checks that `rt try` makes, whose allocator keeps what was freed (tools/try --fast). With a kit that builds checked programs
# only, it prints so, and the runs that compare memory are left out.
set -euo pipefail
cd "$(dirname "$0")/.."
updates=${1-10000000}
work=$(mktemp -d)
trap 'rm -rf "$work"' EXIT
sed "s/^const UPDATES: u64 = .*;/const UPDATES: u64 = $updates;/" bench/book/tests/long.rt.txt > "$work/long.rt"
tools/try --fast --tests ev_book "$work/long.rt" "$work/long"

run() {
  echo "-- $1"
  "$work/long" "tests::long::$1" | tee "$work/said"
}
run eight_threads_make_a_million_calls
run compacting_grows_with_the_journal
if grep -q __asan_ "$work/long"; then
  echo "-- not run: the memory of a book, since this program is a checked one"
  exit
fi
run many_updates_of_1000_registers
many=$(sed -n 's/ KiB for .*//p' "$work/said")
run one_update_of_4000_registers
few=$(sed -n 's/ KiB for .*//p' "$work/said")
run rounds_of_20000_stations_take_no_more_memory
[ "$many" -le "$few" ] || { echo "$updates updates of 1,000 registers took $many KiB, not at most $few"; exit 1; }
