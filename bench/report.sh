#!/usr/bin/env bash
# Times `evpnd report` beside three plain Rust programs on the same seeded streams: seconds, peak memory, ratios of medians.
#   bench/report.sh [RECORDS] [MACS] [RUNS]        (default: 1000000 100000 5; 0 MACS: each record is the advert of another one;
#                                                `one`: all are adverts of one MAC, each with another IPv6 address)
#   COUNT=1 bench/report.sh ..                     counts instructions by callgrind in the place of seconds, in one run (needs valgrind)
# Needs rustc and the kit. Octet for octet the outputs have to agree, notes too.
set -eu
cd "$(dirname "$0")/.."
records=${1:-1000000} macs=${2:-100000} runs=${3:-5}
work=$(mktemp -d)
trap 'rm -rf "$work"' EXIT
evpnd=${EVPND:-crates/evpnd/out/evpnd}

rustc --edition 2024 -O -o "$work/generate" bench/report/generate.rs
rustc --edition 2024 -C opt-level=3 -o "$work/plain" bench/report/plain.rs
[ -x "$evpnd" ] || (cd crates/evpnd && rt run -- report --originators 10.0.0.1 < stdin > /dev/null)
originators=$(seq -s, -f '10.0.0.%g' 1 16)
"$work/generate" "$records" "$macs" 1 > "$work/stream"

# *Ordered* keeps the addresses of one MAC in one sorted list: with many of them it would take minutes.
names="ours ordered flat map"
[ "$macs" != one ] || names="ours flat map"

# the words of each program
command_of() {
  case $1 in
    ours) echo "$evpnd" report --originators "$originators" ;;
    *) echo "$work/plain" "$1" "$originators" ;;
  esac
}

# seconds and kilobytes of one run, by an interpreter that is smaller than the measured program
measure() {
  python3 - "$work/$1" "$work/stream" $(command_of "$1") <<'PY'
import resource, subprocess, sys, time
out, input_file, *command = sys.argv[1:]
with open(input_file, "rb") as i, open(out + ".out", "wb") as o, open(out + ".notes", "wb") as n:
    start = time.monotonic()
    status = subprocess.run(command, stdin=i, stdout=o, stderr=n).returncode
    seconds = time.monotonic() - start
print(f"{seconds:.3f} {resource.getrusage(resource.RUSAGE_CHILDREN).ru_maxrss} {status}")
PY
}

# instructions of one run
count() {
  valgrind --tool=callgrind --callgrind-out-file=/dev/null $(command_of "$1") < "$work/stream" 2>&1 > /dev/null |
    sed -n 's/.*I *refs: *//p' | tr -d ,
}

# the middle one of the numbers on standard input
median() { sort -n | awk '{ n[NR] = $1 } END { print n[int((NR + 1) / 2)] }'; }

for _ in $(seq "$runs"); do
  for name in $names; do measure "$name" >> "$work/$name.runs"; done
done
for name in ${names#ours }; do
  cmp "$work/ours.out" "$work/$name.out"
  cmp "$work/ours.notes" "$work/$name.notes"
done
for name in $names; do
  if [ -n "${COUNT:-}" ]; then
    printf '%s\n' "$(count "$name")" > "$work/$name.figure"
  else
    cut -d' ' -f1 "$work/$name.runs" | median > "$work/$name.figure"
  fi
  cut -d' ' -f2 "$work/$name.runs" | median > "$work/$name.memory"
  awk -v name="$name" -v r="$records" -v m="$macs" -v f="$(cat "$work/$name.figure")" -v o="$(cat "$work/ours.figure")" \
    -v k="$(cat "$work/$name.memory")" -v c="${COUNT:-}" 'BEGIN {
      printf "%-8s %d records, MACs %s: ", name, r, m
      if (c) printf "%d instructions a record", f / r; else printf "%.3f s", f
      printf ", peak %d KiB; ours takes %.2f times that\n", k, o / f }'
done
