#!/usr/bin/env bash
# Times `evpnd migrate` beside a plain Rust program on seeded streams of a quarter, a half and all of RECORDS records of versions
# 1 and 2: seconds of a processor and peak memory, medians, and their ratio.
#   bench/migrate.sh [RECORDS] [MACS] [RUNS]        (default: 1000000 100000 3)
#   COUNT=1 bench/migrate.sh ..                     counts instructions a record by callgrind in the place of seconds, in one run
#                                                   of each program (needs valgrind)
# 16 originators; one record in ten is a withdrawal; of the adverts half bear one of three IP addresses of their station, so that
# an edge's newest update about a station often replaces another address. The outputs have to agree octet for octet, notes too.
set -eu
cd "$(dirname "$0")/.."
records=${1:-1000000} macs=${2:-100000} runs=${3:-3}
work=$(mktemp -d)
trap 'rm -rf "$work"' EXIT
evpnd=${EVPND:-crates/evpnd/out/evpnd}
rustc --edition 2024 -C opt-level=3 -o "$work/plain" bench/migrate/plain.rs

python3 - "$work" "$records" "$macs" <<'PY'
import random, sys
work, records, macs = sys.argv[1], int(sys.argv[2]), int(sys.argv[3])
EDGES = 16
for part in (records // 4, records // 2, records):
    chance = random.Random(1)
    counters = [0] * EDGES
    with open(f"{work}/{part}.records", "wb") as out:
        for _ in range(part):
            edge, station, version = chance.randrange(EDGES), chance.randrange(macs), chance.randint(1, 2)
            counters[edge] += 1
            withdrawn = chance.randrange(10) == 0
            ip = b"" if withdrawn or chance.randrange(2) else bytes([10, 1 + chance.randrange(3)]) + (station % 65536).to_bytes(2, "big")
            originator, vni = bytes([10, 0, 0, edge + 1]), (5001 + station % 8).to_bytes(3, "big")
            mac = (0x020000000000 + station).to_bytes(6, "big")
            route = b"\0\1" + originator + b"\0\1" + bytes(14) + b"\x30" + mac + bytes([8 * len(ip)]) + ip + vni
            text = originator + (bytes(4) if version == 2 else b"") + counters[edge].to_bytes(8, "big") + vni + bytes([2, len(route)]) + route
            out.write(b"EV" + bytes([version, 2 if withdrawn else 1]) + len(text).to_bytes(2, "big") + text)
PY

originators=$(seq -s, -f '10.0.0.%g' 1 16)
# the words of each program
command_of() { if [ "$1" = ours ]; then echo "$evpnd" migrate --originators "$originators"; else echo "$work/plain" "$originators"; fi; }

# measure NAME PART: seconds and kilobytes of one run, by an interpreter that is smaller than the measured program
measure() {
  python3 - "$work/$2.records" "$work/$1" $(command_of "$1") <<'PY'
import resource, subprocess, sys
given, made, *command = sys.argv[1:]
with open(given, "rb") as i, open(made + ".out", "wb") as o, open(made + ".notes", "wb") as n:
    subprocess.run(command, stdin=i, stdout=o, stderr=n, check=True)
used = resource.getrusage(resource.RUSAGE_CHILDREN)
print(f"{used.ru_utime + used.ru_stime:.3f} {used.ru_maxrss}")
PY
}

# count NAME PART: instructions of one run
count() {
  valgrind --tool=callgrind --callgrind-out-file=/dev/null $(command_of "$1") < "$work/$2.records" 2>&1 > /dev/null |
    sed -n 's/.*I *refs: *//p' | tr -d ,
}

# the middle one of the numbers on standard input
median() { sort -n | awk '{ n[NR] = $1 } END { print n[int((NR + 1) / 2)] }'; }

unit=seconds
if [ -n "${COUNT:-}" ]; then runs=1 unit=instr/record; fi
printf '%10s %18s %10s %10s %10s %10s\n' records "ours $unit" plain ours/plain "ours KiB" plain
for part in $((records / 4)) $((records / 2)) "$records"; do
  rm -f "$work"/*.runs
  for _ in $(seq "$runs"); do
    for it in ours plain; do measure "$it" "$part" >> "$work/$it.runs"; done
  done
  cmp "$work/ours.out" "$work/plain.out"
  cmp "$work/ours.notes" "$work/plain.notes"
  for it in ours plain; do
    if [ -n "${COUNT:-}" ]; then
      awk -v i="$(count "$it" "$part")" -v n="$part" 'BEGIN { printf "%.0f\n", i / n }' > "$work/$it.figure"
    else
      cut -d' ' -f1 "$work/$it.runs" | median > "$work/$it.figure"
    fi
    cut -d' ' -f2 "$work/$it.runs" | median > "$work/$it.memory"
  done
  awk -v part="$part" -v a="$(cat "$work/ours.figure")" -v b="$(cat "$work/plain.figure")" -v k="$(cat "$work/ours.memory")" \
    -v l="$(cat "$work/plain.memory")" 'BEGIN { printf "%10d %18s %10s %10.2f %10d %10d\n", part, a, b, a / b, k, l }'
done
