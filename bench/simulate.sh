#!/usr/bin/env bash
# Times `evpnd simulate` beside a plain Rust program on seeded scripts for 8 edges, of a quarter, a half and all of LINES lines:
# seconds of a processor and peak memory, medians, and their ratio.
#   bench/simulate.sh [LINES] [RUNS]        (default: 1000000 3)
#   COUNT=1 bench/simulate.sh ..            counts instructions a line by callgrind in the place of seconds, in one run of each
#                                           program (needs valgrind)
# Of 20 lines about 8 are frames from 4,000 stations that move now and then, 6 deliveries, 5 announcements, 1 a second. The
# outputs have to agree octet for octet, notes too.
set -eu
cd "$(dirname "$0")/.."
lines=${1:-1000000} runs=${2:-3}
work=$(mktemp -d)
trap 'rm -rf "$work"' EXIT
evpnd=${EVPND:-crates/evpnd/out/evpnd}
rustc --edition 2024 -C opt-level=3 -o "$work/plain" bench/simulate/plain.rs

python3 - "$work" "$lines" <<'PY'
import random, sys
work, lines = sys.argv[1], int(sys.argv[2])
EDGES, STATIONS = 8, 4000
with open(f"{work}/edges.toml", "w") as out:
    for e in range(1, EDGES + 1):
        out.write(f'[[edge]]\naddress = "10.0.0.{e}"\nbridge = "02:aa:00:00:00:{e:02x}"\nvnis = [5001]\ncapacity = 8192\n')
        out.write("[[edge.port]]\nvni = 5001\nadmin_edge = true\nstations = 65536\nnew_stations = 4294967295\n")
for part in (lines // 4, lines // 2, lines):
    chance = random.Random(1)
    announced = 1
    with open(f"{work}/{part}.script", "w") as out:
        out.write("".join(f"{e} up 1\n" for e in range(1, EDGES + 1)))
        for _ in range(part - EDGES):
            e, kind = chance.randint(1, EDGES), chance.randrange(20)
            if kind < 8:
                station = chance.randrange(STATIONS)
                home = station % EDGES + 1 if chance.randrange(50) else e
                other = chance.randrange(STATIONS)
                out.write(f"{home} frame 1 02000001{other:04x}02000001{station:04x}0800\n")
            elif kind < 14:
                out.write(f"{e} deliver {chance.randint(1, announced)}\n")
            elif kind < 19:
                out.write(f"{e} announce\n")
                announced += chance.randrange(2)
            else:
                out.write(f"{e} second 1\n")
PY

# the words of each program
command_of() { if [ "$1" = ours ]; then echo "$evpnd" simulate --config "$work/edges.toml"; else echo "$work/plain" 8; fi; }

# measure NAME PART: seconds and kilobytes of one run, by an interpreter that is smaller than the measured program
measure() {
  python3 - "$work/$2.script" "$work/$1" $(command_of "$1") <<'PY'
import resource, subprocess, sys
given, made, *command = sys.argv[1:]
with open(given, "rb") as i, open(made + ".out", "wb") as o, open(made + ".notes", "wb") as n:
    subprocess.run(command, stdin=i, stdout=o, stderr=n, check=True)
used = resource.getrusage(resource.RUSAGE_CHILDREN)
print(f"{used.ru_utime + used.ru_stime:.3f} {used.ru_maxrss}")
PY
}

# count NAME PART: instructions of one run
count() {
  valgrind --tool=callgrind --callgrind-out-file=/dev/null $(command_of "$1") < "$work/$2.script" 2>&1 > /dev/null |
    sed -n 's/.*I *refs: *//p' | tr -d ,
}

# the middle one of the numbers on standard input
median() { sort -n | awk '{ n[NR] = $1 } END { print n[int((NR + 1) / 2)] }'; }

unit=seconds
if [ -n "${COUNT:-}" ]; then runs=1 unit=instr/line; fi
printf '%10s %18s %10s %10s %10s %10s\n' lines "ours $unit" plain ours/plain "ours KiB" plain
for part in $((lines / 4)) $((lines / 2)) "$lines"; do
  rm -f "$work"/*.runs
  for _ in $(seq "$runs"); do
    for it in ours plain; do measure "$it" "$part" >> "$work/$it.runs"; done
  done
  cmp "$work/ours.out" "$work/plain.out"
  cmp "$work/ours.notes" "$work/plain.notes"
  for it in ours plain; do
    if [ -n "${COUNT:-}" ]; then
      awk -v i="$(count "$it" "$part")" -v n="$part" 'BEGIN { printf "%.0f\n", i / n }' > "$work/$it.figure"
    else
      cut -d' ' -f1 "$work/$it.runs" | median > "$work/$it.figure"
    fi
    cut -d' ' -f2 "$work/$it.runs" | median > "$work/$it.memory"
  done
  awk -v part="$part" -v a="$(cat "$work/ours.figure")" -v b="$(cat "$work/plain.figure")" -v k="$(cat "$work/ours.memory")" \
    -v l="$(cat "$work/plain.memory")" 'BEGIN { printf "%10d %18s %10s %10.2f %10d %10d\n", part, a, b, a / b, k, l }'
done
