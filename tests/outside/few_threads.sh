#!/usr/bin/env bash
# usage: tests/outside/few_threads.sh [evpnd]        (the built program; by default the one that `rt run` leaves)
#
# Runs two edges with two ports each as a new user, for whom the system limits the number of threads (RLIMIT_NPROC). With
# fewer threads than `check --run` prints, the run has to print a line and to end with status 3, while its input is open. With
# `--degraded` it has to print the same line first, to forward frames, and to end with its input. If only one thread is missing, one
# edge has all its threads, and its two hosts have to reach each other. Each port that sends frames has to send BPDUs too: without them
# neither the edge nor its neighbours notice a ring. With exactly enough threads all 12 frames between four hosts have to arrive. It
# needs root, setpriv and prlimit (util-linux), python3, UDP port 4789 of two loopback addresses, and half a minute. It is no part
# of the gate.
set -u
cd "$(dirname "$0")/../.."
program=${1:-$PWD/crates/evpnd/out/evpnd}
[ -x "$program" ] || { echo "this needs the built program, as word or by rt run in crates/evpnd"; exit 2; }
[ "$(id -u)" = 0 ] || { echo "this needs root"; exit 2; }
work=$(mktemp -d)
trap 'rm -rf "$work"' EXIT
differs=0
tell() { if [ "$2" = "$3" ]; then echo "as said: $1"; else echo "DIFFERS: $1: $2, not $3"; differs=$((differs + 1)); fi; }

# the user has to reach both files
chmod 755 "$work"
cp "$program" "$work/evpnd"
chmod 755 "$work/evpnd"
for edge in 1 2; do
  printf '[[edge]]\naddress = "127.94.0.%d"\nbridge = "02:aa:00:00:00:%02x"\nvnis = [5001]\n' "$edge" "$edge"
  for port in 1 2; do
    printf '[[edge.port]]\nvni = 5001\nadmin_edge = true\nlocal = "127.94.%d.%d:20000"\nremote = "127.94.%d.%d:30000"\n' \
      "$port" "$edge" "$port" "$edge"
  done
done > "$work/edges.toml"
mkfifo "$work/input"

# Sends a frame from each of four hosts to each other, after broadcasts of all hosts. Prints the pairs EDGE.PORT>EDGE.PORT whose frame
# arrived, in order. Broadcasts go on until each host has received those of all others, or for as many seconds as the first word says.
# With a second word it then waits as many seconds for BPDUs, and prints the ports EDGE.PORT that sent frames and no BPDU.
cat > "$work/pairs.py" << 'PY'
import select, socket, sys, time

spots = [(edge, port) for edge in (1, 2) for port in (1, 2)]
ends = {}
for edge, port in spots:
    it = socket.socket(socket.AF_INET, socket.SOCK_DGRAM)
    it.bind((f"127.94.{port}.{edge}", 30000))
    ends[edge, port] = it
name = {spot: bytes([2, 0, 0, 0, *spot]) for spot in spots}
spot_of = {octets: spot for spot, octets in name.items()}
pairs = {(one, other) for one in spots for other in spots if one != other}

everyone = b"\xff" * 6

def send(spot, to, text):
    edge, port = spot
    ends[spot].sendto((to + name[spot] + b"\x88\xb5" + text).ljust(60, b"\0"), (f"127.94.{port}.{edge}", 20000))

def received(text, found, end):
    """Adds to `found` the pairs whose frame with this text arrives until this time."""
    while found != pairs and (left := end - time.monotonic()) > 0:
        for it in select.select(list(ends.values()), [], [], left)[0]:
            frame = it.recv(2000)
            spot = next(spot for spot, end in ends.items() if end is it)
            if frame[14:].startswith(text) and frame[:6] in (everyone, name[spot]):
                found.add((spot_of[frame[6:12]], spot))
    return found

found, end = set(), time.monotonic() + float(sys.argv[1])
while found != pairs and time.monotonic() < end:
    for spot in spots:
        send(spot, everyone, b"here")
    received(b"here", found, time.monotonic() + 0.2)
for one, other in sorted(pairs):
    send(one, name[other], b"frame")
came = received(b"frame", set(), time.monotonic() + float(sys.argv[1]) / 2)
bpdus, end = set(), time.monotonic() + float(sys.argv[2] if len(sys.argv) > 2 else 0)
while (left := end - time.monotonic()) > 0:
    for it in select.select(list(ends.values()), [], [], left)[0]:
        if it.recv(2000)[:6] == bytes.fromhex("0180c2000000"):
            bpdus.add(next(spot for spot, end in ends.items() if end is it))
print(*(f"{one[0]}.{one[1]}>{other[0]}.{other[1]}" for one, other in sorted(came)))
if len(sys.argv) > 2:
    print(*(f"{edge}.{port}" for edge, port in sorted({other for _, other in came} - bpdus)))
PY

# begin THREADS WORD..: starts evpnd with these words, as a new user with this limit of threads; sets `running`
user=$((1000000 + $$))
begin() {
  local threads=$1
  shift
  user=$((user + 100000))
  : > "$work/notes"
  setpriv --reuid=$user --regid=$user --clear-groups prlimit --nproc="$threads:$threads" \
    "$work/evpnd" "$@" --config "$work/edges.toml" < "$work/input" > "$work/report" 2> "$work/notes" &
  running=$!
  exec 9> "$work/input"
}

# ends SECONDS: waits these seconds for its end, and kills it after them; sets `status`
ends() {
  for _ in $(seq $((10 * $1))); do kill -0 "$running" 2> "$work/ignored" || break; sleep 0.1; done
  status="none in $1 seconds"
  if kill -KILL "$running" 2> "$work/ignored"; then wait "$running" 2> "$work/ignored"; else wait "$running"; status=$?; fi
}

# arrived PAIR: whether the frame of this pair arrived
arrived() { [[ " ${pairs[*]} " == *" $1 "* ]]; }

needed=$("$program" check --run --config "$work/edges.toml" | sed -n 's/ threads$//p')
echo "two edges with two ports each need ${needed:-no number of} threads"
[ -n "$needed" ] || exit 1
line() { echo "can't start $needed threads: the system allows $1; raise ulimit -u or TasksMax, or free memory"; }

for allowed in 1 $((needed / 2)) $((needed - 1)); do
  begin "$allowed" run
  began=$(date +%s%N)
  ends 20
  took=$((($(date +%s%N) - began) / 1000000))
  exec 9>&-
  tell "$allowed threads: the run ends by itself, while its input is open ($took ms): status" "$status" 3
  tell "$allowed threads: the line" "$(cat "$work/notes")" "$(line "$allowed")"
  tell "$allowed threads: no report" "$(cat "$work/report")" ""
done

for allowed in $((needed / 2)) $((needed - 3)) $((needed - 1)) $((needed - 1)) $((needed - 1)); do
  begin "$allowed" run --degraded
  for _ in $(seq 100); do [ -s "$work/notes" ] && break; sleep 0.1; done
  sleep 0.5
  # a hello time is 2 seconds
  { read -r -a pairs; read -r mute; } < <(python3 "$work/pairs.py" 3 6 9>&-)
  tell "--degraded, $allowed threads: the line comes first" "$(head -n 1 "$work/notes")" "$(line "$allowed")"
  echo "${#pairs[@]} of 12 frames arrived: ${pairs[*]}; then it printed: $(tail -n +2 "$work/notes" | tr '\n' ';')"
  if [ "$allowed" = $((needed - 1)) ]; then
    tell "--degraded, $allowed threads: the hosts of one edge reach each other" \
      "$({ arrived '1.1>1.2' && arrived '1.2>1.1'; } || { arrived '2.1>2.2' && arrived '2.2>2.1'; } && echo yes)" yes
  fi
  tell "--degraded, $allowed threads: ports that send frames and no BPDU in 6 seconds" "$mute" ""
  tell "--degraded, $allowed threads: it runs while its input is open" "$(kill -0 "$running" && echo runs)" runs
  exec 9>&-
  ends 20
  tell "--degraded, $allowed threads: it ends with its input: status" "$status" 3
done

for word in "" --degraded; do
  begin "$needed" run $word
  read -r -a pairs < <(python3 "$work/pairs.py" 20 9>&-)
  tell "$needed threads ${word:-and no option}: frames that arrive" "${#pairs[@]}" 12
  exec 9>&-
  ends 20
  tell "$needed threads ${word:-and no option}: status" "$status" 0
  tell "$needed threads ${word:-and no option}: nothing is printed" "$(cat "$work/notes")" ""
done
if [ "$differs" = 0 ]; then echo ok; else echo "$differs differed"; exit 1; fi
