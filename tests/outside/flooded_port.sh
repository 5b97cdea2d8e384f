#!/usr/bin/env bash
# usage: tests/outside/flooded_port.sh [evpnd [storm]]     (the built program; by default the one that `rt run` leaves, with `storm = 100`)
#
# Runs two edges with two ports each, and floods port 1 of the first for ten seconds with broadcasts of 1,400 octets, as fast as one
# process sends them. Meanwhile the host at port 2 of the first edge sends 600 frames to the host at port 2 of the second, one after the
# other. Prints how many of these came, and how many broadcasts came out at the second edge. Fails if a frame of the host was lost, or
# if more broadcasts came than `storm` allows in these seconds. With `storm` 0 the port has no limit, and some frames of the host are
# lost. A limit of many hundreds fills the receive buffer of each host once a second. It needs no root, UDP port 4789 of two loopback
# addresses, and python3. It is no part of the gate.
set -u
cd "$(dirname "$0")/../.."
program=${1:-$PWD/crates/evpnd/out/evpnd}
storm=${2:-100}
[ -x "$program" ] || { echo "this needs the built program, as word or by rt run in crates/evpnd"; exit 2; }
work=$(mktemp -d)
trap 'rm -rf "$work"' EXIT

for edge in 1 2; do
  printf '[[edge]]\naddress = "127.92.0.%d"\nbridge = "02:aa:00:00:00:%02x"\nvnis = [5001]\n' "$edge" "$edge"
  for port in 1 2; do
    printf '[[edge.port]]\nvni = 5001\nadmin_edge = true\nlocal = "127.92.%d.%d:20000"\nremote = "127.92.%d.%d:30000"\n' \
      "$port" "$edge" "$port" "$edge"
    if [ "$edge$port" = 11 ] && [ "$storm" != 0 ]; then echo "storm = $storm"; fi
  done
done > "$work/edges.toml"

# Floods port 1 of edge 1. Meanwhile sends 600 frames from port 2 of edge 1 to port 2 of edge 2, one each 15 ms. Prints how many of
# them came, how many broadcasts came out at port 1 of edge 2, and how many seconds passed.
cat > "$work/flood.py" << 'EOF'
import os, select, socket, time

def bound(address, port):
    it = socket.socket(socket.AF_INET, socket.SOCK_DGRAM)
    it.bind((address, port))
    it.setblocking(False)
    return it

ends = {(port, edge): bound(f"127.92.{port}.{edge}", 30000) for port in (1, 2) for edge in (1, 2)}
names = {(port, edge): bytes([2, 0, 0, 0, port, edge]) for port in (1, 2) for edge in (1, 2)}
everyone = b"\xff" * 6

def send(spot, to, text):
    ends[spot].sendto(to + names[spot] + b"\x88\xb5" + text.ljust(46), (f"127.92.{spot[0]}.{spot[1]}", 20000))

def drained(spot, head):
    count = 0
    while True:
        try:
            count += ends[spot].recv(2000)[: len(head)] == head
        except BlockingIOError:
            return count

for _ in range(5):  # all hosts are known before the flood
    for spot in ends:
        send(spot, everyone, b"here")
    time.sleep(0.2)
for spot in ends:
    drained(spot, b"")
start = time.monotonic()
if os.fork() == 0:
    flood = everyone + names[1, 1] + b"\x88\xb5" + bytes(1386)
    os.sched_setaffinity(0, [max(os.sched_getaffinity(0))])
    while time.monotonic() < start + 10:
        try:
            ends[1, 1].sendto(flood, ("127.92.1.1", 20000))
        except BlockingIOError:
            pass
    os._exit(0)
came = broadcasts = 0
host, flood = names[2, 2] + names[2, 1], everyone + names[1, 1]
for _ in range(600):
    send((2, 1), names[2, 2], b"a frame of the other host")
    time.sleep(0.015)
    came += drained((2, 2), host)
    broadcasts += drained((1, 2), flood)
os.wait()
time.sleep(1)
came += drained((2, 2), host)
broadcasts += drained((1, 2), flood)
print(came, broadcasts, int(time.monotonic() - start) + 2)
EOF

mkfifo "$work/input"
"$program" run --config "$work/edges.toml" < "$work/input" > "$work/report" 2> "$work/notes" &
running=$!
exec 9> "$work/input"
sleep 2
read -r came broadcasts seconds < <(python3 "$work/flood.py" 9>&-)
exec 9>&-
wait "$running"
status=$?
echo "status $status, $came of 600 frames of the other host, $broadcasts broadcasts in $seconds seconds"
grep -v '^edge [12], port 1: .* dropped by the system$' "$work/notes" | head -5
most=$((storm * seconds))
if [ "$status" -ne 0 ] || [ "${came:-0}" -ne 600 ] || { [ "$storm" != 0 ] && [ "${broadcasts:-0}" -gt "$most" ]; }; then
  echo "DIFFERS: all 600 frames, and at most $most broadcasts"
  exit 1
fi
echo ok
