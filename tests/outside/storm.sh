#!/usr/bin/env bash
# usage: tests/outside/storm.sh [evpnd]        (the built program; by default the one that `rt run` leaves)
#
# Runs 16 edges with two access ports each, and floods one port for ten seconds with broadcasts of 1,400 octets, as fast as one process
# sends them. Prints the most memory that the program had, and the greatest age of a frame that came out at the last edge, and fails
# if that is more than 64 MB or 200 ms, or if no dropped frame is counted. It needs no root, UDP port 4789 of 16
# loopback addresses, and python3. It is no part of the gate.
set -u
cd "$(dirname "$0")/../.."
program=${1:-$PWD/crates/evpnd/out/evpnd}
[ -x "$program" ] || { echo "this needs the built program, as word or by rt run in crates/evpnd"; exit 2; }
work=$(mktemp -d)
trap 'rm -rf "$work"' EXIT

for edge in $(seq 16); do
  printf '[[edge]]\naddress = "127.91.0.%d"\nbridge = "02:aa:00:00:00:%02x"\nvnis = [5001]\n' "$edge" "$edge"
  for port in 1 2; do
    printf '[[edge.port]]\nvni = 5001\nadmin_edge = true\nlocal = "127.91.%d.%d:20000"\nremote = "127.91.%d.%d:30000"\n' \
      "$port" "$edge" "$port" "$edge"
  done
done > "$work/edges.toml"

# Floods port 1 of edge 1 from the clock's stamp in each frame, while port 2 of edge 16 is read: the greatest age of a frame there, in
# milliseconds, and how many came. Nothing else reads its port.
cat > "$work/flood.py" << 'EOF'
import os, socket, struct, time

def bound(address, port):
    it = socket.socket(socket.AF_INET, socket.SOCK_DGRAM)
    it.bind((address, port))
    return it

away = [bound(f"127.91.{port}.{edge}", 30000) for port in (1, 2) for edge in range(1, 17)]
last, first = away[-1], away[0]
head = b"\xff" * 6 + bytes([2, 0, 0, 0, 0, 10]) + b"\x88\xb5"
end = time.monotonic_ns() + 10 * 10**9
if os.fork() == 0:
    tail = bytes(1400 - len(head) - 8)
    while (now := time.monotonic_ns()) < end:
        first.sendto(head + struct.pack("<Q", now) + tail, ("127.91.1.1", 20000))
    os._exit(0)
oldest = came = 0
last.settimeout(0.5)
while time.monotonic_ns() < end + 12 * 10**9:
    try:
        frame = last.recv(2000)
    except socket.timeout:
        if time.monotonic_ns() > end:
            break
        continue
    if frame[:14] == head:
        came += 1
        oldest = max(oldest, time.monotonic_ns() - struct.unpack_from("<Q", frame, 14)[0])
os.wait()
print(oldest // 10**6, came)
EOF

mkfifo "$work/input"
"$program" run --config "$work/edges.toml" < "$work/input" > "$work/report" 2> "$work/notes" &
running=$!
exec 9> "$work/input"
sleep 2
read -r oldest came < <(python3 "$work/flood.py" 9>&-)
peak=$(awk '/^VmHWM:/ { print int($2 / 1024) }' "/proc/$running/status")
exec 9>&-
wait "$running"
status=$?
# A frame is dropped at a link's queue, or by the system at a socket whose worker sends meanwhile.
lost=' (frames dropped: no room|datagrams dropped by the system)$'
dropped=$(grep -c -E "$lost" "$work/notes")
echo "status $status, at most $peak MB, oldest frame $oldest ms, $came frames came out at the last edge, $dropped links had no room:"
grep -E "$lost" "$work/notes" | head -3
if [ "$status" -ne 0 ] || [ "$peak" -gt 64 ] || [ "$oldest" -gt 200 ] || [ "$came" -eq 0 ] || [ "$dropped" -eq 0 ]; then
  echo "DIFFERS: at most 64 MB, no frame older than 200 ms, and a line for each link that had no room"
  exit 1
fi
echo ok
