#!/usr/bin/env bash
# usage: tests/outside/line_parts.sh [evpnd]        (the built program; by default the one that `rt run` leaves)
#
# Serves two edges in two network namespaces, joined by a cable of 8 Mbit/s. Port 1 of the first edge is flooded for ten seconds with
# frames of 1,400 octets for a known station at the second edge, as fast as one process sends them. Meanwhile the host at port 2 of
# the first edge sends 600 frames to its own known station at the second edge, one each 15 ms. Prints how many frames of both arrived,
# and how many the edges and the cable's queue dropped. All 600 frames have to arrive, once and in order. The cable's queue has
# more room than the send buffer of the tunnel's socket, so only the tunnel's send queue drops frames. It needs root,
# iproute2 (ip, tc), python3 and half a minute. It is no part of the gate.
set -u
cd "$(dirname "$0")/../.." || exit 2
program=${1:-$PWD/crates/evpnd/out/evpnd}
[ -x "$program" ] || { echo "this needs the built program, as word or by rt run in crates/evpnd"; exit 2; }
[ "$(id -u)" = 0 ] || { echo "this needs root"; exit 2; }
work=$(mktemp -d)
near=evpnd-near-$$ far=evpnd-far-$$
pids=()
clean() {
  for it in "${pids[@]}"; do kill "$it" 2> "$work/ended"; done
  for it in "$near" "$far"; do ip netns del "$it" 2> "$work/ended"; done
  rm -rf "$work"
}
trap clean EXIT
differs=0
tell() { if [ "$2" = "$3" ]; then echo "as said: $1"; else echo "DIFFERS: $1: $2, not $3"; differs=$((differs + 1)); fi; }

for edge in 1 2; do
  {
    echo "control = \"$work/control$edge\""
    printf '[[peer]]\naddress = "10.79.0.%d"\n' $((3 - edge))
    printf '[[edge]]\naddress = "10.79.0.%d"\nbridge = "02:aa:00:00:00:%02x"\nvnis = [5001]\n' "$edge" "$edge"
    for port in 1 2; do
      printf '[[edge.port]]\nvni = 5001\nadmin_edge = true\nlocal = "127.0.0.1:2000%d"\nremote = "127.0.0.1:3000%d"\n' "$port" "$port"
    done
  } > "$work/edge$edge.toml"
done

ip netns add "$near"
ip netns add "$far"
ip -n "$near" link add cable type veth peer name cable netns "$far"
for it in "$near" "$far"; do
  ip netns exec "$it" sysctl -qw net.ipv6.conf.cable.disable_ipv6=1
  ip -n "$it" link set lo up
done
ip -n "$near" link set cable address 02:cc:00:00:00:01 up
ip -n "$far" link set cable address 02:cc:00:00:00:02 up
ip -n "$near" address add 10.79.0.1/24 dev cable
ip -n "$far" address add 10.79.0.2/24 dev cable
# no ARP waits in the cable's queue
ip -n "$near" neighbor replace 10.79.0.2 lladdr 02:cc:00:00:00:02 dev cable nud permanent
ip -n "$far" neighbor replace 10.79.0.1 lladdr 02:cc:00:00:00:01 dev cable nud permanent
tc -n "$near" qdisc add dev cable root tbf rate 8mbit burst 3000 limit 4000000

# The hosts at all four ports. Floods port 1 of edge 1, and meanwhile sends 600 frames from its port 2. Prints how many frames of the
# host arrived, whether they are all 600, once and in order, and how many frames of the flood arrived.
cat > "$work/hosts.py" << 'PY'
import os, select, socket, subprocess, sys, time

sys.path.insert(0, "tests/outside")
from tap_relay import enter

ends = {}
for edge, netns in enumerate(sys.argv[1:3], 1):
    enter(netns)
    for port in (1, 2):
        it = ends[edge, port] = socket.socket(socket.AF_INET, socket.SOCK_DGRAM)
        it.bind(("127.0.0.1", 30000 + port))
        it.setblocking(False)
names = {spot: bytes([2, 0, 0, 0, *spot]) for spot in ends}
EVERYONE, FRAMES = b"\xff" * 6, 600

def send(spot, to, text):
    ends[spot].sendto((to + names[spot] + b"\x88\xb5" + text).ljust(60, b"\0"), ("127.0.0.1", 20000 + spot[1]))

def drained(spot, head):
    """Returns the rest of each frame with this head that waits at a host."""
    found = []
    while True:
        try:
            frame = ends[spot].recv(2000)
        except BlockingIOError:
            return found
        if frame.startswith(head):
            found.append(frame[len(head):])

def are_known():
    """Returns whether the first edge knows both stations of the second one, and the second one both of the first."""
    for number, (control, away) in enumerate(zip(sys.argv[3:5], ("10.79.0.2", "10.79.0.1")), 1):
        done = subprocess.run(["tools/evpndctl", "--control", control, "1", "report"], capture_output=True, text=True, check=False)
        lines = [line for line in done.stdout.splitlines() if line.startswith("owner ") and line.endswith(f" {away}")]
        if len(lines) != 2:
            return False
    return True

end = time.monotonic() + 60
while True:
    for spot in ends:
        send(spot, EVERYONE, b"here")
    time.sleep(0.5)
    if are_known():
        break
    if time.monotonic() > end:
        sys.exit("the edges don't know all stations")
for spot in ends:
    drained(spot, b"")

start = time.monotonic()
child = os.fork()
if child == 0:
    flood = names[2, 1] + names[1, 1] + b"\x88\xb5" + bytes(1386)
    os.sched_setaffinity(0, [max(os.sched_getaffinity(0))])
    while time.monotonic() < start + 10:
        try:
            ends[1, 1].sendto(flood, ("127.0.0.1", 20001))
        except BlockingIOError:
            pass
    os._exit(0)
host, flood = names[2, 2] + names[1, 2] + b"\x88\xb5", names[2, 1] + names[1, 1]
came, floods = [], 0

def receive():
    global floods
    came.extend(int.from_bytes(it[:4], "big") for it in drained((2, 2), host))
    floods += len(drained((2, 1), flood))

for number in range(FRAMES):
    send((1, 2), names[2, 2], number.to_bytes(4, "big"))
    time.sleep(0.015)
    receive()
os.waitpid(child, 0)
# frames that wait in the queues of tunnel and cable need a second
end = time.monotonic() + 5
while time.monotonic() < end:
    time.sleep(0.1)
    receive()
print(len(came), "whole" if came == list(range(FRAMES)) else "not-whole", floods)
PY

running=()
for edge in 1 2; do
  mkfifo "$work/input$edge" "$work/pipe$edge"
  netns=$near
  [ $edge = 2 ] && netns=$far
  ip netns exec "$netns" "$program" serve --config "$work/edge$edge.toml" < "$work/input$edge" > "$work/report$edge" 2> "$work/notes$edge" &
  running+=($!)
  pids+=($!)
  if [ $edge = 1 ]; then exec 8> "$work/input1"; else exec 9> "$work/input2"; fi
done
exec 6<> "$work/pipe1" 7<> "$work/pipe2"
for _ in $(seq 100); do [ -S "$work/control1" ] && [ -S "$work/control2" ] && break; sleep 0.1; done
tools/evpndctl --control "$work/control1" records <&6 >&7 8>&- 9>&- 2> "$work/records1" &
pids+=($!)
tools/evpndctl --control "$work/control2" records <&7 >&6 8>&- 9>&- 2> "$work/records2" &
pids+=($!)

read -r came whole floods < <(python3 "$work/hosts.py" "$near" "$far" "$work/control1" "$work/control2" 8>&- 9>&-)
lost=$(tc -n "$near" -s qdisc show dev cable | sed -n 's/.*(dropped \([0-9]*\),.*/\1/p')
exec 8>&- 9>&-
wait "${running[0]}"
status=$?
wait "${running[1]}"
echo "${came:-no} of 600 frames of the host arrived, and ${floods:-none} frames of the flood; the cable's queue dropped ${lost:-none}"
cat "$work/notes1" "$work/notes2"
tell "all 600 frames of the host arrive, once and in order" "${came:-none} ${whole:-whole}" "600 whole"
tell "the cable's queue drops nothing" "${lost:-unknown}" 0
tell "the tunnel's queue of the first edge was full" "$(grep -cE '^edge 1 tunnel: [0-9]+ frames dropped: no room$' "$work/notes1")" 1
tell "the cable was busy with the flood" "$([ "${floods:-0}" -ge 2000 ] && echo busy)" busy
tell "the first edge's status" $status 0
if [ "$differs" = 0 ]; then echo ok; else echo "$differs differed"; exit 1; fi
