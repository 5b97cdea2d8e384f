#!/usr/bin/env bash
# usage: tests/outside/no_route.sh [evpnd]        (the built program; by default the one that `rt run` leaves)
#
# Runs two edges, and then serves them, in a network namespace that has no route to the address of the second edge. A host at the first
# edge broadcasts meanwhile. The line `edge 1 tunnel: sending failed` has to come within ten seconds, and once. After the route was
# added the line `sending again` has to come, also once, and each frame has to arrive at the address of the second edge. The counts of
# a console (`1 links`) have to be those of the frames that were sent, also of datagrams that the edge drops: too long, malformed,
# unlisted, and of another network. It needs root, iproute2, python3 and a minute. It is no part of the gate.
set -u
cd "$(dirname "$0")/../.." || exit 2
program=${1:-$PWD/crates/evpnd/out/evpnd}
[ -x "$program" ] || { echo "this needs the built program, as word or by rt run in crates/evpnd"; exit 2; }
[ "$(id -u)" = 0 ] || { echo "this needs root"; exit 2; }
work=$(mktemp -d)
near=evpnd-near-$$ far=evpnd-far-$$
running=
clean() {
  if [ -n "$running" ]; then kill "$running" 2> "$work/ended"; fi
  for it in "$near" "$far"; do ip netns del "$it" 2> "$work/ended"; done
  rm -rf "$work"
}
trap clean EXIT
differs=0
tell() { if [ "$2" = "$3" ]; then echo "as said: $1"; else echo "DIFFERS: $1: $2, not $3"; differs=$((differs + 1)); fi; }

echo "control = \"$work/control\"" > "$work/served.toml"
for edge in 1 2; do
  printf '[[edge]]\naddress = "10.78.0.%d"\nbridge = "02:aa:00:00:00:%02x"\nvnis = [5001]\n' "$edge" "$edge"
  printf '[[edge.port]]\nvni = 5001\nadmin_edge = true\nlocal = "127.0.0.%d:20000"\nremote = "127.0.0.%d:30000"\n' "$edge" "$edge"
done > "$work/edges.toml"
cat "$work/edges.toml" >> "$work/served.toml"

# The other ends: a host at port 1 of edge 1, in the first namespace, and a socket at the address of the second edge, in the second one.
cat > "$work/ends.py" << 'PY'
import socket, sys, time

VXLAN = b"\x08\0\0\0" + (5001).to_bytes(3, "big") + b"\0"
EVERYONE, HOST, AWAY = b"\xff" * 6, bytes([2, 0, 0, 0, 0, 10]), bytes([2, 0, 0, 0, 0, 11])
PORT, TUNNEL = ("127.0.0.1", 20000), ("10.78.0.1", 4789)

def bound(address, port):
    it = socket.socket(socket.AF_INET, socket.SOCK_DGRAM)
    it.bind((address, port))
    return it

def frame(source, octets):
    return (EVERYONE + source + b"\x88\xb5").ljust(octets, b"x")

def says(count):
    """Broadcasts five frames a second at the port."""
    host = bound("127.0.0.1", 30000)
    for _ in range(int(count)):
        host.sendto(frame(HOST, 100), PORT)
        time.sleep(0.2)

def counts(seconds):
    """Prints how many frames of the host come to the second edge's address within these seconds."""
    far, came, end = bound("10.78.0.2", 4789), 0, time.monotonic() + float(seconds)
    print("ready", flush=True)
    while (left := end - time.monotonic()) > 0:
        far.settimeout(left)
        try:
            came += far.recv(2000) == VXLAN + frame(HOST, 100)
        except socket.timeout:
            break
    print(came)

def dropped():
    """Sends to edge 1's tunnel two frames that it forwards, datagrams that it drops for four causes, and an empty one."""
    listed, unlisted = bound("10.78.0.2", 0), bound("10.78.0.3", 0)
    good = VXLAN + frame(AWAY, 9018)
    malformed = VXLAN[:7], b"\0" + VXLAN[1:] + frame(AWAY, 60), VXLAN, VXLAN + frame(AWAY, 14)[:13]
    for text in [good] * 2 + [VXLAN + frame(AWAY, 9019)] * 2 + [VXLAN + frame(AWAY, 20000)] + [*malformed, b""]:
        listed.sendto(text, TUNNEL)
        time.sleep(0.02)
    for _ in range(7):
        unlisted.sendto(good, TUNNEL)
        time.sleep(0.02)
    for vni in range(11):
        listed.sendto(VXLAN[:4] + vni.to_bytes(3, "big") + b"\0" + frame(AWAY, 60), TUNNEL)
        time.sleep(0.02)

def dropped_at_port():
    """Sends to the port a frame that it forwards, frames that it drops for two causes, and an empty datagram."""
    host, bpdu = bound("127.0.0.1", 30000), b"\x01\x80\xc2\0\0\0" + HOST + b"\0\x26BB\x03"
    for text in [frame(HOST, 100)] + [frame(HOST, 9019)] * 2 + [frame(HOST, 14)[:13], b"", bpdu.ljust(60, b"\xee")]:
        host.sendto(text, PORT)
        time.sleep(0.02)

if __name__ == "__main__":
    {"says": says, "counts": counts, "dropped": dropped, "dropped_at_port": dropped_at_port}[sys.argv[1]](*sys.argv[2:])
PY

# lines TEXT: prints how often standard error has this line
lines() { grep -cx "$1" "$work/notes"; }

# count LINK WAY WORD: prints the number of this word in the line of a link of `1 links`; WAY is `in` or `out`
count() {
  tools/evpndctl --control "$work/control" 1 links |
    awk -v link="$1" -v way="$2" -v word="$3" '$3 == link { for (i = 4; i < NF; i++) { if ($i == way) on = 1; if (on && $i == word) { print $(i + 1); exit } } }'
}

# is_reached SECONDS WANTED COMMAND..: repeats the command until it prints WANTED, for SECONDS at most, and prints its last output
is_reached() {
  local seconds=$1 wanted=$2 found
  shift 2
  for _ in $(seq $((5 * seconds))); do
    found=$("$@")
    [ "$found" = "$wanted" ] && break
    sleep 0.2
  done
  echo "$found"
}

ends() { ip netns exec "$1" python3 "$work/ends.py" "${@:2}" 9>&-; }

for word in run serve; do
  file=edges
  [ $word = serve ] && file=served
  ip netns add $near
  ip netns add $far
  ip -n $near link set lo up
  ip -n $near link add cable type veth peer name cable netns $far
  for it in "$near" "$far"; do
    # IPv6 would send frames of its own, and the first namespace has no route to the addresses of the second one
    ip netns exec "$it" sysctl -qw net.ipv6.conf.cable.disable_ipv6=1 net.ipv4.conf.all.rp_filter=0 net.ipv4.conf.cable.rp_filter=0
    ip -n "$it" link set cable up
  done
  ip -n $near address add 10.78.0.1/32 dev cable
  ip -n $far address add 10.78.0.2/24 dev cable
  ip -n $far address add 10.78.0.3/24 dev cable
  # the second edge binds an address that no device of this namespace has
  ip netns exec $near sysctl -qw net.ipv4.ip_nonlocal_bind=1

  : > "$work/notes"
  mkfifo "$work/input"
  ip netns exec $near "$program" $word --config "$work/$file.toml" < "$work/input" > "$work/report" 2> "$work/notes" &
  running=$!
  exec 9> "$work/input"
  for _ in $(seq 100); do ip netns exec $near grep -q '01004E0A:12B5' /proc/net/udp && break; sleep 0.1; done
  sleep 1

  ends $near says 40 &
  saying=$!
  began=$(date +%s%N)
  failed=$(is_reached 10 1 lines 'edge 1 tunnel: sending failed')
  tell "$word, no route: 'sending failed' comes ($((($(date +%s%N) - began) / 1000000)) ms after the first frame)" "$failed" 1
  wait $saying
  sleep 2
  tell "$word, no route: it comes once, and nothing else" "$(cat "$work/notes")" 'edge 1 tunnel: sending failed'
  if [ $word = serve ]; then
    tell "serve: the console counts 40 frames that came in" "$(count 1 in in)" 40
    tell "serve: it counts 40 failed sends" "$(is_reached 5 40 count tunnel out failed)" 40
    tell "serve: it counts no datagram that was sent" "$(count tunnel out out)" 0
  fi

  ends $far counts 16 > "$work/count" &
  counting=$!
  for _ in $(seq 100); do grep -q ready "$work/count" && break; sleep 0.1; done
  ip -n $near route add 10.78.0.0/24 dev cable
  ends $near says 40 &
  saying=$!
  began=$(date +%s%N)
  again=$(is_reached 10 1 lines 'edge 1 tunnel: sending again')
  tell "$word, with a route: 'sending again' comes ($((($(date +%s%N) - began) / 1000000)) ms after the first frame)" "$again" 1
  wait $saying $counting
  tell "$word, with a route: all 40 frames come to the second edge's address" "$(tail -n 1 "$work/count")" 40
  tell "$word: both lines came once, and nothing else" "$(cat "$work/notes")" $'edge 1 tunnel: sending failed\nedge 1 tunnel: sending again'
  if [ $word = serve ]; then
    tell "serve: the console counts 40 datagrams that were sent" "$(count tunnel out out)" 40
    tell "serve: it counts no more failed sends" "$(count tunnel out failed)" 40
    before=$(count 1 out octets)
    ends $far dropped
    tell "serve: at the tunnel it counts 28 datagrams" "$(is_reached 10 28 count tunnel in in)" 28
    # an empty datagram is no frame, and has no cause
    for it in "long 3" "malformed 4" "unlisted 7" "network 11" "storm 0" "memory 0" "system 0" "failed 0"; do
      tell "serve: at the tunnel ${it% *}" "$(count tunnel in "${it% *}")" "${it#* }"
    done
    tell "serve: two frames of 9,018 octets leave at the port" $((($(count 1 out octets) - before) / 9018)) 2
    ends $near dropped_at_port
    tell "serve: at the port it counts 86 datagrams" "$(is_reached 10 86 count 1 in in)" 86
    for it in "long 2" "malformed 2" "unlisted 0" "network 0" "storm 0" "memory 0" "system 0" "failed 0"; do
      tell "serve: at the port ${it% *}" "$(count 1 in "${it% *}")" "${it#* }"
    done
  fi
  exec 9>&-
  wait $running
  status=$?
  running=
  tell "$word: the status of failed sends" $status 4
  tell "$word: the last line counts the failed sends" "$(tail -n 1 "$work/notes")" "lost 40"
  rm "$work/input"
  ip netns del $near
  ip netns del $far
done
if [ "$differs" = 0 ]; then echo ok; else echo "$differs differed"; exit 1; fi
