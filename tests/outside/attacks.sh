#!/usr/bin/env bash
# Needs Linux, root, /dev/net/tun, iproute2 (ip, ss, tc), util-linux (prlimit) and python3; takes three minutes, in some of which it
# keeps two processors busy. It is no part of the gate.
#
# Attacks on a run, and the expected reactions. If anything differs the status is 1. Two attacks have scripts of
# their own: storm.sh (a storm of broadcasts), rounds.sh (stations that come back again and again).
set -u
. "$(dirname "$0")/lab.sh"
needs ip ss tc prlimit python3 sysctl

# edge NUMBER PORTS: an edge with PORTS ports, which sends a BPDU a second at each
edge() {
  cat << TOML
[[edge]]
address = "127.0.0.$1"
bridge = "02:aa:00:00:00:0$1"
vnis = [5001]
hello = 1
max_age = 6
forward_delay = 4
TOML
  local port
  for port in $(seq "$2"); do
    printf '[[edge.port]]\nvni = 5001\nadmin_edge = true\nlocal = "127.0.0.%s:%s"\nremote = "127.0.0.%s:%s"\n' \
      "$1" $((20000 + port)) "$1" $((30000 + port))
  done
}

probe() { python3 "$outside/port_probe.py" "$@" 7>&-; }

# hears SAYING HEARING SECONDS: frames at the first of two ports of edge 1 come out at the second one, within this time
hears() { probe hears "127.0.0.1:$((30000 + $1))" "127.0.0.1:$((20000 + $1))" "127.0.0.1:$((30000 + $2))" "$3"; }

# notes LINES PATTERN: LINES lines on standard error, one of which matches PATTERN
notes() { [ "$(wc -l < "$work/notes")" = "$1" ] && grep -qE "$2" "$work/notes"; }

edge 1 2 > "$work/edges.toml"
run() { timeout 5 "$evpnd" run --config "$work/edges.toml"; }

echo "-- descriptors that are closed when it begins"
run <&- > "$work/report" 2> "$work/notes"
status=$?
tell "run <&- ends with status 4" [ "$status" = 4 ]
tell "run <&- says so" notes 1 '^standard input: it is closed$'
run < /dev/null >&- 2> "$work/notes"
status=$?
tell "run >&- ends with status 4" [ "$status" = 4 ]
tell "run >&- says so" notes 1 '^standard output: it is closed$'
run < /dev/null > "$work/report" 2>&-
status=$?
tell "run 2>&- ends with status 4" [ "$status" = 4 ]

echo "-- a read or a write that fails"
run < / > "$work/report" 2> "$work/notes"
status=$?
tell "a folder as standard input: status 4" [ "$status" = 4 ]
tell "a folder as standard input: a line" notes 1 "^standard input: it can't be read\$"
run < /dev/null > /dev/full 2> "$work/notes"
status=$?
tell "a full device as standard output: status 4" [ "$status" = 4 ]
tell "a full device as standard output: a line" notes 1 "^standard output: it can't be written\$"

echo "-- a station that moves between two edges until it is frozen"
{ edge 1 1; edge 2 1; } > "$work/edges.toml"
start
probe moves 127.0.0.1:30001 127.0.0.1:20001 127.0.0.2:30001 127.0.0.2:20001 12 0.3
sleep 0.7
tell "a frozen station is told within a second" grep -qx 'edge [12]: duplicate 5001 02:00:00:00:00:0a on port 1' "$work/notes"
stop > "$work/stopped"
tell "its status is 0" [ "$status" = 0 ]

echo "-- made-up source addresses at a port: 20,000 in five seconds, then 100,000 in twenty"
{ edge 1 2; edge 2 1; } > "$work/edges.toml"
start
tell "port 2 hears port 1" hears 1 2 5
# the first ones fill the limits, and the buffers of all links
probe stations 127.0.0.1:30001 127.0.0.1:20001 20000 5
before=$(awk '/^VmRSS/ { print $2 }' "/proc/$running/status")
probe stations 127.0.0.1:30001 127.0.0.1:20001 100000 20
tell "port 2 hears port 1 then" hears 1 2 5
after=$(awk '/^VmRSS/ { print $2 }' "/proc/$running/status")
echo "$before KiB before, $after KiB after"
tell "it needs at most 4,096 KiB more" [ "$after" -le $((before + 4096)) ]
tell "an alert names the port" grep -qE '^edge 1: too many (new )?stations on port 1$' "$work/notes"
stop > "$work/stopped"
tell "its status is 0" [ "$status" = 0 ]
tell "at most 513 stations have registers of both edges" [ "$(grep -c '^mac 5001 ' "$work/report")" -le 1026 ]

echo "-- a socket that fails once"
edge 1 3 > "$work/edges.toml"
start
tell "port 2 hears port 1" hears 1 2 5
ss -K -u -a src 127.0.0.1:20001 > "$work/ss"
sleep 0.5
tell "that is told" notes 1 '^edge 1 port 1: receiving failed'
tell "port 1 is taken again, within two seconds" hears 1 2 2
tell "port 3 hears port 2 meanwhile" hears 2 3 2
stop > "$work/stopped"
tell "its status is 4" [ "$status" = 4 ]

echo "-- a socket that fails once, of the port at which an edge blocks a ring"
edge 1 3 | grep -v '^admin_edge' > "$work/edges.toml"
start
linux ring 4096
bridge=$it
for device in p1 p2; do
  tap "$bridge" $device
  ip -n "$bridge" link set $device master br0
done
leaf leaf 192.168.78.1 02:00:00:00:00:01 "$bridge" leg
leaf=$it
ip -n "$bridge" link set leg master br0
host host 192.168.78.2 02:00:00:00:00:02
host=$it
for number in 1 2; do plug "$bridge" p$number "127.0.0.1:3000$number" "127.0.0.1:2000$number"; done
plug "$host" eth 127.0.0.1:30003 127.0.0.1:20003
sleep 15
tell "broadcasts come once" once "$leaf" "$host" 10
ss -K -u -a src 127.0.0.1:20002 > "$work/ss"
# the life of the root's last message, and twice the forward delay
sleep 15
tell "they come once when it has failed" once "$leaf" "$host" 10
for device in p1 p2; do unplug "$bridge" $device; done
unplug "$host" eth
stop > "$work/stopped"

echo "-- memory that is refused while broadcasts flood a port, and is there again"
edge 1 16 > "$work/edges.toml"
start
tell "port 2 hears port 1" hears 1 2 5
prlimit --pid "$running" --data="$(($(awk '/^VmData/ { print $2 }' "/proc/$running/status") * 1024)):unlimited"
probe flood 127.0.0.1:30001 127.0.0.1:20001 3 1400 > "$work/sent"
prlimit --pid "$running" --data=unlimited
echo "$(cat "$work/sent") frames of 1,400 octets to 15 ports; now it has $(awk '/^VmRSS/ { print $2 }' "/proc/$running/status") KiB"
tell "port 1 is taken again, within five seconds" hears 1 2 5
tell "port 3 hears port 2" hears 2 3 5
stop > "$work/stopped"

echo "-- a flood from port to port, over a slow cable: a megabit a second, some 1,400 of the frames"
space slow
ip link add cable type veth peer name cable netns "$it"
ip address add 10.78.0.1/24 dev cable
ip -n "$it" address add 10.78.0.2/24 dev cable
ip link set cable up
ip -n "$it" link set cable up
tc qdisc add dev cable root tbf rate 1mbit burst 1540 limit 1000000
edge 1 2 | sed 's/127\.0\.0\.1:20002/10.78.0.1:20002/; s/127\.0\.0\.1:30002/10.78.0.2:30002/' > "$work/edges.toml"
start
ip netns exec "$it" python3 "$outside/port_probe.py" bpdus 10.78.0.2:30002 7 > "$work/longest" 7>&- &
listening=$!
sleep 1
probe flood 127.0.0.1:30001 127.0.0.1:20001 5 > "$work/sent"
wait "$listening"
echo "$(cat "$work/sent") frames; $(cat "$work/longest") ms between two BPDUs at most"
tell "a BPDU comes each second, and half a second late at most" [ "$(cat "$work/longest")" -le 1500 ]
# at a tenth of that rate the queued frames would take 20 seconds, and the system lets a send wait for 5 of them
tc qdisc change dev cable root tbf rate 100kbit burst 1540 limit 1000000
probe flood 127.0.0.1:30001 127.0.0.1:20001 2 1400 > "$work/sent"
lost=$(awk '$2 ~ /:4E21$/ { print $NF }' /proc/net/udp)
began=$(date +%s%N)
stop > "$work/stopped"
took=$((($(date +%s%N) - began) / 1000000))
echo "$(cat "$work/sent") frames of 1,400 octets, of which the system lost $lost at the port; the run ended after $took ms"
tell "a run with a slow link ends within three seconds" [ "$took" -le 3000 ]
tell "what waited for it is told" grep -qE '^edge 1 port 2: [0-9]+ frames dropped: no room$' "$work/notes"
tell "what the system lost at a port is told" grep -qx "edge 1 port 1: $lost datagrams dropped by the system" "$work/notes"
end
