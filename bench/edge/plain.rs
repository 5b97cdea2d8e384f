//! An edge as a plain Rust program, written for speed: hash maps with a cheap hasher, lists by index,
//! decisions in place. Its bridge is a set of ports that pass. Makes the same calls in the same order
//! as the program of `driver/`, and prints the same lines.

use std::collections::HashMap;
use std::hash::{BuildHasherDefault, Hasher};
use std::time::Instant;

const NOBODY: u32 = u32::MAX;
const OWN: u32 = 0x0a00_0002;
const VNI: u64 = 5001;

#[derive(Default, Clone, Copy)]
struct Mix(u64);

impl Hasher for Mix {
    fn finish(&self) -> u64 {
        self.0
    }
    fn write(&mut self, bytes: &[u8]) {
        for byte in bytes {
            self.write_u64(u64::from(*byte));
        }
    }
    fn write_u64(&mut self, n: u64) {
        let z = (self.0 ^ n).wrapping_mul(0x9E37_79B9_7F4A_7C15);
        self.0 = z ^ (z >> 32);
    }
}

type Map<V> = HashMap<u64, V, BuildHasherDefault<Mix>>;

#[derive(Clone, Copy)]
struct Link {
    before: u32,
    behind: u32,
}

const ALONE: Link = Link { before: NOBODY, behind: NOBODY };

#[derive(Clone, Copy)]
struct Ends {
    first: u32,
    last: u32,
}

const EMPTY: Ends = Ends { first: NOBODY, last: NOBODY };

// The key is what an edge that ages withdraws by: no event here reads it.
#[allow(dead_code)]
struct Node {
    key: u64,
    port: u8,
    last: u64,
    pinned: bool,
    age: Link,
    at_port: Link,
}

#[derive(Clone, Copy, PartialEq, Eq, PartialOrd, Ord)]
struct Value {
    incarnation: u32,
    counter: u64,
    // 0 withdrawn, 1 dynamic, 2 static
    rank: u8,
    sequence: u32,
}

#[derive(Clone, Copy)]
struct Entry {
    originator: u32,
    value: Value,
}

// What is said of one address of a network, or of its flood list.
struct Group {
    entries: Vec<Entry>,
    pending: bool,
}

#[derive(Clone, Copy, PartialEq, Default)]
enum Taken {
    Newer,
    #[default]
    Known,
}

#[derive(Default)]
struct Reply {
    decision: Option<(u64, Remote)>,
    taken: Option<Taken>,
    announced: Option<u64>,
    alert: Option<u8>,
    refusal: Option<u8>,
}

#[derive(Clone, Copy)]
struct Remote {
    count: u8,
    edges: [u32; 8],
}

const NO_EDGES: Remote = Remote { count: 0, edges: [0; 8] };

struct Edge {
    originators: [u32; 4],
    capacity: usize,
    counter: u64,
    clock: u64,
    passing: u64,
    members: u64,
    learnt: Map<u32>,
    nodes: Vec<Node>,
    ageing: Ends,
    ports: [Ends; 4],
    table: Map<Group>,
    windows: Map<(u64, u8, bool)>,
    waiting: std::collections::VecDeque<u64>,
}

fn key_of(mac: u64) -> u64 {
    VNI << 48 ^ mac
}

// No address is a group address here, so that the flood list's key is free.
const FLOOD: u64 = VNI << 48 ^ 0xffff_ffff_ffff;

fn is_news(entries: &[Entry], originator: u32, value: Value) -> Option<bool> {
    for entry in entries {
        if entry.originator == originator {
            return Some(newer(value, entry.value));
        }
    }
    None
}

fn newer(a: Value, b: Value) -> bool {
    if a.incarnation != b.incarnation {
        return a.incarnation > b.incarnation;
    }
    if a.counter != b.counter {
        return a.counter > b.counter;
    }
    if a.rank != b.rank {
        return a.rank > b.rank;
    }
    a.sequence > b.sequence
}

fn owner(entries: &[Entry]) -> Option<u32> {
    let mut best: Option<&Entry> = None;
    for entry in entries {
        if entry.value.rank == 0 {
            continue;
        }
        let better = match best {
            None => true,
            Some(b) => {
                if entry.value.rank != b.value.rank {
                    entry.value.rank > b.value.rank
                } else if entry.value.sequence != b.value.sequence {
                    entry.value.sequence > b.value.sequence
                } else {
                    entry.originator < b.originator
                }
            }
        };
        if better {
            best = Some(entry);
        }
    }
    best.map(|entry| entry.originator)
}

impl Edge {
    fn open(capacity: usize) -> Edge {
        let mut edge = Edge {
            originators: [0x0a00_0001, 0x0a00_0002, 0x0a00_0003, 0x0a00_0004],
            capacity,
            counter: 0,
            clock: 0,
            passing: 0,
            members: 0b111,
            learnt: Map::with_capacity_and_hasher(capacity, Default::default()),
            nodes: Vec::with_capacity(capacity),
            ageing: EMPTY,
            ports: [EMPTY; 4],
            table: Map::default(),
            windows: Map::default(),
            waiting: std::collections::VecDeque::new(),
        };
        edge.say(FLOOD, 1, 0);
        edge
    }

    fn say(&mut self, key: u64, rank: u8, sequence: u32) {
        self.counter += 1;
        let value = Value { incarnation: 0, counter: self.counter, rank, sequence };
        let group = self.table.entry(key).or_insert_with(|| Group { entries: Vec::with_capacity(1), pending: false });
        match group.entries.binary_search_by_key(&OWN, |entry| entry.originator) {
            Ok(place) => group.entries[place].value = value,
            Err(place) => group.entries.insert(place, Entry { originator: OWN, value }),
        }
        if !group.pending {
            group.pending = true;
            self.waiting.push_back(key);
        }
    }

    fn take(&mut self, originator: u32, key: u64, value: Value) -> Reply {
        if !self.originators.contains(&originator) {
            return Reply { refusal: Some(12), ..Reply::default() };
        }
        let group = self.table.entry(key).or_insert_with(|| Group { entries: Vec::with_capacity(1), pending: false });
        let taken = match is_news(&group.entries, originator, value) {
            None => {
                let place = group.entries.partition_point(|entry| entry.originator < originator);
                group.entries.insert(place, Entry { originator, value });
                Taken::Newer
            }
            Some(true) => {
                let place = group.entries.partition_point(|entry| entry.originator < originator);
                group.entries[place].value = value;
                Taken::Newer
            }
            Some(false) => Taken::Known,
        };
        let lost = taken == Taken::Newer
            && key != FLOOD
            && group.entries.iter().any(|entry| entry.originator == OWN && entry.value.rank > 0)
            && owner(&group.entries) != Some(OWN);
        let mut alert = None;
        if lost {
            if self.remove(key) {
                alert = Some(4);
            }
            self.say(key, 0, 0);
        }
        Reply { taken: Some(taken), alert, ..Reply::default() }
    }

    fn unlink_age(&mut self, node: u32) {
        let link = self.nodes[node as usize].age;
        match link.before {
            NOBODY => self.ageing.first = link.behind,
            n => self.nodes[n as usize].age.behind = link.behind,
        }
        match link.behind {
            NOBODY => self.ageing.last = link.before,
            n => self.nodes[n as usize].age.before = link.before,
        }
    }

    fn push_age(&mut self, node: u32) {
        let last = self.ageing.last;
        self.nodes[node as usize].age = Link { before: last, behind: NOBODY };
        match last {
            NOBODY => self.ageing.first = node,
            n => self.nodes[n as usize].age.behind = node,
        }
        self.ageing.last = node;
    }

    fn unlink_port(&mut self, node: u32) {
        let link = self.nodes[node as usize].at_port;
        let port = self.nodes[node as usize].port as usize;
        match link.before {
            NOBODY => self.ports[port].first = link.behind,
            n => self.nodes[n as usize].at_port.behind = link.behind,
        }
        match link.behind {
            NOBODY => self.ports[port].last = link.before,
            n => self.nodes[n as usize].at_port.before = link.before,
        }
    }

    fn push_port(&mut self, node: u32, port: u8) {
        let last = self.ports[port as usize].last;
        self.nodes[node as usize].port = port;
        self.nodes[node as usize].at_port = Link { before: last, behind: NOBODY };
        match last {
            NOBODY => self.ports[port as usize].first = node,
            n => self.nodes[n as usize].at_port.behind = node,
        }
        self.ports[port as usize].last = node;
    }

    // Takes a station out; whether it was pinned.
    fn remove(&mut self, key: u64) -> bool {
        let Some(node) = self.learnt.remove(&key) else { return false };
        let pinned = self.nodes[node as usize].pinned;
        if !pinned {
            self.unlink_age(node);
        }
        self.unlink_port(node);
        pinned
    }

    fn learn(&mut self, key: u64, port: u8) -> Option<u8> {
        if let Some(node) = self.learnt.get(&key).copied() {
            if self.nodes[node as usize].pinned {
                return None;
            }
            self.unlink_age(node);
            self.push_age(node);
            if self.nodes[node as usize].port != port {
                self.unlink_port(node);
                self.push_port(node, port);
            }
            self.nodes[node as usize].last = self.clock;
            return None;
        }
        let window = if self.windows.is_empty() { None } else { self.windows.get(&key).copied() };
        if matches!(window, Some((_, _, true))) {
            return None;
        }
        let mut next = 0;
        if let Some(group) = self.table.get(&key) {
            for entry in &group.entries {
                if entry.originator == OWN || entry.value.rank == 0 {
                    continue;
                }
                if entry.value.rank == 2 {
                    return Some(1);
                }
                if entry.value.sequence == u32::MAX {
                    return Some(2);
                }
                next = next.max(entry.value.sequence + 1);
            }
        }
        if self.counter >= 1 << 63 {
            return Some(5);
        }
        if self.learnt.len() >= self.capacity {
            return Some(6);
        }
        if next > 0 {
            let (start, count, _) = match window {
                Some(w) if self.clock < w.0 + 180 => w,
                _ => (self.clock, 0, false),
            };
            let frozen = count + 1 >= 5;
            self.windows.insert(key, (start, count + 1, frozen));
            if frozen {
                return Some(3);
            }
        }
        let node = self.nodes.len() as u32;
        self.nodes.push(Node { key, port, last: self.clock, pinned: false, age: ALONE, at_port: ALONE });
        self.learnt.insert(key, node);
        self.push_age(node);
        self.push_port(node, port);
        self.say(key, 1, next);
        None
    }

    fn flooded(&self, from: u8) -> (u64, Remote) {
        let mut remote = NO_EDGES;
        if let Some(group) = self.table.get(&FLOOD) {
            for entry in &group.entries {
                if entry.originator != OWN && entry.value.rank > 0 {
                    remote.edges[remote.count as usize] = entry.originator;
                    remote.count += 1;
                }
            }
        }
        (self.passing & self.members & !(1 << (from - 1)), remote)
    }

    fn decide(&self, destination: u64, from: u8) -> (u64, Remote) {
        if destination >> 40 & 1 == 1 {
            return self.flooded(from);
        }
        let key = key_of(destination);
        if let Some(node) = self.learnt.get(&key) {
            let port = self.nodes[*node as usize].port;
            let local = if port == from { 0 } else { self.passing & 1 << (port - 1) };
            return (local, NO_EDGES);
        }
        match self.table.get(&key).and_then(|group| owner(&group.entries)) {
            Some(edge) if edge != OWN => {
                let mut remote = NO_EDGES;
                remote.count = 1;
                remote.edges[0] = edge;
                (0, remote)
            }
            _ => self.flooded(from),
        }
    }

    #[inline(never)]
    fn frame(&mut self, port: u8, octets: &[u8]) -> Reply {
        if port == 0 || port > 3 {
            return Reply { refusal: Some(16), ..Reply::default() };
        }
        if octets.len() < 14 {
            return Reply { refusal: Some(1), ..Reply::default() };
        }
        if octets.len() > 9018 {
            return Reply { refusal: Some(2), ..Reply::default() };
        }
        let kind = u16::from_be_bytes([octets[12], octets[13]]);
        if kind <= 1500 && kind as usize > octets.len() - 14 {
            return Reply { refusal: Some(3), ..Reply::default() };
        }
        let number = |at: usize| octets[at..at + 6].iter().fold(0u64, |n, o| n << 8 | u64::from(*o));
        let (destination, source) = (number(0), number(6));
        if self.passing >> (port - 1) & 1 == 0 || (0x0180_C200_0000..=0x0180_C200_000F).contains(&destination) {
            return Reply::default();
        }
        let alert = if source >> 40 & 1 == 0 { self.learn(key_of(source), port) } else { None };
        Reply { decision: Some(self.decide(destination, port)), alert, ..Reply::default() }
    }

    #[inline(never)]
    fn announce(&mut self) -> Reply {
        let announced = self.waiting.pop_front().and_then(|key| {
            let group = self.table.get_mut(&key)?;
            group.pending = false;
            group.entries.iter().find(|entry| entry.originator == OWN).map(|entry| entry.value.counter)
        });
        Reply { announced, ..Reply::default() }
    }
}

fn mixed(sum: u64, answer: u64) -> u64 {
    sum.wrapping_mul(31).wrapping_add(answer)
}

fn told(reply: &Reply) -> u64 {
    if let Some(refusal) = reply.refusal {
        return u64::from(refusal);
    }
    let mut sum = 7;
    if let Some((local, remote)) = &reply.decision {
        let mut sent = *local;
        for edge in &remote.edges[..remote.count as usize] {
            sent = mixed(sent, u64::from(*edge));
        }
        sum = mixed(sum, sent);
    }
    if let Some(taken) = reply.taken {
        sum = mixed(sum, if taken == Taken::Newer { 1 } else { 2 });
    }
    if let Some(counter) = reply.announced {
        sum = mixed(sum, counter);
    }
    if let Some(alert) = reply.alert {
        sum = mixed(sum, u64::from(alert));
    }
    sum
}

struct Random(u64);

impl Random {
    fn next(&mut self) -> u64 {
        self.0 = self.0.wrapping_add(0x9E37_79B9_7F4A_7C15);
        let mut z = self.0;
        z = (z ^ (z >> 30)).wrapping_mul(0xBF58_476D_1CE4_E5B9);
        z = (z ^ (z >> 27)).wrapping_mul(0x94D0_49BB_1331_11EB);
        z ^ (z >> 31)
    }
}

fn octets(destination: u64, source: u64) -> [u8; 14] {
    let (to, by) = (destination.to_be_bytes(), source.to_be_bytes());
    [to[2], to[3], to[4], to[5], to[6], to[7], by[2], by[3], by[4], by[5], by[6], by[7], 8, 0]
}

struct Bench {
    edge: Edge,
    own: Vec<u64>,
    foreign: Vec<u64>,
    nobody: Vec<u64>,
    order: Vec<usize>,
}

const NAMES: [&str; 9] = ["new", "take_new", "local", "remote", "flood", "move", "take_newer", "take_known", "announce"];

impl Bench {
    fn new(stations: usize) -> Bench {
        let mut edge = Edge::open(stations);
        edge.passing = 0b111;
        for n in [1, 3, 4] {
            edge.take(0x0a00_0000 + n, FLOOD, Value { incarnation: 0, counter: 1, rank: 1, sequence: 0 });
        }
        let mut random = Random(2026);
        let mut addresses = || (0..stations).map(|_| random.next() & 0xfeff_ffff_ffff).collect::<Vec<_>>();
        let (own, foreign, nobody) = (addresses(), addresses(), addresses());
        let mut order: Vec<usize> = (0..stations).collect();
        for place in 1..stations {
            let other = (random.next() % (place as u64 + 1)) as usize;
            order.swap(place, other);
        }
        Bench { edge, own, foreign, nobody, order }
    }

    fn frame(&mut self, destination: u64, place: usize, ports_on: u64) -> u64 {
        let frame = octets(destination, self.own[place]);
        let port = 1 + ((place as u64 % 3 + ports_on % 3) % 3) as u8;
        told(&self.edge.frame(port, &frame))
    }

    fn take(&mut self, place: usize, counter: u64) -> u64 {
        let value = Value { incarnation: 0, counter, rank: 1, sequence: 0 };
        told(&self.edge.take(0x0a00_0001, key_of(self.foreign[place]), value))
    }

    fn run(&mut self, kind: usize) -> u64 {
        let mut sum = 0;
        let count = self.own.len() as u64;
        for turn in 0..self.own.len() {
            let place = self.order[turn];
            let answer = match kind {
                0 => self.frame(self.nobody[turn], turn, 0),
                1 => self.take(turn, turn as u64 + 2),
                2 => self.frame(self.own[turn], place, 0),
                3 => self.frame(self.foreign[turn], place, 0),
                4 => self.frame(self.nobody[turn], place, 0),
                5 => self.frame(self.own[turn], place, 1),
                6 | 7 => self.take(place, count + place as u64 + 2),
                _ => told(&self.edge.announce()),
            };
            sum = mixed(sum, answer);
        }
        sum
    }
}

fn measure(stations: usize, rounds: u64) {
    let mut times = [0u64; 9];
    let mut sum = 0;
    for _ in 0..rounds {
        let mut bench = Bench::new(stations);
        for kind in 0..9 {
            let start = Instant::now();
            let answer = bench.run(kind);
            times[kind] += start.elapsed().as_nanos() as u64;
            sum = mixed(sum, answer);
        }
        // the second, of which the checksum has nothing
        sum = mixed(sum, 0);
    }
    for (name, time) in NAMES.iter().zip(times) {
        println!("{name} {stations} {} {time}", rounds * stations as u64);
    }
    println!("checksum {stations} {sum}");
}

fn main() {
    measure(1_000, 300);
    measure(65_536, 4);
}
