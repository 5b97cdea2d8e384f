//! The learning table as a plain Rust program: std's `HashMap` from station to node, and lists by
//! index for ageing and for each port. Makes the same calls in the same order as the program of
//! `driver/`, and prints the same lines.

use std::collections::HashMap;
use std::time::{Duration, Instant};

const PORTS: u8 = 16;

const NOBODY: u32 = u32::MAX;

#[derive(Clone, Copy, PartialEq, Eq, Hash)]
struct Station {
    vni: u32,
    mac: u64,
}

#[derive(Clone, Copy)]
struct Entry {
    port: u8,
    last: u64,
    pinned: bool,
}

#[derive(Clone, Copy)]
enum Learnt {
    New,
    Moved,
    Refreshed,
    Pinned,
    Full,
}

#[derive(Clone, Copy)]
struct Link {
    before: u32,
    behind: u32,
}

const ALONE: Link = Link {
    before: NOBODY,
    behind: NOBODY,
};

struct Node {
    station: Station,
    entry: Entry,
    age: Link,
    port: Link,
}

#[derive(Clone, Copy)]
struct Ends {
    first: u32,
    last: u32,
}

const EMPTY: Ends = Ends {
    first: NOBODY,
    last: NOBODY,
};

/// One of the two lists that a node is on.
#[derive(Clone, Copy)]
enum Order {
    Age,
    Port(u8),
}

struct MacTable {
    places: HashMap<Station, u32>,
    nodes: Vec<Node>,
    free: Vec<u32>,
    ageing: Ends,
    ports: [Ends; PORTS as usize],
    capacity: usize,
}

impl MacTable {
    fn new(capacity: usize) -> Self {
        MacTable {
            places: HashMap::with_capacity(capacity),
            nodes: Vec::with_capacity(capacity),
            free: Vec::with_capacity(capacity),
            ageing: EMPTY,
            ports: [EMPTY; PORTS as usize],
            capacity,
        }
    }

    fn link(&mut self, node: u32, order: Order) -> &mut Link {
        let node = &mut self.nodes[node as usize];
        match order {
            Order::Age => &mut node.age,
            Order::Port(_) => &mut node.port,
        }
    }

    fn ends(&mut self, order: Order) -> &mut Ends {
        match order {
            Order::Age => &mut self.ageing,
            Order::Port(port) => &mut self.ports[port as usize - 1],
        }
    }

    fn push_back(&mut self, node: u32, order: Order) {
        let last = self.ends(order).last;
        *self.link(node, order) = Link {
            before: last,
            behind: NOBODY,
        };
        match last {
            NOBODY => self.ends(order).first = node,
            _ => self.link(last, order).behind = node,
        }
        self.ends(order).last = node;
    }

    fn unlink(&mut self, node: u32, order: Order) {
        let Link { before, behind } = *self.link(node, order);
        match before {
            NOBODY => self.ends(order).first = behind,
            _ => self.link(before, order).behind = behind,
        }
        match behind {
            NOBODY => self.ends(order).last = before,
            _ => self.link(behind, order).before = before,
        }
    }

    fn look(&self, key: &Station) -> Option<Entry> {
        let node = *self.places.get(key)?;
        Some(self.nodes[node as usize].entry)
    }

    fn learn(&mut self, key: Station, port: u8, second: u64) -> Learnt {
        let Some(&node) = self.places.get(&key) else {
            return self.learn_new(key, port, second);
        };
        let entry = &mut self.nodes[node as usize].entry;
        if entry.pinned {
            return Learnt::Pinned;
        }
        let old = entry.port;
        entry.port = port;
        entry.last = second;
        self.unlink(node, Order::Age);
        self.push_back(node, Order::Age);
        if old == port {
            return Learnt::Refreshed;
        }
        self.unlink(node, Order::Port(old));
        self.push_back(node, Order::Port(port));
        Learnt::Moved
    }

    fn learn_new(&mut self, key: Station, port: u8, second: u64) -> Learnt {
        if self.places.len() == self.capacity {
            return Learnt::Full;
        }
        let fresh = Node {
            station: key,
            entry: Entry {
                port,
                last: second,
                pinned: false,
            },
            age: ALONE,
            port: ALONE,
        };
        let node = match self.free.pop() {
            Some(node) => {
                self.nodes[node as usize] = fresh;
                node
            }
            None => {
                self.nodes.push(fresh);
                self.nodes.len() as u32 - 1
            }
        };
        self.places.insert(key, node);
        self.push_back(node, Order::Age);
        self.push_back(node, Order::Port(port));
        Learnt::New
    }

    fn remove(&mut self, key: &Station) -> bool {
        let Some(node) = self.places.remove(key) else {
            return false;
        };
        let entry = self.nodes[node as usize].entry;
        if !entry.pinned {
            self.unlink(node, Order::Age);
        }
        self.unlink(node, Order::Port(entry.port));
        self.free.push(node);
        true
    }

    fn oldest(&self) -> Option<Station> {
        match self.ageing.first {
            NOBODY => None,
            node => Some(self.nodes[node as usize].station),
        }
    }
}

#[derive(Clone, Copy)]
struct Call {
    key: Station,
    port: u8,
}

// The same stations in four orders.
struct Calls {
    arrivals: Vec<Call>,
    heard: Vec<Call>,
    moves: Vec<Call>,
    leaving: Vec<Call>,
}

impl Calls {
    fn new(stations: usize) -> Calls {
        let mut random = Random { state: 2026 };
        let arrivals = arrivals(stations, &mut random);
        let heard = shuffled(&arrivals, 0, &mut random);
        let moves = shuffled(&arrivals, 1, &mut random);
        let leaving = shuffled(&arrivals, 0, &mut random);
        Calls {
            arrivals,
            heard,
            moves,
            leaving,
        }
    }
}

// The generator SplitMix64 (Steele, Lea and Flood, 2014).
struct Random {
    state: u64,
}

impl Random {
    fn next(&mut self) -> u64 {
        self.state = self.state.wrapping_add(0x9E37_79B9_7F4A_7C15);
        let mut z = self.state;
        z = (z ^ (z >> 30)).wrapping_mul(0xBF58_476D_1CE4_E5B9);
        z = (z ^ (z >> 27)).wrapping_mul(0x94D0_49BB_1331_11EB);
        z ^ (z >> 31)
    }
}

fn arrivals(stations: usize, random: &mut Random) -> Vec<Call> {
    (0..stations)
        .map(|place| Call {
            key: Station {
                vni: 5001,
                mac: random.next() % 0x1_0000_0000_0000,
            },
            port: 1 + (place % PORTS as usize) as u8,
        })
        .collect()
}

fn shuffled(calls: &[Call], ports_on: u8, random: &mut Random) -> Vec<Call> {
    let mut order: Vec<Call> = calls
        .iter()
        .map(|call| Call {
            key: call.key,
            port: 1 + (call.port - 1 + ports_on) % PORTS,
        })
        .collect();
    for place in 1..order.len() {
        order.swap(place, (random.next() % (place as u64 + 1)) as usize);
    }
    order
}

fn mixed(sum: u64, answer: u64) -> u64 {
    sum.wrapping_mul(31).wrapping_add(answer)
}

fn learn_all(table: &mut MacTable, calls: &[Call], second: u64) -> u64 {
    calls.iter().fold(0, |sum, call| {
        let answer = match table.learn(call.key, call.port, second) {
            Learnt::New => 1,
            Learnt::Moved => 2,
            Learnt::Refreshed => 3,
            Learnt::Pinned => 4,
            Learnt::Full => 5,
        };
        mixed(sum, answer)
    })
}

fn look_all(table: &MacTable, calls: &[Call]) -> u64 {
    calls.iter().fold(0, |sum, call| {
        let answer = match table.look(&call.key) {
            Some(entry) => entry.last.wrapping_mul(32).wrapping_add(entry.port as u64),
            None => 0,
        };
        mixed(sum, answer)
    })
}

fn remove_all(table: &mut MacTable, calls: &[Call]) -> u64 {
    calls
        .iter()
        .fold(0, |sum, call| mixed(sum, table.remove(&call.key) as u64))
}

// The time that each kind of call took, over all rounds.
#[derive(Default)]
struct Times {
    new: Duration,
    refresh: Duration,
    shift: Duration,
    look: Duration,
    remove: Duration,
}

// The time since the start, which is now from then on.
fn lap(start: &mut Instant) -> Duration {
    let now = Instant::now();
    let passed = now.saturating_duration_since(*start);
    *start = now;
    passed
}

fn round(table: &mut MacTable, calls: &Calls, second: u64, times: &mut Times) -> u64 {
    let mut start = Instant::now();
    let new = learn_all(table, &calls.arrivals, second);
    times.new += lap(&mut start);
    let refreshed = learn_all(table, &calls.heard, second);
    times.refresh += lap(&mut start);
    let moved = learn_all(table, &calls.moves, second);
    times.shift += lap(&mut start);
    let oldest = table.oldest().map_or(0, |station| station.mac);
    let looked = look_all(table, &calls.heard);
    times.look += lap(&mut start);
    let removed = remove_all(table, &calls.leaving);
    times.remove += lap(&mut start);
    let learnt = mixed(mixed(new, refreshed), moved);
    mixed(mixed(mixed(learnt, oldest), looked), removed)
}

fn measure(stations: usize, rounds: u64) {
    let calls = Calls::new(stations);
    let mut table = MacTable::new(stations);
    let mut times = Times::default();
    let sum = (0..rounds).fold(0, |sum, second| {
        mixed(sum, round(&mut table, &calls, second, &mut times))
    });
    let count = rounds * stations as u64;
    for (name, time) in [
        ("new", times.new),
        ("refresh", times.refresh),
        ("move", times.shift),
        ("look", times.look),
        ("remove", times.remove),
    ] {
        println!("{name} {stations} {count} {}", time.as_nanos());
    }
    println!("checksum {stations} {sum}");
}

fn main() {
    measure(1_000, 30_000);
    measure(65_536, 96);
}
