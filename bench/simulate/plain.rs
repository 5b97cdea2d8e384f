//! The yardstick: a plain Rust program without proofs that does what `evpnd simulate` does on the scripts of `bench/simulate.sh`.
//!
//! `plain EDGES`: so many edges, 10.0.0.E with the bridge 02:aa:00:00:00:E, all of VNI 5001. Each port leads to no bridge. The
//! lines are `E up P`, `E frame P HEX`, `E deliver K`, `E announce` and `E second N`: the script has no others.
//!
//! An edge keeps one hash map from MAC to station. A station has its port, its place among those that age, its window of moves, and
//! its routes. So a frame's source is sought once, and its destination once. The flood list is kept as text.

use std::collections::{HashMap, VecDeque};
use std::env;
use std::hash::{BuildHasherDefault, Hasher};
use std::io::{self, Read, StdoutLock, Write};
use std::process::ExitCode;

const AGEING: u64 = 300;
const CAPACITY: usize = 8192;
const HELLO: u8 = 2;
const WINDOW: u64 = 180;
const MOVES: u8 = 5;

/// The refusals and the alert that a script of the bench can meet.
const NO_EDGE: &[u8] = b"refused fabric 18\n";
const NO_UPDATE: &[u8] = b"refused fabric 19\n";
const NO_PORT: &[u8] = b"refused edge 16\n";

/// The station that stands for the flood list. No other has its key, a group address.
const FLOOD: usize = 0;
const FLOOD_KEY: u64 = 0xffff_ffff_ffff;

const NOBODY: u32 = u32::MAX;

/// Multiplies and turns: enough for keys that nobody chose to collide.
#[derive(Default)]
struct Mixer(u64);

impl Hasher for Mixer {
    fn write(&mut self, _: &[u8]) {
        unreachable!("MACs are hashed as one word")
    }

    fn write_u64(&mut self, number: u64) {
        self.0 = number.wrapping_mul(0x9e37_79b9_7f4a_7c15);
    }

    fn finish(&self) -> u64 {
        self.0 ^ self.0 >> 32
    }
}

/// The counter, and then the content: 0 if withdrawn, else one more than the sequence number. Newer ones are greater.
type Value = (u64, u64);

#[derive(Clone, Copy)]
struct Route {
    /// The number of the edge that originates it.
    by: usize,
    value: Value,
}

#[derive(Clone, Copy)]
struct Update {
    mac: u64,
    route: Route,
}

/// What an edge knows of a MAC.
struct Station {
    mac: u64,
    /// Where it was learnt, 0 if it isn't.
    port: u8,
    is_pending: bool,
    is_frozen: bool,
    moves: u8,
    /// The second in which its window of moves began.
    window: u64,
    /// The second in which it sent last.
    last: u64,
    older: u32,
    younger: u32,
    /// In the order of edges.
    routes: Vec<Route>,
}

impl Station {
    fn new(mac: u64) -> Station {
        let routes = Vec::new();
        Station { mac, port: 0, is_pending: false, is_frozen: false, moves: 0, window: 0, last: 0, older: NOBODY, younger: NOBODY, routes }
    }

    /// Puts a route in its place. Returns `false` if it isn't newer than the one that is there.
    fn put(&mut self, route: Route) -> bool {
        let at = self.routes.iter().position(|other| other.by >= route.by).unwrap_or(self.routes.len());
        match self.routes.get_mut(at) {
            Some(known) if known.by == route.by => {
                let is_newer = known.value < route.value;
                if is_newer {
                    known.value = route.value;
                }
                is_newer
            }
            _ => {
                self.routes.insert(at, route);
                true
            }
        }
    }

    /// The edge whose advert is the best: that of the highest sequence number, and of those the first one.
    fn owner(&self) -> Option<usize> {
        let mut best = (0, None);
        for route in &self.routes {
            if route.value.1 > best.0 {
                best = (route.value.1, Some(route.by));
            }
        }
        best.1
    }
}

struct Edge {
    number: usize,
    clock: u64,
    counter: u64,
    passing: u64,
    /// The seconds up to the next message of each port.
    hello: [u8; 64],
    /// What each message has before its port's number.
    message: Vec<u8>,
    by_mac: HashMap<u64, u32, BuildHasherDefault<Mixer>>,
    stations: Vec<Station>,
    learnt: usize,
    oldest: u32,
    youngest: u32,
    pending: VecDeque<u32>,
    /// The other edges on the flood list, and a line feed.
    flooded: Vec<u8>,
}

impl Edge {
    fn new(number: usize) -> Edge {
        let bridge = format!("800002aa000000{number:02x}");
        let mut edge = Edge {
            number,
            clock: 0,
            counter: 0,
            passing: 0,
            hello: [0; 64],
            message: format!("000002023c{bridge}00000000{bridge}80").into_bytes(),
            by_mac: HashMap::default(),
            stations: vec![Station::new(FLOOD_KEY)],
            learnt: 0,
            oldest: NOBODY,
            youngest: NOBODY,
            pending: VecDeque::new(),
            flooded: b"-\n".to_vec(),
        };
        edge.by_mac.insert(FLOOD_KEY, FLOOD as u32);
        edge.originate(FLOOD, 1);
        edge
    }

    /// The place of a station, which is made if there is none.
    fn place(&mut self, mac: u64) -> usize {
        let next = self.stations.len() as u32;
        let place = *self.by_mac.entry(mac).or_insert(next);
        if place == next {
            self.stations.push(Station::new(mac));
        }
        place as usize
    }

    /// Gives an own route its next value.
    fn originate(&mut self, place: usize, content: u64) {
        self.counter += 1;
        let station = &mut self.stations[place];
        station.put(Route { by: self.number, value: (self.counter, content) });
        if !station.is_pending {
            station.is_pending = true;
            self.pending.push_back(place as u32);
        }
    }

    /// Puts a station behind all that age.
    fn link(&mut self, place: usize) {
        let last = self.youngest;
        let station = &mut self.stations[place];
        (station.older, station.younger, station.last) = (last, NOBODY, self.clock);
        self.youngest = place as u32;
        match self.stations.get_mut(last as usize) {
            Some(other) => other.younger = place as u32,
            None => self.oldest = place as u32,
        }
    }

    fn unlink(&mut self, place: usize) {
        let Station { older, younger, .. } = self.stations[place];
        match self.stations.get_mut(older as usize) {
            Some(other) => other.younger = younger,
            None => self.oldest = younger,
        }
        match self.stations.get_mut(younger as usize) {
            Some(other) => other.older = older,
            None => self.youngest = older,
        }
    }

    /// Forgets a learnt station, and withdraws it.
    fn lose(&mut self, place: usize) {
        self.unlink(place);
        self.stations[place].port = 0;
        self.learnt -= 1;
        self.originate(place, 0);
    }

    /// Learns a frame's source. Returns the alert, if there is one.
    fn learn(&mut self, mac: u64, port: u8) -> Option<u8> {
        let place = self.place(mac);
        let station = &mut self.stations[place];
        if station.port > 0 {
            station.port = port;
            if self.youngest == place as u32 {
                station.last = self.clock;
            } else {
                self.unlink(place);
                self.link(place);
            }
            return None;
        }
        if station.is_frozen {
            return None;
        }
        let others = station.routes.iter().filter(|route| route.by != self.number).map(|route| route.value.1).max().unwrap_or(0);
        if others == 1 << 32 {
            return Some(2);
        }
        if self.counter >= 1 << 63 {
            return Some(5);
        }
        if self.learnt >= CAPACITY {
            return Some(6);
        }
        if others > 0 {
            if station.moves == 0 || self.clock >= station.window + WINDOW {
                (station.window, station.moves) = (self.clock, 0);
            }
            station.moves += 1;
            if station.moves == MOVES {
                station.is_frozen = true;
                return Some(3);
            }
        }
        station.port = port;
        self.learnt += 1;
        self.link(place);
        self.originate(place, others + 1);
        None
    }

    /// Takes another edge's update. Returns whether it was newer.
    fn take(&mut self, update: &Update, names: &[String]) -> bool {
        let place = self.place(update.mac);
        let station = &mut self.stations[place];
        if !station.put(update.route) {
            return false;
        }
        if place == FLOOD {
            self.list_flooded(names);
        } else if station.port > 0 && station.owner() != Some(self.number) {
            self.lose(place);
        }
        true
    }

    /// Lists the other edges that take part in the network.
    fn list_flooded(&mut self, names: &[String]) {
        let routes = self.stations[FLOOD].routes.iter();
        let others: Vec<&str> = routes.filter(|it| it.by != self.number && it.value.1 > 0).map(|it| names[it.by - 1].as_str()).collect();
        self.flooded = if others.is_empty() { "-\n".to_string() } else { others.join(",") + "\n" }.into_bytes();
    }

    fn put_message(&self, port: usize, out: &mut Lines) {
        out.number(self.number as u64);
        out.put(b" bpdu ");
        out.number(port as u64);
        out.put(b" ");
        out.put(&self.message);
        out.put(&HEX[port]);
        out.put(b"0000140002000f0000\n");
    }

    fn up(&mut self, port: usize, out: &mut Lines) {
        if self.passing >> (port - 1) & 1 == 0 {
            self.passing |= 1 << (port - 1);
            self.hello[port - 1] = HELLO;
            self.put_message(port, out);
        }
    }

    fn second(&mut self, out: &mut Lines) {
        self.clock += 1;
        for port in ports_of(self.passing) {
            self.hello[port - 1] -= 1;
            if self.hello[port - 1] == 0 {
                self.hello[port - 1] = HELLO;
                self.put_message(port, out);
            }
        }
        while let Some(oldest) = self.stations.get(self.oldest as usize) {
            if oldest.last + AGEING > self.clock {
                break;
            }
            self.lose(self.oldest as usize);
        }
    }

    fn frame(&mut self, port: usize, frame: &[u8], names: &[String], out: &mut Lines) {
        let Some((addresses, tail)) = frame.split_first_chunk::<12>().filter(|(_, tail)| tail.len() >= 2) else {
            return out.refuse(self.number, b"refused ether 1\n");
        };
        let length = usize::from(u16::from_be_bytes([tail[0], tail[1]]));
        if frame.len() > 9018 {
            return out.refuse(self.number, b"refused ether 2\n");
        }
        if length <= 1500 && length > tail.len() - 2 {
            return out.refuse(self.number, b"refused ether 3\n");
        }
        let [a, b, c, d, e, f, g, h, i, j, k, l] = *addresses;
        let (to, by) = (u64::from_be_bytes([0, 0, a, b, c, d, e, f]), u64::from_be_bytes([0, 0, g, h, i, j, k, l]));
        let is_open = self.passing >> (port - 1) & 1 == 1;
        if !is_open || (0x0180_c200_0000..=0x0180_c200_000f).contains(&to) {
            return;
        }
        let alert = if g & 1 == 0 { self.learn(by, port as u8) } else { None };
        self.forward(port, to, names, out);
        if let Some(alert) = alert {
            out.number(self.number as u64);
            out.put(b" alert ");
            out.number(u64::from(alert));
            out.put(b"\n");
        }
    }

    /// Writes where a frame goes.
    fn forward(&self, from: usize, to: u64, names: &[String], out: &mut Lines) {
        out.number(self.number as u64);
        out.put(b" local ");
        let known = if to >> 40 & 1 == 1 { None } else { self.by_mac.get(&to).map(|place| &self.stations[*place as usize]) };
        if let Some(station) = known {
            if station.port > 0 {
                out.ports(if usize::from(station.port) == from { 0 } else { self.passing & 1 << (station.port - 1) });
                return out.put(b" remote -\n");
            }
            if let Some(owner) = station.owner() {
                out.put(b"- remote ");
                out.put(names[owner - 1].as_bytes());
                return out.put(b"\n");
            }
        }
        out.ports(self.passing & !(1 << (from - 1)));
        out.put(b" remote ");
        out.put(&self.flooded);
    }

    /// The first own update that is pending.
    fn announce(&mut self) -> Option<Update> {
        let station = &mut self.stations[self.pending.pop_front()? as usize];
        station.is_pending = false;
        let route = *station.routes.iter().find(|route| route.by == self.number)?;
        Some(Update { mac: station.mac, route })
    }
}

/// The numbers of the ports in a set, ascending.
fn ports_of(mut set: u64) -> impl Iterator<Item = usize> {
    std::iter::from_fn(move || {
        let first = set.trailing_zeros();
        set &= set.wrapping_sub(1);
        (first < 64).then_some(first as usize + 1)
    })
}

/// The two hexadecimal digits of each octet.
const HEX: [[u8; 2]; 256] = {
    let digits = b"0123456789abcdef";
    let mut table = [[0; 2]; 256];
    let mut n = 0;
    while n < 256 {
        table[n] = [digits[n / 16], digits[n % 16]];
        n += 1;
    }
    table
};

/// What each character is worth as a hexadecimal digit, 255 if it is none.
const WORTH: [u8; 256] = {
    let digits = b"0123456789abcdef";
    let mut table = [255; 256];
    let mut n = 0;
    while n < 16 {
        table[digits[n] as usize] = n as u8;
        n += 1;
    }
    table
};

const PIECE: usize = 1 << 16;

/// More than the lines of one command have, up to 64 messages of a second.
const MOST: usize = 1 << 13;

/// Lines, given on in large pieces.
struct Lines {
    out: StdoutLock<'static>,
    held: Box<[u8; PIECE]>,
    len: usize,
}

impl Lines {
    #[inline(always)]
    fn put(&mut self, octets: &[u8]) {
        self.held[self.len..self.len + octets.len()].copy_from_slice(octets);
        self.len += octets.len();
    }

    #[inline]
    fn number(&mut self, mut number: u64) {
        let mut digits = [0; 20];
        let mut at = 20;
        loop {
            at -= 1;
            digits[at] = b'0' + (number % 10) as u8;
            number /= 10;
            if number == 0 {
                break;
            }
        }
        if at == 19 {
            self.put(&[digits[19]]);
        } else {
            self.put(&digits[at..]);
        }
    }

    fn ports(&mut self, set: u64) {
        if set == 0 {
            return self.put(b"-");
        }
        for (at, port) in ports_of(set).enumerate() {
            if at > 0 {
                self.put(b",");
            }
            self.number(port as u64);
        }
    }

    fn refuse(&mut self, edge: usize, words: &[u8]) {
        self.number(edge as u64);
        self.put(b" ");
        self.put(words);
    }

    /// Makes room for the lines of a command.
    #[inline]
    fn room(&mut self) -> io::Result<()> {
        if self.len + MOST <= PIECE { Ok(()) } else { self.pass_on() }
    }

    fn pass_on(&mut self) -> io::Result<()> {
        self.out.write_all(&self.held[..self.len])?;
        self.len = 0;
        Ok(())
    }
}

enum Verb<'a> {
    Up(usize),
    Frame(usize, &'a [u8]),
    Deliver(usize),
    Announce,
    Second(u64),
}

/// What is left of the script.
struct Script<'a>(&'a [u8]);

impl<'a> Script<'a> {
    #[inline(always)]
    fn has(&mut self, word: &[u8]) -> bool {
        let rest = self.0.strip_prefix(word);
        self.0 = rest.unwrap_or(self.0);
        rest.is_some()
    }

    /// Up to 18 digits, without leading zeros.
    #[inline]
    fn number(&mut self) -> Option<u64> {
        let (mut number, mut count) = (0, 0);
        while let Some(digit @ b'0'..=b'9') = self.0.get(count) {
            number = 10 * number + u64::from(digit - b'0');
            count += 1;
            if count > 18 {
                return None;
            }
        }
        if count == 0 || (count > 1 && self.0[0] == b'0') {
            return None;
        }
        self.0 = &self.0[count..];
        Some(number)
    }

    /// At least one pair of digits, up to the end of the line.
    #[inline]
    fn octets<'b>(&mut self, held: &'b mut [u8]) -> Option<&'b [u8]> {
        let mut count = 0;
        while let [a, b, rest @ ..] = self.0 {
            let (a, b) = (WORTH[usize::from(*a)], WORTH[usize::from(*b)]);
            if a | b > 15 {
                break;
            }
            *held.get_mut(count)? = a << 4 | b;
            count += 1;
            self.0 = rest;
        }
        (count > 0).then_some(&held[..count])
    }

    /// One line: an edge's number and what it does.
    #[inline]
    fn line<'b>(&mut self, held: &'b mut [u8]) -> Option<(usize, Verb<'b>)> {
        let edge = self.number()? as usize;
        let verb = if self.has(b" frame ") {
            let port = self.number()? as usize;
            if !self.has(b" ") {
                return None;
            }
            Verb::Frame(port, self.octets(held)?)
        } else if self.has(b" deliver ") {
            Verb::Deliver(self.number()? as usize)
        } else if self.has(b" announce") {
            Verb::Announce
        } else if self.has(b" second ") {
            Verb::Second(self.number().filter(|n| (1..=100_000).contains(n))?)
        } else if self.has(b" up ") {
            Verb::Up(self.number()? as usize)
        } else {
            return None;
        };
        (self.has(b"\n") || self.0.is_empty()).then_some((edge, verb))
    }
}

/// Runs a script, and answers the number of the first line that none of these edges knows, if there is one.
fn run(script: &[u8], edges: &mut [Edge], names: &[String], out: &mut Lines) -> io::Result<Option<u64>> {
    let mut pool: Vec<Update> = Vec::new();
    let mut held = [0; 10_000];
    let mut left = Script(script);
    for line in 1.. {
        if left.0.is_empty() {
            break;
        }
        let Some((number, verb)) = left.line(&mut held) else { return Ok(Some(line)) };
        out.room()?;
        let Some(edge) = edges.get_mut(number.wrapping_sub(1)) else {
            out.refuse(number, NO_EDGE);
            continue;
        };
        match verb {
            Verb::Up(port) | Verb::Frame(port, _) if port != 1 => out.refuse(number, NO_PORT),
            Verb::Up(port) => edge.up(port, out),
            Verb::Frame(port, frame) => edge.frame(port, frame, names, out),
            Verb::Deliver(update) => match pool.get(update.wrapping_sub(1)) {
                None => out.refuse(number, NO_UPDATE),
                Some(update) => {
                    let is_newer = edge.take(update, names);
                    out.number(number as u64);
                    out.put(if is_newer { b" newer\n" } else { b" known\n" });
                }
            },
            Verb::Announce => {
                let announced = edge.announce();
                out.number(number as u64);
                match announced {
                    None => out.put(b" none\n"),
                    Some(update) => {
                        pool.push(update);
                        out.put(b" pool ");
                        out.number(pool.len() as u64);
                        out.put(b"\n");
                    }
                }
            }
            Verb::Second(seconds) => {
                for _ in 0..seconds {
                    out.room()?;
                    edge.second(out);
                }
            }
        }
    }
    Ok(None)
}

fn main() -> io::Result<ExitCode> {
    let count = env::args().nth(1).and_then(|count| count.parse().ok()).expect("usage: plain EDGES");
    let names: Vec<String> = (1..=count).map(|edge| format!("10.0.0.{edge}")).collect();
    let mut edges: Vec<Edge> = (1..=count).map(Edge::new).collect();
    let mut script = Vec::new();
    io::stdin().lock().read_to_end(&mut script)?;
    let mut out = Lines { out: io::stdout().lock(), held: Box::new([0; PIECE]), len: 0 };
    let bad = run(&script, &mut edges, &names, &mut out)?;
    out.pass_on()?;
    if let Some(line) = bad {
        writeln!(io::stderr(), "line {line} bad")?;
    }
    Ok(ExitCode::from(u8::from(bad.is_some())))
}
