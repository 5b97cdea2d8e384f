//! Reads update records for the plain programs of `bench/report.sh` and `bench/migrate.sh`. Neither uses all of it.

#![allow(dead_code)]

use std::io::{self, Read, StdinLock, Write};

/// A network and a MAC address in it, as one number in the order of a report: 24 bits, and 49 bits for the flood list (0) or one
/// more than the MAC.
pub type Subject = u128;

#[inline(always)]
pub fn subject(vni: u32, place: u64) -> Subject {
    u128::from(vni) << 64 | u128::from(place)
}

/// Who says it, and by which IP address: the originator and the address's version (0 for none) as one number, and the address's
/// number in two halves. In this order, so that sources compare as numbers.
#[derive(Clone, Copy, PartialEq, Eq, PartialOrd, Ord)]
pub struct Source {
    who: u64,
    high: u64,
    low: u64,
}

impl Source {
    /// Of an address of 0, 4 or 16 octets.
    #[inline(always)]
    fn new(originator: u32, octets: &[u8]) -> Source {
        let who = u64::from(originator) << 8;
        if octets.is_empty() {
            return Source { who, high: 0, low: 0 };
        }
        let mut number = [0; 16];
        number[16 - octets.len()..].copy_from_slice(octets);
        let version = if octets.len() == 4 { 4 } else { 6 };
        Source { who: who | version, high: big64(&number, 0), low: big64(&number, 8) }
    }

    #[inline(always)]
    pub fn of(originator: u32, version: u8, high: u64, low: u64) -> Source {
        Source { who: u64::from(originator) << 8 | u64::from(version), high, low }
    }

    #[inline(always)]
    pub fn originator(&self) -> u32 {
        (self.who >> 8) as u32
    }

    #[inline(always)]
    pub fn version(&self) -> u8 {
        self.who as u8
    }

    #[inline(always)]
    pub fn halves(&self) -> (u64, u64) {
        (self.high, self.low)
    }
}

#[derive(Clone, Copy, PartialEq, Eq, PartialOrd, Ord)]
pub struct Value {
    pub incarnation: u32,
    pub counter: u64,
    pub content: Content,
}

/// Withdrawn, dynamic or static (2 bits), the sequence number (32), and one more than the second label (25, 0 for none): in this
/// order, so that contents compare as numbers.
#[derive(Clone, Copy, PartialEq, Eq, PartialOrd, Ord)]
pub struct Content(u64);

impl Content {
    #[inline(always)]
    pub fn new(rank: u64, sequence: u32, label2: u32) -> Content {
        Content(rank << 57 | u64::from(sequence) << 25 | u64::from(label2))
    }

    #[inline(always)]
    pub fn rank(self) -> u64 {
        self.0 >> 57
    }

    #[inline(always)]
    pub fn sequence(self) -> u32 {
        (self.0 >> 25) as u32
    }

    #[inline(always)]
    pub fn label2(self) -> u32 {
        self.0 as u32 & 0x1ff_ffff
    }

    /// Whether this advert of an address is better than another one, their places apart.
    #[inline(always)]
    pub fn beats(self, other: Content) -> bool {
        self.0 >> 25 > other.0 >> 25
    }
}

#[derive(Clone, Copy)]
pub struct Entry {
    pub source: Source,
    pub value: Value,
}

#[inline(always)]
pub fn part<const N: usize>(octets: &[u8], at: usize) -> [u8; N] {
    octets[at..at + N].try_into().unwrap()
}

#[inline(always)]
pub fn big16(octets: &[u8], at: usize) -> u32 {
    u32::from(u16::from_be_bytes(part(octets, at)))
}

#[inline(always)]
pub fn big24(octets: &[u8], at: usize) -> u32 {
    let [a, b, c] = part(octets, at);
    u32::from_be_bytes([0, a, b, c])
}

#[inline(always)]
pub fn big32(octets: &[u8], at: usize) -> u32 {
    u32::from_be_bytes(part(octets, at))
}

#[inline(always)]
pub fn big64(octets: &[u8], at: usize) -> u64 {
    u64::from_be_bytes(part(octets, at))
}

/// The fault that the first six octets of a record show, of versions up to the last one.
fn fault(header: &[u8], last: u8) -> Option<u8> {
    let least = if header[2] == 1 { 15 } else { 19 };
    match () {
        () if header[..2] != [0x45, 0x56] => Some(1),
        () if !(1..=last).contains(&header[2]) => Some(2),
        () if !(1..=2).contains(&header[3]) => Some(3),
        () if !(least..=512).contains(&big16(header, 4)) => Some(4),
        () => None,
    }
}

/// For each length of a MAC route how many octets its IP address and its second label have. No route is as long as the others say.
const FORMS: [[u8; 2]; 256] = {
    let mut table = [[255, 255]; 256];
    let mut ip = 0;
    while ip < 3 {
        let octets = [0, 4, 16][ip];
        table[33 + octets] = [octets as u8, 0];
        table[36 + octets] = [octets as u8, 3];
        ip += 1;
    }
    table
};

/// What a route's length says of it: how many octets its IP address has, and whether a second label follows.
fn form(is_mac: bool, length: u8) -> Option<(usize, bool)> {
    match (is_mac, length) {
        (true, 33) => Some((0, false)),
        (true, 36) => Some((0, true)),
        (true, 37) => Some((4, false)),
        (true, 40) => Some((4, true)),
        (true, 49) => Some((16, false)),
        (true, 52) => Some((16, true)),
        (false, 17) => Some((4, false)),
        _ => None,
    }
}

/// A record behind its six first octets that has a MAC route and nothing to refuse, as most have. All that could be refused is brought
/// together into a few numbers, so that there is little to branch on.
#[inline(always)]
fn read_usual(version: u8, withdrawn: bool, body: &[u8]) -> Option<(Subject, Entry)> {
    let (originator, incarnation, counter, vni, route) = if version == 1 {
        let (head, route) = body.split_first_chunk::<15>()?;
        (big32(head, 0), 0, big64(head, 4), big24(head, 12), route)
    } else {
        let (head, route) = body.split_first_chunk::<19>()?;
        (big32(head, 0), big32(head, 4), big64(head, 8), big24(head, 16), route)
    };
    let (route, rest) = route.split_first_chunk::<32>()?;
    let [ip_octets, label2_octets] = FORMS[usize::from(route[1])];
    let (ip_octets, label2_octets) = (usize::from(ip_octets), usize::from(label2_octets));
    let labels = rest.get(ip_octets..)?;
    let (label, tail) = labels.split_first_chunk::<3>()?;
    let tail = tail.get(label2_octets..)?;
    let usual = (big64(route, 2) >> 16) ^ (1 << 32 | u64::from(originator));
    let address = big64(route, 24);
    let fixed = u64::from(route[0] ^ 2) | u64::from(big32(route, 20)) | (address >> 56 ^ 48) | (address >> 48 & 1);
    let said = big64(route, 10) | u64::from(big16(route, 18)) | u64::from(big24(label, 0) ^ vni);
    let length = (address & 0xff) ^ (8 * ip_octets as u64);
    if usual | fixed | length != 0 || counter == 0 || (said != 0 && !withdrawn) {
        return None;
    }
    let (is_static, sequence) = match tail.first_chunk::<8>() {
        None if tail.is_empty() => (0, 0),
        Some(community) if tail.len() == 8 && !withdrawn && big16(community, 0) == 0x600 => (community[2] & 1, big32(community, 4)),
        _ => return None,
    };
    let ip = if withdrawn && version < 3 { &[] } else { &rest[..ip_octets] };
    let content = if withdrawn {
        Content::new(0, 0, 0)
    } else {
        let label2 = if label2_octets > 0 { 1 + big24(labels, 3) } else { 0 };
        Content::new(1 + u64::from(is_static), sequence, label2)
    };
    let place = (address >> 8 & 0xffff_ffff_ffff) + 1;
    Some((subject(vni, place), Entry { source: Source::new(originator, ip), value: Value { incarnation, counter, content } }))
}

/// A record behind its six first octets, or what it is refused for.
fn read_one(version: u8, withdrawn: bool, body: &[u8]) -> Result<(Subject, Entry), u8> {
    let after = if version == 1 { 4 } else { 8 };
    let originator = big32(body, 0);
    let incarnation = if version == 1 { 0 } else { big32(body, 4) };
    let counter = big64(body, after);
    let vni = big24(body, after + 8);
    let route = &body[after + 11..];
    if !route.is_empty() && route[0] != 2 && route[0] != 3 {
        return Err(5);
    }
    if route.len() < 2 || route.len() < 2 + usize::from(route[1]) {
        return Err(6);
    }
    let is_mac = route[0] == 2;
    let (ip_octets, has_label2) = form(is_mac, route[1]).ok_or(6)?;
    let (route, tail) = route[2..].split_at(usize::from(route[1]));
    let is_community = is_mac && !withdrawn && tail.len() == 8 && tail[..2] == [6, 0];
    if usize::from(route[if is_mac { 29 } else { 12 }]) != 8 * ip_octets || !(tail.is_empty() || is_community) {
        return Err(6);
    }
    if route[..2] != [0, 1] || big32(route, 2) != originator || (!is_mac && big32(route, 13) != originator) {
        return Err(7);
    }
    let advert_of_mac = is_mac && !withdrawn;
    if advert_of_mac && route[8..18] != [0; 10] {
        return Err(8);
    }
    if big32(route, if is_mac { 18 } else { 8 }) != 0 {
        return Err(9);
    }
    if advert_of_mac && big24(route, 30 + ip_octets) != vni {
        return Err(10);
    }
    if is_mac && (route[22] != 48 || route[23] & 1 == 1) {
        return Err(11);
    }
    if counter == 0 {
        return Err(14);
    }
    let place = if is_mac { (u64::from(big32(route, 23)) << 16 | u64::from(big16(route, 27))) + 1 } else { 0 };
    let has_ip = is_mac && !(withdrawn && version < 3);
    let ip = if has_ip { &route[30..30 + ip_octets] } else { &[] };
    let mut content = Content::new(0, 0, 0);
    if !withdrawn {
        let (is_static, sequence) = if is_community { (tail[2] & 1, big32(tail, 4)) } else { (0, 0) };
        let label2 = if has_label2 { 1 + big24(route, 33 + ip_octets) } else { 0 };
        content = Content::new(1 + u64::from(is_static), sequence, label2);
    }
    let value = Value { incarnation, counter, content };
    Ok((subject(vni, place), Entry { source: Source::new(originator, ip), value }))
}

/// The octets that a program reads or writes at once.
pub const PIECE: usize = 1 << 16;

/// The input in large pieces. What is left of one is moved to the front before the next one is read.
pub struct Input {
    input: StdinLock<'static>,
    piece: Box<[u8]>,
    from: usize,
    to: usize,
}

impl Input {
    pub fn new() -> Input {
        Input { input: io::stdin().lock(), piece: vec![0; PIECE].into(), from: 0, to: 0 }
    }

    /// The octets that are left, at least this many unless the input ends before.
    #[inline(always)]
    fn peek(&mut self, least: usize) -> io::Result<&[u8]> {
        if self.to - self.from < least {
            self.fill(least)?;
        }
        Ok(&self.piece[self.from..self.to])
    }

    #[cold]
    fn fill(&mut self, least: usize) -> io::Result<()> {
        while self.to - self.from < least {
            self.piece.copy_within(self.from..self.to, 0);
            (self.from, self.to) = (0, self.to - self.from);
            match self.input.read(&mut self.piece[self.to..])? {
                0 => break,
                n => self.to += n,
            }
        }
        Ok(())
    }
}

/// The originators listened to. Their last six bits mostly tell which one it may be.
pub struct Listed {
    all: Vec<u32>,
    by_end: [u32; 64],
    places: [u8; 64],
}

impl Listed {
    /// Of addresses with commas between.
    pub fn new(list: &str) -> Listed {
        let all: Vec<u32> = list.split(',').map(|a| a.parse::<std::net::Ipv4Addr>().expect("an address").into()).collect();
        let mut by_end = [all[0]; 64];
        all.iter().for_each(|address| by_end[*address as usize % 64] = *address);
        let mut places = [0; 64];
        all.iter().zip(0u8..).for_each(|(address, place)| places[*address as usize % 64] = place);
        Listed { all, by_end, places }
    }

    /// The place that an originator probably has among those listed.
    #[inline(always)]
    pub fn place(&self, address: u32) -> usize {
        usize::from(self.places[address as usize % 64])
    }

    #[inline(always)]
    fn has(&self, address: u32) -> bool {
        self.by_end[address as usize % 64] == address || self.all.contains(&address)
    }
}

/// Notes a record that the input ends in. The first four octets may show a fault, too.
#[cold]
fn note_cut(notes: &mut Vec<u8>, last: u8, count: u64, octets: &[u8]) -> io::Result<()> {
    let mut header = [0x45, 0x56, 1, 1, 0, 64];
    let few = octets.len().min(4);
    header[..few].copy_from_slice(&octets[..few]);
    match fault(&header, last) {
        Some(fault) => note_fault(notes, fault, count, octets),
        None => writeln!(notes, "truncated {} at record {count}", octets.len()),
    }
}

#[cold]
fn note_fault(notes: &mut Vec<u8>, fault: u8, count: u64, octets: &[u8]) -> io::Result<()> {
    writeln!(notes, "fault {fault} at record {count}")?;
    if count == 1 && octets[0] != b'E' && matches!(octets[0], b' '..=b'~' | b'\t' | b'\n' | b'\r') {
        writeln!(notes, "this is not a record stream; `examples/make_records` turns text into records")?;
    }
    Ok(())
}

/// Takes the records of the input, of versions up to the last one. Answers the status.
#[inline(always)]
pub fn take_all(
    input: &mut Input,
    last: u8,
    originators: &Listed,
    notes: &mut Vec<u8>,
    mut take: impl FnMut(Subject, Entry),
) -> io::Result<u8> {
    for count in 1u64.. {
        let mut octets = input.peek(6)?;
        if octets.is_empty() {
            break;
        }
        let mut length = 6;
        if octets.len() >= 6 {
            if let Some(fault) = fault(octets, last) {
                note_fault(notes, fault, count, octets)?;
                return Ok(1);
            }
            length += big16(octets, 4) as usize;
            if octets.len() < length {
                octets = input.peek(length)?;
            }
        }
        if octets.len() < length {
            note_cut(notes, last, count, octets)?;
            return Ok(1);
        }
        let (version, withdrawn, body) = (octets[2], octets[3] == 2, &octets[6..length]);
        match read_usual(version, withdrawn, body).map_or_else(|| read_one(version, withdrawn, body), Ok) {
            Err(refusal) => writeln!(notes, "record {count} refused {refusal}")?,
            Ok((_, entry)) if !originators.has(entry.source.originator()) => writeln!(notes, "record {count} refused 12")?,
            Ok((subject, entry)) => take(subject, entry),
        }
        input.from += length;
    }
    Ok(0)
}
