//! The yardsticks: plain Rust programs without proofs that do what `evpnd report` does, written for speed.
//!
//! `plain ordered ORIGINATORS`: an ordered map from network and MAC to a group of registers in order, with its best advert kept.
//! `plain flat ORIGINATORS`: a hash map from register to value. It is brought into order, and owners are found, at the end.
//! `plain map ORIGINATORS`: an ordered map from register to value, as anyone would write it first. Owners are found at the end.

mod records;

use records::{Entry, Input, Listed, PIECE, Source, Subject, Value, part, subject, take_all};
use std::collections::{BTreeMap, HashMap};
use std::env;
use std::hash::{BuildHasherDefault, Hasher};
use std::io::{self, StdoutLock, Write};
use std::process::ExitCode;

/// The place of the best advert; the first one of equals, which stand in the order of a report.
fn best_of(entries: &[Entry]) -> Option<usize> {
    let mut best: Option<usize> = None;
    for (at, entry) in entries.iter().enumerate() {
        let content = entry.value.content;
        if content.rank() > 0 && best.is_none_or(|best| content.beats(entries[best].value.content)) {
            best = Some(at);
        }
    }
    best
}

#[derive(Default)]
struct Group {
    entries: Vec<Entry>,
    best: Option<u32>,
}

impl Group {
    /// Takes an update, whose register is probably at the place `guess`.
    fn take(&mut self, new: Entry, guess: usize) {
        let found = match self.entries.get(guess) {
            Some(entry) if entry.source == new.source => Ok(guess),
            _ if self.entries.len() <= 32 => self.walk(&new.source),
            _ => self.entries.binary_search_by(|entry| entry.source.cmp(&new.source)),
        };
        match found {
            Ok(at) if new.value <= self.entries[at].value => {}
            Ok(at) => {
                let was = std::mem::replace(&mut self.entries[at].value, new.value).content;
                if self.best != Some(at as u32) {
                    self.compare(at);
                } else if was.beats(new.value.content) {
                    self.best = best_of(&self.entries).map(|at| at as u32);
                }
            }
            Err(at) => {
                self.entries.insert(at, new);
                self.best = self.best.map(|best| best + u32::from(at as u32 <= best));
                self.compare(at);
            }
        }
    }

    fn walk(&self, source: &Source) -> Result<usize, usize> {
        for (at, entry) in self.entries.iter().enumerate() {
            if entry.source >= *source {
                return if entry.source == *source { Ok(at) } else { Err(at) };
            }
        }
        Err(self.entries.len())
    }

    /// The entry at a place may be the best one now.
    fn compare(&mut self, at: usize) {
        let content = self.entries[at].value.content;
        let wins = content.rank() > 0
            && self.best.is_none_or(|best| {
                let other = self.entries[best as usize].value.content;
                content.beats(other) || (at < best as usize && !other.beats(content))
            });
        if wins {
            self.best = Some(at as u32);
        }
    }
}

/// Multiplies and turns: enough for keys that nobody chose to collide.
#[derive(Default)]
struct Mixer(u64);

impl Hasher for Mixer {
    fn write(&mut self, _: &[u8]) {
        unreachable!("registers are hashed as words")
    }

    fn write_u64(&mut self, number: u64) {
        self.0 = (self.0.rotate_left(23) ^ number).wrapping_mul(0x9e37_79b9_7f4a_7c15);
    }

    fn finish(&self) -> u64 {
        self.0 ^ self.0 >> 32
    }
}

/// A register as four words, which are compared at once: network and originator, place and version of the IP address, and its octets.
#[derive(Clone, Copy, PartialEq, Eq)]
struct Register([u64; 4]);

impl Register {
    fn new(subject: Subject, source: &Source) -> Self {
        let (vni, place) = ((subject >> 64) as u64, subject as u64);
        let (high, low) = source.halves();
        Register([vni << 32 | u64::from(source.originator()), place | u64::from(source.version()) << 56, high, low])
    }

    fn about(&self) -> Subject {
        subject((self.0[0] >> 32) as u32, self.0[1] << 8 >> 8)
    }

    fn version(&self) -> u8 {
        (self.0[1] >> 56) as u8
    }

    fn source(&self) -> Source {
        Source::of(self.0[0] as u32, self.version(), self.0[2], self.0[3])
    }
}

impl std::hash::Hash for Register {
    fn hash<H: Hasher>(&self, hasher: &mut H) {
        let words = if self.version() == 0 { 2 } else { 4 };
        self.0[..words].iter().for_each(|word| hasher.write_u64(*word));
    }
}

enum Table {
    /// By network, and then by place.
    Ordered(BTreeMap<u32, BTreeMap<u64, Group>>),
    Flat(HashMap<Register, Value, BuildHasherDefault<Mixer>>),
    Map(BTreeMap<(Subject, Source), Value>),
}

impl Table {
    fn take(&mut self, subject: Subject, entry: Entry, guess: usize) {
        match self {
            Table::Ordered(networks) => {
                networks.entry((subject >> 64) as u32).or_default().entry(subject as u64).or_default().take(entry, guess);
            }
            Table::Flat(registers) => {
                let known = registers.entry(Register::new(subject, &entry.source)).or_insert(entry.value);
                if *known < entry.value {
                    *known = entry.value;
                }
            }
            Table::Map(registers) => {
                let known = registers.entry((subject, entry.source)).or_insert(entry.value);
                *known = entry.value.max(*known);
            }
        }
    }

    fn report(self, out: &mut Lines) -> io::Result<()> {
        match self {
            Table::Ordered(networks) => networks.iter().try_for_each(|(vni, groups)| {
                groups.iter().try_for_each(|(place, group)| {
                    out.group(subject(*vni, *place), &group.entries, group.best.map(|best| best as usize))
                })
            }),
            Table::Flat(registers) => {
                let registers: Vec<(Register, Value)> = registers.into_iter().collect();
                // a sort of numbers: what a register is about, and the register's place above
                let numbered = registers.iter().zip(0u32..);
                let mut order: Vec<u128> = numbered.map(|((register, _), at)| register.about() << 32 | u128::from(at)).collect();
                order.sort_unstable();
                let mut entries = Vec::new();
                for group in order.chunk_by(|a, b| a >> 32 == b >> 32) {
                    entries.clear();
                    entries.extend(group.iter().map(|at| {
                        let (register, value) = registers[*at as u32 as usize];
                        Entry { source: register.source(), value }
                    }));
                    if entries.len() > 1 {
                        entries.sort_unstable_by_key(|entry| entry.source);
                    }
                    out.group(group[0] >> 32, &entries, best_of(&entries))?;
                }
                Ok(())
            }
            Table::Map(registers) => {
                let mut entries = Vec::new();
                let mut left = registers.iter().peekable();
                while let Some((&(subject, source), &value)) = left.next() {
                    entries.push(Entry { source, value });
                    if left.peek().is_none_or(|next| next.0.0 != subject) {
                        out.group(subject, &entries, best_of(&entries))?;
                        entries.clear();
                    }
                }
                Ok(())
            }
        }
    }
}

/// More than the longest line has: a line begins only where it fits.
const LINE: usize = 256;

/// The decimal digits of each octet and a dot behind them, and how many characters that is.
const DOTTED: [([u8; 4], u8); 256] = {
    let mut table = [([0; 4], 0); 256];
    let mut n = 0;
    while n < 256 {
        let digits = [b'0' + (n / 100) as u8, b'0' + (n / 10 % 10) as u8, b'0' + (n % 10) as u8];
        table[n] = match n {
            0..10 => ([digits[2], b'.', 0, 0], 2),
            10..100 => ([digits[1], digits[2], b'.', 0], 3),
            _ => ([digits[0], digits[1], digits[2], b'.'], 4),
        };
        n += 1;
    }
    table
};

/// The two hexadecimal digits of each octet.
const HEX: [[u8; 2]; 256] = {
    let digits = b"0123456789abcdef";
    let mut table = [[0; 2]; 256];
    let mut n = 0;
    while n < 256 {
        table[n] = [digits[n / 16], digits[n % 16]];
        n += 1;
    }
    table
};

/// The two decimal digits of each number below 100.
const PAIRS: [[u8; 2]; 100] = {
    let mut table = [[0; 2]; 100];
    let mut n = 0;
    while n < 100 {
        table[n] = [b'0' + (n / 10) as u8, b'0' + (n % 10) as u8];
        n += 1;
    }
    table
};

/// Characters that are written one behind the other.
#[derive(Clone, Copy)]
struct Text<const N: usize> {
    octets: [u8; N],
    len: usize,
}

impl<const N: usize> Text<N> {
    fn new() -> Self {
        Text { octets: [0; N], len: 0 }
    }

    /// Writes an array, of which so many octets count.
    #[inline(always)]
    fn put_some<const M: usize>(&mut self, octets: &[u8; M], count: usize) {
        self.octets[self.len..self.len + M].copy_from_slice(octets);
        self.len += count;
    }

    #[inline(always)]
    fn put<const M: usize>(&mut self, octets: &[u8; M]) {
        self.put_some(octets, M);
    }

    #[inline]
    fn decimal(&mut self, mut number: u64) {
        // as many octets again behind the digits, so that all are copied at once
        let mut digits = [0; 40];
        let mut at = 20;
        while number >= 100 {
            at -= 2;
            digits[at..at + 2].copy_from_slice(&PAIRS[(number % 100) as usize]);
            number /= 100;
        }
        at -= 2;
        digits[at..at + 2].copy_from_slice(&PAIRS[number as usize]);
        at += usize::from(number < 10);
        self.put_some::<20>(&part(&digits, at), 20 - at);
    }

    #[inline]
    fn address(&mut self, address: u32) {
        for octet in address.to_be_bytes() {
            let (text, count) = &DOTTED[usize::from(octet)];
            self.put_some(text, usize::from(*count));
        }
        self.len -= 1;
    }

    fn ip(&mut self, source: &Source) {
        let (high, low) = source.halves();
        if source.version() == 4 {
            return self.address(low as u32);
        }
        for (at, half) in [high, low].into_iter().enumerate() {
            for (octet, digits) in half.to_be_bytes().into_iter().enumerate() {
                if octet % 2 == 0 && at + octet > 0 {
                    self.put(b":");
                }
                self.put(&HEX[usize::from(digits)]);
            }
        }
    }
}

/// Lines, given on in large pieces.
struct Lines {
    out: StdoutLock<'static>,
    held: Box<Text<PIECE>>,
    /// Texts of originators, each at the last six bits of its address.
    names: [(u32, Text<20>); 64],
}

impl Lines {
    fn new() -> Lines {
        let mut empty = Text::new();
        empty.address(0);
        Lines { out: io::stdout().lock(), held: Box::new(Text::new()), names: [(0, empty); 64] }
    }

    #[inline(always)]
    fn originator(&mut self, address: u32) {
        let name = &mut self.names[address as usize % 64];
        if name.0 != address {
            *name = (address, Text::new());
            name.1.address(address);
        }
        self.held.put_some(&name.1.octets, name.1.len);
    }

    fn group(&mut self, subject: Subject, entries: &[Entry], best: Option<usize>) -> io::Result<()> {
        // the network and the address, which the lines of a group share
        let (vni, place) = ((subject >> 64) as u32, subject as u64);
        let mut station: Text<32> = Text::new();
        station.decimal(u64::from(vni));
        if place > 0 {
            for (at, octet) in (place - 1).to_be_bytes()[2..].iter().enumerate() {
                station.put(if at == 0 { b" " } else { b":" });
                station.put(&HEX[usize::from(*octet)]);
            }
        }
        station.put(b" ");
        for entry in entries {
            self.room()?;
            self.entry(place > 0, &station, entry);
        }
        if place > 0 {
            self.room()?;
            self.held.put(b"owner ");
            self.held.put_some(&station.octets, station.len);
            match best {
                None => self.held.put(b"none"),
                Some(best) => self.originator(entries[best].source.originator()),
            }
            self.held.put(b"\n");
        }
        Ok(())
    }

    fn entry(&mut self, is_mac: bool, station: &Text<32>, entry: &Entry) {
        let line = &mut self.held;
        let Value { incarnation, counter, content } = entry.value;
        if is_mac {
            line.put(b"mac ");
        } else {
            line.put(b"flood ");
        }
        line.put_some(&station.octets, station.len);
        self.originator(entry.source.originator());
        let line = &mut self.held;
        line.put(b" ");
        if incarnation != 0 {
            line.decimal(u64::from(incarnation));
            line.put(b".");
        }
        line.decimal(counter);
        match (content.rank(), is_mac) {
            (0, _) => line.put(b" withdrawn"),
            (_, false) => line.put(b" up"),
            (1, _) => line.put(b" dynamic "),
            _ => line.put(b" static "),
        }
        if is_mac && content.rank() > 0 {
            line.decimal(u64::from(content.sequence()));
        }
        if entry.source.version() > 0 {
            line.put(b" ip ");
            line.ip(&entry.source);
        }
        if content.label2() > 0 {
            line.put(b" label2 ");
            line.decimal(u64::from(content.label2() - 1));
        }
        line.put(b"\n");
    }

    /// Makes room for a line.
    #[inline]
    fn room(&mut self) -> io::Result<()> {
        if self.held.len + LINE <= PIECE { Ok(()) } else { self.pass_on() }
    }

    fn pass_on(&mut self) -> io::Result<()> {
        self.out.write_all(&self.held.octets[..self.held.len])?;
        self.held.len = 0;
        Ok(())
    }
}


fn main() -> io::Result<ExitCode> {
    let words: Vec<String> = env::args().skip(1).collect();
    let [table, list] = &words[..] else { panic!("usage: plain ordered|flat|map ORIGINATORS") };
    let originators = Listed::new(list);
    let mut table = match table.as_str() {
        "ordered" => Table::Ordered(BTreeMap::new()),
        "flat" => Table::Flat(HashMap::default()),
        "map" => Table::Map(BTreeMap::new()),
        other => panic!("no table is called {other}"),
    };
    let mut notes = Vec::new();
    let status = take_all(&mut Input::new(), 3, &originators, &mut notes, |subject, entry| {
        table.take(subject, entry, originators.place(entry.source.originator()))
    })?;
    io::stderr().write_all(&notes)?;
    let mut lines = Lines::new();
    table.report(&mut lines)?;
    lines.pass_on()?;
    Ok(ExitCode::from(status))
}
