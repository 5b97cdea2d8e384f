//! The yardstick: a plain Rust program without proofs that does what `evpnd migrate` does, written for speed.
//!
//! `plain ORIGINATORS`: a hash map from the register of the earlier versions (originator, network, and MAC or flood list) to its
//! newest update. The other IP addresses that updates of the register had are a list beside it, empty in most registers. At the end
//! the registers are sorted by one number each.

#[path = "../report/records.rs"]
mod records;

use records::{Content, Entry, Input, Listed, PIECE, Source, Subject, Value, subject, take_all};
use std::collections::HashMap;
use std::env;
use std::hash::{BuildHasherDefault, Hasher};
use std::io::{self, StdoutLock, Write};
use std::process::ExitCode;

/// Multiplies and turns: enough for keys that nobody chose to collide.
#[derive(Default)]
struct Mixer(u64);

impl Hasher for Mixer {
    fn write(&mut self, _: &[u8]) {
        unreachable!("registers are hashed as words")
    }

    fn write_u64(&mut self, number: u64) {
        self.0 = (self.0.rotate_left(23) ^ number).wrapping_mul(0x9e37_79b9_7f4a_7c15);
    }

    fn finish(&self) -> u64 {
        self.0 ^ self.0 >> 32
    }
}

/// A register of the earlier versions as two words: network and originator, and the place.
#[derive(Clone, Copy, PartialEq, Eq)]
struct Register([u64; 2]);

impl std::hash::Hash for Register {
    fn hash<H: Hasher>(&self, hasher: &mut H) {
        self.0.iter().for_each(|word| hasher.write_u64(*word));
    }
}

impl Register {
    fn new(subject: Subject, originator: u32) -> Register {
        Register([(subject >> 64) as u64 | u64::from(originator) << 32, subject as u64])
    }

    /// The network, the place and the originator as one number, of 24, 49 and 32 bits: in the order of a report.
    fn order(&self) -> u128 {
        let [who, place] = self.0;
        subject(who as u32, place) << 32 | u128::from(who >> 32)
    }
}

/// What was said of a register.
struct Said {
    newest: Value,
    source: Source,
    /// Each other IP address, once.
    replaced: Vec<Source>,
}

/// The order in which one update of an earlier version replaces another: the IP address is part of the content there.
fn rank(source: Source, value: Value) -> impl Ord {
    let content = value.content;
    (value.incarnation, value.counter, content.rank(), content.sequence(), source, content.label2())
}

impl Said {
    #[inline]
    fn take(&mut self, source: Source, value: Value) {
        let is_newer = rank(self.source, self.newest) < rank(source, value);
        if source == self.source {
            if is_newer {
                self.newest = value;
            }
            return;
        }
        let known = self.replaced.iter().position(|other| *other == source);
        if is_newer {
            let before = std::mem::replace(&mut self.source, source);
            self.newest = value;
            match known {
                Some(at) => self.replaced[at] = before,
                None => self.replaced.push(before),
            }
        } else if known.is_none() {
            self.replaced.push(source);
        }
    }
}

/// More than the longest record has.
const RECORD: usize = 128;

/// Records, given on in large pieces.
struct Records {
    out: StdoutLock<'static>,
    held: Box<[u8; PIECE]>,
    len: usize,
}

impl Records {
    #[inline(always)]
    fn put<const N: usize>(&mut self, octets: [u8; N]) {
        self.held[self.len..self.len + N].copy_from_slice(&octets);
        self.len += N;
    }

    #[inline]
    fn ip(&mut self, source: &Source) {
        let (high, low) = source.halves();
        match source.version() {
            0 => {}
            4 => self.put((low as u32).to_be_bytes()),
            _ => {
                self.put(high.to_be_bytes());
                self.put(low.to_be_bytes());
            }
        }
    }

    /// Writes a record of version 3.
    fn record(&mut self, subject: Subject, source: &Source, value: &Value) -> io::Result<()> {
        if self.len + RECORD > PIECE {
            self.pass_on()?;
        }
        let (place, content) = (subject as u64, value.content);
        let originator = source.originator().to_be_bytes();
        let [_, network @ ..] = ((subject >> 64) as u32).to_be_bytes();
        let is_advert = content.rank() > 0;
        let has_label2 = content.label2() > 0;
        let has_community = content.rank() > 1 || content.sequence() > 0;
        let ip = match source.version() {
            0 => 0,
            4 => 4,
            _ => 16,
        };
        let route = if place == 0 { 17 } else { 33 + ip + if has_label2 { 3 } else { 0 } };
        let length = 21 + u16::from(route) + if has_community { 8 } else { 0 };
        self.put([b'E', b'V', 3, if is_advert { 1 } else { 2 }]);
        self.put(length.to_be_bytes());
        self.put(originator);
        self.put(value.incarnation.to_be_bytes());
        self.put(value.counter.to_be_bytes());
        self.put(network);
        self.put([if place == 0 { 3 } else { 2 }, route, 0, 1]);
        self.put(originator);
        self.put([0, 1, 0, 0, 0, 0]);
        if place == 0 {
            self.put([32]);
            self.put(originator);
            return Ok(());
        }
        self.put([0; 10]);
        let [_, _, mac @ ..] = (place - 1).to_be_bytes();
        self.put([48]);
        self.put(mac);
        self.put([8 * ip]);
        self.ip(source);
        self.put(network);
        if has_label2 {
            let [_, label2 @ ..] = (content.label2() - 1).to_be_bytes();
            self.put(label2);
        }
        if has_community {
            self.put([6, 0, u8::from(content.rank() > 1), 0]);
            self.put(content.sequence().to_be_bytes());
        }
        Ok(())
    }

    fn pass_on(&mut self) -> io::Result<()> {
        self.out.write_all(&self.held[..self.len])?;
        self.len = 0;
        Ok(())
    }
}

type Table = HashMap<Register, Said, BuildHasherDefault<Mixer>>;

/// Writes each register's newest update, and a withdrawal for each other IP address, in the order of a report.
fn write_all(table: Table, out: &mut Records) -> io::Result<()> {
    let mut registers: Vec<(u128, Said)> = table.into_iter().map(|(register, said)| (register.order(), said)).collect();
    registers.sort_unstable_by_key(|(order, _)| *order);
    for (order, said) in &mut registers {
        let subject = *order >> 32;
        let gone = Value { content: Content::new(0, 0, 0), ..said.newest };
        said.replaced.sort_unstable();
        let later = said.replaced.partition_point(|source| *source < said.source);
        for source in &said.replaced[..later] {
            out.record(subject, source, &gone)?;
        }
        out.record(subject, &said.source, &said.newest)?;
        for source in &said.replaced[later..] {
            out.record(subject, source, &gone)?;
        }
    }
    out.pass_on()
}

fn main() -> io::Result<ExitCode> {
    let list = env::args().nth(1).expect("usage: plain ORIGINATORS");
    let mut table = Table::default();
    let mut notes = Vec::new();
    let status = take_all(&mut Input::new(), 2, &Listed::new(&list), &mut notes, |subject, Entry { source, value }| {
        table
            .entry(Register::new(subject, source.originator()))
            .and_modify(|said| said.take(source, value))
            .or_insert_with(|| Said { newest: value, source, replaced: Vec::new() });
    })?;
    io::stderr().write_all(&notes)?;
    write_all(table, &mut Records { out: io::stdout().lock(), held: Box::new([0; PIECE]), len: 0 })?;
    Ok(ExitCode::from(status))
}
