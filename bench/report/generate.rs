//! Writes a seeded stream of version 3 update records: `generate RECORDS MACS SEED`.
//!
//! 16 originators 10.0.0.1 to 10.0.0.16, VNIs 5001 to 5008, one record in ten a withdrawal, one in a hundred refused
//! (a group address in the key), the rest adverts, one in twenty of them static. With 0 for MACS each record is the advert of a MAC
//! of its own, in no order. With `one` for MACS all records are adverts of one MAC, each with an IPv6 address of its own.

use std::env;
use std::io::{self, BufWriter, Write};

/// splitmix64: small, seeded, the same everywhere.
struct Random(u64);

impl Random {
    fn next(&mut self) -> u64 {
        self.0 = self.0.wrapping_add(0x9e37_79b9_7f4a_7c15);
        let mut z = self.0;
        z = (z ^ (z >> 30)).wrapping_mul(0xbf58_476d_1ce4_e5b9);
        z = (z ^ (z >> 27)).wrapping_mul(0x94d0_49bb_1331_11eb);
        z ^ (z >> 31)
    }

    fn below(&mut self, limit: u64) -> u64 {
        self.next() % limit
    }
}

fn main() -> io::Result<()> {
    let words: Vec<String> = env::args().skip(1).collect();
    let [records, macs, seed] = &words[..] else { panic!("usage: generate RECORDS MACS SEED") };
    let read = |word: &String| word.parse::<u64>().expect("a number");
    let one = macs == "one";
    let (records, macs, seed) = (read(records), if one { 1 } else { read(macs) }, read(seed));
    let mut random = Random(seed);
    let mut counters = [0u64; 16];
    let mut out = BufWriter::new(io::stdout().lock());
    for number in 0..records {
        let edge = random.below(16) as usize;
        let (station, kind) = match macs {
            _ if one => (0, 50),
            // times an odd number: no two are equal
            0 => (number.wrapping_mul(0x9e_3779_b97f) % (1 << 40), 50),
            _ => (random.below(macs), random.below(100)),
        };
        counters[edge] += 1;
        let originator = [10, 0, 0, edge as u8 + 1];
        let vni = (5001 + (station % 8) as u32).to_be_bytes();
        let withdrawn = kind < 10;
        let community = !one && !withdrawn && random.below(2) == 0;
        let address = 0x2001_0db8 << 96 | u128::from(number.wrapping_mul(0x9e37_79b9_7f4a_7c15));
        let ip = &address.to_be_bytes()[if one { 0 } else { 16 }..];
        let length: u16 = 54 + ip.len() as u16 + if community { 8 } else { 0 };
        out.write_all(&[0x45, 0x56, 3, if withdrawn { 2 } else { 1 }])?;
        out.write_all(&length.to_be_bytes())?;
        out.write_all(&originator)?;
        out.write_all(&[0; 4])?;
        out.write_all(&counters[edge].to_be_bytes())?;
        out.write_all(&vni[1..])?;
        out.write_all(&[2, 33 + ip.len() as u8, 0, 1])?;
        out.write_all(&originator)?;
        out.write_all(&[0, 1])?;
        out.write_all(&[0; 14])?;
        let mut mac = (0x0200_0000_0000 + station).to_be_bytes();
        if kind == 99 {
            mac[2] |= 1;
        }
        out.write_all(&[48])?;
        out.write_all(&mac[2..])?;
        out.write_all(&[8 * ip.len() as u8])?;
        out.write_all(ip)?;
        out.write_all(&vni[1..])?;
        if community {
            let fixed = u8::from(random.below(20) == 0);
            out.write_all(&[6, 0, fixed, 0])?;
            out.write_all(&(random.below(1000) as u32).to_be_bytes())?;
        }
    }
    out.flush()
}
