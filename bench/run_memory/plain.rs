//! Two edges without proofs, to measure workers over links in memory against: the same threads, channels,
//! links and lock, and of an edge's work what a frame between known stations needs.
//!
//! Each edge has a table under one lock; each port and the tunnel have a thread that receives, looks the
//! frame up under the lock, and gives a copy of it to the thread that sends for the link it goes to. A
//! link is a channel, and copies what it gets and gives, as a socket does.

use std::collections::HashMap;
use std::sync::mpsc::{Receiver, Sender, channel};
use std::sync::{Arc, Mutex};
use std::thread;
use std::time::Instant;

const FRAMES: u64 = 200_000;
const WINDOW: u64 = 64;
const VNI: u32 = 5001;
const LONGEST: usize = 9018;

type Mac = [u8; 6];
type Address = u32;

#[derive(Clone, Copy, PartialEq)]
enum Place {
    Port(usize),
    Edge,
}

struct Datagram {
    from: Address,
    octets: Vec<u8>,
}

/// An edge as its threads share it.
struct Edge {
    places: Mutex<HashMap<Mac, Place>>,
    other: Address,
}

/// What a thread gives frames and news to.
#[derive(Clone)]
struct Senders {
    ports: Vec<Sender<Vec<u8>>>,
    tunnel: Sender<Vec<u8>>,
    news: Sender<Mac>,
}

/// Where a frame goes.
struct Decision {
    local: u64,
    remote: bool,
    is_new: bool,
}

fn decide(edge: &Edge, ports: usize, from: Place, frame: &[u8]) -> Decision {
    let to: Mac = frame[..6].try_into().unwrap();
    let source: Mac = frame[6..12].try_into().unwrap();
    let mut places = edge.places.lock().unwrap();
    let mut is_new = false;
    if let Place::Port(_) = from {
        if source[0] & 1 == 0 && places.get(&source) != Some(&from) {
            places.insert(source, from);
            is_new = true;
        }
    }
    let (mut local, mut remote) = match places.get(&to) {
        Some(Place::Port(port)) => (1 << port, false),
        Some(Place::Edge) => (0, true),
        None => ((1u64 << ports) - 1, true),
    };
    match from {
        Place::Port(port) => local &= !(1 << port),
        Place::Edge => remote = false,
    }
    Decision { local, remote, is_new }
}

/// Gives a frame out, as it is to ports and in a datagram to the other edge.
fn give(edge: &Edge, senders: &Senders, from: Place, frame: &[u8], scratch: &mut [u8]) {
    let decision = decide(edge, senders.ports.len(), from, frame);
    if decision.is_new {
        let _ = senders.news.send(frame[6..12].try_into().unwrap());
    }
    for (port, output) in senders.ports.iter().enumerate() {
        if decision.local >> port & 1 == 1 {
            let _ = output.send(frame.to_vec());
        }
    }
    if decision.remote {
        scratch[..4].copy_from_slice(&[8, 0, 0, 0]);
        scratch[4..8].copy_from_slice(&(VNI << 8).to_be_bytes());
        scratch[8..8 + frame.len()].copy_from_slice(frame);
        let _ = senders.tunnel.send(scratch[..8 + frame.len()].to_vec());
    }
}

/// What comes over a link, until nobody can send any more.
fn receive(edge: &Edge, senders: &Senders, link: &Receiver<Datagram>, port: Option<usize>) {
    let mut buffer = [0; LONGEST + 9];
    let mut scratch = [0; LONGEST + 8];
    while let Ok(datagram) = link.recv() {
        let size = datagram.octets.len().min(buffer.len());
        buffer[..size].copy_from_slice(&datagram.octets[..size]);
        let octets = &buffer[..size];
        match port {
            Some(port) if size >= 14 && size <= LONGEST => {
                give(edge, senders, Place::Port(port), octets, &mut scratch)
            }
            None if size >= 22 && octets[0] == 8 && datagram.from == edge.other => {
                if u32::from_be_bytes(octets[4..8].try_into().unwrap()) >> 8 == VNI {
                    give(edge, senders, Place::Edge, &octets[8..], &mut scratch)
                }
            }
            _ => {}
        }
    }
}

/// Sends what comes over a channel, by a link that copies it.
fn send(from: Address, link: &Sender<Datagram>, frames: &Receiver<Vec<u8>>) {
    while let Ok(octets) = frames.recv() {
        let _ = link.send(Datagram { from, octets: octets.as_slice().to_vec() });
    }
}

/// Both ends of a port's wire.
struct Wire {
    to: Sender<Datagram>,
    from: Receiver<Datagram>,
}

/// Starts an edge with two ports: their wires.
fn start(
    address: Address,
    other: Address,
    tunnel_in: Receiver<Datagram>,
    tunnel_out: Sender<Datagram>,
    heard: Receiver<Mac>,
    news: Sender<Mac>,
    threads: &mut Vec<thread::JoinHandle<()>>,
) -> [Wire; 2] {
    let edge = Arc::new(Edge { places: Mutex::new(HashMap::new()), other });
    let (tunnel, frames) = channel();
    threads.push(thread::spawn(move || send(address, &tunnel_out, &frames)));
    let (mut ports, mut inputs, mut wires) = (Vec::new(), Vec::new(), Vec::new());
    for _ in 0..2 {
        let (output, frames) = channel();
        let (link, from) = channel();
        let (to, input) = channel();
        threads.push(thread::spawn(move || send(0, &link, &frames)));
        ports.push(output);
        inputs.push(input);
        wires.push(Wire { to, from });
    }
    let senders = Senders { ports, tunnel, news };
    let it = edge.clone();
    threads.push(thread::spawn(move || {
        for mac in heard {
            it.places.lock().unwrap().insert(mac, Place::Edge);
        }
    }));
    for (port, input) in inputs.into_iter().enumerate() {
        let (edge, senders) = (edge.clone(), senders.clone());
        threads.push(thread::spawn(move || receive(&edge, &senders, &input, Some(port))));
    }
    threads.push(thread::spawn(move || receive(&edge, &senders, &tunnel_in, None)));
    wires.try_into().ok().unwrap()
}

/// A frame between two stations.
fn frame(to: u8, of: u8) -> Vec<u8> {
    let mut octets = vec![2, 0, 0, 0, 0, to, 2, 0, 0, 0, 0, of, 0x88, 0xb5];
    octets.resize(1400, 0);
    octets
}

/// Sends a copy of a frame.
fn put(wire: &Wire, frame: &[u8]) {
    wire.to.send(Datagram { from: 0, octets: frame.to_vec() }).unwrap();
}

/// Waits for a frame for this station.
fn await_frame(wire: &Wire, to: u8) {
    loop {
        let octets = wire.from.recv().unwrap().octets;
        if octets.len() >= 14 && octets[0] == 2 && octets[5] == to && octets[12] == 0x88 {
            return;
        }
    }
}

/// Times a way at three sizes, after a thousand frames by which both stations are learnt.
fn measure(way: &str, from: &Wire, to: &Wire, station: u8) {
    let (one, two) = (frame(station, 1), frame(1, station));
    for _ in 0..1000 {
        put(to, &two[..64]);
        put(from, &one[..64]);
        await_frame(to, station);
    }
    for size in [64, 500, 1400] {
        let start = Instant::now();
        let mut sent = 0;
        for got in 0..FRAMES {
            while sent < FRAMES && sent - got < WINDOW {
                put(from, &one[..size]);
                sent += 1;
            }
            await_frame(to, station);
        }
        println!("{way} {size} {FRAMES} {}", start.elapsed().as_nanos());
    }
}

fn main() {
    let (first, second) = (0x0a00_0001, 0x0a00_0002);
    let mut threads = Vec::new();
    let (forth, tunneled) = channel();
    let (returned, _back) = channel();
    let (silent, nothing) = channel();
    let (first_news, second_heard) = channel();
    let (second_news, first_heard) = channel();
    let [near, beside] = start(first, second, nothing, forth, first_heard, first_news, &mut threads);
    let [far, _idle] = start(second, first, tunneled, returned, second_heard, second_news, &mut threads);
    measure("port-to-port", &near, &beside, 2);
    measure("edge-to-edge", &near, &far, 3);
    drop((near, beside, far, _idle, silent));
    // the threads end by the process: each edge waits for the other's news
}
