//! Edges without proofs, to measure `evpnd run` against: the same threads, sockets and lock, and of an
//! edge's work what a frame between known stations needs.
//!
//! Each edge has a table under one lock; each port and the tunnel have a thread that receives, looks
//! the frame up under the lock, and gives a copy of it to the thread that sends for the link it goes to.
//!
//!     plain EDGE..         EDGE: ADDRESS;LOCAL=REMOTE;LOCAL=REMOTE..        until the input ends

use std::collections::HashMap;
use std::io::Read;
use std::net::{Ipv4Addr, SocketAddr, SocketAddrV4, UdpSocket};
use std::sync::atomic::{AtomicBool, Ordering};
use std::sync::mpsc::{Receiver, Sender, channel};
use std::sync::{Arc, Mutex};
use std::thread;

const VNI: u32 = 5001;
const TUNNELS: u16 = 4789;
const LONGEST: usize = 9018;

type Mac = [u8; 6];

#[derive(Clone, Copy, PartialEq)]
enum Place {
    Port(usize),
    Edge(Ipv4Addr),
}

/// What an edge knows, under its lock.
struct Table {
    places: HashMap<Mac, Place>,
    others: Vec<Ipv4Addr>,
}

enum Output {
    Frame(Ipv4Addr, Vec<u8>),
    Stop,
}

/// An edge as its threads share it.
struct Edge {
    table: Mutex<Table>,
    /// All tables of the process: a station that is learnt is told to the other edges.
    all: Vec<Ipv4Addr>,
    address: Ipv4Addr,
    ports: Vec<Sender<Output>>,
    tunnel: Sender<Output>,
    news: Vec<Sender<(Mac, Ipv4Addr)>>,
}

/// Where a frame goes.
struct Decision {
    local: u64,
    remote: Vec<Ipv4Addr>,
    is_new: bool,
}

fn decide(edge: &Edge, from: Place, frame: &[u8]) -> Decision {
    let to: Mac = frame[..6].try_into().unwrap();
    let source: Mac = frame[6..12].try_into().unwrap();
    let mut table = edge.table.lock().unwrap();
    let mut is_new = false;
    if let Place::Port(_) = from {
        if source[0] & 1 == 0 && table.places.get(&source) != Some(&from) {
            table.places.insert(source, from);
            is_new = true;
        }
    }
    let all_ports = (1u64 << edge.ports.len()) - 1;
    let (mut local, mut remote) = match table.places.get(&to) {
        Some(Place::Port(port)) => (1 << port, Vec::new()),
        Some(Place::Edge(address)) => (0, vec![*address]),
        None => (all_ports, table.others.clone()),
    };
    match from {
        Place::Port(port) => local &= !(1 << port),
        Place::Edge(_) => remote.clear(),
    }
    Decision { local, remote, is_new }
}

/// Gives a frame out, as it is to ports and in a datagram to edges.
fn give(edge: &Edge, from: Place, frame: &[u8], scratch: &mut [u8]) {
    let decision = decide(edge, from, frame);
    if decision.is_new {
        for news in &edge.news {
            let _ = news.send((frame[6..12].try_into().unwrap(), edge.address));
        }
    }
    for (port, output) in edge.ports.iter().enumerate() {
        if decision.local >> port & 1 == 1 {
            let _ = output.send(Output::Frame(Ipv4Addr::UNSPECIFIED, frame.to_vec()));
        }
    }
    if !decision.remote.is_empty() {
        scratch[..4].copy_from_slice(&[8, 0, 0, 0]);
        scratch[4..8].copy_from_slice(&(VNI << 8).to_be_bytes());
        scratch[8..8 + frame.len()].copy_from_slice(frame);
        for address in decision.remote {
            let datagram = scratch[..8 + frame.len()].to_vec();
            let _ = edge.tunnel.send(Output::Frame(address, datagram));
        }
    }
}

/// What comes to a socket, until it is told to stop.
fn receive(edge: &Edge, socket: &UdpSocket, port: Option<usize>, stop: &AtomicBool) {
    let mut buffer = [0; LONGEST + 9];
    let mut scratch = [0; LONGEST + 8];
    loop {
        let Ok((size, from)) = socket.recv_from(&mut buffer) else { return };
        if stop.load(Ordering::SeqCst) {
            return;
        }
        let octets = &buffer[..size];
        match (port, from) {
            (Some(port), _) if size >= 14 && size <= LONGEST => {
                give(edge, Place::Port(port), octets, &mut scratch)
            }
            (None, SocketAddr::V4(from)) if size >= 22 && octets[0] == 8 && edge.all.contains(from.ip()) => {
                if u32::from_be_bytes(octets[4..8].try_into().unwrap()) >> 8 == VNI {
                    give(edge, Place::Edge(*from.ip()), &octets[8..], &mut scratch)
                }
            }
            _ => {}
        }
    }
}

/// Sends what comes over a channel.
fn send(socket: &UdpSocket, to: Option<SocketAddr>, frames: Receiver<Output>) {
    while let Ok(Output::Frame(address, octets)) = frames.recv() {
        let to = to.unwrap_or(SocketAddr::V4(SocketAddrV4::new(address, TUNNELS)));
        let _ = socket.send_to(&octets, to);
    }
}

fn main() {
    let stop = Arc::new(AtomicBool::new(false));
    let (mut sockets, mut threads, mut outputs) = (Vec::new(), Vec::new(), Vec::new());
    let words: Vec<String> = std::env::args().skip(1).collect();
    let all: Vec<Ipv4Addr> = words.iter().map(|it| it.split(';').next().unwrap().parse().unwrap()).collect();
    let channels: Vec<_> = all.iter().map(|_| channel::<(Mac, Ipv4Addr)>()).collect();
    let senders: Vec<_> = channels.iter().map(|it| it.0.clone()).collect();
    for (number, (word, (_, news))) in words.iter().zip(channels).enumerate() {
        let address = all[number];
        let tunnel_socket = Arc::new(UdpSocket::bind((address, TUNNELS)).unwrap());
        let (tunnel, frames) = channel();
        outputs.push(tunnel.clone());
        let it = tunnel_socket.clone();
        threads.push(thread::spawn(move || send(&it, None, frames)));
        let mut ports = Vec::new();
        let mut port_sockets = Vec::new();
        for port in word.split(';').skip(1) {
            let (local, remote) = port.split_once('=').unwrap();
            let socket = Arc::new(UdpSocket::bind(local).unwrap());
            let remote: SocketAddr = remote.parse().unwrap();
            let (output, frames) = channel();
            outputs.push(output.clone());
            let it = socket.clone();
            threads.push(thread::spawn(move || send(&it, Some(remote), frames)));
            ports.push(output);
            port_sockets.push(socket);
        }
        let others: Vec<_> = all.iter().copied().filter(|it| *it != address).collect();
        let edge = Arc::new(Edge {
            table: Mutex::new(Table { places: HashMap::new(), others }),
            all: all.clone(),
            address,
            ports,
            tunnel,
            news: senders.iter().enumerate().filter(|(it, _)| *it != number).map(|(_, it)| it.clone()).collect(),
        });
        let it = edge.clone();
        thread::spawn(move || {
            for (mac, address) in news {
                it.table.lock().unwrap().places.insert(mac, Place::Edge(address));
            }
        });
        for (port, socket) in port_sockets.into_iter().enumerate() {
            sockets.push(socket.clone());
            let (edge, stop) = (edge.clone(), stop.clone());
            threads.push(thread::spawn(move || receive(&edge, &socket, Some(port), &stop)));
        }
        sockets.push(tunnel_socket.clone());
        let (edge, stop) = (edge.clone(), stop.clone());
        threads.push(thread::spawn(move || receive(&edge, &tunnel_socket, None, &stop)));
    }
    let _ = std::io::stdin().read_to_end(&mut Vec::new());
    stop.store(true, Ordering::SeqCst);
    for socket in sockets {
        let _ = socket.send_to(&[], socket.local_addr().unwrap());
    }
    for output in outputs {
        let _ = output.send(Output::Stop);
    }
    for thread in threads {
        let _ = thread.join();
    }
}
