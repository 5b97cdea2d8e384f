//! The system's calls alone, without an edge: a thread for each of two ports receives a datagram and sends
//! it to the other port's cable. An edge that receives and sends one frame at a time needs these calls too.
//!
//!     calls LOCAL=REMOTE LOCAL=REMOTE          until the input ends

use std::io::Read;
use std::net::{SocketAddr, UdpSocket};
use std::thread;

/// The octets of a buffer: as many as those of an edge's port.
const BUFFER: usize = 9019;

/// Sends each datagram of a socket over another one.
fn pass(from: &UdpSocket, over: &UdpSocket, remote: SocketAddr) {
    let mut buffer = [0; BUFFER];
    while let Ok((size, _)) = from.recv_from(&mut buffer) {
        let _ = over.send_to(&buffer[..size], remote);
    }
}

fn main() {
    let mut ports = std::env::args().skip(1).map(|port| {
        let (local, remote) = port.split_once('=').unwrap();
        (UdpSocket::bind(local).unwrap(), remote.parse::<SocketAddr>().unwrap())
    });
    let ((one, one_remote), (two, two_remote)) = (ports.next().unwrap(), ports.next().unwrap());
    let (one_too, two_too) = (one.try_clone().unwrap(), two.try_clone().unwrap());
    thread::spawn(move || pass(&one, &two, two_remote));
    thread::spawn(move || pass(&two_too, &one_too, one_remote));
    let _ = std::io::stdin().read_to_end(&mut Vec::new());
}
