//! Sends frames to one port and takes them at another, with so many under way: frames a second, how many
//! were lost, the microseconds of processor time that the program between them took a frame, and the
//! share of it that was the system's, in percent.
//!
//!     load PID FROM TO HERE THERE COUNT SIZE WINDOW
//!
//! FROM is the sender's socket, TO the port it sends to, HERE the socket of the other port's cable, and
//! THERE that port.

use std::io::ErrorKind;
use std::net::{SocketAddrV4, UdpSocket};
use std::time::{Duration, Instant};

/// A frame between the two stations.
fn frame(to: u8, of: u8, size: usize) -> Vec<u8> {
    let mut octets = vec![2, 0, 0, 0, 0, to, 2, 0, 0, 0, 0, of, 0x88, 0xb5];
    octets.resize(size, 0);
    octets
}

/// The number of the station behind a socket: no socket has another one's, since a station that comes and
/// goes between two edges is taken for a duplicate at its fifth move.
fn station(address: &str) -> u8 {
    let address: SocketAddrV4 = address.parse().unwrap();
    address.ip().octets()[3] * 16 + (address.port() % 16) as u8
}

/// The ticks that a process has spent by itself and in the system.
fn ticks(pid: &str) -> (u64, u64) {
    let text = std::fs::read_to_string(format!("/proc/{pid}/stat")).unwrap();
    let fields: Vec<&str> = text[text.rfind(')').unwrap() + 2..].split(' ').collect();
    (fields[11].parse().unwrap(), fields[12].parse().unwrap())
}

/// Whether the frame comes within this time; others are passed over.
fn comes(socket: &UdpSocket, wanted: &[u8]) -> bool {
    let mut buffer = [0; 65536];
    loop {
        match socket.recv(&mut buffer) {
            Ok(size) if &buffer[..size] == wanted => return true,
            Ok(_) => {}
            Err(_) => return false,
        }
    }
}

fn main() {
    let words: Vec<String> = std::env::args().skip(1).collect();
    let [pid, from, to, here, there, count, size, window] = &words[..] else { panic!("eight words") };
    let (count, size, window): (u64, usize, u64) = (count.parse().unwrap(), size.parse().unwrap(), window.parse().unwrap());
    let (sender, receiver) = (UdpSocket::bind(from).unwrap(), UdpSocket::bind(here).unwrap());
    sender.set_read_timeout(Some(Duration::from_millis(200))).unwrap();
    receiver.set_read_timeout(Some(Duration::from_millis(200))).unwrap();
    let (here_at, from_at) = (station(here), station(from));
    let (mut one, two) = (frame(here_at, from_at, size), frame(from_at, here_at, size));
    // both stations are known before the clock starts
    for turn in 0.. {
        sender.send_to(&one, to).unwrap();
        let first = comes(&receiver, &one);
        receiver.send_to(&two, there).unwrap();
        if comes(&sender, &two) && first {
            break;
        }
        assert!(turn < 50, "nothing comes");
    }
    let before = ticks(pid);
    let start = Instant::now();
    let (mut sent, mut got, mut lost) = (0u64, 0u64, 0u64);
    let mut buffer = [0; 65536];
    while got + lost < count {
        while sent < count && sent - got - lost < window {
            one[14..22].copy_from_slice(&sent.to_be_bytes());
            sender.send_to(&one, to).unwrap();
            sent += 1;
        }
        match receiver.recv(&mut buffer) {
            Ok(length) if length == size && buffer[..6] == one[..6] => got += 1,
            Ok(_) => {}
            Err(error) if matches!(error.kind(), ErrorKind::WouldBlock | ErrorKind::TimedOut) => lost = sent - got,
            Err(error) => panic!("{error}"),
        }
    }
    let seconds = start.elapsed().as_secs_f64();
    let after = ticks(pid);
    let (own, system) = (after.0 - before.0, after.1 - before.1);
    let share = 100 * system / (own + system).max(1);
    // a tick is a hundredth of a second
    let each = (own + system) as f64 * 10_000.0 / got as f64;
    println!("{:.0} {lost} {each:.1} {share}", got as f64 / seconds);
}
