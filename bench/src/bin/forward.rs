//! `forward PORT LINES A B`: takes a connection on each port from PORT on, and sends the messages that they bring to the ports A and B, in packets
//! as `tapebox live` sends them, but without a tape.

use bench::forward;
use std::io;
use std::net::{Ipv4Addr, TcpListener};
use std::process::ExitCode;

/// The first port, and one behind the last, and the ports of lines A and B; `None` if the words are no such.
fn ports() -> Option<(u16, u16, [u16; 2])> {
    let words: Vec<String> = std::env::args().skip(1).collect();
    let numbers: Vec<u16> = words.iter().map_while(|word| word.parse().ok()).collect();
    match numbers.as_slice() {
        [first, lines, a, b] if words.len() == 4 => {
            Some((*first, first.checked_add(*lines)?, [*a, *b]))
        }
        _ => None,
    }
}

fn main() -> ExitCode {
    let Some((first, end, ports)) = ports() else {
        eprintln!("usage: forward PORT LINES A B");
        return ExitCode::FAILURE;
    };
    let listen = |port| TcpListener::bind((Ipv4Addr::LOCALHOST, port));
    let listeners: io::Result<Vec<TcpListener>> = (first..end).map(listen).collect();
    match listeners.and_then(|listeners| forward(listeners, ports)) {
        Ok(()) => ExitCode::SUCCESS,
        Err(fault) => {
            eprintln!("forward: {fault}");
            ExitCode::FAILURE
        }
    }
}
