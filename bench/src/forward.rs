//! The messages of participants' lines, sent on by two UDP ports without a tape: what the sockets alone take.

use crate::frames::{LONGEST_PACKET, write_end, write_header};
use std::io::{self, Read};
use std::net::{Ipv4Addr, TcpListener, TcpStream, UdpSocket};
use std::sync::Mutex;
use std::thread;
use std::time::Duration;

const SESSION: u64 = 1;
/// How many entries a packet has at most, as `tapebox live` sends them.
const ENTRIES_AT_ONCE: usize = 8;
/// How many milliseconds are waited before each end, of which one at least finds room.
const PAUSES_BEFORE_ENDS: [u64; 3] = [0, 50, 200];
/// Room for what a line brings at once.
const ROOM: usize = 1 << 16;
/// The greatest length of a message that a line may bring.
const LENGTH_MOST: usize = 64;

/// What is sent by: its lines number their messages under one lock, so that packets go out in order.
struct Sender {
    socket: UdpSocket,
    ports: [u16; 2],
    sent: u32,
    text: Vec<u8>,
}

impl Sender {
    /// Sends the packet that was made to both ports. A failed send is a lost packet.
    fn send(&self) {
        for port in self.ports {
            let _ = self.socket.send_to(&self.text, (Ipv4Addr::LOCALHOST, port));
        }
    }

    /// Sends a packet of these messages, whose bytes nobody looks at.
    fn send_messages(&mut self, messages: &[&[u8]]) {
        self.text.clear();
        let count = messages.len() as u8;
        write_header(b'D', SESSION, self.sent + 1, count, &mut self.text);
        for message in messages {
            self.sent += 1;
            self.text.extend_from_slice(&self.sent.to_be_bytes());
            self.text.extend_from_slice(message);
        }
        self.send();
    }
}

/// Takes one connection at each listener, and sends on what they bring until all have ended, and then three ends.
pub fn forward(listeners: Vec<TcpListener>, ports: [u16; 2]) -> io::Result<()> {
    let sender = Mutex::new(Sender {
        socket: UdpSocket::bind((Ipv4Addr::LOCALHOST, 0))?,
        ports,
        sent: 0,
        text: Vec::with_capacity(LONGEST_PACKET),
    });
    let lines: Vec<(TcpStream, _)> = listeners
        .iter()
        .map(TcpListener::accept)
        .collect::<Result<_, _>>()?;
    thread::scope(|scope| {
        let running = lines.into_iter().map(|(line, _)| {
            let sender = &sender;
            scope.spawn(move || forward_line(line, sender))
        });
        let running: Vec<_> = running.collect();
        for line in running {
            let own = line.join();
            own.map_err(|_| io::Error::other("a line failed"))??;
        }
        io::Result::Ok(())
    })?;
    let mut sender = sender
        .into_inner()
        .map_err(|_| io::Error::other("a line failed"))?;
    sender.text.clear();
    write_end(SESSION, sender.sent, &mut sender.text);
    for pause in PAUSES_BEFORE_ENDS {
        thread::sleep(Duration::from_millis(pause));
        sender.send();
    }
    Ok(())
}

/// Sends on what a line brings until it ends.
fn forward_line(mut line: TcpStream, sender: &Mutex<Sender>) -> io::Result<()> {
    let mut room = vec![0; ROOM];
    let mut filled = 0;
    loop {
        let length = line.read(&mut room[filled..])?;
        if length == 0 {
            return Ok(());
        }
        filled += length;
        let messages = whole_messages(&room[..filled])?;
        for packet in messages.chunks(ENTRIES_AT_ONCE) {
            let mut sender = sender
                .lock()
                .map_err(|_| io::Error::other("a line failed"))?;
            sender.send_messages(packet);
        }
        let taken: usize = messages.iter().map(|message| message.len()).sum();
        room.copy_within(taken..filled, 0);
        filled -= taken;
    }
}

/// The messages that the bytes begin with, each with its length in front, as far as they are whole.
fn whole_messages(bytes: &[u8]) -> io::Result<Vec<&[u8]>> {
    let mut rest = bytes;
    let mut messages = Vec::new();
    while let Some(length) = rest.first_chunk::<2>() {
        let length = usize::from(u16::from_be_bytes(*length));
        if length == 0 || length > LENGTH_MOST {
            return Err(io::Error::other("no message"));
        }
        let Some((message, behind)) = rest.split_at_checked(2 + length) else {
            break;
        };
        messages.push(message);
        rest = behind;
    }
    Ok(messages)
}
