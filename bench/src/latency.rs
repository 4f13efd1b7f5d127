//! How long a message takes from a participant's line to whoever reads lines A and B.

use crate::frames::{LONGEST_PACKET, Packet, PacketKind, write_message};
use crate::message::{Content, Kind, Message};
use std::io::{self, Write};
use std::net::{Ipv4Addr, TcpStream, UdpSocket};
use std::sync::atomic::{AtomicU64, Ordering};
use std::thread;
use std::time::{Duration, Instant};

/// How many symbols the reports are of: `SYM0` and so on.
pub const LATENCY_SYMBOLS: u32 = 400;
/// How long a reader waits for the next packet before it gives up.
const PATIENCE: Duration = Duration::from_secs(5);

/// What is sent, and where.
#[derive(Clone, Copy)]
pub struct Course {
    /// The port of the first participant's line, `A`. Each further participant's is the next.
    pub first_port: u16,
    /// How many lines there are, 1 to 26.
    pub lines: u8,
    /// The ports at which lines A and B come.
    pub ports: [u16; 2],
    /// How many messages are sent a second, over all lines.
    pub rate: u32,
    /// How many messages are sent.
    pub messages: u32,
}

/// What came of them.
pub struct LatencyFigures {
    /// How long each message took that came, from just before it was written to just after its first copy was read, in
    /// nanoseconds and rising.
    pub nanos: Vec<u64>,
    /// How many came by neither line.
    pub lost: usize,
    /// How long the sender took.
    pub seconds: f64,
}

impl LatencyFigures {
    /// So many thousandths of the messages that came took no longer than this, in nanoseconds; 0 if none came.
    pub fn within(&self, thousandths: usize) -> u64 {
        let rank = (self.nanos.len() * thousandths).div_ceil(1_000);
        match self.nanos.get(rank.saturating_sub(1)) {
            Some(nanos) => *nanos,
            None => 0,
        }
    }
}

/// Connects the lines, sends the messages by them at the rate, and reads lines A and B until each has an end.
pub fn latency(course: &Course) -> io::Result<LatencyFigures> {
    let readers = [bound(course.ports[0])?, bound(course.ports[1])?];
    let connect = |line| TcpStream::connect((Ipv4Addr::LOCALHOST, course.first_port + line));
    let lines: Vec<TcpStream> = (0..u16::from(course.lines))
        .map(connect)
        .collect::<Result<_, _>>()?;
    for line in &lines {
        line.set_nodelay(true)?;
    }
    let took: Vec<AtomicU64> = (0..course.messages).map(|_| AtomicU64::new(0)).collect();
    let began = Instant::now();
    let seconds = thread::scope(|scope| {
        let running = readers.map(|reader| scope.spawn(|| take_all(reader, began, &took)));
        let seconds = send_all(lines, course, began)?;
        for reader in running {
            let own = reader.join();
            own.map_err(|_| io::Error::other("a reader failed"))??;
        }
        io::Result::Ok(seconds)
    })?;
    let mut nanos: Vec<u64> = took.into_iter().map(AtomicU64::into_inner).collect();
    nanos.retain(|nanos| *nanos > 0);
    nanos.sort_unstable();
    Ok(LatencyFigures {
        lost: course.messages as usize - nanos.len(),
        nanos,
        seconds,
    })
}

fn bound(port: u16) -> io::Result<UdpSocket> {
    let socket = UdpSocket::bind((Ipv4Addr::LOCALHOST, port))?;
    socket.set_read_timeout(Some(PATIENCE))?;
    Ok(socket)
}

/// The clock's time in nanoseconds, at least 1.
fn nanos_since(began: Instant) -> u64 {
    began.elapsed().as_nanos().max(1) as u64
}

/// Sends the messages, each once it is due, on the lines in turn, and answers after how many seconds the last was sent. What is due at once on
/// a line is one write, and all of it has the time of that write.
fn send_all(mut lines: Vec<TcpStream>, course: &Course, began: Instant) -> io::Result<f64> {
    let due_at = |sent: u32| Duration::from_secs_f64(f64::from(sent) / f64::from(course.rate));
    let mut text = Vec::new();
    let mut sent = 0;
    while sent < course.messages {
        thread::sleep(due_at(sent).saturating_sub(began.elapsed()));
        let due = (began.elapsed().as_secs_f64() * f64::from(course.rate)) as u32;
        let due = due.clamp(sent + 1, course.messages);
        for first in sent..due.min(sent + u32::from(course.lines)) {
            let own = (first % u32::from(course.lines)) as usize;
            text.clear();
            let moment = nanos_since(began);
            for at in (first..due).step_by(lines.len()) {
                write_message(&report(at, course.lines, moment), &mut text);
            }
            lines[own].write_all(&text)?;
        }
        sent = due;
    }
    Ok(began.elapsed().as_secs_f64())
}

/// The report that is sent after so many others.
fn report(at: u32, lines: u8, moment: u64) -> Message {
    let lines = u32::from(lines);
    let mut symbol = [b' '; 8];
    let name = format!("SYM{}", at / lines % LATENCY_SYMBOLS);
    symbol[..name.len()].copy_from_slice(name.as_bytes());
    Message {
        participant: b'A' + (at % lines) as u8,
        number: at / lines + 1,
        moment,
        symbol,
        kind: Kind::Report(Content {
            price: u64::from(100_000 + at % 100),
            size: 100,
            condition: *b"@   ",
        }),
    }
}

/// Reads packets until an end, and notes by number how long each entry took whose first copy this is.
fn take_all(reader: UdpSocket, began: Instant, took: &[AtomicU64]) -> io::Result<()> {
    let mut bytes = [0; LONGEST_PACKET];
    let mut packet = Packet::new();
    loop {
        let length = reader.recv(&mut bytes)?;
        let now = nanos_since(began);
        packet.read(&bytes[..length]).map_err(io::Error::other)?;
        if let PacketKind::End(_) = packet.kind {
            return Ok(());
        }
        for entry in &packet.entries {
            let nanos = now.saturating_sub(entry.message.moment).max(1);
            let own = took.get(entry.number.get() as usize - 1);
            let own = own.ok_or_else(|| io::Error::other("more entries than messages"))?;
            let _ = own.compare_exchange(0, nanos, Ordering::Relaxed, Ordering::Relaxed);
        }
    }
}
