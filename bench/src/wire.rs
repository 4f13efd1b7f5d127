//! A day's packets over two UDP ports of this machine, without a tape at either end: what the sockets alone take.

use crate::batch::tape_of;
use crate::frames::{LONGEST_PACKET, Packet, PacketKind, write_data, write_end};
use crate::keep::Entry;
use std::io;
use std::net::{Ipv4Addr, SocketAddr, UdpSocket};
use std::sync::Mutex;
use std::thread;
use std::time::{Duration, Instant};

const SESSION: u64 = 1;
/// How many entries a packet has at most, as `tapebox live` sends them.
const ENTRIES_AT_ONCE: usize = 8;
/// How many milliseconds are waited before each end, of which one at least finds room.
const PAUSES_BEFORE_ENDS: [u64; 3] = [0, 50, 200];
/// How long a reader waits for the next packet before it gives up.
const PATIENCE: Duration = Duration::from_secs(5);

/// A rest of so long after each so many packets.
#[derive(Clone, Copy)]
pub struct Rest {
    /// At least one.
    pub packets: usize,
    pub time: Duration,
}

/// What was sent, and how long it took.
pub struct WireFigures {
    /// The entries of the tape.
    pub entries: usize,
    /// The packets of entries, each of which is sent on both lines.
    pub packets: usize,
    /// From the first packet until both readers have an end.
    pub seconds: f64,
    /// The entries that neither line brought.
    pub lost: usize,
}

/// Makes the tape of a batch's input, and then sends it on two lines to a reader each.
pub fn wire(input: &[u8], rest: Option<Rest>) -> io::Result<WireFigures> {
    let refused = |_| io::Error::other("the header is refused");
    let entries = tape_of(input).map_err(refused)?.kept.entries;
    let readers = [bound()?, bound()?];
    let ports = [readers[0].local_addr()?, readers[1].local_addr()?];
    let came = Mutex::new(vec![false; entries.len()]);
    let began = Instant::now();
    let ended = thread::scope(|scope| {
        let running = readers.map(|reader| scope.spawn(|| take_all(reader, &came)));
        send_all(&entries, ports, rest)?;
        let mut ended = began;
        for reader in running {
            let own = reader.join();
            ended = ended.max(own.map_err(|_| io::Error::other("a reader failed"))??);
        }
        io::Result::Ok(ended)
    })?;
    let came = came
        .into_inner()
        .map_err(|_| io::Error::other("a reader failed"))?;
    Ok(WireFigures {
        entries: entries.len(),
        packets: entries.len().div_ceil(ENTRIES_AT_ONCE),
        seconds: (ended - began).as_secs_f64(),
        lost: came.iter().filter(|came| !**came).count(),
    })
}

fn bound() -> io::Result<UdpSocket> {
    let socket = UdpSocket::bind((Ipv4Addr::LOCALHOST, 0))?;
    socket.set_read_timeout(Some(PATIENCE))?;
    Ok(socket)
}

/// Sends the entries and three ends on both lines. A failed send is a lost packet.
fn send_all(entries: &[Entry], ports: [SocketAddr; 2], rest: Option<Rest>) -> io::Result<()> {
    let sender = UdpSocket::bind((Ipv4Addr::LOCALHOST, 0))?;
    let send = |text: &[u8]| ports.map(|port| sender.send_to(text, port).is_ok());
    let mut text = Vec::with_capacity(LONGEST_PACKET);
    for (number, packet) in (1..).zip(entries.chunks(ENTRIES_AT_ONCE)) {
        text.clear();
        write_data(SESSION, packet, &mut text);
        send(&text);
        if let Some(rest) = rest.filter(|rest| number % rest.packets == 0) {
            thread::sleep(rest.time);
        }
    }
    text.clear();
    write_end(SESSION, entries.len() as u32, &mut text);
    for pause in PAUSES_BEFORE_ENDS {
        thread::sleep(Duration::from_millis(pause));
        send(&text);
    }
    Ok(())
}

/// Reads packets until an end, notes by number which entries came, and answers when the end did.
fn take_all(reader: UdpSocket, came: &Mutex<Vec<bool>>) -> io::Result<Instant> {
    let mut bytes = [0; LONGEST_PACKET];
    let mut packet = Packet::new();
    loop {
        let length = reader.recv(&mut bytes)?;
        packet.read(&bytes[..length]).map_err(io::Error::other)?;
        if let PacketKind::End(_) = packet.kind {
            return Ok(Instant::now());
        }
        let mut came = came
            .lock()
            .map_err(|_| io::Error::other("a reader failed"))?;
        for entry in &packet.entries {
            came[entry.number.get() as usize - 1] = true;
        }
    }
}
