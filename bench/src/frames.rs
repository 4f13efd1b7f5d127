//! The spelling of tape entries and packets.

use crate::keep::Entry;
use crate::message::{Content, Kind, Message, decode_front};
use crate::summary::{Mark, Summary};
use std::num::NonZeroU32;

/// How many entries a packet of version 2 has at most, which is what is sent.
pub const ENTRIES_MOST: usize = 16;
/// The longest packet: its header and sixteen corrections.
pub const LONGEST_PACKET: usize = 15 + ENTRIES_MOST * 113;

/// A version of the format: both have the same fields, in other bounds.
#[derive(Clone, Copy, Debug, PartialEq, Eq)]
pub enum Version {
    One,
    Two,
}

impl Version {
    /// The version of a packet with this first byte.
    fn of_byte(byte: u8) -> Option<Self> {
        match byte {
            1 => Some(Version::One),
            2 => Some(Version::Two),
            _ => None,
        }
    }

    /// A packet's first byte.
    pub fn byte(self) -> u8 {
        match self {
            Version::One => 1,
            Version::Two => 2,
        }
    }

    /// How many entries a packet has at most.
    fn entries_most(self) -> usize {
        match self {
            Version::One => 8,
            Version::Two => ENTRIES_MOST,
        }
    }

    /// The greatest number of an entry, of a mark's place, of a beat or of an end.
    fn number_most(self) -> u32 {
        match self {
            Version::One => 1_048_576,
            Version::Two => 16_777_216,
        }
    }

    fn tape_number(self, number: u32) -> Option<NonZeroU32> {
        NonZeroU32::new(number).filter(|number| number.get() <= self.number_most())
    }
}

/// What a packet tells. Its entries stand beside it, in room that is used again.
#[derive(Clone, Copy, Debug, PartialEq, Eq)]
pub enum PacketKind {
    Data,
    /// The last number so far.
    Beat(u32),
    /// The day's final count.
    End(u32),
}

/// A packet as read.
pub struct Packet {
    pub version: Version,
    pub session: u64,
    pub kind: PacketKind,
    /// One to the version's most for data, none else.
    pub entries: Vec<Entry>,
}

impl Packet {
    /// Room for any packet.
    pub fn new() -> Self {
        Packet {
            version: Version::Two,
            session: 0,
            kind: PacketKind::Beat(0),
            entries: Vec::with_capacity(ENTRIES_MOST),
        }
    }

    /// Reads the packet that the bytes spell, or says by number and name why they spell none.
    pub fn read(&mut self, bytes: &[u8]) -> Result<(), &'static str> {
        let mut rest = bytes;
        let header = taken(&mut rest, 15).ok_or("51 Short")?;
        self.entries.clear();
        self.session = long(header, 2);
        let number = word(header, 10);
        let count = usize::from(header[14]);
        self.version = Version::of_byte(header[0]).ok_or("52 BadVersion")?;
        self.kind = match header[1] {
            b'D' => PacketKind::Data,
            b'H' => PacketKind::Beat(number),
            b'E' => PacketKind::End(number),
            _ => return Err("53 BadKind"),
        };
        let is_data = self.kind == PacketKind::Data;
        let counts = match is_data {
            true => 1..=self.version.entries_most(),
            false => 0..=0,
        };
        if !counts.contains(&count) || !is_data && number > self.version.number_most() {
            return Err("54 BadCount");
        }
        for position in 0..count as u32 {
            let entry = read_entry(self.version, &mut rest)?;
            if u64::from(entry.number.get()) != u64::from(number) + u64::from(position) {
                return Err("56 NotInOrder");
            }
            self.entries.push(entry);
        }
        match rest {
            [] => Ok(()),
            _ => Err("57 Trailing"),
        }
    }
}

/// Adds a packet of version 2 of these entries, one to sixteen of one tape in order.
pub fn write_data(session: u64, entries: &[Entry], text: &mut Vec<u8>) {
    let first = entries.first().map_or(0, |entry| entry.number.get());
    write_header(b'D', session, first, entries.len() as u8, text);
    for entry in entries {
        write_entry(entry, text);
    }
}

/// Adds the packet of a day's end, of version 2.
pub fn write_end(session: u64, count: u32, text: &mut Vec<u8>) {
    write_header(b'E', session, count, 0, text);
}

/// Adds a packet's header, of version 2.
pub fn write_header(kind: u8, session: u64, number: u32, count: u8, text: &mut Vec<u8>) {
    text.extend_from_slice(&[Version::Two.byte(), kind]);
    text.extend_from_slice(&session.to_be_bytes());
    text.extend_from_slice(&number.to_be_bytes());
    text.push(count);
}

fn write_entry(entry: &Entry, text: &mut Vec<u8>) {
    text.extend_from_slice(&entry.number.get().to_be_bytes());
    write_message(&entry.message, text);
    if let Some(summary) = &entry.after {
        write_summary(summary, text);
    }
}

/// Adds a message with its length in front.
pub fn write_message(message: &Message, text: &mut Vec<u8>) {
    let (len, kind) = match message.kind {
        Kind::Report(_) => (38, b'R'),
        Kind::Cancel { .. } => (26, b'X'),
        Kind::Reinstate { .. } => (26, b'S'),
        Kind::Correct { .. } => (42, b'C'),
    };
    text.extend_from_slice(&[0, len, kind, message.participant]);
    text.extend_from_slice(&message.number.to_be_bytes());
    text.extend_from_slice(&message.moment.to_be_bytes());
    text.extend_from_slice(&message.symbol);
    match &message.kind {
        Kind::Report(content) => write_content(content, text),
        Kind::Cancel { target } | Kind::Reinstate { target } => {
            text.extend_from_slice(&target.to_be_bytes());
        }
        Kind::Correct { target, content } => {
            text.extend_from_slice(&target.to_be_bytes());
            write_content(content, text);
        }
    }
}

fn write_content(content: &Content, text: &mut Vec<u8>) {
    text.extend_from_slice(&content.price.to_be_bytes());
    text.extend_from_slice(&content.size.to_be_bytes());
    text.extend_from_slice(&content.condition);
}

fn write_summary(summary: &Summary, text: &mut Vec<u8>) {
    let marks = [summary.open, summary.high, summary.low, summary.last];
    let present = |(bit, mark): (u8, &Option<Mark>)| u8::from(mark.is_some()) << bit;
    text.push((0..).zip(&marks).map(present).sum());
    for mark in marks {
        let (price, place, participant) = mark.map_or((0, 0, 0), |mark| {
            (mark.price, mark.place.get(), mark.participant)
        });
        text.extend_from_slice(&price.to_be_bytes());
        text.extend_from_slice(&place.to_be_bytes());
        text.push(participant);
    }
    text.extend_from_slice(&summary.volume.to_be_bytes());
    text.extend_from_slice(&summary.trades.to_be_bytes());
}

fn read_entry(version: Version, rest: &mut &[u8]) -> Result<Entry, &'static str> {
    let number = word(taken(rest, 4).ok_or("51 Short")?, 0);
    let number = version.tape_number(number).ok_or("55 BadEntry")?;
    let (message, count) = decode_front(rest).map_err(|fault| match fault {
        "12 Short" => "51 Short",
        _ => "55 BadEntry",
    })?;
    *rest = &rest[count..];
    let after = match message.kind {
        Kind::Report(_) => None,
        Kind::Cancel { .. } | Kind::Correct { .. } | Kind::Reinstate { .. } => {
            let bytes = taken(rest, 65).ok_or("51 Short")?;
            Some(read_summary(version, bytes).ok_or("55 BadEntry")?)
        }
    };
    Ok(Entry {
        number,
        message,
        after,
    })
}

fn read_summary(version: Version, bytes: &[u8]) -> Option<Summary> {
    let present = bytes[0];
    if present > 15 {
        return None;
    }
    let mark = |bit: usize| {
        let bytes = &bytes[1 + 13 * bit..14 + 13 * bit];
        match present >> bit & 1 {
            0 => bytes.iter().all(|byte| *byte == 0).then_some(None),
            _ => read_mark(version, bytes).map(Some),
        }
    };
    Some(Summary {
        open: mark(0)?,
        high: mark(1)?,
        low: mark(2)?,
        last: mark(3)?,
        volume: long(bytes, 53),
        trades: word(bytes, 61),
    })
}

fn read_mark(version: Version, bytes: &[u8]) -> Option<Mark> {
    let price = long(bytes, 0);
    let participant = bytes[12];
    let in_range = (1..=999_999_999_999).contains(&price) && participant.is_ascii_uppercase();
    in_range.then_some(Mark {
        price,
        place: version.tape_number(word(bytes, 8))?,
        participant,
    })
}

/// The first so many bytes, which the rest then lacks.
fn taken<'a>(rest: &mut &'a [u8], count: usize) -> Option<&'a [u8]> {
    let (front, behind) = rest.split_at_checked(count)?;
    *rest = behind;
    Some(front)
}

fn word(bytes: &[u8], at: usize) -> u32 {
    u32::from_be_bytes(bytes[at..at + 4].try_into().unwrap())
}

fn long(bytes: &[u8], at: usize) -> u64 {
    u64::from_be_bytes(bytes[at..at + 8].try_into().unwrap())
}
