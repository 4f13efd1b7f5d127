//! The day: which messages are admitted.

use crate::header::Names;
use crate::keep::{Change, Keep, Named, Tape};
use crate::matrix::Matrix;
use crate::message::{Content, Kind, Message};
use crate::summary::Summary;
use std::collections::HashMap;
use std::hash::{BuildHasherDefault, Hasher};
use std::num::NonZeroU32;

/// The most entries that a tape takes. No batch's input has as many messages as a batch's tape takes.
const LIMIT: u32 = 16_777_216;

/// A report as a later message names it.
struct Report {
    /// The tape number of its first admission.
    place: NonZeroU32,
    /// The symbol's position in the listing.
    symbol: u16,
    /// Whether it is not cancelled.
    stands: bool,
    /// As reported or as last corrected, whether or not it is cancelled.
    content: Content,
}

/// A day over its names, with what is kept of each message.
pub struct Day<K> {
    /// The listed symbols and participants.
    pub names: Names,
    /// What is kept of the admitted messages.
    pub kept: K,
    matrix: Matrix,
    positions: Map<u16>,
    /// By rising place.
    reports: Vec<Report>,
    /// A participant's letter and message number, to the report's index.
    sent: Map<u32>,
    /// By letter: its position in the listing, and its last number.
    listed: [Option<u8>; 26],
    last: [u32; 26],
    length: u32,
    /// How many entries it takes: none once it is closed.
    limit: u32,
    is_closed: bool,
}

impl<K: Keep> Day<K> {
    /// An empty day that goes by the matrix, with room for so many reports and entries.
    pub fn new(names: Names, matrix: Matrix, reports: usize, entries: usize) -> Self {
        let mut positions = Map::with_capacity_and_hasher(names.symbols.len(), Folding::default());
        for (position, symbol) in names.symbols.iter().enumerate() {
            positions.insert(u64::from_be_bytes(*symbol), position as u16);
        }
        let mut listed = [None; 26];
        for (position, letter) in (0..).zip(&names.participants) {
            listed[index(*letter)] = Some(position);
        }
        Day {
            reports: Vec::with_capacity(reports),
            kept: K::with_room(&names, reports, entries),
            names,
            matrix,
            positions,
            sent: Map::with_capacity_and_hasher(reports, Folding::default()),
            listed,
            last: [0; 26],
            length: 0,
            limit: LIMIT,
            is_closed: false,
        }
    }

    /// The same day, which takes so many entries at most; or says by number and name that no day does.
    pub fn limited(self, limit: u32) -> Result<Self, &'static str> {
        match limit {
            1..=LIMIT => Ok(Day { limit, ..self }),
            _ => Err("5 BadLimit"),
        }
    }

    /// Ends the day: it admits nothing more.
    pub fn close(&mut self) {
        self.limit = 0;
        self.is_closed = true;
    }

    /// Admits the message and answers its tape number, or says by number and name why it is refused.
    pub fn admit(&mut self, message: Message) -> Result<u32, &'static str> {
        let letter = index(message.participant);
        if self.length >= self.limit {
            return Err(if self.is_closed {
                "31 Closed"
            } else {
                "32 Full"
            });
        }
        let participant = self.listed[letter].ok_or("34 UnknownParticipant")?;
        if message.number <= self.last[letter] {
            return Err("35 Stale");
        }
        let symbol = u64::from_be_bytes(message.symbol);
        let symbol = *self.positions.get(&symbol).ok_or("36 UnknownSymbol")?;
        let number = NonZeroU32::MIN.saturating_add(self.length);
        let (index, change) = self.change(&message, symbol, number)?;
        self.last[letter] = message.number;
        self.length += 1;
        let report = Named {
            index,
            place: self.reports[index as usize].place,
            symbol,
            participant,
        };
        self.kept.keep(number, message, report, change);
        Ok(self.length)
    }

    /// Makes the message's change in the register, and answers the report's index and what is to be kept.
    fn change(
        &mut self,
        message: &Message,
        symbol: u16,
        number: NonZeroU32,
    ) -> Result<(u32, Change), &'static str> {
        Ok(match message.kind {
            Kind::Report(content) => {
                let put = self.put(content)?;
                (self.record(message, symbol, number, content), put)
            }
            Kind::Correct { target, content } => {
                let put = self.put(content)?;
                let index = self.standing(message, symbol, target)?;
                self.reports[index as usize].content = content;
                (index, put)
            }
            Kind::Cancel { target } => {
                let index = self.standing(message, symbol, target)?;
                self.reports[index as usize].stands = false;
                (index, Change::Take)
            }
            Kind::Reinstate { target } => {
                let index = self.named(message, symbol, target)?;
                let report = &mut self.reports[index as usize];
                if report.stands {
                    return Err("43 Standing");
                }
                report.stands = true;
                let content = report.content;
                (index, self.put(content)?)
            }
        })
    }

    /// The change that puts this content, if the day's matrix has its condition.
    fn put(&self, content: Content) -> Result<Change, &'static str> {
        let cells = self.matrix.cells(content.condition);
        let cells = cells.ok_or("44 NotInMatrix")?;
        Ok(Change::Put { content, cells })
    }

    /// Adds the message's report, and answers its index.
    fn record(
        &mut self,
        message: &Message,
        symbol: u16,
        place: NonZeroU32,
        content: Content,
    ) -> u32 {
        let index = self.reports.len() as u32;
        self.sent
            .insert(key(message.participant, message.number), index);
        self.reports.push(Report {
            place,
            symbol,
            stands: true,
            content,
        });
        index
    }

    /// The index of the report that the message's participant sent under the target.
    fn named(&self, message: &Message, symbol: u16, target: u32) -> Result<u32, &'static str> {
        let key = key(message.participant, target);
        let index = *self.sent.get(&key).ok_or("37 NoSuchReport")?;
        if self.reports[index as usize].symbol != symbol {
            return Err("38 OtherSymbol");
        }
        Ok(index)
    }

    /// The same of a report that stands.
    fn standing(&self, message: &Message, symbol: u16, target: u32) -> Result<u32, &'static str> {
        let index = self.named(message, symbol, target)?;
        if !self.reports[index as usize].stands {
            return Err("39 Cancelled");
        }
        Ok(index)
    }
}

impl Day<Tape> {
    /// The consolidated figures of a listed symbol.
    pub fn figures(&self, symbol: &[u8; 8]) -> Option<Summary> {
        let position = self.positions.get(&u64::from_be_bytes(*symbol))?;
        Some(self.kept.figures(usize::from(*position)))
    }
}

fn index(letter: u8) -> usize {
    usize::from(letter - b'A')
}

fn key(participant: u8, number: u32) -> u64 {
    u64::from(participant) << 32 | u64::from(number)
}

pub type Map<V> = HashMap<u64, V, Folding>;
type Folding = BuildHasherDefault<FoldingHasher>;

/// Folds one number by a multiplication: fast, and good enough for input that nobody chose against it.
#[derive(Default)]
pub struct FoldingHasher(u64);

impl Hasher for FoldingHasher {
    fn write(&mut self, bytes: &[u8]) {
        for byte in bytes {
            self.write_u64(u64::from(*byte));
        }
    }

    fn write_u64(&mut self, value: u64) {
        let product = u128::from(self.0 ^ value) * 0x9e37_79b9_7f4a_7c15;
        self.0 = (product >> 64) as u64 ^ product as u64;
    }

    fn finish(&self) -> u64 {
        self.0
    }
}
