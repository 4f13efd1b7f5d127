//! What a day keeps beside the names of its reports: the whole tape with its summaries, or the reports alone.

use crate::header::Names;
use crate::matrix::Cells;
use crate::message::{Content, Kind, Message};
use crate::store::{Effect, Store};
use crate::summary::{Mark, Summary};
use std::num::NonZeroU32;

/// The report that a message makes or names.
#[derive(Clone, Copy)]
pub struct Named {
    /// How many reports were made before it.
    pub index: u32,
    /// The tape number of its first admission.
    pub place: NonZeroU32,
    /// The symbol's position in the listing.
    pub symbol: u16,
    /// The participant's position in the listing.
    pub participant: u8,
}

/// What a message does to the report that it makes or names.
#[derive(Clone, Copy)]
pub enum Change {
    /// It stands with this content, and these cells of its condition.
    Put { content: Content, cells: Cells },
    /// It stands no longer.
    Take,
}

/// What a day keeps of each admitted message.
pub trait Keep {
    /// Nothing kept yet, with room for so many reports and entries.
    fn with_room(names: &Names, reports: usize, entries: usize) -> Self;

    /// Keeps a message with its tape number, the report that it makes or names, and what it does to it.
    fn keep(&mut self, number: NonZeroU32, message: Message, report: Named, change: Change);

    /// Per symbol its consolidated summary and then its participants', in the order of the listing.
    fn summaries(&self, names: &Names) -> Vec<Summary>;
}

/// The numbered tape, with each summary exact after each message.
pub struct Tape {
    /// By tape number, from 1.
    pub entries: Vec<Entry>,
    /// By a symbol's position.
    books: Vec<Book>,
}

/// An admitted message.
#[derive(Clone, Copy, Debug, PartialEq, Eq)]
pub struct Entry {
    /// The tape number.
    pub number: NonZeroU32,
    /// The message as it came.
    pub message: Message,
    /// The symbol's consolidated summary after each message but a report.
    pub after: Option<Summary>,
}

impl Tape {
    /// The consolidated figures of the symbol at a position.
    pub fn figures(&self, symbol: usize) -> Summary {
        self.books[symbol].consolidated.summary()
    }
}

/// A symbol's reports that stand.
#[derive(Default)]
struct Book {
    consolidated: Store,
    /// By a participant's position, as far as a report has needed the row.
    own: Vec<Store>,
}

impl Book {
    fn put(&mut self, report: Named, letter: u8, content: &Content, cells: &Cells) {
        let own = usize::from(report.participant);
        if self.own.len() <= own {
            self.own.resize_with(own + 1, Store::default);
        }
        let [whole, part] = [0, 1].map(|column| Effect::new(letter, content, cells, column));
        self.consolidated.put(report.place, whole);
        self.own[own].put(report.place, part);
    }

    fn take(&mut self, report: Named) {
        self.consolidated.take(report.place);
        self.own[usize::from(report.participant)].take(report.place);
    }
}

impl Keep for Tape {
    fn with_room(names: &Names, _reports: usize, entries: usize) -> Self {
        Tape {
            entries: Vec::with_capacity(entries),
            books: names.symbols.iter().map(|_| Book::default()).collect(),
        }
    }

    fn keep(&mut self, number: NonZeroU32, message: Message, report: Named, change: Change) {
        let book = &mut self.books[usize::from(report.symbol)];
        match change {
            Change::Put { content, cells } => {
                book.put(report, message.participant, &content, &cells);
            }
            Change::Take => book.take(report),
        }
        let after = match message.kind {
            Kind::Report(_) => None,
            _ => Some(book.consolidated.summary()),
        };
        self.entries.push(Entry {
            number,
            message,
            after,
        });
    }

    fn summaries(&self, names: &Names) -> Vec<Summary> {
        let mut summaries = Vec::with_capacity(self.books.len() * (1 + names.participants.len()));
        for book in &self.books {
            summaries.push(book.consolidated.summary());
            for participant in 0..names.participants.len() {
                let own = book.own.get(participant);
                summaries.push(own.map(Store::summary).unwrap_or_default());
            }
        }
        summaries
    }
}

/// No tape: the least that a batch's output needs.
pub struct Reports {
    reports: Vec<Report>,
}

/// A report as it stands at the day's end.
struct Report {
    /// As reported, or as last corrected.
    content: Content,
    cells: Cells,
    place: NonZeroU32,
    symbol: u16,
    /// The participant's position in the listing.
    participant: u8,
    /// A letter.
    letter: u8,
    /// Whether it is not cancelled.
    stands: bool,
}

impl Keep for Reports {
    fn with_room(_names: &Names, reports: usize, _entries: usize) -> Self {
        Reports {
            reports: Vec::with_capacity(reports),
        }
    }

    fn keep(&mut self, _number: NonZeroU32, message: Message, report: Named, change: Change) {
        let index = report.index as usize;
        let Change::Put { content, cells } = change else {
            self.reports[index].stands = false;
            return;
        };
        let put = Report {
            content,
            cells,
            place: report.place,
            symbol: report.symbol,
            participant: report.participant,
            letter: message.participant,
            stands: true,
        };
        match self.reports.get_mut(index) {
            Some(report) => *report = put,
            None => self.reports.push(put),
        }
    }

    fn summaries(&self, names: &Names) -> Vec<Summary> {
        let width = 1 + names.participants.len();
        let mut summaries = vec![Summary::default(); names.symbols.len() * width];
        for report in self.reports.iter().filter(|report| report.stands) {
            let row = usize::from(report.symbol) * width;
            let mark = Mark {
                price: report.content.price,
                place: report.place,
                participant: report.letter,
            };
            let own = row + 1 + usize::from(report.participant);
            for (column, row) in [row, own].into_iter().enumerate() {
                summaries[row].step(mark, report.content.size, &report.cells, column);
            }
        }
        summaries
    }
}
