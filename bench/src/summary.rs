//! The figures of a symbol, or of a participant in it.

use crate::matrix::{Cells, LastRule};
use std::num::NonZeroU32;

/// A price with where it was traded.
#[derive(Clone, Copy, Debug, PartialEq, Eq)]
pub struct Mark {
    /// Ten-thousandths of a dollar.
    pub price: u64,
    /// The tape number of the report.
    pub place: NonZeroU32,
    /// A letter.
    pub participant: u8,
}

/// The figures of a symbol, or of a participant in it.
#[derive(Clone, Copy, Debug, Default, PartialEq, Eq)]
pub struct Summary {
    /// The first last.
    pub open: Option<Mark>,
    /// The highest, the earliest among equals.
    pub high: Option<Mark>,
    /// The lowest, the earliest among equals.
    pub low: Option<Mark>,
    /// The last by the rules of the sale conditions.
    pub last: Option<Mark>,
    /// Shares.
    pub volume: u64,
    /// How many reports stand.
    pub trades: u32,
}

impl Summary {
    /// Takes the next report by rising place in, by the consolidated columns (0) or the participant's (1).
    pub fn step(&mut self, mark: Mark, size: u32, cells: &Cells, column: usize) {
        let last = self.last.map(|last| last.participant);
        if cells.last[column] >= LastRule::weakest(last, mark.participant) {
            self.open = self.open.or(Some(mark));
            self.last = Some(mark);
        }
        if cells.high_low[column] {
            if self.high.is_none_or(|high| mark.price > high.price) {
                self.high = Some(mark);
            }
            if self.low.is_none_or(|low| mark.price < low.price) {
                self.low = Some(mark);
            }
        }
        if cells.volume {
            self.volume += u64::from(size);
        }
        self.trades += 1;
    }
}
