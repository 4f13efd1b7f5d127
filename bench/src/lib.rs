//! The batch of a trade tape as two plain programs, `indexed` with the whole tape kept and each summary exact after each
//! message, and `least` with none: the input, answers and report of `tapebox batch [1|2]`, with nothing of its code. `wire`
//! sends that tape's packets over two ports without a tape, `forward` sends on what participants' lines bring without one, and `latency`
//! measures how long a message takes through it or through `tapebox live`. `desk` has the report and the readable tape of a table of plain
//! fields, as `tapebox` writes them.

mod batch;
mod day;
mod desk;
mod forward;
mod frames;
mod header;
mod hex;
mod keep;
mod latency;
mod matrix;
mod message;
mod program;
mod random;
mod report;
mod store;
mod summary;
mod table;
mod table_rows;
mod wire;

pub use batch::{BadHeader, batch};
pub use day::Day;
pub use desk::{TableWord, desk, write_messages};
pub use forward::forward;
pub use keep::{Keep, Reports, Tape};
pub use latency::{Course, LATENCY_SYMBOLS, LatencyFigures, latency};
pub use matrix::Matrix;
pub use message::Kind;
pub use program::run;
pub use random::Random;
pub use summary::Summary;
pub use table::{BadTable, read_table};
pub use wire::{Rest, WireFigures, wire};

/// The greatest number of bytes of an input.
pub const INPUT_MOST: usize = 16_777_216;
