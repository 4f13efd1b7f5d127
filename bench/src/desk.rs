//! A table in, its report or its readable tape out.

use crate::day::{Day, Map};
use crate::header::Names;
use crate::hex::{Line, Lines};
use crate::keep::{Keep, Reports, Tape};
use crate::matrix::Matrix;
use crate::message::{Kind, Message, decode};
use crate::report;
use crate::table::{BadTable, read_table};
use crate::table_rows::{COLUMNS, write_figures, write_message};
use std::io::{self, BufRead, Write};

/// What is made of a table.
#[derive(Clone, Copy, Debug, PartialEq, Eq)]
pub enum TableWord {
    /// The report of the day.
    Report,
    /// The same report by one fold at the end, without a tape.
    Least,
    /// Each row with its answer and its symbol's figures after it.
    Tape,
}

/// How many bytes of the tape are written at once.
const PIECE: usize = 65_536;

/// Reads a table, and writes what is asked for; `Ok(Err(BadTable))` if it is none, and then nothing is written.
pub fn desk(
    word: TableWord,
    matrix: Matrix,
    reader: impl BufRead,
    writer: impl Write,
) -> io::Result<Result<(), BadTable>> {
    let messages = match read_table(reader) {
        Ok(messages) => messages,
        Err(bad) => return Ok(Err(bad)),
    };
    let reports = messages
        .iter()
        .filter(|message| matches!(message.kind, Kind::Report(_)));
    let (reports, entries) = (reports.count(), messages.len());
    let names = names_of(&messages);
    match word {
        TableWord::Report => {
            write_report::<Tape>(Day::new(names, matrix, reports, entries), messages, writer)?
        }
        TableWord::Least => {
            write_report::<Reports>(Day::new(names, matrix, reports, entries), messages, writer)?
        }
        TableWord::Tape => write_tape(
            &mut Day::new(names, matrix, reports, entries),
            messages,
            writer,
        )?,
    }
    Ok(Ok(()))
}

/// The names in the order in which they first appear.
fn names_of(messages: &[Message]) -> Names {
    let mut seen = Map::default();
    let mut names = Names {
        symbols: Vec::new(),
        participants: Vec::new(),
    };
    for message in messages {
        if seen
            .insert(u64::from_be_bytes(message.symbol), ())
            .is_none()
        {
            names.symbols.push(message.symbol);
        }
        if !names.participants.contains(&message.participant) {
            names.participants.push(message.participant);
        }
    }
    names
}

fn write_report<K: Keep>(
    mut day: Day<K>,
    messages: Vec<Message>,
    mut writer: impl Write,
) -> io::Result<()> {
    for message in messages {
        // What is refused is left out of the report.
        let _ = day.admit(message);
    }
    let mut text = Vec::new();
    report::write(&day, &mut text);
    writer.write_all(&text)
}

fn write_tape(
    day: &mut Day<Tape>,
    messages: Vec<Message>,
    mut writer: impl Write,
) -> io::Result<()> {
    let mut text = Vec::with_capacity(2 * PIECE);
    text.extend_from_slice(b"tape,refused,");
    text.extend_from_slice(COLUMNS);
    text.extend_from_slice(b",open,high,low,last,volume,trades\n");
    for message in messages {
        match day.admit(message) {
            Ok(number) => {
                report::write_number(number.into(), &mut text);
                text.push(b',');
            }
            Err(refusal) => {
                text.push(b',');
                text.extend_from_slice(refusal.as_bytes());
            }
        }
        text.push(b',');
        write_message(&message, &mut text);
        text.push(b',');
        write_figures(&day.figures(&message.symbol).unwrap_or_default(), &mut text);
        text.push(b'\n');
        if text.len() >= PIECE {
            writer.write_all(&text)?;
            text.clear();
        }
    }
    writer.write_all(&text)
}

/// Writes the messages of a batch's input as a table. Lines that spell no message are left out.
pub fn write_messages(input: &[u8], text: &mut Vec<u8>) {
    let mut lines = Lines::new(input);
    let _names = (lines.next_text(), lines.next_text());
    text.extend_from_slice(COLUMNS);
    text.push(b'\n');
    let mut line = Line::default();
    while let Some(read) = lines.next_message(&mut line) {
        let Ok(message) = read.and_then(|()| decode(line.front(), line.count).map_err(|_| ()))
        else {
            continue;
        };
        write_message(&message, text);
        text.push(b'\n');
    }
}
