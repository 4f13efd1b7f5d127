//! The whole batch: an input's answers and its report.

use crate::day::Day;
use crate::header;
use crate::hex::{Line, Lines};
use crate::keep::{Keep, Tape};
use crate::matrix::Matrix;
use crate::message::decode;
use crate::report;

/// The header's lines were refused.
#[derive(Debug, PartialEq, Eq)]
pub struct BadHeader;

/// The shortest line of a report and of any message, its line feed counted.
const REPORT_LINE: usize = 83;
const MESSAGE_LINE: usize = 59;

/// Adds the batch's output for the input, by the matrix, to the text, and answers the day as it ended.
pub fn batch<K: Keep>(
    matrix: Matrix,
    input: &[u8],
    text: &mut Vec<u8>,
) -> Result<Day<K>, BadHeader> {
    let mut lines = Lines::new(input);
    let symbols = lines.next_text().unwrap_or_default();
    let participants = lines.next_text().unwrap_or_default();
    let names = header::read(symbols, participants).map_err(|refusal| {
        write_refusal(refusal, text);
        BadHeader
    })?;
    let reports = input.len() / REPORT_LINE;
    text.reserve(8 * reports + 100 * names.symbols.len());
    let mut day = Day::new(names, matrix, reports, input.len() / MESSAGE_LINE);
    let mut line = Line::default();
    while let Some(read) = lines.next_message(&mut line) {
        match read
            .map_err(|()| "22 BadLine")
            .and_then(|()| answer(&mut day, &line))
        {
            Ok(number) => {
                report::write_number(u64::from(number), text);
                text.push(b'\n');
            }
            Err(refusal) => write_refusal(refusal, text),
        }
    }
    report::write(&day, text);
    Ok(day)
}

/// The tape of the input by Matrix One: what the batch keeps of it, without its output.
pub fn tape_of(input: &[u8]) -> Result<Day<Tape>, BadHeader> {
    let mut lines = Lines::new(input);
    let symbols = lines.next_text().unwrap_or_default();
    let participants = lines.next_text().unwrap_or_default();
    let names = header::read(symbols, participants).map_err(|_| BadHeader)?;
    let mut day = Day::new(
        names,
        Matrix::One,
        input.len() / REPORT_LINE,
        input.len() / MESSAGE_LINE,
    );
    let mut line = Line::default();
    while let Some(read) = lines.next_message(&mut line) {
        // A line that is refused is passed over.
        let _ = read
            .map_err(|()| "22 BadLine")
            .and_then(|()| answer(&mut day, &line));
    }
    Ok(day)
}

/// The tape number of the line's message, or its refusal.
fn answer<K: Keep>(day: &mut Day<K>, line: &Line) -> Result<u32, &'static str> {
    let message = decode(line.front(), line.count)?;
    if message.participant != line.letter {
        return Err("33 WrongLine");
    }
    day.admit(message)
}

fn write_refusal(refusal: &str, text: &mut Vec<u8>) {
    text.extend_from_slice(b"refused ");
    text.extend_from_slice(refusal.as_bytes());
    text.push(b'\n');
}
