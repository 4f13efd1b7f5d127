//! The day's report: every symbol's summaries over the reports that stand.

use crate::day::Day;
use crate::keep::Keep;
use crate::summary::{Mark, Summary};

/// Adds the report of the day's end to the text.
pub fn write<K: Keep>(day: &Day<K>, text: &mut Vec<u8>) {
    text.extend_from_slice(
        b"symbol,who,open,open_at,high,high_at,low,low_at,last,last_at,volume,trades\n",
    );
    let summaries = day.kept.summaries(&day.names);
    let width = 1 + day.names.participants.len();
    for (symbol, row) in day.names.symbols.iter().zip(summaries.chunks(width)) {
        write_row(symbol, b"ALL", &row[0], text);
        for (letter, own) in day.names.participants.iter().zip(&row[1..]) {
            if own.trades > 0 {
                write_row(symbol, &[*letter], own, text);
            }
        }
    }
}

fn write_row(symbol: &[u8; 8], who: &[u8], summary: &Summary, text: &mut Vec<u8>) {
    text.extend(symbol.iter().filter(|byte| **byte != b' '));
    text.push(b',');
    text.extend_from_slice(who);
    for mark in [summary.open, summary.high, summary.low, summary.last] {
        write_mark(mark, text);
    }
    text.push(b',');
    write_number(summary.volume, text);
    text.push(b',');
    write_number(u64::from(summary.trades), text);
    text.push(b'\n');
}

fn write_mark(mark: Option<Mark>, text: &mut Vec<u8>) {
    let Some(mark) = mark else {
        text.extend_from_slice(b",,");
        return;
    };
    text.push(b',');
    write_number(mark.price, text);
    text.push(b',');
    write_number(u64::from(mark.place.get()), text);
}

/// Adds the number in decimal.
pub fn write_number(mut number: u64, text: &mut Vec<u8>) {
    let start = text.len();
    loop {
        text.push(b'0' + (number % 10) as u8);
        number /= 10;
        if number == 0 {
            break;
        }
    }
    text[start..].reverse();
}
