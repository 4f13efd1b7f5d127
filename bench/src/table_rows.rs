//! Rows of a table and of the readable tape, written.

use crate::message::{Kind, Message};
use crate::report::write_number;
use crate::summary::{Mark, Summary};

/// The names of a table's columns.
pub const COLUMNS: &[u8] = b"kind,participant,number,moment,symbol,target,price,size,condition";

/// Adds the fields of a message's row.
pub fn write_message(message: &Message, text: &mut Vec<u8>) {
    let (kind, target, content) = match message.kind {
        Kind::Report(content) => (&b"report"[..], None, Some(content)),
        Kind::Cancel { target } => (&b"cancel"[..], Some(target), None),
        Kind::Correct { target, content } => (&b"correct"[..], Some(target), Some(content)),
        Kind::Reinstate { target } => (&b"reinstate"[..], Some(target), None),
    };
    text.extend_from_slice(kind);
    text.extend_from_slice(&[b',', message.participant, b',']);
    write_number(message.number.into(), text);
    text.push(b',');
    write_number(message.moment, text);
    text.push(b',');
    text.extend(message.symbol.iter().filter(|byte| **byte != b' '));
    text.push(b',');
    if let Some(target) = target {
        write_number(target.into(), text);
    }
    let Some(content) = content else {
        text.extend_from_slice(b",,,");
        return;
    };
    text.push(b',');
    write_price(content.price, text);
    text.push(b',');
    write_number(content.size.into(), text);
    text.push(b',');
    let blank = |code: u8| if code == b' ' { b'_' } else { code };
    text.extend(content.condition.map(blank));
}

/// Adds the fields of what a symbol comes to.
pub fn write_figures(figures: &Summary, text: &mut Vec<u8>) {
    for mark in [figures.open, figures.high, figures.low, figures.last] {
        if let Some(Mark { price, .. }) = mark {
            write_price(price, text);
        }
        text.push(b',');
    }
    write_number(figures.volume, text);
    text.push(b',');
    write_number(figures.trades.into(), text);
}

/// Adds a price in dollars: with two decimals if it is whole cents, else with four.
pub fn write_price(price: u64, text: &mut Vec<u8>) {
    write_number(price / 10_000, text);
    text.push(b'.');
    let part = price % 10_000;
    let (mut digit, least) = if part % 100 == 0 {
        (1_000, 100)
    } else {
        (1_000, 1)
    };
    while digit >= least {
        text.push(b'0' + (part / digit % 10) as u8);
        digit /= 10;
    }
}
