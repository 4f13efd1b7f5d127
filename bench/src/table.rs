//! A table of messages, read: fields without quotes, the columns in any order.

use crate::header::is_symbol;
use crate::matrix::is_condition;
use crate::message::{Content, Kind, Message};
use std::io::BufRead;

/// The table has no header row, a row that is no message, or no row.
#[derive(Debug, PartialEq, Eq)]
pub struct BadTable;

/// A column, in the order in which a row's fields are kept.
#[derive(Clone, Copy, PartialEq, Eq)]
enum Column {
    Kind,
    Participant,
    Number,
    Moment,
    Symbol,
    Target,
    Price,
    Size,
    Condition,
}

use Column::{
    Condition, Kind as KindColumn, Moment, Number, Participant, Price, Size, Symbol, Target,
};

/// Each column with its name, and whether it may be missing.
const COLUMNS: [(Column, &[u8], bool); 9] = [
    (KindColumn, b"kind", true),
    (Participant, b"participant", false),
    (Number, b"number", false),
    (Moment, b"moment", true),
    (Symbol, b"symbol", false),
    (Target, b"target", true),
    (Price, b"price", false),
    (Size, b"size", false),
    (Condition, b"condition", false),
];

/// A row's fields, by the columns.
struct Fields<'a>([&'a [u8]; COLUMNS.len()]);

impl<'a> Fields<'a> {
    fn of(&self, column: Column) -> &'a [u8] {
        self.0[column as usize]
    }
}

/// Where a table has its columns: the column of each field of a row, and none if it is a remark.
struct Header(Vec<Option<Column>>);

impl Header {
    fn read(line: &[u8]) -> Option<Self> {
        let mut seen = [false; COLUMNS.len()];
        let mut columns = Vec::new();
        for name in line.split(|byte| *byte == b',') {
            if name.starts_with(b"#") {
                columns.push(None);
                continue;
            }
            let (column, ..) = *COLUMNS.iter().find(|(_, known, _)| *known == name)?;
            if std::mem::replace(&mut seen[column as usize], true) {
                return None;
            }
            columns.push(Some(column));
        }
        let is_whole = COLUMNS
            .iter()
            .zip(seen)
            .all(|((.., may_be_missing), seen)| seen || *may_be_missing);
        is_whole.then_some(Header(columns))
    }

    /// The fields of a row, which has as many as the header row.
    fn fields<'a>(&self, line: &'a [u8]) -> Option<Fields<'a>> {
        let mut fields = Fields([b""; COLUMNS.len()]);
        fields.0[KindColumn as usize] = b"report";
        let mut columns = self.0.iter();
        for field in line.split(|byte| *byte == b',') {
            if let Some(column) = columns.next()? {
                fields.0[*column as usize] = field;
            }
        }
        columns.next().is_none().then_some(fields)
    }
}

/// The messages of a table, in order.
pub fn read_table(mut reader: impl BufRead) -> Result<Vec<Message>, BadTable> {
    let mut line = Vec::new();
    let mut header: Option<Header> = None;
    let mut messages = Vec::new();
    while next_line(&mut reader, &mut line)? {
        match &header {
            _ if line.is_empty() => {}
            None => header = Some(Header::read(&line).ok_or(BadTable)?),
            Some(header) => {
                let fields = header.fields(&line).ok_or(BadTable)?;
                messages.push(message(&fields).ok_or(BadTable)?);
            }
        }
    }
    if messages.is_empty() {
        return Err(BadTable);
    }
    Ok(messages)
}

/// Reads the next line without its end: whether there was one.
fn next_line(reader: &mut impl BufRead, line: &mut Vec<u8>) -> Result<bool, BadTable> {
    line.clear();
    let count = reader.read_until(b'\n', line).map_err(|_| BadTable)?;
    while line
        .last()
        .is_some_and(|byte| matches!(byte, b'\n' | b'\r'))
    {
        line.pop();
    }
    Ok(count > 0)
}

/// The message of a row.
fn message(fields: &Fields) -> Option<Message> {
    let [participant] = *fields.of(Participant) else {
        return None;
    };
    if !participant.is_ascii_uppercase() {
        return None;
    }
    let mut symbol = [b' '; 8];
    let name = fields.of(Symbol);
    symbol.get_mut(..name.len())?.copy_from_slice(name);
    if !is_symbol(&symbol) || name.contains(&b' ') {
        return None;
    }
    Some(Message {
        participant,
        number: number(fields.of(Number), 1, u32::MAX.into())? as u32,
        moment: match fields.of(Moment) {
            b"" => 0,
            text => number(text, 0, u64::MAX)?,
        },
        symbol,
        kind: kind(fields)?,
    })
}

fn kind(fields: &Fields) -> Option<Kind> {
    Some(match fields.of(KindColumn) {
        b"report" | b"R" => {
            fields.of(Target).is_empty().then_some(())?;
            Kind::Report(content(fields)?)
        }
        b"cancel" | b"X" => Kind::Cancel {
            target: bare_target(fields)?,
        },
        b"reinstate" | b"S" => Kind::Reinstate {
            target: bare_target(fields)?,
        },
        b"correct" | b"C" => Kind::Correct {
            target: target(fields)?,
            content: content(fields)?,
        },
        _ => return None,
    })
}

fn target(fields: &Fields) -> Option<u32> {
    Some(number(fields.of(Target), 1, u32::MAX.into())? as u32)
}

/// The target of a row without content.
fn bare_target(fields: &Fields) -> Option<u32> {
    let is_bare = [Price, Size, Condition]
        .iter()
        .all(|column| fields.of(*column).is_empty());
    is_bare.then(|| target(fields))?
}

fn content(fields: &Fields) -> Option<Content> {
    let mut condition: [u8; 4] = fields.of(Condition).try_into().ok()?;
    if condition.contains(&b' ') {
        return None;
    }
    for code in &mut condition {
        if *code == b'_' {
            *code = b' ';
        }
    }
    is_condition(condition).then_some(Content {
        price: price(fields.of(Price))?,
        size: number(fields.of(Size), 1, 99_999_999)? as u32,
        condition,
    })
}

/// The number of one to twenty digits, from the least to the most.
fn number(text: &[u8], least: u64, most: u64) -> Option<u64> {
    if text.is_empty() || text.len() > 20 {
        return None;
    }
    let mut value: u64 = 0;
    for byte in text {
        let digit = byte.wrapping_sub(b'0');
        if digit > 9 {
            return None;
        }
        value = value.checked_mul(10)?.checked_add(digit.into())?;
    }
    (least..=most).contains(&value).then_some(value)
}

/// Dollars with at most four decimals, in ten-thousandths.
fn price(text: &[u8]) -> Option<u64> {
    let (dollars, decimals) = match text.iter().position(|byte| *byte == b'.') {
        None => (text, &b"0"[..]),
        Some(point) => (&text[..point], &text[point + 1..]),
    };
    if decimals.len() > 4 {
        return None;
    }
    let part = number(decimals, 0, 9_999)? * [1_000, 100, 10, 1][decimals.len() - 1];
    let price = number(dollars, 0, 99_999_999)? * 10_000 + part;
    (price > 0).then_some(price)
}
