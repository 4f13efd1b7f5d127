//! A message from its bytes, the first fault first.

use crate::header::is_symbol;
use crate::matrix::is_condition;

/// What a message asks for.
#[derive(Clone, Copy, Debug, PartialEq, Eq)]
pub enum Kind {
    /// A trade.
    Report(Content),
    /// To take the report of that number back.
    Cancel { target: u32 },
    /// To give the report of that number another content.
    Correct { target: u32, content: Content },
    /// To let the cancelled report of that number stand again.
    Reinstate { target: u32 },
}

/// What was traded.
#[derive(Clone, Copy, Debug, PartialEq, Eq)]
pub struct Content {
    /// Ten-thousandths of a dollar.
    pub price: u64,
    /// Shares.
    pub size: u32,
    /// The four codes of the sale condition.
    pub condition: [u8; 4],
}

/// A message of a participant.
#[derive(Clone, Copy, Debug, PartialEq, Eq)]
pub struct Message {
    /// A letter.
    pub participant: u8,
    /// From 1.
    pub number: u32,
    /// Carried, and never looked at.
    pub moment: u64,
    /// Padded with spaces.
    pub symbol: [u8; 8],
    /// What it asks for.
    pub kind: Kind,
}

/// The message that the bytes spell whole, or why they don't, by number and name. `count` is how many bytes
/// there are; `bytes` are the first of them, at most 66.
pub fn decode(bytes: &[u8], count: usize) -> Result<Message, &'static str> {
    let body = body(bytes)?;
    let message = fields(body)?;
    if count > 2 + body.len() {
        return Err("23 ExtraBytes");
    }
    Ok(message)
}

/// The message that the bytes begin with and how many of them it takes, or why there is none, by number and name.
pub fn decode_front(bytes: &[u8]) -> Result<(Message, usize), &'static str> {
    let body = body(bytes)?;
    Ok((fields(body)?, 2 + body.len()))
}

/// The bytes that the message's length counts.
fn body(bytes: &[u8]) -> Result<&[u8], &'static str> {
    let Some((len, rest)) = bytes.split_first_chunk::<2>() else {
        return Err("12 Short");
    };
    let len = usize::from(u16::from_be_bytes(*len));
    if len == 0 || len > 64 {
        return Err("11 Oversize");
    }
    rest.get(..len).ok_or("12 Short")
}

fn fields(body: &[u8]) -> Result<Message, &'static str> {
    let len = match body[0] {
        b'R' => 38,
        b'X' | b'S' => 26,
        b'C' => 42,
        _ => return Err("13 BadKind"),
    };
    if body.len() != len {
        return Err("14 BadLength");
    }
    let participant = body[1];
    if !participant.is_ascii_uppercase() {
        return Err("15 BadParticipant");
    }
    let number = word(body, 2);
    if number == 0 {
        return Err("16 BadNumber");
    }
    let symbol = long(body, 14).to_be_bytes();
    if !is_symbol(&symbol) {
        return Err("17 BadSymbol");
    }
    let kind = match body[0] {
        b'R' => Kind::Report(content(&body[22..])?),
        b'X' => Kind::Cancel {
            target: target(body)?,
        },
        b'S' => Kind::Reinstate {
            target: target(body)?,
        },
        _ => Kind::Correct {
            target: target(body)?,
            content: content(&body[26..])?,
        },
    };
    Ok(Message {
        participant,
        number,
        moment: long(body, 6),
        symbol,
        kind,
    })
}

fn target(body: &[u8]) -> Result<u32, &'static str> {
    match word(body, 22) {
        0 => Err("18 BadTarget"),
        target => Ok(target),
    }
}

fn content(bytes: &[u8]) -> Result<Content, &'static str> {
    let price = long(bytes, 0);
    if !(1..=999_999_999_999).contains(&price) {
        return Err("19 BadPrice");
    }
    let size = word(bytes, 8);
    if !(1..=99_999_999).contains(&size) {
        return Err("20 BadSize");
    }
    let condition = word(bytes, 12).to_be_bytes();
    if !is_condition(condition) {
        return Err("21 BadCondition");
    }
    Ok(Content {
        price,
        size,
        condition,
    })
}

fn word(bytes: &[u8], at: usize) -> u32 {
    u32::from_be_bytes(bytes[at..at + 4].try_into().unwrap())
}

fn long(bytes: &[u8], at: usize) -> u64 {
    u64::from_be_bytes(bytes[at..at + 8].try_into().unwrap())
}
