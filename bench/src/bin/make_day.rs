//! `make_day DAY [SEED [BYTES]]` writes a batch input to standard output: the same bytes for the same words.
//!
//! - `one`: one symbol and one participant, plain reports alone.
//! - `busy`: 400 symbols and 15 participants, mixed conditions; of 200 lines 3 are cancels, 2 corrections, 2 reinstatements and 2
//!   refused.
//! - `busy1`, `busy2`, `busy4`, `busy8`, `busy26`: the same with so many participants.
//! - `hostile`: every second message cancels, corrects or reinstates a report of one busy symbol.
//! - `stored`: 20,000 reports with mixed conditions; BYTES is not looked at.
//! - `odd`: every second line is changed somewhere, in its text or in its message's bytes.
//! - `every`: 4,096 symbols and 25 participants, and every kind of line: each refusal that a day of this length can meet,
//!   conditions that Matrix Two alone has, lines of 70,000 bytes, and a last line without a line feed that fills the day up to
//!   its last byte.
//! - `wide`: 4,096 symbols and 26 participants, each of which reports in every symbol, and then reports anywhere.

use bench::Random;
use std::io::{self, Write};
use std::process::ExitCode;

/// The greatest number of bytes of an input.
const INPUT_MOST: usize = 16_777_216;

fn main() -> ExitCode {
    let words: Vec<String> = std::env::args().skip(1).collect();
    let number = |at: usize, default: u64| match words.get(at) {
        Some(word) => word.parse().ok(),
        None => Some(default),
    };
    let (Some(seed), Some(bytes)) = (number(1, 1), number(2, INPUT_MOST as u64)) else {
        return usage();
    };
    let mut maker = Maker::new(seed, bytes as usize);
    match words.first().map(String::as_str) {
        Some("one") => maker.one(),
        Some("busy") => maker.busy(15),
        Some("busy1") => maker.busy(1),
        Some("busy2") => maker.busy(2),
        Some("busy4") => maker.busy(4),
        Some("busy8") => maker.busy(8),
        Some("busy26") => maker.busy(26),
        Some("hostile") => maker.hostile(),
        Some("stored") => maker.stored(),
        Some("odd") => maker.odd(),
        Some("every") => maker.every(),
        Some("wide") => maker.wide(),
        _ => return usage(),
    }
    match io::stdout().write_all(&maker.text) {
        Ok(()) => ExitCode::SUCCESS,
        Err(_) => ExitCode::FAILURE,
    }
}

fn usage() -> ExitCode {
    eprintln!("usage: make_day one|busy[1|2|4|8|26]|hostile|stored|odd|every|wide [SEED [BYTES]]");
    ExitCode::FAILURE
}

/// A participant with the numbers and symbols of its reports.
struct Sender {
    letter: u8,
    number: u32,
    /// Those that it may yet cancel or correct.
    sent: Vec<(u32, usize)>,
    /// Those that it may yet reinstate.
    cancelled: Vec<(u32, usize)>,
}

impl Sender {
    /// The reports that such a change names.
    fn named_by(&mut self, change: Change) -> &mut Vec<(u32, usize)> {
        match change {
            Change::Cancel | Change::Correct => &mut self.sent,
            Change::Reinstate => &mut self.cancelled,
        }
    }
}

struct Traded {
    name: [u8; 8],
    /// Ten-thousandths of a dollar.
    price: u64,
}

struct Maker {
    random: Random,
    bytes: usize,
    text: Vec<u8>,
    symbols: Vec<Traded>,
    senders: Vec<Sender>,
    /// Whether one condition in eight is of Matrix Two alone.
    has_two: bool,
}

/// What is asked for of a report.
#[derive(Clone, Copy)]
enum Change {
    Cancel,
    Correct,
    Reinstate,
}

/// Changes as often as they come if nothing else decides.
const CHANGES: [Change; 8] = [
    Change::Cancel,
    Change::Cancel,
    Change::Reinstate,
    Change::Correct,
    Change::Correct,
    Change::Correct,
    Change::Correct,
    Change::Correct,
];

/// Sale conditions as often as a day has them: mostly regular, then the others.
const CONDITIONS: [&[u8; 4]; 32] = [
    b"@   ", b"@   ", b"@   ", b"@   ", b"@   ", b"@   ", b"@   ", b"@  1", b"@F  ", b"@F  ",
    b"@F A", b"@F I", b"@  I", b"@  I", b"@  I", b"@ TH", b"RFT ", b"@ TI", b"N U ", b"@ Z ",
    b"@ L ", b"@4 G", b"@4 W", b"@7 V", b"@O B", b"@5 D", b"@6 X", b"@  P", b"C  S", b"@9 Y",
    b"@  M", b"@  Q",
];

/// Sale conditions that Matrix Two alone has.
const CONDITIONS_OF_TWO: [&[u8; 4]; 8] = [
    b"@  2", b"@  3", b"@F 2", b"@ L3", b"@ Z2", b"@4 3", b"@9 2", b"C U3",
];

/// What is wrong with a line that is meant to be refused.
const FAULTS: [Fault; 8] = [
    Fault::OddDigits,
    Fault::BadPrice,
    Fault::BadCondition,
    Fault::WrongLine,
    Fault::UnknownParticipant,
    Fault::Stale,
    Fault::UnknownSymbol,
    Fault::NoSuchReport,
];

/// The others that a day can have.
const RARE_FAULTS: [Fault; 13] = [
    Fault::Empty,
    Fault::Oversize,
    Fault::Short,
    Fault::BadKind,
    Fault::BadLength,
    Fault::BadParticipant,
    Fault::BadNumber,
    Fault::BadSymbol,
    Fault::BadTarget,
    Fault::BadSize,
    Fault::ExtraBytes,
    Fault::OtherSymbol,
    Fault::LongLine,
];

#[derive(Clone, Copy)]
enum Fault {
    OddDigits,
    BadPrice,
    BadCondition,
    WrongLine,
    UnknownParticipant,
    Stale,
    UnknownSymbol,
    NoSuchReport,
    Empty,
    Oversize,
    Short,
    BadKind,
    BadLength,
    BadParticipant,
    BadNumber,
    BadSymbol,
    BadTarget,
    BadSize,
    ExtraBytes,
    OtherSymbol,
    LongLine,
}

/// Where a message's bytes are changed, and the digits that are written there.
const DISTORTIONS: [(usize, &str); 27] = [
    (0, "0000"),
    (0, "0040"),
    (0, "0041"),
    (1, "1a"),
    (2, "52"),
    (2, "58"),
    (2, "43"),
    (2, "53"),
    (2, "5a"),
    (3, "40"),
    (3, "5b"),
    (3, "57"),
    (4, "00000000"),
    (4, "00000001"),
    (16, "20"),
    (16, "42"),
    (17, "5a"),
    (17, "2e"),
    (20, "2041"),
    (24, "00000000"),
    (24, "00000001"),
    (24, "0000000000000000"),
    (28, "ff"),
    (32, "00000000"),
    (36, "43"),
    (37, "394d"),
    (39, "32"),
];

impl Maker {
    fn new(seed: u64, bytes: usize) -> Self {
        Maker {
            random: Random::new(seed),
            bytes,
            text: Vec::with_capacity(bytes),
            symbols: Vec::new(),
            senders: Vec::new(),
            has_two: false,
        }
    }

    fn one(&mut self) {
        self.header(1, 1);
        while self.has_room() {
            self.report(0, 0, *b"@   ");
        }
    }

    fn busy(&mut self, participants: usize) {
        self.header(400, participants);
        while self.has_room() {
            let sender = self.random.below(participants as u64) as usize;
            match self.random.below(200) {
                0..=2 => self.change(sender, Change::Cancel, None),
                3..=4 => self.change(sender, Change::Correct, None),
                5..=6 => self.change(sender, Change::Reinstate, None),
                7..=8 => {
                    let fault = *self.random.one_of(&FAULTS);
                    self.faulty(sender, fault);
                }
                _ => self.popular_report(sender),
            }
        }
    }

    fn hostile(&mut self) {
        self.header(20, 5);
        while self.has_room() {
            let sender = self.random.below(5) as usize;
            let symbol = match self.random.happens(9, 10) {
                true => 0,
                false => self.random.below(20) as usize,
            };
            let condition = self.condition();
            self.report(sender, symbol, condition);
            if self.has_room() {
                self.any_change(sender, Some(0));
            }
        }
    }

    fn stored(&mut self) {
        self.header(40, 12);
        for _ in 0..20_000 {
            let sender = self.random.below(12) as usize;
            self.popular_report(sender);
        }
    }

    fn odd(&mut self) {
        self.header(4, 4);
        while self.has_room() {
            let start = self.text.len();
            let sender = self.random.below(4) as usize;
            if self.random.happens(1, 3) {
                self.any_change(sender, None);
            } else {
                self.popular_report(sender);
            }
            if self.random.happens(1, 2) && self.text.len() > start {
                self.distort(start);
            }
        }
    }

    fn every(&mut self) {
        self.has_two = true;
        self.header(4_096, 25);
        while self.text.len() + 1_000 <= self.bytes {
            let sender = self.random.below(25) as usize;
            match self.random.below(20) {
                0..=2 => self.any_change(sender, None),
                3..=4 => {
                    let fault = *self.random.one_of(&FAULTS);
                    self.faulty(sender, fault);
                }
                5..=6 => self.rarely_faulty(sender),
                _ => self.popular_report(sender),
            }
        }
        self.text.extend(b"Z ");
        self.text.resize(self.bytes, b'0');
    }

    fn wide(&mut self) {
        self.header(4_096, 26);
        let mut first = (0..26).flat_map(|sender| (0..4_096).map(move |symbol| (sender, symbol)));
        while self.has_room() {
            let (sender, symbol) = match first.next() {
                Some(pair) => pair,
                None => (self.random.below(26) as usize, self.popular_symbol()),
            };
            let condition = self.condition();
            self.report(sender, symbol, condition);
        }
    }

    /// A line with one of the rare faults; the long line is rarer yet.
    fn rarely_faulty(&mut self, sender: usize) {
        let mut fault = *self.random.one_of(&RARE_FAULTS);
        if let Fault::LongLine = fault {
            let has_room = self.text.len() + 71_000 <= self.bytes;
            if !has_room || !self.random.happens(1, 100) {
                fault = Fault::ExtraBytes;
            }
        }
        let start = self.text.len();
        self.faulty(sender, fault);
        let end = self.text.len() - 1;
        match fault {
            Fault::Empty => self.text.truncate(start),
            Fault::Oversize => self.text[start + 2..start + 6].copy_from_slice(b"0041"),
            Fault::Short => self.text.truncate(end - 2),
            Fault::BadLength => {
                self.text[start + 2..start + 6].copy_from_slice(b"0027");
                self.text.splice(end..end, *b"00");
            }
            Fault::ExtraBytes => _ = self.text.splice(end..end, *b"00"),
            Fault::LongLine => {
                let digits = std::iter::repeat_n(*self.random.one_of(b"0g"), 70_000);
                self.text.splice(end..end, digits);
            }
            _ => return,
        }
        if self.text.last() != Some(&b'\n') || self.text.len() == start {
            self.text.push(b'\n');
        }
    }

    /// Changes the line that begins here: a byte of its text, its length, or some bytes of its message.
    fn distort(&mut self, start: usize) {
        let end = self.text.len() - 1;
        let at = start + self.random.below((end - start) as u64) as usize;
        match self.random.below(8) {
            0 => self.text[at] = *self.random.one_of(b" \rgGzN\xff0"),
            1 => _ = self.text.remove(at),
            2 => self.text.insert(at, *self.random.one_of(b"0f \n")),
            3 => self.text.truncate(at + 1),
            4 => _ = self.text.splice(end..end, *b"00"),
            5 => self.text[start] = *self.random.one_of(b"AWXYZ"),
            _ => self.distort_message(start),
        }
        self.text.pop();
        self.text.push(b'\n');
    }

    /// Writes digits over one of the fields of the message, or over a part of it.
    fn distort_message(&mut self, start: usize) {
        let (field, digits) = *self.random.one_of(&DISTORTIONS);
        let first = start + 2 + 2 * field;
        let last = (first + digits.len()).min(self.text.len() - 1);
        for (at, digit) in (first..last).zip(digits.bytes()) {
            self.text[at] = digit;
        }
    }

    /// Whether the longest line still has room.
    fn has_room(&self) -> bool {
        self.text.len() + 92 <= self.bytes
    }

    fn header(&mut self, symbols: usize, participants: usize) {
        for index in 0..symbols {
            let name = symbol_name(index);
            let price = 10_000 * (5 + self.random.below(400));
            self.symbols.push(Traded { name, price });
            self.text.extend(name.iter().filter(|byte| **byte != b' '));
            self.text.push(b' ');
        }
        self.end_names();
        for letter in (b'A'..=b'Z').rev().take(participants) {
            self.senders.push(Sender {
                letter,
                number: 0,
                sent: Vec::new(),
                cancelled: Vec::new(),
            });
            self.text.extend([letter, b' ']);
        }
        self.end_names();
    }

    fn end_names(&mut self) {
        self.text.pop();
        self.text.push(b'\n');
    }

    /// A symbol, the earlier ones of the listing more often.
    fn popular_symbol(&mut self) -> usize {
        let bound = 1 + self.random.below(self.symbols.len() as u64);
        self.random.below(bound) as usize
    }

    /// The sender's next number; now and then some are left out.
    fn next_number(&mut self, sender: usize) -> u32 {
        let skipped = match self.random.happens(1, 50) {
            true => 1 + self.random.below(4) as u32,
            false => 0,
        };
        let sender = &mut self.senders[sender];
        sender.number += 1 + skipped;
        sender.number
    }

    /// The symbol's next price, a few cents from the one before.
    fn next_price(&mut self, symbol: usize) -> u64 {
        let step = 100 * self.random.below(9);
        let price = self.symbols[symbol].price + step;
        self.symbols[symbol].price = price.saturating_sub(400).max(400);
        self.symbols[symbol].price
    }

    fn size(&mut self) -> u32 {
        match self.random.happens(1, 3) {
            true => 1 + self.random.below(99) as u32,
            false => 100 * (1 + self.random.below(20) as u32),
        }
    }

    fn condition(&mut self) -> [u8; 4] {
        match self.has_two && self.random.happens(1, 8) {
            true => **self.random.one_of(&CONDITIONS_OF_TWO),
            false => **self.random.one_of(&CONDITIONS),
        }
    }

    /// A report of a popular symbol.
    fn popular_report(&mut self, sender: usize) {
        let symbol = self.popular_symbol();
        let condition = self.condition();
        self.report(sender, symbol, condition);
    }

    fn report(&mut self, sender: usize, symbol: usize, condition: [u8; 4]) {
        let number = self.next_number(sender);
        let content = (self.next_price(symbol), self.size(), condition);
        let letter = self.senders[sender].letter;
        let name = self.symbols[symbol].name;
        self.senders[sender].sent.push((number, symbol));
        let body = body(b'R', letter, number, name, None, Some(content));
        self.line(letter, &body);
    }

    /// A cancel, a correction or a reinstatement of one of the sender's reports, of any symbol or of this one.
    fn any_change(&mut self, sender: usize, symbol: Option<usize>) {
        let change = *self.random.one_of(&CHANGES);
        self.change(sender, change, symbol);
    }

    /// Such a change of one of the sender's reports, of any symbol or of this one.
    fn change(&mut self, sender: usize, change: Change, symbol: Option<usize>) {
        let Some(report) = self.target(sender, change, symbol) else {
            return;
        };
        let (target, symbol) = self.senders[sender].named_by(change)[report];
        let number = self.next_number(sender);
        let letter = self.senders[sender].letter;
        let name = self.symbols[symbol].name;
        let target = Some(target);
        let body = match change {
            Change::Cancel => {
                self.exchange(sender, change, report);
                body(b'X', letter, number, name, target, None)
            }
            Change::Reinstate => {
                self.exchange(sender, change, report);
                body(b'S', letter, number, name, target, None)
            }
            Change::Correct => {
                let price = self.symbols[symbol].price + 100 * self.random.below(20);
                let condition = self.condition();
                let content = (price, self.size(), condition);
                body(b'C', letter, number, name, target, Some(content))
            }
        };
        self.line(letter, &body);
    }

    /// Puts a report that is cancelled or reinstated among those of the other sort. Now and then it stays among its own too, to
    /// be named again.
    fn exchange(&mut self, sender: usize, change: Change, report: usize) {
        let (other, moves) = match change {
            Change::Reinstate => (Change::Cancel, self.random.happens(9, 10)),
            _ => (Change::Reinstate, self.random.happens(9, 10)),
        };
        let sender = &mut self.senders[sender];
        let named = sender.named_by(change)[report];
        if moves {
            sender.named_by(change).swap_remove(report);
        }
        sender.named_by(other).push(named);
    }

    /// The index of one of the reports that such a change names, any or the next of the symbol.
    fn target(&mut self, sender: usize, change: Change, symbol: Option<usize>) -> Option<usize> {
        let named = self.senders[sender].named_by(change);
        if named.is_empty() {
            return None;
        }
        let start = self.random.below(named.len() as u64) as usize;
        (start..named.len())
            .chain(0..start)
            .find(|report| symbol.is_none_or(|symbol| named[*report].1 == symbol))
    }

    /// A line that is refused and changes nothing.
    fn faulty(&mut self, sender: usize, fault: Fault) {
        let mut letter = self.senders[sender].letter;
        let mut body = self.faultless_body(sender);
        let mut from = letter;
        match fault {
            Fault::BadPrice => body[22..30].fill(0),
            Fault::BadCondition => body[34] = b'E',
            Fault::WrongLine => from = if letter == b'A' { b'B' } else { b'A' },
            Fault::UnknownParticipant => {
                letter = b'A';
                body[1] = letter;
                from = letter;
            }
            Fault::Stale => {
                let last = self.senders[sender].number.max(1);
                body[2..6].copy_from_slice(&last.to_be_bytes());
            }
            Fault::UnknownSymbol => body[14..22].copy_from_slice(b"UNLISTED"),
            Fault::NoSuchReport => {
                body[0] = b'X';
                body.truncate(22);
                body.extend(u32::MAX.to_be_bytes());
            }
            Fault::BadKind => body[0] = b'Z',
            Fault::BadParticipant => body[1] = b'[',
            Fault::BadNumber => body[2..6].fill(0),
            Fault::BadSymbol => body[14..22].copy_from_slice(b"A B     "),
            Fault::BadSize => body[30..34].fill(0xff),
            Fault::BadTarget => {
                body[0] = b'X';
                body.truncate(22);
                body.extend([0; 4]);
            }
            Fault::OtherSymbol => {
                if let Some(report) = self.target(sender, Change::Cancel, None) {
                    let (target, symbol) = self.senders[sender].sent[report];
                    body[0] = b'X';
                    body.truncate(14);
                    body.extend(self.symbols[(symbol + 1) % self.symbols.len()].name);
                    body.extend(target.to_be_bytes());
                }
            }
            Fault::OddDigits
            | Fault::Empty
            | Fault::Oversize
            | Fault::Short
            | Fault::BadLength
            | Fault::ExtraBytes
            | Fault::LongLine => {}
        }
        self.line(from, &body);
        if let Fault::OddDigits = fault {
            self.text.pop();
            self.text.pop();
            self.text.push(b'\n');
        }
    }

    fn faultless_body(&mut self, sender: usize) -> Vec<u8> {
        let symbol = self.popular_symbol();
        let condition = match self.has_two {
            true => self.condition(),
            false => *b"@   ",
        };
        let sender = &self.senders[sender];
        let content = (self.symbols[symbol].price, 100, condition);
        let name = self.symbols[symbol].name;
        body(
            b'R',
            sender.letter,
            sender.number + 1,
            name,
            None,
            Some(content),
        )
    }

    /// Adds the line of the message with this body; one in sixteen has capital digits.
    fn line(&mut self, from: u8, body: &[u8]) {
        let digits = match self.random.happens(1, 16) {
            true => b"0123456789ABCDEF",
            false => b"0123456789abcdef",
        };
        self.text.extend([from, b' ']);
        for byte in [0, body.len() as u8].iter().chain(body) {
            let high = digits[usize::from(byte >> 4)];
            let low = digits[usize::from(byte & 15)];
            self.text.extend([high, low]);
        }
        self.text.push(b'\n');
    }
}

/// The bytes of a message after its length: content is price, size and condition.
fn body(
    kind: u8,
    letter: u8,
    number: u32,
    symbol: [u8; 8],
    target: Option<u32>,
    content: Option<(u64, u32, [u8; 4])>,
) -> Vec<u8> {
    let mut body = vec![kind, letter];
    body.extend(number.to_be_bytes());
    body.extend(
        0x0123_4567_u64
            .wrapping_mul(u64::from(number))
            .to_be_bytes(),
    );
    body.extend(symbol);
    if let Some(target) = target {
        body.extend(target.to_be_bytes());
    }
    if let Some((price, size, condition)) = content {
        body.extend(price.to_be_bytes());
        body.extend(size.to_be_bytes());
        body.extend(condition);
    }
    body
}

/// Names of one to four bytes, each once: `A`, `B`, .., `AA`, ..
fn symbol_name(index: usize) -> [u8; 8] {
    let mut letters = Vec::new();
    let mut rest = index + 1;
    while rest > 0 {
        letters.push(b'A' + ((rest - 1) % 26) as u8);
        rest = (rest - 1) / 26;
    }
    let mut name = [b' '; 8];
    for (place, letter) in name.iter_mut().zip(letters.iter().rev()) {
        *place = *letter;
    }
    name
}
