//! Reads a batch (as `./run encode` writes it) and prints the report of the tape that it leaves.

use std::ffi::c_void;
use std::io::BufRead;
use std::ptr::null_mut;

#[repr(C)]
struct Handle {
    state: u8,
    inside: *mut c_void,
}

#[repr(C)]
#[derive(Clone, Copy, Default)]
struct Mark {
    price: u64,
    place: u32,
    who: u32,
}

#[repr(C)]
#[derive(Clone, Copy, Default)]
struct Figures {
    opening: Mark,
    high: Mark,
    low: Mark,
    last: Mark,
    volume: u64,
    trades: u64,
}

#[repr(C)]
#[derive(Default)]
struct Answer {
    number: u32,
    carries: u32,
    after: Figures,
}

#[link(name = "tapebox", kind = "static")]
unsafe extern "C" {
    fn tapebox_open(
        handle: &mut Handle,
        symbols: *const u8,
        symbols_len: usize,
        participants: *const u8,
        participants_len: usize,
        matrix: u32,
        limit: u32,
    ) -> u32;
    fn tapebox_admit(handle: &mut Handle, message: *const u8, len: usize, answer: &mut Answer) -> u32;
    fn tapebox_summary(handle: &mut Handle, symbol: *const u8, len: usize, row: &mut Figures) -> u32;
    fn tapebox_summary_of(
        handle: &mut Handle,
        symbol: *const u8,
        len: usize,
        participant: u8,
        row: &mut Figures,
    ) -> u32;
    fn tapebox_free(handle: &mut Handle) -> u32;
}

/// A tape that is freed when it is dropped. A refusal is its number.
struct Tape(Handle);

impl Tape {
    fn open(symbols: &str, participants: &str) -> Result<Tape, u32> {
        let mut tape = Tape(Handle { state: 0, inside: null_mut() });
        // SAFETY: the pointers are those of slices, and the handle is all zeros.
        let refused = unsafe {
            let (names, letters) = (symbols.as_ptr(), participants.as_ptr());
            tapebox_open(&mut tape.0, names, symbols.len(), letters, participants.len(), 1, 1_048_576)
        };
        if refused == 0 { Ok(tape) } else { Err(refused) }
    }

    fn admit(&mut self, message: &[u8]) -> Result<u32, u32> {
        let mut answer = Answer::default();
        // SAFETY: the pointer is that of a slice, and the handle is this tape's alone, as in the next two.
        let refused = unsafe { tapebox_admit(&mut self.0, message.as_ptr(), message.len(), &mut answer) };
        if refused == 0 { Ok(answer.number) } else { Err(refused) }
    }

    fn summary(&mut self, symbol: &str, who: Option<u8>) -> Result<Figures, u32> {
        let mut row = Figures::default();
        let refused = match who {
            None => unsafe { tapebox_summary(&mut self.0, symbol.as_ptr(), symbol.len(), &mut row) },
            Some(who) => unsafe { tapebox_summary_of(&mut self.0, symbol.as_ptr(), symbol.len(), who, &mut row) },
        };
        if refused == 0 { Ok(row) } else { Err(refused) }
    }
}

impl Drop for Tape {
    fn drop(&mut self) {
        // SAFETY: nothing else has the handle.
        unsafe { tapebox_free(&mut self.0) };
    }
}

/// The bytes that the digits of a message line (`N 0026..`) write.
fn message_of(line: &str) -> Vec<u8> {
    let digits = line.get(2..).unwrap_or("");
    let pairs = (0..digits.len() / 2).map(|at| &digits[2 * at..2 * at + 2]);
    pairs.map_while(|pair| u8::from_str_radix(pair, 16).ok()).collect()
}

fn print(symbol: &str, who: &str, figures: &Figures) {
    print!("{symbol},{who}");
    for mark in [figures.opening, figures.high, figures.low, figures.last] {
        if mark.place == 0 {
            print!(",,");
        } else {
            print!(",{},{}", mark.price, mark.place);
        }
    }
    println!(",{},{}", figures.volume, figures.trades);
}

fn main() -> Result<(), u32> {
    let mut lines = std::io::stdin().lock().lines().map_while(Result::ok);
    let (symbols, participants) = (lines.next().unwrap_or_default(), lines.next().unwrap_or_default());
    let mut tape = Tape::open(&symbols, &participants)?;
    for line in lines {
        if let Err(refused) = tape.admit(&message_of(&line)) {
            eprintln!("refused {refused}");
        }
    }
    println!("symbol,who,open,open_at,high,high_at,low,low_at,last,last_at,volume,trades");
    for symbol in symbols.split_whitespace() {
        print(symbol, "ALL", &tape.summary(symbol, None)?);
        for who in participants.split_whitespace() {
            let figures = tape.summary(symbol, who.bytes().next())?;
            if figures.trades > 0 {
                print(symbol, who, &figures);
            }
        }
    }
    Ok(())
}
