//! A program's words, input, output and statuses: those of `tapebox batch [1|2]`.

use crate::{BadHeader, INPUT_MOST, Keep, Matrix, batch};
use std::fs::File;
use std::hint::black_box;
use std::io::{self, Read, Write};
use std::os::fd::AsFd;
use std::process::ExitCode;

/// Runs the batch over standard input, with a day that keeps `K`.
pub fn run<K: Keep>() -> ExitCode {
    let words: Vec<_> = std::env::args_os().skip(1).collect();
    let words: Vec<_> = words.iter().map(|word| word.to_str()).collect();
    let matrix = match words[..] {
        [Some("batch")] | [Some("batch"), Some("1")] => Matrix::One,
        [Some("batch"), Some("2")] => Matrix::Two,
        _ => return fault(2, "bad arguments"),
    };
    let Ok(input) = read_input() else {
        return fault(3, "read fault");
    };
    if input.len() > INPUT_MOST {
        return fault(2, "input too large");
    }
    let mut text = Vec::new();
    let day = batch::<K>(matrix, &input, &mut text);
    // Nothing reads the tape again, and the optimizer must not leave it out for that.
    black_box(&day);
    if write_output(&text).is_err() {
        return fault(4, "write fault");
    }
    match day {
        Ok(_) => ExitCode::SUCCESS,
        Err(BadHeader) => ExitCode::from(2),
    }
}

/// Standard input whole, or one byte more than an input may have. A file's room is reserved at once.
fn read_input() -> io::Result<Vec<u8>> {
    let file = File::from(io::stdin().as_fd().try_clone_to_owned()?);
    let most = INPUT_MOST as u64 + 1;
    let size = file.metadata()?.len().min(most);
    let mut input = Vec::with_capacity(size as usize + 1);
    file.take(most).read_to_end(&mut input)?;
    Ok(input)
}

fn write_output(text: &[u8]) -> io::Result<()> {
    File::from(io::stdout().as_fd().try_clone_to_owned()?).write_all(text)
}

fn fault(status: u8, message: &str) -> ExitCode {
    let _ = writeln!(io::stderr(), "tapebox: {message}");
    ExitCode::from(status)
}
