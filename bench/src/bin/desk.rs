//! `desk report|least|tape [1|2]`: the report or the readable tape of a table of plain fields, as `tapebox` writes it. `least` writes the
//! report by one fold at the end, without a tape.

use bench::{Matrix, TableWord, desk};
use std::fs::File;
use std::io::{self, BufReader};
use std::os::fd::AsFd;
use std::process::ExitCode;

/// How many bytes are read at once.
const PIECE: usize = 65_536;

fn main() -> ExitCode {
    let words: Vec<_> = std::env::args().skip(1).collect();
    let words: Vec<_> = words.iter().map(String::as_str).collect();
    let Some((word, matrix)) = parse(&words) else {
        return fault(2, "usage: desk report|least|tape [1|2] < TABLE.csv");
    };
    match run(word, matrix) {
        Ok(true) => ExitCode::SUCCESS,
        Ok(false) => fault(2, "desk: bad table"),
        Err(met) => fault(4, &format!("desk: {met}")),
    }
}

fn parse(words: &[&str]) -> Option<(TableWord, Matrix)> {
    let word = match *words.first()? {
        "report" => TableWord::Report,
        "least" => TableWord::Least,
        "tape" => TableWord::Tape,
        _ => return None,
    };
    let matrix = match words[1..] {
        [] | ["1"] => Matrix::One,
        ["2"] => Matrix::Two,
        _ => return None,
    };
    Some((word, matrix))
}

fn run(word: TableWord, matrix: Matrix) -> io::Result<bool> {
    let input = File::from(io::stdin().as_fd().try_clone_to_owned()?);
    let output = File::from(io::stdout().as_fd().try_clone_to_owned()?);
    Ok(desk(word, matrix, BufReader::with_capacity(PIECE, input), output)?.is_ok())
}

fn fault(status: u8, text: &str) -> ExitCode {
    eprintln!("{text}");
    ExitCode::from(status)
}
