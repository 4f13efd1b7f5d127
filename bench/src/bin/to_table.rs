//! `to_table`: the messages of a batch's input as a table, by standard input and output. Lines that spell no message are left out.

use std::io::{self, Read, Write};
use std::process::ExitCode;

fn main() -> ExitCode {
    let (mut input, mut text) = (Vec::new(), Vec::new());
    let read = io::stdin().read_to_end(&mut input);
    bench::write_messages(&input, &mut text);
    match read.and_then(|_| io::stdout().write_all(&text)) {
        Ok(()) => ExitCode::SUCCESS,
        Err(fault) => {
            eprintln!("to_table: {fault}");
            ExitCode::FAILURE
        }
    }
}
