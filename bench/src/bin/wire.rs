//! `wire [PACKETS MILLISECONDS]`: how long the packets that `tapebox live` sends of a day take over two UDP ports of this machine,
//! without a tape at either end; with a rest of so long after each so many packets. Prints a figure a line.

use bench::{Rest, wire};
use std::io::Read;
use std::process::ExitCode;
use std::time::Duration;

fn main() -> ExitCode {
    let words: Vec<String> = std::env::args().skip(1).collect();
    let numbers: Option<Vec<u64>> = words.iter().map(|word| word.parse().ok()).collect();
    let rest = match numbers.as_deref() {
        Some([]) => None,
        Some([packets, milliseconds]) if *packets > 0 => Some(Rest {
            packets: *packets as usize,
            time: Duration::from_millis(*milliseconds),
        }),
        _ => {
            eprintln!("usage: wire [PACKETS MILLISECONDS]");
            return ExitCode::FAILURE;
        }
    };
    let mut input = Vec::new();
    let sent = std::io::stdin().read_to_end(&mut input);
    let figures = match sent.and_then(|_| wire(&input, rest)) {
        Ok(figures) => figures,
        Err(fault) => {
            eprintln!("wire: {fault}");
            return ExitCode::FAILURE;
        }
    };
    let per_second = figures.entries as f64 / figures.seconds;
    println!("entries {}", figures.entries);
    println!("packets {}", figures.packets);
    println!("seconds {:.6}", figures.seconds);
    println!("entries_per_second {per_second:.0}");
    println!("lost {}", figures.lost);
    ExitCode::SUCCESS
}
