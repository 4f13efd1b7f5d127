//! `latency PORT LINES A B RATE MESSAGES`: how long messages take from the lines of `tapebox live` or `forward`, which listen from PORT on,
//! to lines A and B, when so many are sent a second; prints a figure a line, times in microseconds.

use bench::{Course, latency};
use std::process::ExitCode;

/// What is asked for; `None` if the words are no such.
fn course() -> Option<Course> {
    let words: Vec<String> = std::env::args().skip(1).collect();
    let [first_port, lines, a, b, rate, messages] = words.as_slice() else {
        return None;
    };
    let course = Course {
        first_port: first_port.parse().ok()?,
        lines: lines.parse().ok()?,
        ports: [a.parse().ok()?, b.parse().ok()?],
        rate: rate.parse().ok()?,
        messages: messages.parse().ok()?,
    };
    let has_ports = course.first_port.checked_add(course.lines.into()).is_some();
    ((1..=26).contains(&course.lines) && course.rate > 0 && has_ports).then_some(course)
}

fn main() -> ExitCode {
    let Some(course) = course() else {
        eprintln!("usage: latency PORT LINES A B RATE MESSAGES");
        return ExitCode::FAILURE;
    };
    let figures = match latency(&course) {
        Ok(figures) => figures,
        Err(fault) => {
            eprintln!("latency: {fault}");
            return ExitCode::FAILURE;
        }
    };
    println!("messages {}", course.messages);
    println!("lost {}", figures.lost);
    let per_second = f64::from(course.messages) / figures.seconds;
    println!("sent_per_second {per_second:.0}");
    for (name, thousandths) in [("p50", 500), ("p90", 900), ("p99", 990), ("p99.9", 999)] {
        let micros = figures.within(thousandths) as f64 / 1_000.0;
        println!("{name} {micros:.1}");
    }
    ExitCode::SUCCESS
}
