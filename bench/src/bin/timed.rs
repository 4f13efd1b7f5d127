//! `timed PROGRAM WORD..` runs a program once, its standard error closed off, and writes its status, its processor and wall-clock seconds and its peak
//! kilobytes to standard error. It is small itself: a child counts the memory of who starts it.

use std::process::{Command, ExitCode, Stdio};
use std::time::Instant;

unsafe extern "C" {
    /// Linux's, with a status and 18 words of what was used: four of seconds and microseconds, then the peak memory.
    fn wait4(child: i32, status: *mut i32, options: i32, used: *mut [i64; 18]) -> i32;
}

fn main() -> ExitCode {
    let mut words = std::env::args_os().skip(1);
    let Some(program) = words.next() else {
        eprintln!("usage: timed PROGRAM WORD..");
        return ExitCode::from(2);
    };
    let began = Instant::now();
    let child = match Command::new(program)
        .args(words)
        .stderr(Stdio::null())
        .spawn()
    {
        Ok(child) => child,
        Err(fault) => {
            eprintln!("timed: {fault}");
            return ExitCode::FAILURE;
        }
    };
    let (mut status, mut used) = (0, [0; 18]);
    // SAFETY: both are as long as what Linux writes there.
    let waited = unsafe { wait4(child.id() as i32, &mut status, 0, &mut used) };
    if waited < 0 {
        return ExitCode::FAILURE;
    }
    let wall = began.elapsed().as_secs_f64();
    let micros = (used[0] + used[2]) * 1_000_000 + used[1] + used[3];
    eprintln!("{status} {} {wall} {}", micros as f64 / 1e6, used[4]);
    ExitCode::SUCCESS
}
