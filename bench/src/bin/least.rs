//! `least batch [1|2]`: the plain program that keeps no tape, and does the least that the output needs.

fn main() -> std::process::ExitCode {
    bench::run::<bench::Reports>()
}
