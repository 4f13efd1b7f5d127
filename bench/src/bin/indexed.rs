//! `indexed batch [1|2]`: the plain program that keeps the whole tape, with each summary at hand by ordered maps and sets.

fn main() -> std::process::ExitCode {
    bench::run::<bench::Tape>()
}
