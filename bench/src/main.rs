//! Measures the proved service beside the reference: events a second through the static library,
//! and the time of the programs kbdtrace and reference-trace on whole packs.
//!
//! `speed KBDTRACE REFERENCE_TRACE` prints both parts. The two sides take turns, so that what else
//! the machine does meets both alike, and each must give the same as the other before it is
//! measured. The library is called as any program calls it, so nothing of it is inlined; the
//! reference is compiled into this program. `speed rounds ROW SIDE COUNT EVENTS` only runs rounds of
//! one row, for valgrind to count.

mod instructions;
mod programs;
mod rounds;
mod services;
mod waits;

use std::env;
use std::process::ExitCode;

fn main() -> ExitCode {
    let arguments: Vec<_> = env::args_os().collect();
    match &arguments[..] {
        [_, rounds, row, side, count, events] if rounds == "rounds" => {
            let number = |word: &std::ffi::OsString| word.to_string_lossy().parse().unwrap_or(0);
            services::run_rounds(
                number(row),
                &side.to_string_lossy(),
                number(count),
                number(events),
            );
            ExitCode::SUCCESS
        }
        [program, proved, reference] => {
            println!("ratio: proved time over reference time; below 1, the proved side is faster");
            services::measure(program);
            match programs::measure(proved, reference) {
                Ok(()) => ExitCode::SUCCESS,
                Err(error) => {
                    eprintln!("a program was not run: {error}");
                    ExitCode::FAILURE
                }
            }
        }
        _ => {
            eprintln!("usage: speed KBDTRACE REFERENCE_TRACE");
            ExitCode::from(2)
        }
    }
}
