//! Settles the round file that is named, and prints what the program `settle` prints: what a pad in Rust does with the library.
//!
//! The refused record, which is what a dealer is shown, goes to standard error as bytes. Status: 0 paid, 1 refused, 2 a fault of the call, of reading or of
//! writing.

mod ripplehatch;

use ripplehatch::{Answer, SEAT_WAGERS};
use std::io::Write;
use std::process::ExitCode;

fn seat_lines(file: &[u8], amounts: &[u64]) -> String {
    let mut lines = String::new();
    for record in file.chunks_exact(16).filter(|record| record[0] == 2) {
        let seat = record[1] as usize;
        lines += &seat.to_string();
        for amount in &amounts[SEAT_WAGERS * (seat - 1)..SEAT_WAGERS * seat] {
            lines += &format!(" {amount}");
        }
        lines += "\n";
    }
    lines
}

fn print_part(part: &[u8]) {
    eprint!("refused record:");
    for byte in part {
        eprint!(" {byte:02x}");
    }
    eprintln!();
}

fn main() -> ExitCode {
    let Some(name) = std::env::args_os().nth(1) else {
        eprintln!("usage: settle FILE, a round file");
        return ExitCode::from(2);
    };
    let file = match std::fs::read(&name) {
        Ok(file) => file,
        Err(error) => {
            eprintln!("settle: cannot read {}: {error}", name.to_string_lossy());
            return ExitCode::from(2);
        }
    };
    let answer = ripplehatch::settle(&file);
    let (text, status) = match answer {
        Answer::Paid {
            amounts,
            full,
            paid,
        } => (
            seat_lines(&file, &amounts) + &format!("pool {full} {paid}\n"),
            0,
        ),
        Answer::Refused { number, place } => {
            print_part(ripplehatch::refused_part(&file));
            (format!("refused {number} at {place}\n"), 1)
        }
    };
    if let Err(error) = std::io::stdout().write_all(text.as_bytes()) {
        eprintln!("settle: cannot write to standard output: {error}");
        return ExitCode::from(2);
    }
    ExitCode::from(status)
}
