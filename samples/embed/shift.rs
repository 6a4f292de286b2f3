//! Settles the shift that is named, and prints each round's answer, then what each seat is owed over the shift: what a back office in Rust does with the library.
//!
//! It holds the file and the two lists, and nothing else that grows with the shift. Status: 0 settled, whatever its rounds are, 1 refused, 2 a fault of the call, of
//! reading or of writing.

mod ripplehatch;

use ripplehatch::{ShiftAnswer, ANSWER, RESULTS, SEAT_WAGERS};
use std::io::{BufWriter, Write};
use std::process::ExitCode;

fn print_rounds(out: &mut impl Write, answers: &[u64]) -> std::io::Result<()> {
    for (k, answer) in answers.chunks_exact(ANSWER).enumerate() {
        match answer {
            [0, _] => writeln!(out, "round {k} paid")?,
            [number, place] => writeln!(out, "round {k} refused {number} at {place}")?,
            _ => {}
        }
    }
    Ok(())
}

fn print_seats(out: &mut impl Write, amounts: &[u64]) -> std::io::Result<()> {
    for seat in 0..RESULTS / SEAT_WAGERS {
        let wagers = SEAT_WAGERS * seat..SEAT_WAGERS * (seat + 1);
        let owed: u64 = amounts
            .chunks_exact(RESULTS)
            .flat_map(|round| &round[wagers.clone()])
            .sum();
        writeln!(out, "seat {} {owed}", seat + 1)?;
    }
    Ok(())
}

fn print(file: &[u8]) -> std::io::Result<u8> {
    let rounds = ripplehatch::count_rounds(file);
    let mut amounts = vec![0; RESULTS * rounds];
    let mut answers = vec![0; ANSWER * rounds];
    let mut out = BufWriter::new(std::io::stdout().lock());
    let status = match ripplehatch::settle_shift(file, &mut amounts, &mut answers) {
        ShiftAnswer::Settled { .. } => {
            print_rounds(&mut out, &answers)?;
            print_seats(&mut out, &amounts)?;
            0
        }
        ShiftAnswer::Refused { number, place } => {
            writeln!(out, "refused {number} at {place}")?;
            1
        }
    };
    out.flush()?;
    Ok(status)
}

fn main() -> ExitCode {
    let Some(name) = std::env::args_os().nth(1) else {
        eprintln!("usage: shift FILE, a shift");
        return ExitCode::from(2);
    };
    let file = match std::fs::read(&name) {
        Ok(file) => file,
        Err(error) => {
            eprintln!("shift: cannot read {}: {error}", name.to_string_lossy());
            return ExitCode::from(2);
        }
    };
    match print(&file) {
        Ok(status) => ExitCode::from(status),
        Err(error) => {
            eprintln!("shift: cannot write to standard output: {error}");
            ExitCode::from(2)
        }
    }
}
