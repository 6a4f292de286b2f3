//! Hands the records of the round file that is named one at a time to a round that is held as the file of it, then writes that file and settles it: what a pad in
//! Rust does with a round that comes record by record.
//!
//! Each record is printed with its answer, and a refused one is left out. The first choice that is accepted is handed over a second time to show a refusal; that
//! one is never put behind. Status: 0 finished and settled, 1 not finished, 2 a fault of the call, of reading or of writing.

mod ripplehatch;

use ripplehatch::{Answer, Taken, LARGEST_FILE, RECORD, SEAT_WAGERS};
use std::io::Write;
use std::process::ExitCode;

/// A round as the file of it, and what its last accepted record told.
struct Pad {
    held: Vec<u8>,
    finished: bool,
}

fn answer_line(place: usize, again: &str, answer: Result<Taken, u8>) -> String {
    match answer {
        Ok(Taken::Next) => format!("record {place}{again}: next\n"),
        Ok(Taken::Finished) => format!("record {place}{again}: finished\n"),
        Err(number) => format!("record {place}{again}: refused {number}\n"),
    }
}

fn feed(pad: &mut Pad, file: &[u8]) -> String {
    let mut lines = String::new();
    let mut shown = false;
    for (place, record) in file.chunks(RECORD).enumerate() {
        let answer = ripplehatch::take(&pad.held, record);
        lines += &answer_line(place, "", answer);
        let Ok(taken) = answer else { continue };
        pad.held.extend_from_slice(record);
        pad.finished = taken == Taken::Finished;
        if record[0] == 4 && !shown {
            lines += &answer_line(place, " again", ripplehatch::take(&pad.held, record));
            shown = true;
        }
    }
    lines
}

fn seat_lines(file: &[u8], amounts: &[u64]) -> String {
    let mut lines = String::new();
    for record in file.chunks_exact(RECORD).filter(|record| record[0] == 2) {
        let seat = record[1] as usize;
        lines += &seat.to_string();
        for amount in &amounts[SEAT_WAGERS * (seat - 1)..SEAT_WAGERS * seat] {
            lines += &format!(" {amount}");
        }
        lines += "\n";
    }
    lines
}

/// What is paid, or the number of a refusal, which no finished round is given.
fn settle(pad: &Pad) -> Result<String, u8> {
    let mut file = vec![0; pad.held.len()];
    ripplehatch::write(&pad.held, &mut file)?;
    match ripplehatch::settle(&file) {
        Answer::Paid {
            amounts,
            full,
            paid,
        } => Ok(seat_lines(&file, &amounts) + &format!("pool {full} {paid}\n")),
        Answer::Refused { number, .. } => Err(number),
    }
}

fn fault(what: &str) -> ExitCode {
    eprintln!("pad: {what}");
    ExitCode::from(2)
}

fn main() -> ExitCode {
    let mut words = std::env::args_os().skip(1);
    let (Some(name), None) = (words.next(), words.next()) else {
        return fault("no file is named, or more than one");
    };
    let Ok(file) = std::fs::read(name) else {
        return fault("cannot read the file");
    };
    let mut pad = Pad {
        held: Vec::with_capacity(LARGEST_FILE),
        finished: false,
    };
    let mut text = feed(&mut pad, &file);
    if !pad.finished {
        text += &format!("not finished: {} records held\n", pad.held.len() / RECORD);
    } else if let Ok(lines) = settle(&pad) {
        text += &lines;
    } else {
        return fault("a finished round is refused");
    }
    if std::io::stdout().write_all(text.as_bytes()).is_err() {
        return fault("cannot write to standard output");
    }
    ExitCode::from(if pad.finished { 0 } else { 1 })
}
