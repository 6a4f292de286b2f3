//! The printed answers.

use std::io::{self, Write};

use crate::held::Step;
use crate::held_file;
use crate::reading::{read, Refusal, RECORD};
use crate::settle::{first_result, part_of_answer, settle, settle_round};
use crate::settle::{Answer, Paid, RESULTS_A_SEAT};
use crate::shift::{check_length, rounds};

/// What the settling program prints for a file: "each playing seat's number
/// and [five] amounts in cents", All-Six last; "then the pool in dollars, full
/// and as paid".
pub fn lines(file: &[u8]) -> String {
    let round = match read(file) {
        Ok(round) => round,
        Err(Refusal { number, place }) => return format!("refused {number} at {place}\n"),
    };
    let mut text = Vec::new();
    let settled = settle_round(&round);
    for seat in &round.seats {
        let first = first_result(seat);
        push_number(&mut text, u64::from(seat.number));
        push_numbers(&mut text, &settled.amounts[first..first + RESULTS_A_SEAT]);
        text.push(b'\n');
    }
    text.extend_from_slice(b"pool");
    push_numbers(&mut text, &[settled.full, settled.paid]);
    text.push(b'\n');
    text.into_iter().map(char::from).collect()
}

/// Appends the one line that a file of a stream is answered with.
pub fn push_stream_line(out: &mut Vec<u8>, file: &[u8]) {
    let answer = settle(file);
    push_answer(out, &answer);
    let (begin, part) = part_of_answer(file, &answer);
    out.extend_from_slice(b" part");
    push_numbers(out, &[begin as u64]);
    push_hex(out, part);
    push_taken(out, file);
    push_written(out, file);
    out.push(b'\n');
}

/// Writes what a shift is answered with, a line for each round. It is lent no
/// list, so 1 doesn't arise here.
pub fn write_shift(to: &mut impl Write, file: &[u8]) -> io::Result<()> {
    let mut line = Vec::new();
    if let Err(Refusal { number, place }) = check_length(file) {
        push_refused_at(&mut line, number, place);
        line.push(b'\n');
        return to.write_all(&line);
    }
    for round in rounds(file) {
        line.clear();
        push_answer(&mut line, &settle(round));
        line.push(b'\n');
        to.write_all(&line)?;
    }
    Ok(())
}

fn push_answer(out: &mut Vec<u8>, answer: &Answer) {
    match answer {
        Answer::Paid(settled) => push_paid(out, settled),
        Answer::Refused { number, place } => push_refused_at(out, *number, *place),
    }
}

/// Appends `take` and what the file without its last record, or without the
/// odd bytes at its end, answers to these.
fn push_taken(out: &mut Vec<u8>, file: &[u8]) {
    let (held, record) = held_file::split(file);
    out.extend_from_slice(b" take ");
    push_step(out, &held_file::take(held, record));
}

/// Appends `written` and what writing the file as a held one gives: how many
/// first records stand as they came, then the records that follow them.
fn push_written(out: &mut Vec<u8>, file: &[u8]) {
    out.extend_from_slice(b" written");
    match held_file::file_of(file) {
        Ok(written) => {
            let same = same_records(file, &written);
            push_numbers(out, &[same as u64]);
            push_records(out, &written[same * RECORD..]);
        }
        Err(number) => {
            out.push(b' ');
            push_refused(out, number);
        }
    }
}

/// How many first records of two files are the same.
fn same_records(one: &[u8], other: &[u8]) -> usize {
    let pairs = one.chunks(RECORD).zip(other.chunks(RECORD));
    pairs.take_while(|(one, other)| one == other).count()
}

/// Appends each record with a space before it, the zero bytes at its end left
/// out.
pub(crate) fn push_records(out: &mut Vec<u8>, file: &[u8]) {
    for record in file.chunks(RECORD) {
        let zeros = record.iter().rev().take_while(|&&byte| byte == 0).count();
        push_hex(out, &record[..record.len() - zeros]);
    }
}

/// Appends `next`, `finished`, or `refused` and the number.
pub(crate) fn push_step(out: &mut Vec<u8>, step: &Step) {
    match step {
        Step::Next(_) => out.extend_from_slice(b"next"),
        Step::Finished(_) => out.extend_from_slice(b"finished"),
        Step::Refused(number) => push_refused(out, *number),
    }
}

/// Appends `paid`, the 35 amounts, `pool` and the pool.
pub(crate) fn push_paid(out: &mut Vec<u8>, settled: &Paid) {
    out.extend_from_slice(b"paid");
    push_numbers(out, &settled.amounts);
    out.extend_from_slice(b" pool");
    push_numbers(out, &[settled.full, settled.paid]);
}

/// Appends `refused` and the number.
pub(crate) fn push_refused(out: &mut Vec<u8>, number: u8) {
    out.extend_from_slice(b"refused");
    push_numbers(out, &[u64::from(number)]);
}

/// Appends `refused`, the number, `at` and the place.
pub(crate) fn push_refused_at(out: &mut Vec<u8>, number: u8, place: usize) {
    push_refused(out, number);
    out.extend_from_slice(b" at");
    push_numbers(out, &[place as u64]);
}

fn push_hex(out: &mut Vec<u8>, part: &[u8]) {
    const DIGITS: &[u8; 16] = b"0123456789abcdef";
    if !part.is_empty() {
        out.push(b' ');
    }
    for byte in part {
        out.push(DIGITS[usize::from(byte >> 4)]);
        out.push(DIGITS[usize::from(byte & 15)]);
    }
}

/// Appends each number with a space before it.
pub(crate) fn push_numbers(out: &mut Vec<u8>, numbers: &[u64]) {
    for &number in numbers {
        out.push(b' ');
        push_number(out, number);
    }
}

fn push_number(out: &mut Vec<u8>, mut number: u64) {
    let mut digits = [0; 20];
    let mut from = digits.len();
    loop {
        from -= 1;
        digits[from] = b'0' + (number % 10) as u8;
        number /= 10;
        if number == 0 {
            break;
        }
    }
    out.extend_from_slice(&digits[from..]);
}
