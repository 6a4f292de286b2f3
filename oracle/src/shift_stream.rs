//! A stream of shifts: for each how many amounts, how many answers and how many
//! bytes, as two bytes each, low byte first, then the file.

use std::io::{self, Read, Write};

use crate::answer::{push_numbers, push_refused_at};
use crate::reading::two_bytes;
use crate::settle::RESULTS;
use crate::shift::{count_rounds, settle_shift, ShiftAnswer, ANSWERS};
use crate::stream::{ended_inside, put_file, read_up_to};
use crate::text;

/// A shift and the lengths of the lists that are lent with it.
#[derive(Clone, Debug, Default, PartialEq, Eq)]
pub struct Item {
    pub amounts: u16,
    pub answers: u16,
    pub file: Vec<u8>,
}

/// Stands in each place of both lists before the call: larger than any number
/// that is written there.
const MARK: u64 = u64::MAX;

/// Reads the next item; none at the end of the stream.
pub fn next_item(from: &mut impl Read) -> io::Result<Option<Item>> {
    let mut head = [0; 6];
    match read_up_to(from, &mut head)? {
        0 => return Ok(None),
        6 => (),
        _ => return Err(ended_inside("an item")),
    }
    let [amounts, answers, length] = [0, 2, 4].map(|at| two_bytes(&head, at));
    let mut file = vec![0; usize::from(length)];
    if read_up_to(from, &mut file)? < file.len() {
        return Err(ended_inside("an item"));
    }
    Ok(Some(Item {
        amounts,
        answers,
        file,
    }))
}

/// Appends an item to a stream. A file too long for its length is cut.
pub fn put_item(to: &mut impl Write, item: &Item) -> io::Result<()> {
    to.write_all(&item.amounts.to_le_bytes())?;
    to.write_all(&item.answers.to_le_bytes())?;
    put_file(to, &item.file)
}

/// Answers each item of a stream with its lines.
pub fn answer_all(from: &mut impl Read, to: &mut impl Write) -> io::Result<()> {
    let mut lines = Vec::new();
    while let Some(item) = next_item(from)? {
        lines.clear();
        push_lines(&mut lines, &item);
        to.write_all(&lines)?;
    }
    Ok(())
}

/// Appends the line of a shift, then, where it is settled, one for each round
/// from the two lists.
pub fn push_lines(out: &mut Vec<u8>, item: &Item) {
    let mut amounts = vec![MARK; item.amounts.into()];
    let mut answers = vec![MARK; item.answers.into()];
    let answer = settle_shift(&item.file, &mut amounts, &mut answers);
    out.extend_from_slice(b"rounds");
    push_numbers(out, &[count_rounds(&item.file) as u64]);
    out.push(b' ');
    match answer {
        ShiftAnswer::Settled { rounds } => {
            out.extend_from_slice(b"settled");
            push_numbers(out, &[rounds as u64]);
            out.push(b'\n');
            push_rounds(out, &amounts, &answers);
        }
        ShiftAnswer::Refused { number, place } => {
            push_refused_at(out, number, place);
            let kept = amounts.iter().chain(&answers).all(|&found| found == MARK);
            let word: &[u8] = if kept { b" kept\n" } else { b" changed\n" };
            out.extend_from_slice(word);
        }
    }
}

/// The text of a shift, with how many amounts and answers are lent and its
/// lines above it as comments. Packing it gives the file back.
pub fn show(item: &Item) -> String {
    let mut lines = Vec::new();
    push_lines(&mut lines, item);
    let Item {
        amounts, answers, ..
    } = item;
    let mut shown = format!("# lent {amounts} amounts, {answers} answers\n");
    for line in String::from_utf8_lossy(&lines).lines() {
        shown += &format!("# {line}\n");
    }
    shown + &text::show(&item.file)
}

fn push_rounds(out: &mut Vec<u8>, amounts: &[u64], answers: &[u64]) {
    let parts = amounts.chunks(RESULTS).zip(answers.chunks(ANSWERS));
    for (amounts, answer) in parts {
        out.extend_from_slice(b"answer");
        push_numbers(out, answer);
        out.extend_from_slice(b" amounts");
        push_numbers(out, amounts);
        out.push(b'\n');
    }
}
