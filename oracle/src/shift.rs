//! A shift: "rounds joined end to end", settled in one call.

use crate::reading::{Refusal, RECORD, TABLE};
use crate::settle::{settle, Answer, RESULTS};

/// "Two numbers a round: refusal number and place within the round."
pub const ANSWERS: usize = 2;

#[derive(Clone, Copy, Debug, PartialEq, Eq)]
pub enum ShiftAnswer {
    Settled { rounds: usize },
    Refused { number: u8, place: usize },
}

/// "Record 0 starts a round, and so does every later record of kind 1." Odd
/// bytes at the end are no record.
pub fn count_rounds(file: &[u8]) -> usize {
    let records = file.chunks_exact(RECORD).enumerate();
    let starts = records.filter(|(place, record)| *place == 0 || record[0] == TABLE);
    starts.count()
}

/// The rounds of a file, in order, as parts of it. None of them is empty, and
/// odd bytes at the end of the file belong to none.
pub fn rounds(file: &[u8]) -> impl Iterator<Item = &[u8]> {
    let mut rest = &file[..file.len() / RECORD * RECORD];
    std::iter::from_fn(move || {
        if rest.is_empty() {
            return None;
        }
        let (round, after) = rest.split_at(length_of_first(rest));
        rest = after;
        Some(round)
    })
}

/// The length of the first round of whole records: the first record, whatever
/// its kind, and those up to the next of kind 1.
fn length_of_first(records: &[u8]) -> usize {
    let later = records.chunks_exact(RECORD).skip(1);
    RECORD * (1 + later.take_while(|record| record[0] != TABLE).count())
}

/// How many amounts and how many answers are lent for so many rounds: "one lent
/// list takes 35 amounts a round, the other two numbers a round".
pub fn right_lists(rounds: usize) -> [usize; 2] {
    [RESULTS * rounds, ANSWERS * rounds]
}

/// 2, with "the count of whole records" as its place, where the file isn't one
/// of whole records.
pub fn check_length(file: &[u8]) -> Result<(), Refusal> {
    let records = file.chunks_exact(RECORD);
    if records.remainder().is_empty() {
        return Ok(());
    }
    Err(Refusal {
        number: 2,
        place: records.len(),
    })
}

/// Settles each round as its own call does, into its part of both lists.
/// "Refusals: 2, then 1 if either list isn't exactly that long for the number
/// of rounds; nothing is written."
pub fn settle_shift(file: &[u8], amounts: &mut [u64], answers: &mut [u64]) -> ShiftAnswer {
    if let Err(Refusal { number, place }) = check_length(file) {
        return ShiftAnswer::Refused { number, place };
    }
    let count = count_rounds(file);
    if [amounts.len(), answers.len()] != right_lists(count) {
        let (number, place) = (1, 0);
        return ShiftAnswer::Refused { number, place };
    }
    let amounts = amounts.chunks_exact_mut(RESULTS);
    let parts = amounts.zip(answers.chunks_exact_mut(ANSWERS));
    for (round, (amounts, answer)) in rounds(file).zip(parts) {
        settle_one(round, amounts, answer);
    }
    ShiftAnswer::Settled { rounds: count }
}

/// "0 and 0 when settled"; "a refused round's amounts are zeros".
fn settle_one(round: &[u8], amounts: &mut [u64], answer: &mut [u64]) {
    match settle(round) {
        Answer::Paid(paid) => {
            amounts.copy_from_slice(&paid.amounts);
            answer.fill(0);
        }
        Answer::Refused { number, place } => {
            amounts.fill(0);
            answer.copy_from_slice(&[u64::from(number), place as u64]);
        }
    }
}
