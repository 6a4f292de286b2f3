//! The library's functions for Rust: the ten that ripplehatch.h declares, on slices and enums.
//!
//! A slice goes as its pointer and its length. The slices are there, and nothing that is lent to be written overlaps anything else: that is all
//! that the library asks of a caller, so nothing here can be used wrongly.
#![allow(dead_code)]

/// How long a results list is: seats 1 to 7, five amounts each, in cents, in the order base, Board, Pocket, Lo Ball, All-Six.
pub const RESULTS: usize = 35;

/// How many amounts a seat has.
pub const SEAT_WAGERS: usize = 5;

/// How many numbers a round of a shift has in the list of answers: its refusal's number and place.
pub const ANSWER: usize = 2;

/// How long a record is, in bytes.
pub const RECORD: usize = 16;

/// How long the longest file of accepted records is, in bytes: no round takes more than 33 records.
pub const LARGEST_FILE: usize = 528;

/// What the library tells for a Lo Ball hand that has no high rank.
const LO_NOTHING: usize = 13;

extern "C" {
    fn ripplehatch_settle_file(
        file: *const u8,
        bytes: usize,
        results: *mut u64,
        room: usize,
        full: &mut u64,
        paid: &mut u64,
        place: &mut usize,
    ) -> u8;
    fn ripplehatch_refused_part(file: *const u8, bytes: usize, length: &mut usize) -> usize;
    fn ripplehatch_count_rounds(file: *const u8, bytes: usize) -> usize;
    fn ripplehatch_settle_shift(
        file: *const u8,
        bytes: usize,
        amounts: *mut u64,
        amounts_room: usize,
        answers: *mut u64,
        answers_room: usize,
        rounds: &mut usize,
        place: &mut usize,
    ) -> u8;
    fn ripplehatch_take(
        held: *const u8,
        held_bytes: usize,
        record: *const u8,
        record_bytes: usize,
        finished: &mut u8,
    ) -> u8;
    fn ripplehatch_write(
        held: *const u8,
        held_bytes: usize,
        room: *mut u8,
        room_bytes: usize,
    ) -> u8;
    fn ripplehatch_name_five(cards: *const u8, count: usize, name: &mut usize) -> u8;
    fn ripplehatch_name_lo(cards: *const u8, count: usize, high: &mut usize) -> u8;
    fn ripplehatch_name_six(cards: *const u8, count: usize, name: &mut usize) -> u8;
    fn ripplehatch_share(
        wins: *const u64,
        count: usize,
        maximum: u64,
        shares: *mut u64,
        room: usize,
    ) -> u8;
}

#[derive(Clone, Copy, Debug, PartialEq, Eq)]
#[allow(clippy::large_enum_variant)]
pub enum Answer {
    /// What each seat is owed, and the pool in dollars, full and as paid.
    Paid {
        amounts: [u64; RESULTS],
        full: u64,
        paid: u64,
    },
    /// The refusal's number, and the place of the record that it is for.
    Refused { number: u8, place: usize },
}

/// Settles a round file.
pub fn settle(file: &[u8]) -> Answer {
    let mut amounts = [0; RESULTS];
    let (mut full, mut paid, mut place) = (0, 0, 0);
    let number = unsafe {
        ripplehatch_settle_file(
            file.as_ptr(),
            file.len(),
            amounts.as_mut_ptr(),
            amounts.len(),
            &mut full,
            &mut paid,
            &mut place,
        )
    };
    match number {
        0 => Answer::Paid {
            amounts,
            full,
            paid,
        },
        _ => Answer::Refused { number, place },
    }
}

/// The refused record as a part of the file: for 2 the odd bytes at the end, for 16, or no refusal, the empty part at the end.
pub fn refused_part(file: &[u8]) -> &[u8] {
    let mut length = 0;
    let begins = unsafe { ripplehatch_refused_part(file.as_ptr(), file.len(), &mut length) };
    &file[begins..begins + length]
}

/// How many rounds a shift has: rounds joined end to end, where record 0 starts a round, and so does every later record of kind 1. Odd bytes at the end are in none.
pub fn count_rounds(file: &[u8]) -> usize {
    unsafe { ripplehatch_count_rounds(file.as_ptr(), file.len()) }
}

#[derive(Clone, Copy, Debug, PartialEq, Eq)]
pub enum ShiftAnswer {
    /// How many rounds the shift has. Both lists hold what each of them gives.
    Settled { rounds: usize },
    /// 2, with the count of whole records as its place, or 1, at place 0; both lists are as they were.
    Refused { number: u8, place: usize },
}

/// Settles a shift, each round as `settle` would settle it alone. `amounts` has `RESULTS` numbers for each round, and `answers` has `ANSWER`: 0 and 0, or the round's
/// refusal and the place of the refused record within the round. Such a round's amounts are zeros, and it spoils no other.
pub fn settle_shift(file: &[u8], amounts: &mut [u64], answers: &mut [u64]) -> ShiftAnswer {
    let (mut rounds, mut place) = (0, 0);
    let number = unsafe {
        ripplehatch_settle_shift(
            file.as_ptr(),
            file.len(),
            amounts.as_mut_ptr(),
            amounts.len(),
            answers.as_mut_ptr(),
            answers.len(),
            &mut rounds,
            &mut place,
        )
    };
    match number {
        0 => ShiftAnswer::Settled { rounds },
        _ => ShiftAnswer::Refused { number, place },
    }
}

/// What an accepted record leaves: a round that awaits the next one, or a finished round.
#[derive(Clone, Copy, Debug, PartialEq, Eq)]
pub enum Taken {
    Next,
    Finished,
}

/// Answers one record to a round that is held as the file of it: the accepted records, one after the other, none for the fresh round. The caller puts an accepted
/// record behind the held ones. Or the refusal, 17 where the held bytes are no such file, 2 where the record isn't 16 bytes, or 3 to 15: nothing is put behind,
/// and after any but 17 the round goes on.
pub fn take(held: &[u8], record: &[u8]) -> Result<Taken, u8> {
    let mut finished = 0;
    let number = unsafe {
        ripplehatch_take(
            held.as_ptr(),
            held.len(),
            record.as_ptr(),
            record.len(),
            &mut finished,
        )
    };
    match (number, finished) {
        (0, 0) => Ok(Taken::Next),
        (0, _) => Ok(Taken::Finished),
        _ => Err(number),
    }
}

/// Writes a held file, of a finished round or not, in the writer's order into a room as long: the table, the seats, the deck parts, the choices by street and by
/// rising seat; or the refusal, 17, 16 for the empty file, or 1 for the room's length, which leaves the room as it was.
pub fn write(held: &[u8], room: &mut [u8]) -> Result<(), u8> {
    let number =
        unsafe { ripplehatch_write(held.as_ptr(), held.len(), room.as_mut_ptr(), room.len()) };
    match number {
        0 => Ok(()),
        _ => Err(number),
    }
}

/// The place of the five cards' name in the list of names, 0 for a royal flush to 10 for other; or the refusal, 18 or 11.
pub fn name_five(cards: &[u8]) -> Result<usize, u8> {
    let mut name = 0;
    match unsafe { ripplehatch_name_five(cards.as_ptr(), cards.len(), &mut name) } {
        0 => Ok(name),
        number => Err(number),
    }
}

/// The five cards' highest rank for Lo Ball, 0 for a two to 12 for an ace, or None for nothing; or the refusal, 18 or 11.
pub fn name_lo(cards: &[u8]) -> Result<Option<usize>, u8> {
    let mut high = 0;
    match unsafe { ripplehatch_name_lo(cards.as_ptr(), cards.len(), &mut high) } {
        0 => Ok(Some(high).filter(|&rank| rank != LO_NOTHING)),
        number => Err(number),
    }
}

/// The place of the six cards' name for All-Six: 0 for nine to ace of diamonds, 1 for nine to ace of another suit, and from 2, a royal flush, to 12, other, what the
/// best five of the six are called; or the refusal, 18 or 11.
pub fn name_six(cards: &[u8]) -> Result<usize, u8> {
    let mut name = 0;
    match unsafe { ripplehatch_name_six(cards.as_ptr(), cards.len(), &mut name) } {
        0 => Ok(name),
        number => Err(number),
    }
}

/// Shares a maximum among up to seven wins, in dollars: all in full where they are within it, else what comes to exactly the maximum; or the refusal, 19 or 20,
/// which leaves the shares as they were.
pub fn share(wins: &[u64], maximum: u64, shares: &mut [u64]) -> Result<(), u8> {
    let number = unsafe {
        ripplehatch_share(
            wins.as_ptr(),
            wins.len(),
            maximum,
            shares.as_mut_ptr(),
            shares.len(),
        )
    };
    match number {
        0 => Ok(()),
        _ => Err(number),
    }
}
