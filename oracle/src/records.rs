//! Writing the 16-byte records. Any numbers may be written, also those that
//! are refused when read.

use crate::reading::{CHOICE, DECK_PART, RECORD, SEAT, TABLE};

/// A record that begins with these bytes.
pub fn record(bytes: &[u8]) -> [u8; RECORD] {
    let mut whole = [0; RECORD];
    for (to, from) in whole.iter_mut().zip(bytes) {
        *to = *from;
    }
    whole
}

/// Smallest and largest ante, then the base, Lo Ball, Board, Pocket and All-Six
/// tables.
pub fn table(numbers: [u8; 7]) -> [u8; RECORD] {
    let mut whole = record(&[TABLE]);
    whole[1..8].copy_from_slice(&numbers);
    whole
}

/// Ante, then the Board, Pocket, Lo Ball and All-Six wagers.
pub fn seat(number: u8, wagers: [u16; 5]) -> [u8; RECORD] {
    let mut whole = record(&[SEAT, number]);
    for (place, wager) in whole[2..12].chunks_exact_mut(2).zip(wagers) {
        place.copy_from_slice(&wager.to_le_bytes());
    }
    whole
}

/// Cards beyond the thirteenth are left out.
pub fn deck_part(part: u8, cards: &[u8]) -> [u8; RECORD] {
    let mut whole = record(&[DECK_PART, part]);
    for (place, card) in whole[2..15].iter_mut().zip(cards) {
        *place = *card;
    }
    whole
}

pub fn choice(seat: u8, choice: u8) -> [u8; RECORD] {
    record(&[CHOICE, seat, choice])
}
