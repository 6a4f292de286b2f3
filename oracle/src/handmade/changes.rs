//! The values that a byte of a held round is changed to.

use crate::cards::DECK;
use crate::held::{Held, CARDS_AT, PARTS_AT, WAGERS_AT};
use crate::paytables::{ALL_SIX_TABLES, BASE_TABLES, BOARD_TABLES, LO_BALL_TABLES, POCKET_TABLES};
use crate::reading::{CARDS_IN_PART, MOST_SEATS};

/// The other values of the byte at a place, none twice: its neighbours, the
/// ends of a byte, and those near which an answer turns.
pub fn of(held: &Held, at: usize) -> Vec<u8> {
    let value = held.bytes()[at];
    let mut tried = vec![value.wrapping_add(1), value.wrapping_sub(1), 0, 255];
    tried.extend(turning(held, at));
    let mut values = Vec::new();
    for other in tried {
        if other != value && !values.contains(&other) {
            values.push(other);
        }
    }
    values
}

fn turning(held: &Held, at: usize) -> Vec<u8> {
    match at {
        0 => vec![4, 5, 15, 16],
        1 => vec![24, 25, 100, 101],
        2 => of_tables(BASE_TABLES),
        3 => of_tables(LO_BALL_TABLES),
        4 => of_tables(BOARD_TABLES),
        5 => of_tables(POCKET_TABLES),
        6 => (1..=ALL_SIX_TABLES as u8 + 1).collect(),
        WAGERS_AT..CARDS_AT => of_wager(held, at - WAGERS_AT),
        CARDS_AT..PARTS_AT => of_card(held, at - CARDS_AT),
        PARTS_AT => vec![1, 2, 3, 4, 5],
        _ => vec![1, 2, 3],
    }
}

fn of_tables(count: usize) -> Vec<u8> {
    vec![1, count as u8, count as u8 + 1]
}

/// For a low byte the table's limits and the values just outside them. A side
/// wager without an ante, and a high byte, have no value but 0 that could
/// stand; nor has an All-Six wager where it isn't offered, which is tried at the
/// limits all the same.
fn of_wager(held: &Held, at: usize) -> Vec<u8> {
    let [smallest, largest, ..] = held.table;
    let (number, byte) = (at / 2, at % 2);
    let (list, seat) = (number / MOST_SEATS, number % MOST_SEATS);
    let plays = held.wagers[0][seat] != 0;
    let above = largest.wrapping_add(1);
    match (byte, list) {
        (0, 0) => vec![smallest.wrapping_sub(1), smallest, largest, above],
        (0, _) if plays => vec![largest, above],
        _ => Vec::new(),
    }
}

/// The lowest card not read yet, and one that stands in another place. In a
/// whole deck each card does, and its neighbours serve.
fn of_card(held: &Held, place: usize) -> Vec<u8> {
    let read = CARDS_IN_PART * usize::from(held.parts).min(DECK / CARDS_IN_PART);
    let cards = &held.cards[..read];
    if read == DECK {
        return Vec::new();
    }
    let unread = (0..DECK as u8).find(|card| !cards.contains(card));
    let repeated = if place == 0 {
        cards.last()
    } else {
        cards.first()
    };
    unread.into_iter().chain(repeated.copied()).collect()
}
