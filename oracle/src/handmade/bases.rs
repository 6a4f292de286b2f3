//! The base rounds, each as far as the records of a play have led.

use crate::cards::DECK;
use crate::held::{Held, Step};
use crate::reading::{CARDS_IN_PART, RECORD};
use crate::records;

pub struct Base {
    pub name: &'static str,
    pub held: Held,
    /// The record that the round would accept next; for a finished round a
    /// choice, which is refused.
    pub record: [u8; RECORD],
}

/// The records of a round. Some wagers stand at a limit and some at 0, so that
/// the smallest change counts.
struct Play {
    /// Smallest and largest ante, then the base, Lo Ball, Board, Pocket and
    /// All-Six tables.
    table: [u8; 7],
    /// The seat, then its ante, Board, Pocket, Lo Ball and All-Six wagers.
    seats: &'static [(u8, [u16; 5])],
    /// The first cards of the deck.
    top: &'static [u8],
    /// The other cards come in the order `first`, `first + step`, and so on,
    /// counted round the deck. The step has no divisor in common with 52.
    first: usize,
    step: usize,
    /// Seats and choices, not in the order of the seats.
    choices: &'static [(u8, u8)],
}

/// All-Six is offered. Seat 4 has an ante alone. Card 0 is the last of the
/// second deck part, so that it stands before the places not yet filled.
const UP_TO_THE_DECK: Play = Play {
    table: [5, 100, 5, 1, 4, 2, 2],
    seats: &[
        (2, [5, 100, 0, 1, 100]),
        (4, [100, 0, 0, 0, 0]),
        (5, [50, 1, 99, 100, 1]),
        (6, [20, 0, 100, 0, 99]),
    ],
    top: &[],
    first: 1,
    step: 27,
    choices: &[(4, 2)],
};

/// All-Six isn't offered. Seats 2 and 5 are absent, seat 4 has an ante alone.
/// On street one seat 3 folds, on street two seat 7, on street three seat 4.
const IN_PLAY: Play = Play {
    table: [15, 25, 1, 2, 1, 3, 0],
    seats: &[
        (1, [25, 25, 0, 25, 0]),
        (3, [15, 0, 0, 5, 0]),
        (4, [20, 0, 0, 0, 0]),
        (6, [16, 1, 2, 3, 0]),
        (7, [15, 0, 24, 0, 0]),
    ],
    top: &[],
    first: 5,
    step: 5,
    choices: &[
        (6, 2),
        (3, 0),
        (1, 3),
        (4, 1),
        (7, 1),
        (6, 3),
        (7, 0),
        (1, 1),
        (4, 2),
        (4, 0),
        (6, 1),
    ],
};

/// Ah Kh and 8h 9h with Th Jh Qh on the board: a royal and a straight flush,
/// in a pool of 121,000 under a maximum of 50,000. Seat 5 has three queens.
/// All-Six isn't offered. The last choice is one too many.
const NO_FOLD: Play = Play {
    table: [10, 60, 2, 1, 2, 1, 0],
    seats: &[
        (1, [20, 5, 5, 0, 0]),
        (2, [30, 0, 5, 10, 0]),
        (5, [12, 0, 59, 0, 0]),
    ],
    top: &[50, 46, 26, 30, 40, 41, 34, 38, 42],
    first: 0,
    step: 1,
    choices: &[
        (5, 1),
        (1, 3),
        (2, 1),
        (2, 2),
        (1, 3),
        (5, 1),
        (1, 3),
        (5, 2),
        (2, 3),
        (2, 1),
    ],
};

/// The board is 4h 9h Jh, the All-Six card Ah. Seat 3 has Ac Ad, seat 5 2c 3d,
/// seat 7 Qs Qc. They fold on streets one, three and two. The last choice is
/// one too many.
const ALL_FOLD: Play = Play {
    table: [12, 99, 4, 2, 3, 2, 3],
    seats: &[
        (3, [13, 10, 99, 0, 99]),
        (5, [99, 0, 0, 20, 7]),
        (7, [40, 1, 98, 30, 0]),
    ],
    top: &[10, 30, 38, 50, 48, 49, 0, 5, 43, 40],
    first: 51,
    step: 51,
    choices: &[(7, 1), (3, 0), (5, 2), (5, 1), (7, 0), (5, 0), (5, 1)],
};

/// The board is Td Qd Ad, the All-Six card Jd. Seat 2 has Kd 9d, the six-card
/// royal of diamonds, and folds on street two; seat 6 has Ac As, three aces. The
/// last choice is one too many.
const SIX_CARD_ROYAL: Play = Play {
    table: [5, 100, 1, 1, 1, 1, 5],
    seats: &[(2, [5, 0, 0, 0, 100]), (6, [10, 1, 0, 0, 1])],
    top: &[33, 41, 49, 37, 45, 29, 48, 51],
    first: 0,
    step: 1,
    choices: &[(6, 1), (2, 1), (2, 0), (6, 1), (6, 1), (6, 1)],
};

/// The name of each base round, its play, and how many of its records led to
/// the round.
const BASES: [(&str, &Play, usize); 13] = [
    ("the fresh round", &UP_TO_THE_DECK, 0),
    ("a table", &UP_TO_THE_DECK, 1),
    ("seats", &UP_TO_THE_DECK, 4),
    ("one deck part", &UP_TO_THE_DECK, 6),
    ("two deck parts", &UP_TO_THE_DECK, 7),
    ("three deck parts", &UP_TO_THE_DECK, 8),
    ("a whole deck", &UP_TO_THE_DECK, 9),
    ("street one", &IN_PLAY, 13),
    ("street two", &IN_PLAY, 17),
    ("street three", &IN_PLAY, 20),
    ("finished, no fold", &NO_FOLD, 17),
    ("finished, all folded", &ALL_FOLD, 14),
    ("finished, six-card royal", &SIX_CARD_ROYAL, 12),
];

pub fn all() -> Vec<Base> {
    let mut bases = Vec::new();
    for (name, play, count) in BASES {
        let records = play.records();
        bases.push(Base {
            name,
            held: led_to(&records[..count]),
            record: records[count],
        });
    }
    bases
}

/// "A refused record hands back the same round."
fn led_to(records: &[[u8; RECORD]]) -> Held {
    let mut held = Held::fresh();
    for record in records {
        if let Step::Next(after) | Step::Finished(after) = held.take(record) {
            held = after;
        }
    }
    held
}

impl Play {
    fn records(&self) -> Vec<[u8; RECORD]> {
        let mut records = vec![records::table(self.table)];
        for &(number, wagers) in self.seats {
            records.push(records::seat(number, wagers));
        }
        for (part, cards) in (0..).zip(self.deck().chunks(CARDS_IN_PART)) {
            records.push(records::deck_part(part, cards));
        }
        for &(seat, choice) in self.choices {
            records.push(records::choice(seat, choice));
        }
        records
    }

    fn deck(&self) -> Vec<u8> {
        let mut deck = self.top.to_vec();
        for place in 0..DECK {
            let card = ((self.first + place * self.step) % DECK) as u8;
            if !self.top.contains(&card) {
                deck.push(card);
            }
        }
        deck
    }
}
