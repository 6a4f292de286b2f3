//! A held round as one value: "The round in progress is held as one value with
//! its cards and wagers inside." It may also be made by hand, so it is asked
//! each time whether accepted records lead to it.

use crate::cards::DECK;
use crate::reading::{self, Refusal, Round, CARDS_IN_PART, MOST_SEATS, RECORD, STREETS};
use crate::records;
use crate::settle::{settle_round, Paid};

/// The places of the numbers in a held round's bytes.
pub const WAGERS_AT: usize = 7;
pub const CARDS_AT: usize = WAGERS_AT + 5 * 2 * MOST_SEATS;
pub const PARTS_AT: usize = CARDS_AT + DECK;
pub const RAISES_AT: usize = PARTS_AT + 1;
pub const FOLDS_AT: usize = RAISES_AT + STREETS as usize * MOST_SEATS;
pub const LENGTH: usize = FOLDS_AT + MOST_SEATS;

/// "Parts not yet filled are zero." Any numbers may stand in any place.
#[derive(Clone, Debug, PartialEq, Eq)]
pub struct Held {
    /// Smallest and largest ante, then the base, Lo Ball, Board, Pocket and
    /// All-Six tables.
    pub table: [u8; 7],
    /// Antes, then Board, Pocket, Lo Ball and All-Six wagers, each by seat.
    pub wagers: [[u16; MOST_SEATS]; 5],
    /// Top of the deck first.
    pub cards: [u8; DECK],
    /// The deck parts that were read.
    pub parts: u8,
    /// The antes raised, by street, then by seat.
    pub raises: [[u8; MOST_SEATS]; STREETS as usize],
    /// By seat the street, counted from 1, on which it folded; 0 for none.
    pub folds: [u8; MOST_SEATS],
}

/// What a record is answered: "the next round, the finished round, or a
/// refusal that names its cause".
#[derive(Clone, Debug, PartialEq, Eq)]
pub enum Step {
    Next(Held),
    Finished(Held),
    Refused(u8),
}

const NOT_HELD: u8 = 17;
const NOT_FINISHED: u8 = 16;

impl Held {
    pub fn fresh() -> Held {
        Held::from_bytes(&[0; LENGTH])
    }

    pub fn from_bytes(bytes: &[u8; LENGTH]) -> Held {
        let mut numbers = bytes.iter().copied();
        let mut next = || numbers.next().unwrap_or(0);
        Held {
            table: [(); 7].map(|()| next()),
            wagers: [[(); MOST_SEATS]; 5]
                .map(|list| list.map(|()| u16::from_le_bytes([next(), next()]))),
            cards: [(); DECK].map(|()| next()),
            parts: next(),
            raises: [[(); MOST_SEATS]; STREETS as usize].map(|street| street.map(|()| next())),
            folds: [(); MOST_SEATS].map(|()| next()),
        }
    }

    pub fn bytes(&self) -> [u8; LENGTH] {
        let wagers = self.wagers.iter().flatten();
        let numbers = (self.table.iter().copied())
            .chain(wagers.flat_map(|wager| wager.to_le_bytes()))
            .chain(self.cards)
            .chain([self.parts])
            .chain(self.raises.iter().flatten().copied())
            .chain(self.folds);
        let mut bytes = [0; LENGTH];
        for (to, from) in bytes.iter_mut().zip(numbers) {
            *to = from;
        }
        bytes
    }

    /// The round that the records of a file lead to, finished or not.
    pub fn led_to(file: &[u8]) -> Result<Held, Refusal> {
        Ok(Held::of(&reading::led_to(file)?))
    }

    /// The records that lead to this round if any do, in the order "one table,
    /// one to seven seats with rising numbers, the four deck parts, choices",
    /// the choices "by street and by rising seat".
    ///
    /// Only choices could come in another order, those of one street: "the
    /// order of choices within a street isn't held". Who chooses on a street
    /// is settled when it opens, so its choices are accepted in any order and
    /// lead to the same round. If any accepted records lead here, these do.
    ///
    /// A number that no record could bring, such as a fifth deck part or a
    /// fold on street four, has no record here. The round that these records
    /// lead to is then another one.
    pub fn own_records(&self) -> Vec<[u8; RECORD]> {
        let mut own = Vec::new();
        if self.table != [0; 7] {
            own.push(records::table(self.table));
        }
        for (place, number) in (1..=MOST_SEATS as u8).enumerate() {
            let wagers = self.wagers.map(|list| list[place]);
            if wagers != [0; 5] {
                own.push(records::seat(number, wagers));
            }
        }
        let read = usize::from(self.parts);
        for (part, cards) in self.cards.chunks(CARDS_IN_PART).enumerate().take(read) {
            own.push(records::deck_part(part as u8, cards));
        }
        for (street, raises) in (1..=STREETS).zip(&self.raises) {
            for (number, (&raise, &fold)) in (1..).zip(raises.iter().zip(&self.folds)) {
                if raise != 0 {
                    own.push(records::choice(number, raise));
                }
                if fold == street {
                    own.push(records::choice(number, 0));
                }
            }
        }
        own
    }

    /// Whether this is "the fresh one" or "led to by accepted records".
    pub fn is_held(&self) -> bool {
        self.round().is_some()
    }

    /// "One record: 17, 2, then the rest."
    pub fn take(&self, record: &[u8]) -> Step {
        let Some(mut round) = self.round() else {
            return Step::Refused(NOT_HELD);
        };
        match round.take(record) {
            Err(number) => Step::Refused(number),
            Ok(()) if round.is_finished() => Step::Finished(Held::of(&round)),
            Ok(()) => Step::Next(Held::of(&round)),
        }
    }

    /// "Settling a held round: 17, 1, 16." The results list is taken to be 35
    /// long, so 1 doesn't arise.
    pub fn settle(&self) -> Result<Paid, u8> {
        let round = self.round().ok_or(NOT_HELD)?;
        let finished = round.finish().ok_or(NOT_FINISHED)?;
        Ok(settle_round(&finished))
    }

    /// The round in progress that this value holds; none if it may not be
    /// held. Its own records are read from the fresh round on, and must lead
    /// to this very value.
    fn round(&self) -> Option<Round> {
        let mut round = Round::fresh();
        for record in self.own_records() {
            round.take(&record).ok()?;
        }
        (Held::of(&round) == *self).then_some(round)
    }

    /// A round in progress as the value that is held.
    fn of(round: &Round) -> Held {
        let mut held = Held::fresh();
        if let Some(table) = &round.table {
            held.table = table.numbers();
        }
        held.cards[..round.deck.len()].copy_from_slice(&round.deck);
        held.parts = (round.deck.len() / CARDS_IN_PART) as u8;
        for seat in &round.seats {
            let place = usize::from(seat.number - 1);
            for (list, wager) in held.wagers.iter_mut().zip(seat.wagers()) {
                list[place] = wager;
            }
            for (street, raise) in held.raises.iter_mut().zip(seat.raises) {
                street[place] = raise;
            }
            // The fold is a seat's last choice.
            if seat.folded {
                held.folds[place] = seat.chosen;
            }
        }
        held
    }
}
