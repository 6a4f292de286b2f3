//! Reading a round file: its 16-byte records, taken one after the other, lead
//! to the finished round or to the first refusal with its place.

use crate::cards::{is_card, DECK};
use crate::paytables::{ALL_SIX_TABLES, BASE_TABLES, BOARD_TABLES, LO_BALL_TABLES, POCKET_TABLES};

pub const RECORD: usize = 16;
pub const CARDS_IN_PART: usize = 13;
pub const MOST_SEATS: usize = 7;
pub const STREETS: u8 = 3;

pub const TABLE: u8 = 1;
pub const SEAT: u8 = 2;
pub const DECK_PART: u8 = 3;
pub const CHOICE: u8 = 4;

#[derive(Clone, Copy, Debug, PartialEq, Eq)]
pub struct Refusal {
    pub number: u8,
    pub place: usize,
}

#[derive(Clone, Copy, Debug)]
pub struct Table {
    pub smallest: u8,
    pub largest: u8,
    pub base: u8,
    pub lo_ball: u8,
    pub board: u8,
    pub pocket: u8,
    /// "0 (not offered) or All Six pay table 1 to 5."
    pub all_six: u8,
}

impl Table {
    pub fn offers_all_six(&self) -> bool {
        self.all_six > 0
    }

    /// In the order of the record.
    pub fn numbers(&self) -> [u8; 7] {
        [
            self.smallest,
            self.largest,
            self.base,
            self.lo_ball,
            self.board,
            self.pocket,
            self.all_six,
        ]
    }
}

#[derive(Clone, Copy, Debug)]
pub struct Seat {
    pub number: u8,
    pub ante: u16,
    pub board: u16,
    pub pocket: u16,
    pub lo_ball: u16,
    pub all_six: u16,
    /// The antes raised on each street.
    pub raises: [u8; STREETS as usize],
    pub folded: bool,
    /// The streets on which the seat has chosen.
    pub chosen: u8,
}

impl Seat {
    /// In the order of the record.
    pub fn wagers(&self) -> [u16; 5] {
        [
            self.ante,
            self.board,
            self.pocket,
            self.lo_ball,
            self.all_six,
        ]
    }

    /// The antes raised so far, all streets together.
    pub fn raised(&self) -> u16 {
        self.raises.iter().copied().map(u16::from).sum()
    }

    /// "The base wager is ante plus raises as one sum."
    pub fn base_wager(&self) -> u64 {
        u64::from(self.ante) * (1 + u64::from(self.raised()))
    }
}

/// A round in progress.
pub(crate) struct Round {
    pub table: Option<Table>,
    pub seats: Vec<Seat>,
    pub deck: Vec<u8>,
    /// Streets that are over.
    streets: u8,
}

/// A round that is finished, with its table at hand.
#[derive(Clone, Debug)]
pub struct Finished {
    pub table: Table,
    pub seats: Vec<Seat>,
    pub deck: Vec<u8>,
}

/// The finished round of a file, or its refusal.
pub fn read(file: &[u8]) -> Result<Finished, Refusal> {
    led_to(file)?.finish().ok_or(Refusal {
        number: 16,
        place: file.len() / RECORD,
    })
}

/// The round in progress that a file leads to, finished or not. "A file is
/// checked for 1, then 2, then record by record"; 1 doesn't arise here.
pub(crate) fn led_to(file: &[u8]) -> Result<Round, Refusal> {
    let records = file.chunks_exact(RECORD);
    if !records.remainder().is_empty() {
        return Err(Refusal {
            number: 2,
            place: records.len(),
        });
    }
    let mut round = Round::fresh();
    for (place, record) in records.enumerate() {
        if let Err(number) = round.take(record) {
            return Err(Refusal { number, place });
        }
    }
    Ok(round)
}

impl Round {
    pub fn fresh() -> Round {
        Round {
            table: None,
            seats: Vec::with_capacity(MOST_SEATS),
            deck: Vec::with_capacity(DECK),
            streets: 0,
        }
    }

    pub fn is_finished(&self) -> bool {
        let dealt = self.deck.len() == DECK;
        dealt && (self.streets == STREETS || self.seats.iter().all(|seat| seat.folded))
    }

    pub fn finish(self) -> Option<Finished> {
        if !self.is_finished() {
            return None;
        }
        Some(Finished {
            table: self.table?,
            seats: self.seats,
            deck: self.deck,
        })
    }

    /// Takes the next record. The refusals stand in the order of their
    /// numbers: "within a record the lowest number applies". A refused record
    /// changes nothing.
    pub fn take(&mut self, record: &[u8]) -> Result<(), u8> {
        refuse(2, record.len() != RECORD)?;
        let kind = record[0];
        match (kind, &self.table) {
            (TABLE, None) => self.take_table(record),
            (SEAT, Some(table)) if self.deck.is_empty() => {
                let table = *table;
                self.take_seat(&table, record)
            }
            (DECK_PART, Some(_)) if self.deck_part_may_come() => self.take_deck_part(record),
            (CHOICE, Some(_)) if self.choice_may_come() => self.take_choice(record),
            _ => Err(3),
        }
    }

    /// A deck part before any seat is refusal 3, and so is a fifth.
    fn deck_part_may_come(&self) -> bool {
        !self.seats.is_empty() && self.deck.len() < DECK
    }

    fn choice_may_come(&self) -> bool {
        self.deck.len() == DECK && !self.is_finished()
    }

    fn take_table(&mut self, record: &[u8]) -> Result<(), u8> {
        let [_, smallest, largest, base, lo_ball, board, pocket, all_six, ..] = *record else {
            return Err(2);
        };
        refuse(4, !all_zero(&record[8..]))?;
        refuse(5, !(5..=15).contains(&smallest))?;
        refuse(5, !(25..=100).contains(&largest))?;
        refuse(6, !is_table(base, BASE_TABLES))?;
        refuse(6, !is_table(lo_ball, LO_BALL_TABLES))?;
        refuse(6, !is_table(board, BOARD_TABLES))?;
        refuse(6, !is_table(pocket, POCKET_TABLES))?;
        refuse(6, all_six != 0 && !is_table(all_six, ALL_SIX_TABLES))?;
        self.table = Some(Table {
            smallest,
            largest,
            base,
            lo_ball,
            board,
            pocket,
            all_six,
        });
        Ok(())
    }

    /// An eighth seat is refusal 7 by itself: no number of 1 to 7 is above
    /// that of the seventh. "A wager where [All-Six] isn't offered is 9, also
    /// above the largest ante."
    fn take_seat(&mut self, table: &Table, record: &[u8]) -> Result<(), u8> {
        let number = record[1];
        let before = self.seats.last().map_or(0, |seat| seat.number);
        let ante = two_bytes(record, 2);
        let board = two_bytes(record, 4);
        let pocket = two_bytes(record, 6);
        let lo_ball = two_bytes(record, 8);
        let all_six = two_bytes(record, 10);
        let smallest = u16::from(table.smallest);
        let largest = u16::from(table.largest);
        refuse(4, !all_zero(&record[12..]))?;
        refuse(7, !is_seat(number) || number <= before)?;
        refuse(8, ante < smallest || ante > largest)?;
        refuse(9, board > largest || pocket > largest || lo_ball > largest)?;
        refuse(
            9,
            all_six > largest || (all_six > 0 && !table.offers_all_six()),
        )?;
        self.seats.push(Seat {
            number,
            ante,
            board,
            pocket,
            lo_ball,
            all_six,
            raises: [0; STREETS as usize],
            folded: false,
            chosen: 0,
        });
        Ok(())
    }

    fn take_deck_part(&mut self, record: &[u8]) -> Result<(), u8> {
        let part = usize::from(record[1]);
        let cards = &record[2..15];
        refuse(4, record[15] != 0)?;
        refuse(10, part != self.deck.len() / CARDS_IN_PART)?;
        refuse(11, cards.iter().any(|&card| !is_card(card)))?;
        refuse(11, repeats(&self.deck, cards))?;
        self.deck.extend_from_slice(cards);
        Ok(())
    }

    fn take_choice(&mut self, record: &[u8]) -> Result<(), u8> {
        let number = record[1];
        let choice = record[2];
        refuse(4, !all_zero(&record[3..]))?;
        refuse(7, !is_seat(number))?;
        refuse(12, choice > 3)?;
        let streets = self.streets;
        let mut seats = self.seats.iter_mut();
        let seat = seats.find(|seat| seat.number == number).ok_or(13)?;
        refuse(14, seat.folded)?;
        refuse(15, seat.chosen > streets)?;
        seat.chosen += 1;
        seat.folded = choice == 0;
        seat.raises[usize::from(streets)] = choice;
        self.open_next_street();
        Ok(())
    }

    /// "When the last has chosen, the next street opens."
    fn open_next_street(&mut self) {
        let all_chose = |seat: &Seat| seat.folded || seat.chosen > self.streets;
        if self.seats.iter().all(all_chose) {
            self.streets += 1;
        }
    }
}

/// Whether a card stands twice in the part, or in it and in a part before it.
fn repeats(before: &[u8], part: &[u8]) -> bool {
    let mut seen = [false; DECK];
    for &card in before {
        seen[usize::from(card)] = true;
    }
    part.iter()
        .any(|&card| std::mem::replace(&mut seen[usize::from(card)], true))
}

pub(crate) fn refuse(number: u8, fault: bool) -> Result<(), u8> {
    if fault {
        Err(number)
    } else {
        Ok(())
    }
}

fn is_seat(number: u8) -> bool {
    (1..=MOST_SEATS as u8).contains(&number)
}

fn is_table(number: u8, tables: usize) -> bool {
    number > 0 && usize::from(number) <= tables
}

fn all_zero(bytes: &[u8]) -> bool {
    bytes.iter().all(|&byte| byte == 0)
}

/// "Two-byte numbers are low byte first."
pub(crate) fn two_bytes(record: &[u8], at: usize) -> u16 {
    u16::from_le_bytes([record[at], record[at + 1]])
}
