//! A valid finished round, before it is written as a file.

use super::prng::Prng;
use super::stacks::{Stacked, STACKS};
use crate::deal::Deal;
use crate::names::{five_name, FiveName};
use crate::paytables::{ALL_SIX_TABLES, BASE_TABLES, BOARD_TABLES, LO_BALL_TABLES, POCKET_TABLES};
use crate::pool;
use crate::reading::{CARDS_IN_PART, MOST_SEATS, RECORD};
use crate::records;

pub const FOLDS: [&str; 10] = [
    "nobody folds",
    "some fold on street one",
    "some fold on street two",
    "some fold on street three",
    "some fold on any street",
    "everyone folds on street one",
    "everyone folds on street one, side wagers placed",
    "everyone folds on street two",
    "everyone folds on street three",
    "everyone folds, on any street",
];
const SIDES_PLACED: usize = 6;

pub const POOLS: [&str; 9] = [
    "no pooled hand stacked",
    "wagers of a pooled hand by chance",
    "pool at the maximum",
    "pool just under the maximum",
    "pool just above the maximum",
    "a pooled hand folds",
    "two shares, no dollar left",
    "two shares, fractions nearly equal",
    "two shares, fractions equal",
];
const BY_CHANCE: usize = 1;
const AT: usize = 2;
const UNDER: usize = 3;
const POOLED_FOLDS: usize = 5;
const NO_DOLLAR_LEFT: usize = 6;
const NEARLY_EQUAL: usize = 7;
const EQUAL: usize = 8;

#[derive(Clone)]
pub struct DraftSeat {
    pub number: u8,
    pub ante: usize,
    /// Board, Pocket, Lo Ball, All-Six.
    pub sides: [usize; 4],
    pub raises: [u8; 3],
    /// The street, from 0, on which the seat folds.
    pub folds: Option<usize>,
}

impl DraftSeat {
    pub fn chooses_on(&self, street: usize) -> bool {
        self.folds.is_none_or(|folds| folds >= street)
    }

    fn base_wager(&self) -> usize {
        let raises: u8 = self.raises.iter().sum();
        self.ante * (1 + usize::from(raises))
    }

    fn draw_wager(&mut self, rng: &mut Prng, smallest: usize, largest: usize) {
        self.ante = wager(rng, smallest, largest);
        self.raises = [0; 3].map(|_| rng.between(1, 3) as u8);
    }

    /// Raises by so many antes in all, 3 to 9 of them.
    fn raise_in_all(&mut self, rng: &mut Prng, antes: usize) {
        self.raises = [1; 3];
        for _ in 3..antes {
            let from = rng.below(3);
            let open = (0..3).map(|turn| (from + turn) % 3);
            if let Some(street) = open.into_iter().find(|&street| self.raises[street] < 3) {
                self.raises[street] += 1;
            }
        }
    }
}

pub struct Draft {
    pub smallest: usize,
    pub largest: usize,
    /// Base, Lo Ball, Board, Pocket.
    pub tables: [u8; 4],
    /// The All-Six table, 0 where it isn't offered.
    pub all_six: u8,
    /// Whether any seat may wager on All-Six.
    wagers_all_six: bool,
    pub seats: Vec<DraftSeat>,
    pub deck: Vec<u8>,
    /// Seat and choice, in the order of the file.
    pub choices: Vec<[u8; 2]>,
    /// Places in `STACKS`, `FOLDS` and `POOLS`.
    pub stack: usize,
    pub folds: usize,
    pub pool: usize,
}

impl Draft {
    /// A round over a deck of that place in `STACKS`.
    pub fn new(rng: &mut Prng, stack: usize) -> Draft {
        let stacked = STACKS[stack].make(rng);
        let numbers = seat_numbers(rng, stacked.pockets.len().max(1));
        let offered = stacked.all_six.is_some() || rng.below(5) < 2;
        let all_six = if offered { all_six_table(rng) } else { 0 };
        let deck = stacked_deck(rng, &stacked, numbers.len(), offered);
        let smallest = end_or_between(rng, 5, 15);
        let largest = end_or_between(rng, 25, 100);
        let tables = [BASE_TABLES, LO_BALL_TABLES, BOARD_TABLES, POCKET_TABLES];
        let mut draft = Draft {
            smallest,
            largest,
            tables: tables.map(|count| rng.between(1, count) as u8),
            all_six,
            wagers_all_six: offered && !rng.one_in(8),
            seats: Vec::with_capacity(numbers.len()),
            deck,
            choices: Vec::with_capacity(3 * MOST_SEATS),
            stack,
            folds: rng.below(FOLDS.len()),
            pool: 0,
        };
        if rng.one_in(2) {
            draft.folds = 0;
        }
        for number in numbers {
            draft.seat(rng, number);
        }
        draft.one_folds_at_least(rng);
        draft.aim_pool(rng, stacked.sharing);
        draft.choose(rng);
        draft
    }

    fn seat(&mut self, rng: &mut Prng, number: u8) {
        let least = usize::from(self.folds == SIDES_PLACED);
        let any_street = rng.below(3);
        let some = rng.one_in(2);
        let folds = match self.folds {
            street @ 1..=3 if some => Some(street - 1),
            4 if some => Some(any_street),
            5 | 6 => Some(0),
            7 => Some(1),
            8 => Some(2),
            9 => Some(any_street),
            _ => None,
        };
        let [board, pocket, lo_ball] = [0; 3].map(|_| side_wager(rng, self.largest).max(least));
        let all_six = if self.wagers_all_six {
            side_wager(rng, self.largest).max(least)
        } else {
            0
        };
        let mut seat = DraftSeat {
            number,
            ante: 0,
            sides: [board, pocket, lo_ball, all_six],
            raises: [1; 3],
            folds,
        };
        seat.draw_wager(rng, self.smallest, self.largest);
        self.seats.push(seat);
    }

    /// Where some fold, at least one does.
    fn one_folds_at_least(&mut self, rng: &mut Prng) {
        let street = match self.folds {
            street @ 1..=3 => street - 1,
            4 => rng.below(3),
            _ => return,
        };
        if self.seats.iter().all(|seat| seat.folds.is_none()) {
            let order = rng.below(self.seats.len());
            self.seats[order].folds = Some(street);
        }
    }

    /// The places, among the playing seats, of the hands that would be pooled,
    /// with their odds.
    fn pooled(&self) -> Vec<(usize, usize)> {
        let deal = Deal::new(self.seats.len(), self.offers_all_six());
        let [a, b, c] = deal.community();
        let mut pooled = Vec::new();
        for order in 0..self.seats.len() {
            let [d, e] = deal.pocket(order);
            match five_name([a, b, c, d, e].map(|place| self.deck[place])) {
                FiveName::RoyalFlush => pooled.push((order, 500)),
                FiveName::StraightFlush => pooled.push((order, 100)),
                _ => (),
            }
        }
        pooled
    }

    /// Sets the wagers of pooled hands so that the pool comes where it is
    /// wanted; for a deck of two that share, so that it is above the maximum and
    /// the fractions are as wanted.
    fn aim_pool(&mut self, rng: &mut Prng, sharing: bool) {
        let pooled = self.pooled();
        let Some(&(last, odds)) = pooled.last() else {
            return;
        };
        self.pool = if sharing {
            rng.between(NO_DOLLAR_LEFT, EQUAL)
        } else {
            rng.between(BY_CHANCE, POOLED_FOLDS)
        };
        if self.pool == POOLED_FOLDS {
            let (order, _) = pooled[rng.below(pooled.len())];
            self.seats[order].folds = Some(rng.below(3));
            return;
        }
        if self.pool == BY_CHANCE {
            return;
        }
        for _ in 0..30 {
            let mut before = 0;
            for &(order, odds) in &pooled {
                self.seats[order].folds = None;
                self.seats[order].draw_wager(rng, self.smallest, self.largest);
                before += odds * self.seats[order].base_wager();
            }
            before -= odds * self.seats[last].base_wager();
            if self.aim_last(rng, last, odds, before) {
                return;
            }
        }
        self.pool = BY_CHANCE;
    }

    /// Sets the last pooled seat's wager for a pool of `before` without it;
    /// false where no wager brings the pool to its aim.
    fn aim_last(&mut self, rng: &mut Prng, last: usize, odds: usize, before: usize) -> bool {
        let maximum = pool::maximum(self.smallest as u8) as usize;
        let mut wagers = Vec::new();
        for ante in self.smallest..=self.largest {
            for raises in 3..=9 {
                let win = odds * ante * (1 + raises);
                let total = before + win;
                if self.is_aim(win, total, maximum) {
                    wagers.push((total.abs_diff(maximum), ante, raises));
                }
            }
        }
        // An aim at the total wants it as near to the maximum as can be.
        if self.pool < NO_DOLLAR_LEFT {
            let nearest = wagers.iter().map(|wager| wager.0).min();
            wagers.retain(|wager| Some(wager.0) == nearest);
        }
        let Some((_, ante, raises)) = rng.pick(&wagers) else {
            return false;
        };
        self.seats[last].ante = ante;
        self.seats[last].raise_in_all(rng, raises);
        true
    }

    /// Whether a pool with this last win is where it is wanted. Where two share
    /// and a dollar is left, their remainders make up the total.
    fn is_aim(&self, win: usize, total: usize, maximum: usize) -> bool {
        let remainder = maximum * win % total;
        let apart = total.abs_diff(2 * remainder);
        match self.pool {
            AT => total == maximum,
            UNDER => total < maximum,
            NO_DOLLAR_LEFT => total > maximum && remainder == 0,
            NEARLY_EQUAL => total > maximum && apart > 0 && apart < total / 100,
            EQUAL => total > maximum && apart == 0,
            _ => total > maximum,
        }
    }

    /// "On each, every seat still in chooses once, seats in any order."
    fn choose(&mut self, rng: &mut Prng) {
        for street in 0..3 {
            let mut choices = Vec::with_capacity(MOST_SEATS);
            for seat in self.seats.iter().filter(|seat| seat.chooses_on(street)) {
                let choice = if seat.folds == Some(street) {
                    0
                } else {
                    seat.raises[street]
                };
                choices.push([seat.number, choice]);
            }
            rng.shuffle(&mut choices);
            self.choices.append(&mut choices);
        }
    }

    pub fn offers_all_six(&self) -> bool {
        self.all_six > 0
    }

    pub fn file(&self) -> Vec<u8> {
        let mut file = Vec::with_capacity(48 * RECORD);
        let [base, lo_ball, board, pocket] = self.tables;
        let [smallest, largest] = [self.smallest as u8, self.largest as u8];
        let table = [
            smallest,
            largest,
            base,
            lo_ball,
            board,
            pocket,
            self.all_six,
        ];
        file.extend_from_slice(&records::table(table));
        for seat in &self.seats {
            file.extend_from_slice(&seat_record(seat));
        }
        for (part, cards) in self.deck.chunks(CARDS_IN_PART).enumerate() {
            file.extend_from_slice(&records::deck_part(part as u8, cards));
        }
        for [seat, choice] in &self.choices {
            file.extend_from_slice(&records::choice(*seat, *choice));
        }
        file
    }
}

pub fn seat_record(seat: &DraftSeat) -> [u8; RECORD] {
    let [board, pocket, lo_ball, all_six] = seat.sides;
    let wagers = [seat.ante, board, pocket, lo_ball, all_six];
    records::seat(seat.number, wagers.map(|wager| wager as u16))
}

/// The last table, which alone tells the six-card royals apart, comes twice as
/// often as each other.
fn all_six_table(rng: &mut Prng) -> u8 {
    rng.between(1, ALL_SIX_TABLES + 1).min(ALL_SIX_TABLES) as u8
}

/// Rising seat numbers with gaps, at least so many.
fn seat_numbers(rng: &mut Prng, least: usize) -> Vec<u8> {
    let mut numbers: Vec<u8> = (1..=MOST_SEATS as u8).collect();
    rng.shuffle(&mut numbers);
    numbers.truncate(rng.between(1, MOST_SEATS).max(least));
    numbers.sort_unstable();
    numbers
}

/// A shuffled deck with the stacked cards moved to where they are dealt.
fn stacked_deck(rng: &mut Prng, stacked: &Stacked, seats: usize, offered: bool) -> Vec<u8> {
    let deal = Deal::new(seats, offered);
    let mut deck: Vec<u8> = (0..52).collect();
    rng.shuffle(&mut deck);
    let mut orders: Vec<usize> = (0..seats).collect();
    rng.shuffle(&mut orders);
    for (cards, order) in stacked.pockets.iter().zip(orders) {
        for (&card, place) in cards.iter().zip(deal.pocket(order)) {
            move_card(&mut deck, card, place);
        }
    }
    for (&card, place) in stacked.board.iter().zip(deal.community()) {
        move_card(&mut deck, card, place);
    }
    for (card, place) in stacked.all_six.into_iter().zip(deal.all_six()) {
        move_card(&mut deck, card, place);
    }
    if stacked.card_zero_late {
        move_card(&mut deck, 0, 39 + rng.below(13));
    }
    deck
}

fn move_card(deck: &mut [u8], card: u8, place: usize) {
    if let Some(found) = deck.iter().position(|&other| other == card) {
        deck.swap(found, place);
    }
}

fn end_or_between(rng: &mut Prng, least: usize, most: usize) -> usize {
    match rng.below(4) {
        0 => least,
        1 => most,
        _ => rng.between(least, most),
    }
}

fn wager(rng: &mut Prng, smallest: usize, largest: usize) -> usize {
    match rng.below(5) {
        0 => smallest,
        1 => largest,
        _ => rng.between(smallest, largest),
    }
}

fn side_wager(rng: &mut Prng, largest: usize) -> usize {
    match rng.below(5) {
        0 => 0,
        1 => 1,
        2 => largest,
        _ => rng.between(0, largest),
    }
}
