//! Settling: from a round file to the amounts handed back, or the refusal.

use crate::deal::Deal;
use crate::names::{board_name, five_name, lo_ball_name, pocket_name, six_name};
use crate::names::{BoardName, FiveName, LoBallName, PocketName, SixName};
use crate::paytables;
use crate::pool;
use crate::reading::{read, Finished, Refusal, Seat, MOST_SEATS, RECORD};

/// The results of one seat: base, Board, Pocket, Lo Ball, All-Six.
pub const RESULTS_A_SEAT: usize = 5;
pub const RESULTS: usize = RESULTS_A_SEAT * MOST_SEATS;

/// What a finished round is settled with.
#[derive(Clone, Copy, Debug, PartialEq, Eq)]
pub struct Paid {
    /// Cents, "35 numbers, five a seat", seats 1 to 7, "in the order base,
    /// Board, Pocket, Lo Ball", "All-Six last".
    pub amounts: [u64; RESULTS],
    /// The pool in dollars, full and as paid.
    pub full: u64,
    pub paid: u64,
}

#[derive(Clone, Copy, Debug, PartialEq, Eq)]
#[allow(clippy::large_enum_variant)]
pub enum Answer {
    Paid(Paid),
    Refused { number: u8, place: usize },
}

/// The names on which the wagers of one seat are settled.
#[derive(Clone, Copy, Debug)]
pub(crate) struct SeatNames {
    pub five: FiveName,
    pub board: BoardName,
    pub pocket: PocketName,
    pub lo_ball: LoBallName,
    /// None where All-Six isn't offered.
    pub six: Option<SixName>,
}

pub fn settle(file: &[u8]) -> Answer {
    match read(file) {
        Ok(round) => Answer::Paid(settle_round(&round)),
        Err(Refusal { number, place }) => Answer::Refused { number, place },
    }
}

/// Where in the file the refused part begins, and the part: the refused
/// record; for 2 the odd bytes at the end; for 16, or no refusal, the empty
/// part at the end.
pub fn refused_part(file: &[u8]) -> (usize, &[u8]) {
    part_of_answer(file, &settle(file))
}

/// The refused part of a file whose answer is known.
pub(crate) fn part_of_answer<'a>(file: &'a [u8], answer: &Answer) -> (usize, &'a [u8]) {
    let (begin, end) = match *answer {
        Answer::Refused { number: 2, place } => (place * RECORD, file.len()),
        Answer::Paid(_) | Answer::Refused { number: 16, .. } => (file.len(), file.len()),
        Answer::Refused { place, .. } => (place * RECORD, (place + 1) * RECORD),
    };
    (begin, file.get(begin..end).unwrap_or(&[]))
}

/// A folded seat's side wagers are settled, All-Six too: "Folded seats keep it."
/// Base wins alone go into the pool, "nothing else does", whatever its odds.
pub(crate) fn settle_round(round: &Finished) -> Paid {
    let table = &round.table;
    let mut amounts = [0; RESULTS];
    let mut wins = [0; MOST_SEATS];
    for (order, seat) in round.seats.iter().enumerate() {
        let names = names_of_seat(round, order);
        let pays = paytables::base(table.base, names.five);
        let first = first_result(seat);
        match pays.pooled_odds() {
            _ if seat.folded => (),
            Some(odds) => wins[order] = odds * seat.base_wager(),
            None => amounts[first] = pays.handed_back(seat.base_wager()),
        }
        amounts[first + 1] =
            paytables::board(table.board, names.board).handed_back(u64::from(seat.board));
        amounts[first + 2] =
            paytables::pocket(table.pocket, names.pocket).handed_back(u64::from(seat.pocket));
        amounts[first + 3] =
            paytables::lo_ball(table.lo_ball, names.lo_ball).handed_back(u64::from(seat.lo_ball));
        amounts[first + 4] = names.six.map_or(0, |six| {
            paytables::all_six(table.all_six, six).handed_back(u64::from(seat.all_six))
        });
    }
    let paid = pay_pool(round, &wins, &mut amounts);
    Paid {
        amounts,
        full: wins.iter().sum(),
        paid,
    }
}

/// Adds to each pooled seat its share and its wager, and tells the shares'
/// sum. "Wagers come back besides." A win of 0 stands for a seat that is not
/// in the pool: a pooled win is never 0, and a win of 0 changes no share. It
/// gets no dollar that is left: these are the sum of the fractions, all below 1,
/// so that more places have a fraction than get a dollar.
fn pay_pool(round: &Finished, wins: &[u64], amounts: &mut [u64]) -> u64 {
    let mut shares = [0; MOST_SEATS];
    if pool::share(wins, pool::maximum(round.table.smallest), &mut shares).is_err() {
        return 0;
    }
    for (order, seat) in round.seats.iter().enumerate() {
        if wins[order] > 0 {
            amounts[first_result(seat)] = 100 * (seat.base_wager() + shares[order]);
        }
    }
    shares.iter().sum()
}

/// The names for the seat that is the so-manyth, from 0, of those playing. The
/// All-Six hand is "community, All-Six card, seat's two".
pub(crate) fn names_of_seat(round: &Finished, order: usize) -> SeatNames {
    let deal = Deal::new(round.seats.len(), round.table.offers_all_six());
    let pocket = deal.pocket(order).map(|place| round.deck[place]);
    let board = deal.community().map(|place| round.deck[place]);
    let five = [pocket[0], pocket[1], board[0], board[1], board[2]];
    SeatNames {
        five: five_name(five),
        board: board_name(board),
        pocket: pocket_name(pocket),
        lo_ball: lo_ball_name(five),
        six: six_cards(round, order).map(six_name),
    }
}

/// The All-Six hand of a seat; none where All-Six isn't offered.
pub(crate) fn six_cards(round: &Finished, order: usize) -> Option<[u8; 6]> {
    let deal = Deal::new(round.seats.len(), round.table.offers_all_six());
    let [a, b, c] = deal.community();
    let [e, f] = deal.pocket(order);
    let places = [a, b, c, deal.all_six()?, e, f];
    Some(places.map(|place| round.deck[place]))
}

/// The place of a seat's first result.
pub(crate) fn first_result(seat: &Seat) -> usize {
    RESULTS_A_SEAT * usize::from(seat.number - 1)
}
