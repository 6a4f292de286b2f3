//! Naming hands: the cards are sorted by rank and the names tested from the
//! top, so that the highest name is given.

use crate::cards::{is_card, rank, suit, ACE, DIAMONDS, JACK, KING, NINE, QUEEN, SIX, TEN};

#[derive(Clone, Copy, Debug, PartialEq, Eq)]
pub enum FiveName {
    RoyalFlush,
    StraightFlush,
    FourOfAKind,
    FullHouse,
    Flush,
    Straight,
    ThreeOfAKind,
    TwoPair,
    PairJacksToAces,
    PairSixesToTens,
    Other,
}

#[derive(Clone, Copy, Debug, PartialEq, Eq)]
pub enum BoardName {
    Royal,
    StraightFlush,
    ThreeOfAKind,
    Straight,
    Flush,
    Pair,
    Other,
}

#[derive(Clone, Copy, Debug, PartialEq, Eq)]
pub enum PocketName {
    PairOfAces,
    AceFaceSuited,
    AceFaceUnsuited,
    OtherPair,
    Nothing,
}

/// Lo Ball names by their highest rank. There is no 6 high: 2-3-4-5-6, the
/// only such hand of different ranks, is a straight.
#[derive(Clone, Copy, Debug, PartialEq, Eq)]
pub enum LoBallName {
    SevenHigh,
    EightHigh,
    NineHigh,
    TenHigh,
    JackHigh,
    QueenHigh,
    KingHigh,
    AceHigh,
    Nothing,
}

/// All-Six names. Appendix E tells the diamonds' six-card royal from the other
/// three. "The All-Six hand keeps the five-card names below three of a kind."
#[derive(Clone, Copy, Debug, PartialEq, Eq)]
pub enum SixName {
    RoyalOfDiamonds,
    Royal,
    Five(FiveName),
}

impl SixName {
    /// The place among all thirteen names, the highest first, from 0.
    pub fn place(self) -> usize {
        match self {
            SixName::RoyalOfDiamonds => 0,
            SixName::Royal => 1,
            SixName::Five(five) => 2 + five as usize,
        }
    }
}

/// The name of five cards, or refusal 18 or 11.
pub fn name_five(cards: &[u8]) -> Result<FiveName, u8> {
    checked(cards).map(five_name)
}

/// The name of a board of three cards, or refusal 18 or 11.
pub fn name_board(cards: &[u8]) -> Result<BoardName, u8> {
    checked(cards).map(board_name)
}

/// The name of a pocket of two cards, or refusal 18 or 11.
pub fn name_pocket(cards: &[u8]) -> Result<PocketName, u8> {
    checked(cards).map(pocket_name)
}

/// The Lo Ball name of five cards, or refusal 18 or 11.
pub fn name_lo_ball(cards: &[u8]) -> Result<LoBallName, u8> {
    checked(cards).map(lo_ball_name)
}

/// The All-Six name of six cards, or refusal 18 or 11.
pub fn name_six(cards: &[u8]) -> Result<SixName, u8> {
    checked(cards).map(six_name)
}

/// "Hands: 18, then 11."
fn checked<const N: usize>(cards: &[u8]) -> Result<[u8; N], u8> {
    let hand: [u8; N] = cards.try_into().map_err(|_| 18)?;
    for (place, &card) in hand.iter().enumerate() {
        if !is_card(card) || hand[..place].contains(&card) {
            return Err(11);
        }
    }
    Ok(hand)
}

pub fn five_name(cards: [u8; 5]) -> FiveName {
    let r = sorted_ranks(cards);
    let flush = one_suit(&cards);
    let straight = is_straight_of_five(r);
    if straight && flush && r[0] == TEN {
        FiveName::RoyalFlush
    } else if straight && flush {
        FiveName::StraightFlush
    } else if r[0] == r[3] || r[1] == r[4] {
        FiveName::FourOfAKind
    } else if r[0] == r[1] && r[3] == r[4] && (r[2] == r[1] || r[2] == r[3]) {
        FiveName::FullHouse
    } else if flush {
        FiveName::Flush
    } else if straight {
        FiveName::Straight
    } else if r[0] == r[2] || r[1] == r[3] || r[2] == r[4] {
        FiveName::ThreeOfAKind
    } else {
        pairs_name(r)
    }
}

/// The names below three of a kind. "A pair of twos to fives is 'other'."
fn pairs_name(r: [u8; 5]) -> FiveName {
    let mut pairs = 0;
    let mut of = 0;
    for neighbours in r.windows(2) {
        if neighbours[0] == neighbours[1] {
            pairs += 1;
            of = neighbours[0];
        }
    }
    match pairs {
        2 => FiveName::TwoPair,
        1 if of >= JACK => FiveName::PairJacksToAces,
        1 if of >= SIX => FiveName::PairSixesToTens,
        _ => FiveName::Other,
    }
}

/// "A-2-3 is a straight; K-A-2 isn't."
pub fn board_name(cards: [u8; 3]) -> BoardName {
    let r = sorted_ranks(cards);
    let flush = one_suit(&cards);
    let straight = rising_by_one(&r) || r == [0, 1, ACE];
    if straight && flush && r == [QUEEN, KING, ACE] {
        BoardName::Royal
    } else if straight && flush {
        BoardName::StraightFlush
    } else if r[0] == r[2] {
        BoardName::ThreeOfAKind
    } else if straight {
        BoardName::Straight
    } else if flush {
        BoardName::Flush
    } else if r[0] == r[1] || r[1] == r[2] {
        BoardName::Pair
    } else {
        BoardName::Other
    }
}

pub fn pocket_name(cards: [u8; 2]) -> PocketName {
    let r = sorted_ranks(cards);
    let ace_with_face = r[1] == ACE && (r[0] == KING || r[0] == QUEEN || r[0] == JACK);
    if r == [ACE, ACE] {
        PocketName::PairOfAces
    } else if ace_with_face && one_suit(&cards) {
        PocketName::AceFaceSuited
    } else if ace_with_face {
        PocketName::AceFaceUnsuited
    } else if r[0] == r[1] {
        PocketName::OtherPair
    } else {
        PocketName::Nothing
    }
}

/// "If all ranks differ and there is no straight or flush, the highest rank,
/// ace high; otherwise nothing."
pub fn lo_ball_name(cards: [u8; 5]) -> LoBallName {
    let r = sorted_ranks(cards);
    let ranks_differ = r.windows(2).all(|pair| pair[0] != pair[1]);
    if !ranks_differ || is_straight_of_five(r) || one_suit(&cards) {
        return LoBallName::Nothing;
    }
    match r[4] {
        5 => LoBallName::SevenHigh,
        6 => LoBallName::EightHigh,
        7 => LoBallName::NineHigh,
        TEN => LoBallName::TenHigh,
        JACK => LoBallName::JackHigh,
        QUEEN => LoBallName::QueenHigh,
        KING => LoBallName::KingHigh,
        _ => LoBallName::AceHigh,
    }
}

/// "The hand is the best five of the six, except that nine to ace of one suit
/// is the six-card royal."
pub fn six_name(cards: [u8; 6]) -> SixName {
    let nine_to_ace = sorted_ranks(cards) == [NINE, TEN, JACK, QUEEN, KING, ACE];
    if nine_to_ace && one_suit(&cards) && suit(cards[0]) == DIAMONDS {
        SixName::RoyalOfDiamonds
    } else if nine_to_ace && one_suit(&cards) {
        SixName::Royal
    } else {
        SixName::Five(best_five_of_six(cards))
    }
}

/// The highest name of the six choices of five. `FiveName` begins with the
/// highest.
fn best_five_of_six(cards: [u8; 6]) -> FiveName {
    let names = (0..6).map(|left_out| five_name(five_of_six(cards, left_out)));
    let best = names.min_by_key(|&name| name as u8);
    best.unwrap_or(FiveName::Other)
}

/// Six cards without the one at a place, from 0.
pub(crate) fn five_of_six(cards: [u8; 6], left_out: usize) -> [u8; 5] {
    std::array::from_fn(|place| cards[place + usize::from(place >= left_out)])
}

/// "An ace ends a straight at either end (A-2-3-4-5, 10-J-Q-K-A) and never
/// stands inside one."
fn is_straight_of_five(r: [u8; 5]) -> bool {
    rising_by_one(&r) || r == [0, 1, 2, 3, ACE]
}

fn rising_by_one(r: &[u8]) -> bool {
    r.windows(2).all(|pair| pair[0] + 1 == pair[1])
}

fn one_suit(cards: &[u8]) -> bool {
    cards.windows(2).all(|pair| suit(pair[0]) == suit(pair[1]))
}

fn sorted_ranks<const N: usize>(cards: [u8; N]) -> [u8; N] {
    let mut ranks = cards.map(rank);
    ranks.sort_unstable();
    ranks
}
