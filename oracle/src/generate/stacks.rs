//! The decks of generated rounds: plain shuffles, and decks stacked so that
//! rare hands come often.

use super::prng::Prng;
use crate::cards::{card, ACE, JACK, KING, NINE, QUEEN, TEN};
use crate::names::{five_name, five_of_six, six_name, SixName};

#[derive(Clone, Copy)]
pub enum Suits {
    One,
    /// This one.
    Of(u8),
    /// One for all cards but one.
    ButOne,
    Mixed,
}

use Suits::{ButOne, Mixed, Of, One};

/// Whose the stacked cards are.
#[derive(Clone, Copy)]
pub enum Holder {
    Nobody,
    /// A seat's two cards and the board, divided by chance.
    Five,
    Board,
    Pocket,
    /// A seat's two cards, the board and the All-Six card, divided by chance.
    /// To five cards comes a sixth with which their name is kept.
    Six,
    /// The board, then the pockets of two seats.
    TwoSeats,
    /// The same, for two seats that share the maximum.
    Sharing,
    /// Card 0 lies in the last deck part.
    CardZeroLate,
}

pub struct Stack {
    pub name: &'static str,
    pub weight: usize,
    holder: Holder,
    suits: Suits,
    ranks: fn(&mut Prng) -> Vec<u8>,
}

/// Stacked cards: the board, the All-Six card and the pockets, where they are
/// given.
#[derive(Default)]
pub struct Stacked {
    pub board: Vec<u8>,
    pub all_six: Option<u8>,
    pub pockets: Vec<[u8; 2]>,
    /// Whether two pooled hands share the maximum.
    pub sharing: bool,
    pub card_zero_late: bool,
}

const fn five(name: &'static str, suits: Suits, ranks: fn(&mut Prng) -> Vec<u8>) -> Stack {
    stack(name, 3, Holder::Five, suits, ranks)
}

const fn board(name: &'static str, suits: Suits, ranks: fn(&mut Prng) -> Vec<u8>) -> Stack {
    stack(name, 2, Holder::Board, suits, ranks)
}

const fn pocket(name: &'static str, suits: Suits, ranks: fn(&mut Prng) -> Vec<u8>) -> Stack {
    stack(name, 2, Holder::Pocket, suits, ranks)
}

const fn six(
    name: &'static str,
    weight: usize,
    suits: Suits,
    ranks: fn(&mut Prng) -> Vec<u8>,
) -> Stack {
    stack(name, weight, Holder::Six, suits, ranks)
}

const fn stack(
    name: &'static str,
    weight: usize,
    holder: Holder,
    suits: Suits,
    ranks: fn(&mut Prng) -> Vec<u8>,
) -> Stack {
    Stack {
        name,
        weight,
        holder,
        suits,
        ranks,
    }
}

#[rustfmt::skip]
pub const STACKS: &[Stack] = &[
    stack("plain shuffle", 4, Holder::Nobody, Mixed, |_| Vec::new()),
    stack("royal and straight flush share", 4, Holder::Sharing, One, |_| two_runs(TEN)),
    stack("two straight flushes share", 4, Holder::Sharing, One, |rng| two_runs(rng.between(1, 7) as u8)),
    stack("card 0 in the last part", 2, Holder::CardZeroLate, Mixed, |_| Vec::new()),
    stack("royal flush", 5, Holder::Five, One, |_| (TEN..=ACE).collect()),
    stack("straight flush", 4, Holder::Five, One, |rng| run(rng.below(8) as u8)),
    stack("straight flush A-2-3-4-5", 4, Holder::Five, One, |_| vec![ACE, 0, 1, 2, 3]),
    stack("royal and straight flush at once", 5, Holder::TwoSeats, One, |_| two_runs(TEN)),
    stack("two straight flushes at once", 5, Holder::TwoSeats, One, |rng| two_runs(rng.between(1, 7) as u8)),
    five("four of a kind", Mixed, |rng| kinds(rng, &[4, 1])),
    five("full house", Mixed, |rng| kinds(rng, &[3, 2])),
    five("flush", One, |rng| kinds(rng, &[1, 1, 1, 1, 1])),
    five("straight", Mixed, |rng| run(rng.below(8) as u8)),
    five("A-2-3-4-5 mixed", Mixed, |_| vec![ACE, 0, 1, 2, 3]),
    five("10-J-Q-K-A mixed", Mixed, |_| (TEN..=ACE).collect()),
    five("Q-K-A-2-3 mixed", Mixed, |_| vec![QUEEN, KING, ACE, 0, 1]),
    five("K-A-2-3-4 mixed", Mixed, |_| vec![KING, ACE, 0, 1, 2]),
    five("J-Q-K-A-2 mixed", Mixed, |_| vec![JACK, QUEEN, KING, ACE, 0]),
    five("Q-K-A-2-3 suited", One, |_| vec![QUEEN, KING, ACE, 0, 1]),
    five("K-A-2-3-4 suited", One, |_| vec![KING, ACE, 0, 1, 2]),
    five("J-Q-K-A-2 suited", One, |_| vec![JACK, QUEEN, KING, ACE, 0]),
    five("three of a kind", Mixed, |rng| kinds(rng, &[3, 1, 1])),
    five("two pair", Mixed, |rng| kinds(rng, &[2, 2, 1])),
    five("pair of fives", Mixed, |rng| pair_of(rng, 3)),
    five("pair of sixes", Mixed, |rng| pair_of(rng, 4)),
    five("pair of tens", Mixed, |rng| pair_of(rng, TEN)),
    five("pair of jacks", Mixed, |rng| pair_of(rng, JACK)),
    five("pair of aces", Mixed, |rng| pair_of(rng, ACE)),
    five("7 high", Mixed, |rng| high(rng, 5)),
    five("8 high", Mixed, |rng| high(rng, 6)),
    five("9 high", Mixed, |rng| high(rng, 7)),
    five("10 high", Mixed, |rng| high(rng, TEN)),
    five("jack high", Mixed, |rng| high(rng, JACK)),
    five("queen high", Mixed, |rng| high(rng, QUEEN)),
    five("king high", Mixed, |rng| high(rng, KING)),
    five("ace high", Mixed, |rng| high(rng, ACE)),
    five("A-2-3-4-6 mixed", Mixed, |_| vec![ACE, 0, 1, 2, 4]),
    five("2-3-4-5-6 mixed", Mixed, |_| run(0)),
    five("low flush", One, |rng| { let top = rng.between(5, 8) as u8; high(rng, top) }),
    board("board Q-K-A suited", One, |_| vec![QUEEN, KING, ACE]),
    board("board Q-K-A mixed", Mixed, |_| vec![QUEEN, KING, ACE]),
    board("board A-2-3 suited", One, |_| vec![ACE, 0, 1]),
    board("board A-2-3 mixed", Mixed, |_| vec![ACE, 0, 1]),
    board("board K-A-2 suited", One, |_| vec![KING, ACE, 0]),
    board("board K-A-2 mixed", Mixed, |_| vec![KING, ACE, 0]),
    board("board straight flush", One, |rng| { let low = rng.below(10) as u8; vec![low, low + 1, low + 2] }),
    board("board straight", Mixed, |rng| { let low = rng.below(10) as u8; vec![low, low + 1, low + 2] }),
    board("board three of a kind", Mixed, |rng| kinds(rng, &[3])),
    board("board pair", Mixed, |rng| kinds(rng, &[2, 1])),
    board("board flush", One, |rng| kinds(rng, &[1, 1, 1])),
    pocket("pocket aces", Mixed, |_| vec![ACE, ACE]),
    pocket("pocket A-K suited", One, |_| vec![ACE, KING]),
    pocket("pocket A-K unsuited", Mixed, |_| vec![ACE, KING]),
    pocket("pocket A-Q suited", One, |_| vec![ACE, QUEEN]),
    pocket("pocket A-Q unsuited", Mixed, |_| vec![ACE, QUEEN]),
    pocket("pocket A-J suited", One, |_| vec![ACE, JACK]),
    pocket("pocket A-J unsuited", Mixed, |_| vec![ACE, JACK]),
    pocket("pocket A-10 suited", One, |_| vec![ACE, TEN]),
    pocket("pocket A-10 unsuited", Mixed, |_| vec![ACE, TEN]),
    pocket("pocket K-Q suited", One, |_| vec![KING, QUEEN]),
    pocket("pocket K-Q unsuited", Mixed, |_| vec![KING, QUEEN]),
    pocket("pocket other pair", Mixed, |rng| vec![rng.below(12) as u8; 2]),
    six("All-Six six-card royal of clubs", 3, Of(0), |_| (NINE..=ACE).collect()),
    six("All-Six six-card royal of diamonds", 5, Of(1), |_| (NINE..=ACE).collect()),
    six("All-Six six-card royal of hearts", 3, Of(2), |_| (NINE..=ACE).collect()),
    six("All-Six six-card royal of spades", 3, Of(3), |_| (NINE..=ACE).collect()),
    six("All-Six 9 to A, one of another suit", 2, ButOne, |_| (NINE..=ACE).collect()),
    six("All-Six 8 to K suited", 2, One, |_| (NINE - 1..=KING).collect()),
    six("All-Six royal flush", 6, One, |_| (TEN..=ACE).collect()),
    six("All-Six straight flush", 4, One, |rng| run(rng.below(8) as u8)),
    six("All-Six A-2-3-4-5 suited", 2, One, |_| vec![ACE, 0, 1, 2, 3]),
    six("All-Six four of a kind", 4, Mixed, |rng| kinds(rng, &[4, 1])),
    six("All-Six four of a kind and a pair", 2, Mixed, |rng| kinds(rng, &[4, 2])),
    six("All-Six full house", 4, Mixed, |rng| kinds(rng, &[3, 2])),
    six("All-Six two threes of a kind", 2, Mixed, |rng| kinds(rng, &[3, 3])),
    six("All-Six flush", 4, One, |rng| kinds(rng, &[1, 1, 1, 1, 1])),
    six("All-Six six of one suit", 2, One, |rng| kinds(rng, &[1, 1, 1, 1, 1, 1])),
    six("All-Six straight", 4, Mixed, |rng| run(rng.below(8) as u8)),
    six("All-Six A-2-3-4-5 mixed", 2, Mixed, |_| vec![ACE, 0, 1, 2, 3]),
    six("All-Six J-Q-K-A-2-3 mixed", 2, Mixed, |_| vec![JACK, QUEEN, KING, ACE, 0, 1]),
    six("All-Six six ranks in a row", 2, Mixed, |rng| run_of_six(rng.below(8) as u8)),
    six("All-Six six ranks in a row, one of another suit", 2, ButOne, |rng| run_of_six(rng.below(8) as u8)),
    six("All-Six three of a kind", 4, Mixed, |rng| kinds(rng, &[3, 1, 1])),
    six("All-Six two pair", 2, Mixed, |rng| kinds(rng, &[2, 2, 1])),
    six("All-Six three pairs", 2, Mixed, |rng| kinds(rng, &[2, 2, 2])),
];

/// The place of a stack in the list, by chance and weight.
pub fn pick(rng: &mut Prng) -> usize {
    by_weight(rng.below(total_weight()))
}

/// The place of a stack in the list for a turn. In so many turns in a row as
/// all weights make together, each stack comes as often as its weight says.
pub fn in_turn(turn: u64) -> usize {
    let total = total_weight() as u64;
    by_weight((turn % total * STRIDE % total) as usize)
}

/// Has no divisor in common with all weights together, so that stacks of great
/// weight don't come in a row.
const STRIDE: u64 = 89;

fn total_weight() -> usize {
    STACKS.iter().map(|stack| stack.weight).sum()
}

fn by_weight(mut left: usize) -> usize {
    for (place, stack) in STACKS.iter().enumerate() {
        if left < stack.weight {
            return place;
        }
        left -= stack.weight;
    }
    0
}

impl Stack {
    pub fn make(&self, rng: &mut Prng) -> Stacked {
        let ranks = (self.ranks)(rng);
        let mut cards = with_suits(rng, &ranks, self.suits);
        let mut stacked = Stacked::default();
        match self.holder {
            Holder::Nobody => (),
            Holder::CardZeroLate => stacked.card_zero_late = true,
            Holder::TwoSeats | Holder::Sharing => {
                stacked.board = cards[..3].to_vec();
                stacked.pockets = vec![[cards[3], cards[4]], [cards[5], cards[6]]];
                rng.shuffle(&mut stacked.pockets);
                stacked.sharing = matches!(self.holder, Holder::Sharing);
            }
            Holder::Five => {
                rng.shuffle(&mut cards);
                stacked.pockets = vec![[cards[0], cards[1]]];
                stacked.board = cards[2..].to_vec();
            }
            Holder::Six => {
                if let Ok(five) = cards.as_slice().try_into() {
                    cards.push(sixth_card(rng, five));
                }
                rng.shuffle(&mut cards);
                stacked.board = cards[..3].to_vec();
                stacked.all_six = Some(cards[3]);
                stacked.pockets = vec![[cards[4], cards[5]]];
            }
            Holder::Board => stacked.board = cards,
            Holder::Pocket => stacked.pockets = vec![[cards[0], cards[1]]],
        }
        rng.shuffle(&mut stacked.board);
        stacked
    }
}

/// A sixth card with which five keep their name: half the time, where there is
/// one, a card that must be left out for it.
fn sixth_card(rng: &mut Prng, five: [u8; 5]) -> u8 {
    let mut others: Vec<u8> = (0..52).filter(|card| !five.contains(card)).collect();
    rng.shuffle(&mut others);
    let name = five_name(five);
    let with = |card: u8| [five[0], five[1], five[2], five[3], five[4], card];
    others.retain(|&card| six_name(with(card)) == SixName::Five(name));
    let loses = |card: u8, place: usize| five_name(five_of_six(with(card), place)) != name;
    let left_out = |card: &&u8| (0..5).all(|place| loses(**card, place));
    let found = others.iter().find(left_out).filter(|_| rng.one_in(2));
    found.or(others.first()).copied().unwrap_or(0)
}

/// Cards of these ranks, none twice, in suits as they are asked for. Mixed are
/// cards not all of one suit.
fn with_suits(rng: &mut Prng, ranks: &[u8], suits: Suits) -> Vec<u8> {
    let one = rng.below(4) as u8;
    match suits {
        One => return ranks.iter().map(|&rank| card(rank, one)).collect(),
        Of(suit) => return ranks.iter().map(|&rank| card(rank, suit)).collect(),
        ButOne => return but_one(rng, ranks, one),
        Mixed => (),
    }
    let mut cards: Vec<u8> = Vec::with_capacity(ranks.len());
    for (place, &rank) in ranks.iter().enumerate() {
        let mut suit = rng.below(4) as u8;
        let last = place > 0 && place + 1 == ranks.len();
        let first = cards.first().map_or(0, |card| card % 4);
        let all_as_first = cards.iter().all(|card| card % 4 == first);
        if last && all_as_first && suit == first {
            suit = (suit + 1 + rng.below(3) as u8) % 4;
        }
        while cards.contains(&card(rank, suit)) {
            suit = (suit + 1) % 4;
        }
        cards.push(card(rank, suit));
    }
    cards
}

fn but_one(rng: &mut Prng, ranks: &[u8], suit: u8) -> Vec<u8> {
    let mut cards: Vec<u8> = ranks.iter().map(|&rank| card(rank, suit)).collect();
    let place = rng.below(ranks.len());
    let other = (suit + rng.between(1, 3) as u8) % 4;
    cards[place] = card(ranks[place], other);
    cards
}

/// Six ranks that rise by one.
fn run_of_six(low: u8) -> Vec<u8> {
    (low..low + 6).collect()
}

/// Five ranks that rise by one.
fn run(low: u8) -> Vec<u8> {
    (low..low + 5).collect()
}

/// Three ranks for the board, then the two above and the two below them. Below
/// a three stands the two, and below that the ace.
fn two_runs(low: u8) -> Vec<u8> {
    let lowest = if low == 1 { ACE } else { low - 2 };
    vec![low, low + 1, low + 2, low + 3, low + 4, lowest, low - 1]
}

/// Different ranks, each as often as asked, that make no straight.
fn kinds(rng: &mut Prng, counts: &[usize]) -> Vec<u8> {
    let mut ranks: Vec<u8> = (0..13).collect();
    loop {
        rng.shuffle(&mut ranks);
        let chosen = &ranks[..counts.len()];
        if counts.len() < 3 || !is_run(chosen) {
            let repeated = chosen.iter().zip(counts);
            return repeated
                .flat_map(|(&rank, &count)| vec![rank; count])
                .collect();
        }
    }
}

fn pair_of(rng: &mut Prng, rank: u8) -> Vec<u8> {
    let mut others: Vec<u8> = (0..13).filter(|&other| other != rank).collect();
    rng.shuffle(&mut others);
    vec![rank, rank, others[0], others[1], others[2]]
}

/// Five different ranks with this one the highest, and no straight.
fn high(rng: &mut Prng, top: u8) -> Vec<u8> {
    let mut lower: Vec<u8> = (0..top).collect();
    loop {
        rng.shuffle(&mut lower);
        let ranks = vec![top, lower[0], lower[1], lower[2], lower[3]];
        if !is_run(&ranks) {
            return ranks;
        }
    }
}

fn is_run(ranks: &[u8]) -> bool {
    let mut sorted = ranks.to_vec();
    sorted.sort_unstable();
    let rising = |part: &[u8]| part.windows(2).all(|pair| pair[0] + 1 == pair[1]);
    let below_ace = &sorted[..sorted.len() - 1];
    let from_ace = sorted.ends_with(&[ACE]) && sorted[0] == 0 && rising(below_ace);
    rising(&sorted) || from_ace
}
