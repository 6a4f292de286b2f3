//! Cards: "Card c is 0 to 51. Its rank is c ÷ 4 rounded down (0 is a two,
//! 12 an ace); its suit is the remainder (0 clubs, 1 diamonds, 2 hearts,
//! 3 spades)."

pub const SIX: u8 = 4;
pub const NINE: u8 = 7;
pub const TEN: u8 = 8;
pub const JACK: u8 = 9;
pub const QUEEN: u8 = 10;
pub const KING: u8 = 11;
pub const ACE: u8 = 12;

pub const DIAMONDS: u8 = 1;

/// The number of cards in the deck, and so the first number that is no card.
pub const DECK: usize = 52;

const RANKS: &[u8; 13] = b"23456789TJQKA";
const SUITS: &[u8; 4] = b"cdhs";

pub fn rank(card: u8) -> u8 {
    card / 4
}

pub fn suit(card: u8) -> u8 {
    card % 4
}

pub fn is_card(number: u8) -> bool {
    usize::from(number) < DECK
}

/// The card of a rank and a suit.
pub(crate) fn card(rank: u8, suit: u8) -> u8 {
    rank * 4 + suit
}

/// The card as written in the text of a round, such as `Ah`; none for a
/// number that is no card.
pub fn written(number: u8) -> Option<String> {
    let rank = RANKS.get(usize::from(rank(number)))?;
    let suit = SUITS[usize::from(suit(number))];
    Some([char::from(*rank), char::from(suit)].iter().collect())
}

/// The card that is written so.
pub fn read(word: &str) -> Option<u8> {
    let [rank_letter, suit_letter] = word.as_bytes() else {
        return None;
    };
    let rank = RANKS.iter().position(|letter| letter == rank_letter)?;
    let suit = SUITS.iter().position(|letter| letter == suit_letter)?;
    Some((rank * 4 + suit) as u8)
}
