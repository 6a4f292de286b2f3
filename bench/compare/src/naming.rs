//! Naming all hands of five cards, by either of the two rules for five, and every eighth hand of six, each in two orders.
//!
//! As they are counted, every hand lies sorted and its neighbours are much like it: that flatters a settler that sorts, and a processor that foretells.

use crate::draws::Draws;
use crate::proved;
use crate::work::Work;
use oracle::names::{self, LoBallName, SixName};
use std::hint::black_box;
use std::rc::Rc;

type Hands<const N: usize> = Rc<[[u8; N]]>;

/// Of the 20,358,520 hands of six cards every eighth is named.
const EVERY: usize = 8;

/// The three kinds of naming, each in both orders.
pub fn namings() -> Result<Vec<Work>, String> {
    let five: Hands<5> = counted(1).into();
    let five_shuffled = shuffled(&five);
    let six: Hands<6> = counted(EVERY).into();
    let six_shuffled = shuffled(&six);
    Ok(vec![
        naming_five("naming five cards, in order", &five)?,
        naming_five("naming five cards, shuffled", &five_shuffled)?,
        naming_lo("naming Lo Ball, in order", &five)?,
        naming_lo("naming Lo Ball, shuffled", &five_shuffled)?,
        naming_six("naming All-Six, in order", &six)?,
        naming_six("naming All-Six, shuffled", &six_shuffled)?,
    ])
}

fn naming_six(name: &'static str, hands: &Hands<6>) -> Result<Work, String> {
    naming(
        name,
        hands,
        proved::name_six,
        names::name_six,
        SixName::place,
    )
}

fn naming_five(name: &'static str, hands: &Hands<5>) -> Result<Work, String> {
    let said = |name| name as usize;
    naming(name, hands, proved::name_five, names::name_five, said)
}

fn naming_lo(name: &'static str, hands: &Hands<5>) -> Result<Work, String> {
    naming(name, hands, proved::name_lo, names::name_lo_ball, high_rank)
}

/// A name that oracle/ gives, as the library says it. Its names begin with 7 high, and a seven's rank is 5.
fn high_rank(name: LoBallName) -> Option<usize> {
    match name {
        LoBallName::Nothing => None,
        high => Some(5 + high as usize),
    }
}

/// Cards that both settlers have to refuse.
const REFUSED: [&[u8]; 9] = [
    &[],
    &[0; 4],
    &[0; 5],
    &[0; 6],
    &[0, 4, 8, 12, 52],
    &[255, 4, 8, 12, 17],
    &[0, 4, 8, 12, 17, 52],
    &[255, 4, 8, 12, 17, 21],
    &[0, 4, 8, 12, 17, 21, 25],
];

/// Naming the hands, once the settlers are found to answer alike; `said` is what the proved one says for a name of the other.
fn naming<A: PartialEq, B, const N: usize>(
    name: &'static str,
    hands: &Hands<N>,
    ours: impl Fn(&[u8]) -> Result<A, u8> + 'static,
    theirs: impl Fn(&[u8]) -> Result<B, u8> + 'static,
    said: impl Fn(B) -> A,
) -> Result<Work, String> {
    let differ = |hand: &&[u8]| ours(hand) != theirs(hand).map(&said);
    let mut asked = hands.iter().map(|hand| &hand[..]).chain(REFUSED);
    if let Some(hand) = asked.find(differ) {
        return Err(format!("{name}: the settlers differ at {hand:?}"));
    }
    let (mine, other) = (Rc::clone(hands), Rc::clone(hands));
    Ok(Work {
        name,
        calls: hands.len(),
        proved: Box::new(move || each_hand(&mine, &ours)),
        oracle: Box::new(move || each_hand(&other, &theirs)),
    })
}

fn each_hand<A, const N: usize>(hands: &[[u8; N]], name: impl Fn(&[u8]) -> A) {
    for hand in hands {
        black_box(name(black_box(hand)));
    }
}

/// Every so many of the hands of N cards, as they are counted: the cards of each rise, the last fastest.
fn counted<const N: usize>(every: usize) -> Vec<[u8; N]> {
    let mut hand: [u8; N] = std::array::from_fn(|place| place as u8);
    let mut hands = vec![hand];
    let mut count = 0;
    while let Some(place) = (0..N)
        .rev()
        .find(|&place| usize::from(hand[place]) < 52 - N + place)
    {
        hand[place] += 1;
        for after in place + 1..N {
            hand[after] = hand[after - 1] + 1;
        }
        count += 1;
        if count % every == 0 {
            hands.push(hand);
        }
    }
    hands
}

/// The same hands in an order by chance, and the cards of each.
fn shuffled<const N: usize>(hands: &Hands<N>) -> Hands<N> {
    let mut draws = Draws::from(2);
    let mut hands = hands.to_vec();
    draws.shuffle(&mut hands);
    for hand in &mut hands {
        draws.shuffle(hand);
    }
    hands.into()
}
