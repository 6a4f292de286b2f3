//! Names of hands: the cases P1 to P13 of document 01, the All-Six names, the
//! counts of all hands, and the refusals of a hand.

use oracle::cards::read;
use oracle::generate::prng::Prng;
use oracle::names::*;
use oracle::paytables::{base, lo_ball, pocket, Pays};

fn hand(words: &str) -> Vec<u8> {
    let card = |word| read(word).unwrap_or_else(|| panic!("no card: {word}"));
    words.split(' ').map(card).collect()
}

fn five(words: &str) -> FiveName {
    name_five(&hand(words)).unwrap()
}

fn six(words: &str) -> SixName {
    name_six(&hand(words)).unwrap()
}

fn board(words: &str) -> BoardName {
    name_board(&hand(words)).unwrap()
}

fn lo(words: &str) -> LoBallName {
    name_lo_ball(&hand(words)).unwrap()
}

#[test]
fn p1_to_p6() {
    assert_eq!(five("Ac 2d 3h 4s 5c"), FiveName::Straight);
    assert_eq!(five("Ac 2c 3c 4c 5c"), FiveName::StraightFlush);
    assert_eq!(five("Qc Kd Ah 2s 3c"), FiveName::Other);
    assert_eq!(five("5c 5d Ah Ks 3c"), FiveName::Other);
    assert_eq!(base(1, five("Tc Td Ah Ks 3c")), Pays::Push);
    assert_eq!(five("2c 2d 3h 3s 9c"), FiveName::TwoPair);
}

#[test]
fn p7_to_p13() {
    assert_eq!(board("Qh Kh Ah"), BoardName::Royal);
    assert_eq!(board("Kh Ad 2c"), BoardName::Other);
    let ace_jack = name_pocket(&hand("Ac Jd")).unwrap();
    assert_eq!(pocket(1, ace_jack), Pays::To(10));
    assert_eq!(name_pocket(&hand("Ac Td")), Ok(PocketName::Nothing));
    assert_eq!(lo("2c 3d 4h 5s 7c"), LoBallName::SevenHigh);
    assert_eq!(lo("2h 4h 5h 6h 7h"), LoBallName::Nothing);
    let queen_high = lo("2c 4d 6h 8s Qc");
    assert_eq!(lo_ball(1, queen_high), Pays::Loss);
    assert_eq!(lo_ball(2, queen_high), Pays::Push);
}

#[test]
fn names_from_the_readings() {
    assert_eq!(board("Kh Ah 2h"), BoardName::Flush);
    assert_eq!(board("Qh Kd Ah"), BoardName::Straight);
    assert_eq!(board("Ah 2h 3h"), BoardName::StraightFlush);
    assert_eq!(board("Ah 2d 3h"), BoardName::Straight);
    assert_eq!(lo("Ac 2d 3h 4s 6c"), LoBallName::AceHigh);
    assert_eq!(lo("2c 3d 4h 5s 6c"), LoBallName::Nothing);
    assert_eq!(lo("2c 3d 4h 5s Kc"), LoBallName::KingHigh);
    assert_eq!(five("Kc Ac 2c 3c 4c"), FiveName::Flush);
    assert_eq!(five("Jc Qd Kh As 2c"), FiveName::Other);
    assert_eq!(five("Tc Jc Qc Kc Ac"), FiveName::RoyalFlush);
    assert_eq!(five("Tc Jd Qc Kc Ac"), FiveName::Straight);
    assert_eq!(five("9c Tc Jc Qc Kc"), FiveName::StraightFlush);
    assert_eq!(five("6c 6d 2h 3s 4c"), FiveName::PairSixesToTens);
    assert_eq!(five("Jc Jd 2h 3s 4c"), FiveName::PairJacksToAces);
    assert_eq!(five("Ac Ad 2h 3s 4c"), FiveName::PairJacksToAces);
    assert_eq!(FiveName::RoyalFlush as u8, 0);
    assert_eq!(FiveName::Other as u8, 10);
}

#[test]
fn refusals_of_a_hand() {
    assert_eq!(name_five(&[0, 1, 2, 3]), Err(18));
    assert_eq!(name_five(&[0, 0, 52, 3, 4, 5]), Err(18), "18 comes first");
    assert_eq!(name_five(&[]), Err(18));
    assert_eq!(name_five(&[0, 1, 2, 3, 52]), Err(11));
    assert_eq!(name_five(&[255, 1, 2, 3, 4]), Err(11));
    assert_eq!(name_five(&[7, 1, 2, 3, 7]), Err(11));
    assert_eq!(name_lo_ball(&[0, 0, 2, 3, 7]), Err(11));
    assert_eq!(name_board(&[0, 1]), Err(18));
    assert_eq!(name_board(&[9, 1, 9]), Err(11));
    assert_eq!(name_pocket(&[0]), Err(18));
    assert_eq!(name_pocket(&[0, 1, 2]), Err(18));
    assert_eq!(name_pocket(&[51, 51]), Err(11));
}

/// "18 where the All-Six name isn't given six cards", then 11.
#[test]
fn refusals_of_an_all_six_hand() {
    for length in (0..60).filter(|&length| length != 6) {
        let cards: Vec<u8> = (0..length).collect();
        assert_eq!(name_six(&cards), Err(18), "{length}");
        assert_eq!(name_six(&vec![255; cards.len()]), Err(18), "18 comes first");
    }
    for place in 0..6 {
        let mut cards = hand("9d Td Jd Qd Kd Ad");
        for number in [52, 53, 255] {
            cards[place] = number;
            assert_eq!(name_six(&cards), Err(11), "{number} at {place}");
        }
        for other in (0..6).filter(|&other| other != place) {
            let mut cards = hand("9d Td Jd Qd Kd Ad");
            cards[place] = cards[other];
            assert_eq!(name_six(&cards), Err(11), "{other} at {place}");
        }
    }
}

/// Every order of six cards.
fn orders(cards: &[u8]) -> Vec<Vec<u8>> {
    if cards.len() < 2 {
        return vec![cards.to_vec()];
    }
    let mut all = Vec::new();
    for (place, &card) in cards.iter().enumerate() {
        let others = [&cards[..place], &cards[place + 1..]].concat();
        all.extend(
            orders(&others)
                .iter()
                .map(|rest| [&[card], &rest[..]].concat()),
        );
    }
    all
}

#[test]
fn the_six_card_royals() {
    for (suit, name) in [
        ("c", SixName::Royal),
        ("d", SixName::RoyalOfDiamonds),
        ("h", SixName::Royal),
        ("s", SixName::Royal),
    ] {
        let words = "9d Td Jd Qd Kd Ad".replace('d', suit);
        let all = orders(&hand(&words));
        assert_eq!(all.len(), 720);
        for cards in all {
            assert_eq!(name_six(&cards), Ok(name), "{cards:?}");
        }
    }
}

/// "Nine to ace of one suit is the six-card royal": nothing else is.
#[test]
fn nearly_a_six_card_royal() {
    use FiveName::{Flush, RoyalFlush, Straight, StraightFlush};
    let cases = [
        ("8d 9d Td Jd Qd Kd", StraightFlush),
        ("Td Jd Qd Kd Ad 2d", RoyalFlush),
        ("Td Jd Qd Kd Ad 8d", RoyalFlush),
        ("Td Jd Qd Kd Ad 9c", RoyalFlush),
        ("Td Jd Qd Kd Ad Ac", RoyalFlush),
        ("9d Td Jd Qd Kd Ac", StraightFlush),
        ("9d Tc Jd Qd Kd Ad", Flush),
        ("9d Td Jc Qd Kd Ad", Flush),
        ("9d Td Jd Qc Kd Ad", Flush),
        ("9d Td Jd Qd Kc Ad", Flush),
        ("9c Tc Jd Qd Kd Ad", Straight),
        ("9d 8d Jd Qd Kd Ad", Flush),
        ("Ad 2d 3d 4d 5d 6d", StraightFlush),
        ("9d Td Jd Qd Kd 9c", StraightFlush),
    ];
    for (words, name) in cases {
        assert_eq!(six(words), SixName::Five(name), "{words}");
        assert_eq!(six(&words.replace('d', "s")), SixName::Five(name));
    }
}

/// The name of five cards, with a sixth in each place: the hand has the name
/// without it, and in the first nine rows without that card alone.
#[test]
fn each_place_left_out() {
    use FiveName::*;
    let cases = [
        ("Td Jd Qd Kd Ad", "8d", RoyalFlush),
        ("Ts Js Qs Ks As", "9h", RoyalFlush),
        ("5h 6h 7h 8h 9h", "Ts", StraightFlush),
        ("Ac 2c 3c 4c 5c", "Kc", StraightFlush),
        ("3c 3d 3h 8c 8d", "Ks", FullHouse),
        ("2h 5h 9h Jh Kh", "3s", Flush),
        ("Ac 2d 3h 4s 5c", "Kd", Straight),
        ("Tc Jd Qh Ks Ac", "2d", Straight),
        ("6c 7d 8h 9s Tc", "2d", Straight),
        ("6c 7d 8h 9s Tc", "Jd", Straight),
        ("6c 7d 8h 9s Tc", "Td", Straight),
        ("2h 5h 9h Jh Kh", "4h", Flush),
        ("3c 3d 3h 8c 8d", "8s", FullHouse),
        ("3c 3d 3h 3s 8d", "Ks", FourOfAKind),
        ("3c 3d 3h 3s 8d", "8s", FourOfAKind),
        ("3c 3d 3h Ts 8d", "Ks", ThreeOfAKind),
        ("3c 3d Th Ts 8d", "8s", TwoPair),
        ("Jc Jd Th 2s 8d", "3s", PairJacksToAces),
        ("6c 6d Th 2s 8d", "3s", PairSixesToTens),
        ("5c 5d Th 2s 8d", "3s", Other),
        ("Qc Kd Ah 2s 3c", "4d", Other),
    ];
    for (row, (words, sixth, name)) in cases.iter().enumerate() {
        assert_eq!(five(words), *name, "{words}");
        for place in 0..6 {
            let mut cards = hand(words);
            cards.insert(place, read(sixth).unwrap());
            let found = name_six(&cards);
            assert_eq!(
                found,
                Ok(SixName::Five(*name)),
                "{words}, {sixth} at {place}"
            );
            for other in (0..6).filter(|&other| other != place && row < 9) {
                let mut five = cards.clone();
                five.remove(other);
                assert_ne!(name_five(&five), Ok(*name), "{words}, without {other}");
            }
        }
    }
}

/// The best name counts: a flush above a straight, and so on.
#[test]
fn the_best_five() {
    use FiveName::*;
    let cases = [
        ("4h 5h 6s 7h 8h 9h", Flush),
        ("4h 5h 6h 7h 8h 9s", StraightFlush),
        ("4s 5h 6h 7h 8h 9h", StraightFlush),
        ("4s 5h 6h 7h 8h 2h", Flush),
        ("3c 3d 3h 8c 8d 8s", FullHouse),
        ("3c 3d 8h 8c Kd Ks", TwoPair),
        ("2c 2d 3h 3c 4d 4s", TwoPair),
        ("3c 3d 4h 5c 6d 7s", Straight),
        ("3c 3d 3h 4c 5d 6s", ThreeOfAKind),
        ("Jc Jd 2h 4c 7d 9s", PairJacksToAces),
        ("Tc Td Ah 4c 7d Ks", PairSixesToTens),
        ("5c 5d Ah 4c 7d Ks", Other),
        ("Jc Qd Kh As 2c 3d", Other),
    ];
    for (words, name) in cases {
        assert_eq!(six(words), SixName::Five(name), "{words}");
    }
}

/// The five-card counts are the standard ones: 4 royals, 9 × 4 other straight
/// flushes, 13 × 48 fours and so on; each rank has 84,480 hands with one pair
/// of it, so four ranks make 337,920 and five make 422,400.
///
/// Lo Ball with highest rank h: C(h, 4) sets of lower ranks less the straight
/// that h ends (less two for the ace, which also begins one), each with
/// 4^5 - 4 = 1,020 ways of suits: 4, 14, 34, 69, 125, 209, 329 and 493 sets.
#[test]
fn all_fives_counted() {
    let mut fives = [0; 11];
    let mut lows = [0; 9];
    let mut count = |cards: [u8; 5]| {
        fives[five_name(cards) as usize] += 1;
        lows[lo_ball_name(cards) as usize] += 1;
    };
    for a in 0..52 {
        for b in a + 1..52 {
            for c in b + 1..52 {
                for d in c + 1..52 {
                    (d + 1..52).for_each(|e| count([d, b, e, a, c]));
                }
            }
        }
    }
    let names = [
        4, 36, 624, 3_744, 5_108, 10_200, 54_912, 123_552, 337_920, 422_400, 1_640_460,
    ];
    assert_eq!(fives, names);
    let sets: [u32; 8] = [4, 14, 34, 69, 125, 209, 329, 493];
    assert_eq!(lows[..8], sets.map(|set| set * 1_020));
    assert_eq!(lows[8], 2_598_960 - 1_277 * 1_020);
}

/// Of 22,100 boards: 4 royals; 12 straights of three ranks, suited in 4 ways
/// (less the royals 44) and mixed in 60; 13 × 4 threes of a kind; C(13, 3) × 4
/// of one suit less the 48 straight ones; 13 × 6 × 48 pairs.
#[test]
fn all_boards_counted() {
    let mut counts = [0; 7];
    for a in 0..52 {
        for b in a + 1..52 {
            (b + 1..52).for_each(|c| counts[board_name([b, a, c]) as usize] += 1);
        }
    }
    assert_eq!(counts, [4, 44, 52, 720, 1_096, 3_744, 16_440]);
}

/// Of 1,326 pockets: 6 pairs of aces; an ace with 3 faces in 4 suited and 12
/// unsuited ways; 12 × 6 other pairs.
#[test]
fn all_pockets_counted() {
    let mut counts = [0; 5];
    for a in 0..52 {
        (a + 1..52).for_each(|b| counts[pocket_name([a, b]) as usize] += 1);
    }
    assert_eq!(counts, [6, 12, 36, 72, 1_200]);
}

/// A second opinion on six cards, by counting ranks and suits.
fn counted_six(cards: [u8; 6]) -> SixName {
    let mut of_rank = [0; 13];
    let mut ranks_of_suit = [0_u32; 4];
    for card in cards {
        of_rank[usize::from(card / 4)] += 1;
        ranks_of_suit[usize::from(card % 4)] |= 1 << (card / 4);
    }
    let ranks = ranks_of_suit.iter().fold(0, |all, suit| all | suit);
    let flush = ranks_of_suit.iter().position(|suit| suit.count_ones() >= 5);
    let suited = flush.map_or(0, |suit| ranks_of_suit[suit]);
    let ranks_with = |least| (0..13).filter(|&rank| of_rank[rank] >= least).count();
    let pair = of_rank.iter().rposition(|&count| count >= 2);
    let name = match () {
        _ if suited == 0b1_1111_1000_0000 && flush == Some(1) => return SixName::RoyalOfDiamonds,
        _ if suited == 0b1_1111_1000_0000 => return SixName::Royal,
        _ if suited >> 8 == 0b1_1111 => FiveName::RoyalFlush,
        _ if has_straight(suited) => FiveName::StraightFlush,
        _ if ranks_with(4) > 0 => FiveName::FourOfAKind,
        _ if ranks_with(3) > 0 && ranks_with(2) > 1 => FiveName::FullHouse,
        _ if flush.is_some() => FiveName::Flush,
        _ if has_straight(ranks) => FiveName::Straight,
        _ if ranks_with(3) > 0 => FiveName::ThreeOfAKind,
        _ if ranks_with(2) > 1 => FiveName::TwoPair,
        _ if pair.is_some_and(|rank| rank >= 9) => FiveName::PairJacksToAces,
        _ if pair.is_some_and(|rank| rank >= 4) => FiveName::PairSixesToTens,
        _ => FiveName::Other,
    };
    SixName::Five(name)
}

/// Whether ranks, a two as 1, hold five in a row. The ace stands below the two
/// as well.
fn has_straight(ranks: u32) -> bool {
    let ranks = ranks << 1 | ranks >> 12;
    (0..10).any(|low| ranks >> low & 0b1_1111 == 0b1_1111)
}

/// The best of the names of six choices of five.
fn best_of_fives(cards: [u8; 6]) -> usize {
    let without = |place: usize| -> FiveName {
        let five = [&cards[..place], &cards[place + 1..]].concat();
        name_five(&five).unwrap()
    };
    (0..6).map(|place| without(place) as usize).min().unwrap()
}

#[test]
fn second_opinions_on_six_cards() {
    let mut rng = Prng::new(6, 0);
    let mut found = [0; 13];
    for turn in 0..200_000 {
        // Every second hand from two suits or from few ranks.
        let among: Vec<u8> = match turn % 4 {
            0 => (0..52).filter(|card| card % 4 < 2).collect(),
            1 => (4 * rng.below(7) as u8..).take(28).collect(),
            _ => (0..52).collect(),
        };
        let mut deck = among;
        rng.shuffle(&mut deck);
        let cards: [u8; 6] = deck[..6].try_into().unwrap();
        let name = name_six(&cards).unwrap();
        assert_eq!(name, counted_six(cards), "{cards:?}");
        if let SixName::Five(five) = name {
            assert_eq!(five as usize, best_of_fives(cards), "{cards:?}");
        }
        found[name.place()] += 1;
    }
    assert!(found[3..].iter().all(|&count| count > 50), "{found:?}");
}

/// Of 20,358,520 hands: 4 six-card royals, 4 × 46 royal flushes besides, and so
/// on. One pair of rank r: C(12, 4) = 495 sets of other ranks less the straights
/// that r stands in (two for A, 2 and K, three for 3 and Q, four for 4 and J,
/// five for the rest), each with 6 × 4^4 - 12 = 1,524 ways of suits: 1,969 sets
/// for jacks to aces, 2,450 for sixes to tens, 1,966 for twos to fives. These
/// last are "other" with the 6,612,900 hands without a pair.
#[test]
#[ignore = "twenty million hands"]
fn all_sixes_counted() {
    let mut counts = [0; 13];
    let mut count = |cards: [u8; 6]| {
        let name = six_name(cards);
        assert_eq!(name, counted_six(cards), "{cards:?}");
        counts[name.place()] += 1;
    };
    for a in 0..52 {
        for b in a + 1..52 {
            for c in b + 1..52 {
                for d in c + 1..52 {
                    for e in d + 1..52 {
                        (e + 1..52).for_each(|f| count([d, b, f, e, a, c]));
                    }
                }
            }
        }
    }
    let names = [
        1,
        3,
        184,
        1_656,
        14_664,
        165_984,
        205_792,
        361_620,
        732_160,
        2_532_816,
        1_969 * 1_524,
        2_450 * 1_524,
        1_966 * 1_524 + 6_612_900,
    ];
    assert_eq!(counts, names);
    assert_eq!(counts.iter().sum::<u32>(), 20_358_520);
}

#[test]
fn the_order_of_cards_does_not_matter() {
    for words in ["Ac 2c 3c 4c 5c", "Tc Jd Qh Ks Ac", "2c 2d 3h 3s 9c"] {
        let cards = hand(words);
        let name = five(words);
        for turn in 0..5 {
            let mut turned = cards.clone();
            turned.rotate_left(turn);
            assert_eq!(name_five(&turned), Ok(name));
            turned.swap(0, 3);
            assert_eq!(name_five(&turned), Ok(name));
        }
    }
}
