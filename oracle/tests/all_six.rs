//! The All-Six wager, request b of document 02: the deal, the money, and files
//! without it.

use oracle::answer::lines;
use oracle::cards::{read, written};
use oracle::deal::Deal;
use oracle::generate::Generator;
use oracle::held::Held;
use oracle::reading::RECORD;
use oracle::settle::{settle, Answer, Paid};
use oracle::text::pack;

/// A round over a deck that begins with the cards given, the rest rising.
fn round(head: &str, top: &str, choices: &str) -> Vec<u8> {
    let mut deck: Vec<u8> = top.split(' ').map(|word| read(word).unwrap()).collect();
    for card in 0..52 {
        if !deck.contains(&card) {
            deck.push(card);
        }
    }
    let mut text = head.to_string();
    for (part, cards) in deck.chunks(13).enumerate() {
        let cards: Vec<String> = cards.iter().map(|&card| written(card).unwrap()).collect();
        text += &format!("\ndeck {part}: {}", cards.join(" "));
    }
    pack(&(text + "\n" + choices)).unwrap()
}

fn paid(file: &[u8]) -> Paid {
    match settle(file) {
        Answer::Paid(paid) => paid,
        refused => panic!("{refused:?}"),
    }
}

/// "The first four cards go to the dealer: three community cards, then the
/// All-Six card, then the seats."
#[test]
fn the_places_of_both_deals() {
    for seats in 1..=7 {
        let offered = Deal::new(seats, true);
        assert_eq!(offered.community(), [0, 1, 2]);
        assert_eq!(offered.all_six(), Some(3));
        let not_offered = Deal::new(seats, false);
        assert_eq!(
            not_offered.community(),
            [2 * seats, 2 * seats + 1, 2 * seats + 2]
        );
        assert_eq!(not_offered.all_six(), None);
        for order in 0..seats {
            assert_eq!(offered.pocket(order), [4 + 2 * order, 5 + 2 * order]);
            assert_eq!(not_offered.pocket(order), [2 * order, 2 * order + 1]);
        }
    }
}

const SEATS: &str = "\nseat 2 ante 5 board 1 pocket 1 lo 1\nseat 6 ante 5 board 1 pocket 1 lo 1";
const RAISES: &str = "choice 2 raise 1\nchoice 6 raise 1\nchoice 2 raise 1\nchoice 6 raise 1\n\
                      choice 2 raise 1\nchoice 6 raise 1";

/// One deck, offered and not. Nobody wagers on All-Six: "whether All-Six is
/// *offered* decides the deal, not whether anyone wagers".
#[test]
fn offered_decides_the_deal() {
    let top = "Qh Kh Ah 2c Ac Ad Jc Td 9s 8d";
    let table = "table 5 100 base 1 lo 1 board 1 pocket 1";
    // Seat 2 has Qh Kh, seat 6 Ah 2c, the board is Ac Ad Jc: a pair of aces at
    // 1, and for seat 6 three aces at 3; a pair on the board at 1.
    let plain = round(&(table.to_string() + SEATS), top, RAISES);
    let printed = "2 4000 200 0 0 0\n6 8000 200 0 0 0\npool 0 0\n";
    assert_eq!(lines(&plain), printed);
    for six in 1..=5 {
        // The board is Qh Kh Ah, a royal at 50; seat 2 has Ac Ad, three aces at
        // 3 and a pocket at 25; seat 6 has Jc Td, a straight at 4.
        let head = format!("{table} six {six}{SEATS}");
        let printed = "2 8000 5100 2600 0 0\n6 10000 5100 0 0 0\npool 0 0\n";
        assert_eq!(lines(&round(&head, top, RAISES)), printed);
        let mut byte_7 = plain.clone();
        byte_7[7] = six;
        assert_eq!(lines(&byte_7), printed);
    }
}

/// The fourth card is in no hand but the All-Six one, and for the base the seat
/// and the community make five.
#[test]
fn the_all_six_card_counts_for_all_six_alone() {
    let head = "table 5 100 base 1 lo 1 board 1 pocket 1 six 1\n\
                seat 3 ante 5 board 1 pocket 1 lo 1 six 1";
    let raises = "choice 3 raise 1\nchoice 3 raise 1\nchoice 3 raise 1";
    // Base 4h 5h 6h 2c 7d, 7 high: Lo Ball at 100, the board's straight flush at
    // 40. With 3s a straight at 10.
    let straight = round(head, "4h 5h 6h 3s 2c 7d", raises);
    assert_eq!(lines(&straight), "3 0 4100 0 10100 1100\npool 0 0\n");
    // With 7h only a pair of sevens: All-Six loses.
    let pair = round(head, "4h 5h 6h 7h 2c 7d", raises);
    assert_eq!(lines(&pair), "3 0 4100 0 10100 0\npool 0 0\n");
}

/// The name of the first six cards of the deck; its odds in tables 1 to 5 as
/// Appendix E has them; the cents for a base wager of 60 dollars on the five
/// without the fourth card.
#[rustfmt::skip]
const HANDS: [(&str, &str, [u64; 5], u64); 13] = [
    ("six-card royal of diamonds", "Td Kd 9d Ad Qd Jd", [1_000, 1_000, 1_000, 1_000, 200_000], 606_000),
    ("six-card royal of hearts", "Th Kh 9h Ah Qh Jh", [1_000, 1_000, 1_000, 1_000, 20_000], 606_000),
    ("royal flush", "Td Kd 2c Ad Qd Jd", [1_000; 5], 0),
    ("straight flush", "8s 9s Ts Js Qs Ks", [200; 5], 42_000),
    ("four of a kind", "8s 8h 3d 8d 8c Ks", [50, 50, 100, 100, 50], 24_000),
    ("full house", "8s 8h 3d 8d 3c Ks", [25, 25, 20, 20, 20], 15_000),
    ("flush", "8s 2s 3s Ks Qs Qd", [20, 15, 15, 15, 15], 12_000),
    ("straight", "As 2s 3d 4h 5c Kd", [10, 10, 9, 10, 10], 0),
    ("three of a kind", "As Ad 3d 4h Ac Kd", [5, 5, 8, 7, 5], 24_000),
    ("two pair", "As Ad 3d 3h 4c 4d", [0; 5], 15_000),
    ("pair of aces", "As Ad 3d 5h 7c 9d", [0; 5], 12_000),
    ("pair of tens", "Ts Td 3d 5h 7c 9d", [0; 5], 6_000),
    ("other", "As Kd 3d 5h 7c 9d", [0; 5], 0),
];

/// Wagers of each table, seat folded on each street and not folded: "Folded
/// seats keep it." It is never in the pool.
#[test]
fn every_odds_of_appendix_e() {
    let all_choices = [
        "choice 4 fold",
        "choice 4 raise 1\nchoice 4 fold",
        "choice 4 raise 1\nchoice 4 raise 1\nchoice 4 fold",
        "choice 4 raise 1\nchoice 4 raise 1\nchoice 4 raise 1",
    ];
    for (name, top, odds, base) in HANDS {
        for (six, odds) in (1..).zip(odds) {
            for wager in [0, 1, 37, 100] {
                let head = format!(
                    "table 15 100 base 1 lo 1 board 1 pocket 1 six {six}\n\
                     seat 4 ante 15 board 0 pocket 0 lo 0 six {wager}"
                );
                for (street, choices) in all_choices.iter().enumerate() {
                    let base = if street == 3 { base } else { 0 };
                    let mut amounts = [0; 35];
                    amounts[15] = base;
                    amounts[19] = if odds > 0 {
                        100 * wager * (odds + 1)
                    } else {
                        0
                    };
                    // The pool has the straight flush at 100 alone.
                    let full = if base > 100_000 { 6_000 } else { 0 };
                    let expected = Paid {
                        amounts,
                        full,
                        paid: full,
                    };
                    let file = round(&head, top, choices);
                    assert_eq!(paid(&file), expected, "{name}, table {six}, {wager}");
                }
            }
        }
    }
}

/// The board is Td Jd Qd, the All-Six card 9d. Seat 1 has Kd Ad: 100 × 10 at 500
/// in the pool, and the six-card royal. Seat 7 has 8d 2c: a straight flush on
/// All-Six. The pool is 500,000 under 25,000, and the All-Six wins are no part
/// of it.
#[test]
fn all_six_wins_stay_out_of_the_pool() {
    let head = "table 5 100 base 1 lo 1 board 1 pocket 1 six 5\n\
                seat 1 ante 100 board 0 pocket 0 lo 0 six 100\n\
                seat 7 ante 5 board 0 pocket 0 lo 0 six 3";
    let choices = "choice 1 raise 3\nchoice 7 fold\nchoice 1 raise 3\nchoice 1 raise 3";
    let file = round(head, "Td Jd Qd 9d Kd Ad 8d 2c", choices);
    let printed = "1 2600000 0 0 0 2000010000\n7 0 0 0 0 60300\npool 500000 25000\n";
    assert_eq!(lines(&file), printed);
    let mut amounts = [0; 35];
    amounts[0] = 2_600_000;
    amounts[4] = 2_000_010_000;
    amounts[34] = 60_300;
    let answer = Answer::Paid(Paid {
        amounts,
        full: 500_000,
        paid: 25_000,
    });
    assert_eq!(settle(&file), answer);
}

/// Seven seats at an offering table: the last has the 17th and 18th card.
#[test]
fn seven_seats() {
    let mut head = "table 5 25 base 1 lo 1 board 1 pocket 1 six 2".to_string();
    let mut choices = String::new();
    for seat in 1..=7 {
        head += &format!("\nseat {seat} ante 5 board 0 pocket 0 lo 0 six {seat}");
        choices += &format!("choice {seat} fold\n");
    }
    // Eights on the board and as the All-Six card: three of a kind for all, and
    // with a pair a full house at 25, which seats 1 and 7 have.
    let top = "8c 8d 2h 8h 4c 4d 5c 6d 5h Td 6h Js Qc 3c Ks Jd 9c 9d";
    let printed = "1 0 0 0 0 2600\n2 0 0 0 0 1200\n3 0 0 0 0 1800\n4 0 0 0 0 2400\n\
                   5 0 0 0 0 3000\n6 0 0 0 0 3600\n7 0 0 0 0 18200\npool 0 0\n";
    assert_eq!(lines(&round(&head, top, &choices)), printed);
}

/// The six cards of a hand, each in each place: the name, and so the amount, is
/// the same wherever a card lies.
#[test]
fn the_places_of_the_six_cards() {
    for (name, top, odds, _) in HANDS {
        let words: Vec<&str> = top.split(' ').collect();
        for turn in 0..6 {
            let mut turned = words.clone();
            turned.rotate_left(turn);
            let head = "table 5 100 base 1 lo 1 board 1 pocket 1 six 4\n\
                        seat 4 ante 5 board 0 pocket 0 lo 0 six 2";
            let file = round(head, &turned.join(" "), "choice 4 fold");
            let won = if odds[3] > 0 { 200 * (odds[3] + 1) } else { 0 };
            let printed = format!("4 0 0 0 0 {won}\npool 0 0\n");
            assert_eq!(lines(&file), printed, "{name}, {turn}");
        }
    }
}

/// The deck of a file, its cards moved so that the offered deal brings the same
/// cards to the same places as the other deal did.
fn dealt_with_all_six(file: &[u8], six: u8) -> Vec<u8> {
    let seats = file.chunks(RECORD).filter(|record| record[0] == 2).count();
    let parts = file.chunks(RECORD).filter(|record| record[0] == 3);
    let deck: Vec<u8> = parts.flat_map(|record| record[2..15].to_vec()).collect();
    let (pockets, rest) = deck.split_at(2 * seats);
    let (board, rest) = rest.split_at(3);
    let moved = [board, &rest[..1], pockets, &rest[1..]].concat();
    let mut file = file.to_vec();
    file[7] = six;
    for (place, &card) in moved.iter().enumerate() {
        file[(1 + seats + place / 13) * RECORD + 2 + place % 13] = card;
    }
    file
}

/// "Old files mean what they meant": a file whose bytes for All-Six are zero has
/// the deal and the amounts of document 01, and 0 for All-Six. With the cards
/// moved a table that offers it pays the same.
#[test]
fn files_without_all_six() {
    let generator = Generator::new(41);
    let mut found = 0;
    for place in 0..4_000 {
        let made = generator.make(place);
        if made.damage.is_some() || made.file[7] != 0 {
            continue;
        }
        let plain = paid(&made.file);
        assert!(plain.amounts.iter().skip(4).step_by(5).all(|&six| six == 0));
        for six in 1..=5 {
            assert_eq!(paid(&dealt_with_all_six(&made.file, six)), plain, "{place}");
        }
        found += 1;
    }
    assert!(found > 500, "{found}");
}

/// The wager changes its own amount alone, and other amounts don't depend on
/// it.
#[test]
fn the_wager_changes_its_own_amount_alone() {
    let generator = Generator::new(42);
    let mut found = [0; 2];
    for place in 0..4_000 {
        let made = generator.make(place);
        if made.damage.is_some() || made.file[7] == 0 {
            continue;
        }
        let before = paid(&made.file);
        let seat = made.draft.seats[0].number;
        let result = 5 * usize::from(seat) - 1;
        let mut file = made.file.clone();
        file[RECORD + 10] = 1;
        let mut one = paid(&file);
        let odds = one.amounts[result] / 100;
        assert_eq!(
            before.amounts[result],
            100 * odds * made.draft.seats[0].sides[3] as u64
        );
        one.amounts[result] = before.amounts[result];
        assert_eq!(one, before, "{place}");
        found[usize::from(odds > 0)] += 1;
    }
    assert!(found.iter().all(|&count| count > 200), "{found:?}");
}

/// The round of document 01 as bytes, and with each number that its bytes for
/// All-Six could have. Seat 2's share is 4,166 2/3, with the dollar left 4,167;
/// its wager of 1,000 comes back besides.
#[test]
fn the_whole_round_of_document_01() {
    let file = pack(include_str!("round01.txt")).unwrap();
    let zeros = [&file[7..16], &file[26..32], &file[42..48]].concat();
    assert_eq!(zeros, vec![0; zeros.len()]);
    let printed = "1 2183300 20500 10500 0 0\n2 516700 0 0 0 0\npool 600000 25000\n";
    assert_eq!(lines(&file), printed);
    let moved = dealt_with_all_six(&file, 5);
    assert_eq!(lines(&moved), printed);
    // The All-Six card is 2c: with it seat 1 has a royal flush, seat 2 a
    // straight flush.
    let mut wagered = moved;
    wagered[26] = 7;
    wagered[42] = 100;
    let printed = "1 2183300 20500 10500 0 700700\n2 516700 0 0 0 2010000\npool 600000 25000\n";
    assert_eq!(lines(&wagered), printed);
}

/// A held round has the All-Six table and wagers, and writes them again.
#[test]
fn held_and_written() {
    let generator = Generator::new(43);
    for place in 0..2_000 {
        let made = generator.make(place);
        if made.damage.is_some() {
            continue;
        }
        let held = Held::led_to(&made.file).unwrap();
        assert_eq!(held.table[6], made.file[7]);
        for seat in &made.draft.seats {
            let wager = held.wagers[4][usize::from(seat.number) - 1];
            assert_eq!(usize::from(wager), seat.sides[3]);
        }
        let records = 1 + made.draft.seats.len();
        let own = held.own_records().concat();
        assert_eq!(own[..records * RECORD], made.file[..records * RECORD]);
        assert_eq!(held.settle(), Ok(paid(&made.file)));
    }
}
