//! Held rounds made by hand: which of them may be held, and the items that are
//! made of the base rounds.
//!
//! The places in a held round's 158 bytes: table 0 to 6; antes from 7, Board
//! wagers from 21, Pocket from 35, Lo Ball from 49, All-Six from 63, two bytes a
//! seat; cards from 77; deck parts read 129; raises from 130, seven a street;
//! folds from 151.

use oracle::handmade::bases::{all, Base};
use oracle::handmade::{items, items_of, push_line, Item, ITEM};
use oracle::held::{Held, Step};
use oracle::writing::file_of;

fn base(name: &str) -> Base {
    let found = all().into_iter().find(|base| base.name == name);
    found.unwrap_or_else(|| panic!("no base round '{name}'"))
}

/// A base round with the bytes at some places changed.
fn changed(name: &str, changes: &[(usize, u8)]) -> Held {
    let mut bytes = base(name).held.bytes();
    for &(at, value) in changes {
        bytes[at] = value;
    }
    Held::from_bytes(&bytes)
}

fn line(item: &Item) -> String {
    let mut out = Vec::new();
    push_line(&mut out, item);
    String::from_utf8(out).unwrap()
}

#[test]
fn the_bytes_of_a_round_in_play() {
    let numbers = |list: &[u8]| -> Vec<u8> { list.iter().flat_map(|&low| [low, 0]).collect() };
    let mut expected = vec![15, 25, 1, 2, 1, 3, 0];
    expected.extend(numbers(&[25, 0, 15, 20, 0, 16, 15]));
    expected.extend(numbers(&[25, 0, 0, 0, 0, 1, 0]));
    expected.extend(numbers(&[0, 0, 0, 0, 0, 2, 24]));
    expected.extend(numbers(&[25, 0, 5, 0, 0, 3, 0]));
    expected.extend(numbers(&[0; 7]));
    // Each card is five above the one before it, counted round the deck.
    expected.extend((1..=52).map(|place| (5 * place % 52) as u8));
    expected.push(4);
    // Seat 3 folded on street one, seat 7 on street two. Seats 1 and 4 have
    // still to choose on street two.
    expected.extend([3, 0, 0, 1, 0, 2, 1]);
    expected.extend([0, 0, 0, 0, 0, 3, 0]);
    expected.extend([0; 7]);
    expected.extend([0, 0, 1, 0, 0, 0, 2]);
    assert_eq!(base("street two").held.bytes()[..], expected);
}

#[test]
fn high_bytes_come_second() {
    let held = changed("street two", &[(7, 1), (8, 2), (62, 255), (63, 5), (76, 9)]);
    assert_eq!(held.wagers[0][0], 256 * 2 + 1);
    assert_eq!(held.wagers[3][6], 256 * 255);
    assert_eq!(held.wagers[4], [5, 0, 0, 0, 0, 0, 256 * 9]);
}

#[test]
fn each_base_round_is_held_and_comes_back() {
    for base in all() {
        assert!(base.held.is_held(), "{}", base.name);
        let bytes = base.held.bytes();
        assert_eq!(Held::from_bytes(&bytes), base.held, "{}", base.name);
        assert_eq!(Held::from_bytes(&bytes).bytes(), bytes, "{}", base.name);
    }
    assert_eq!(base("the fresh round").held.bytes(), [0; 158]);
}

/// The numbers of records that led to the base rounds: none of them was
/// refused.
#[test]
fn each_base_round_has_come_as_far_as_meant() {
    let counts: Vec<usize> = (all().iter())
        .map(|base| base.held.own_records().len())
        .collect();
    assert_eq!(counts, [0, 1, 4, 6, 7, 8, 9, 13, 17, 20, 17, 14, 12]);
}

#[test]
fn each_base_round_takes_its_record_unless_finished() {
    for base in all() {
        let step = base.held.take(&base.record);
        if base.name.starts_with("finished") {
            assert_eq!(base.record[0], 4, "a choice");
            assert_eq!(step, Step::Refused(3), "{}", base.name);
            assert!(base.held.settle().is_ok());
        } else {
            assert!(matches!(step, Step::Next(_)), "{}", base.name);
            assert_eq!(base.held.settle(), Err(16));
        }
    }
}

/// The seat that comes next wagers on All-Six.
#[test]
fn a_seat_comes_to_a_table_without_all_six() {
    let table = base("a table");
    assert_eq!(table.record[10..12], [100, 0]);
    for six in 1..=5 {
        let step = changed("a table", &[(6, six)]).take(&table.record);
        assert!(matches!(step, Step::Next(_)), "{six}");
    }
    let step = changed("a table", &[(6, 0)]).take(&table.record);
    assert_eq!(step, Step::Refused(9));
}

/// The board is Th Jh Qh, a straight flush at 40. Seat 1 has a royal flush on
/// 20 × 10 = 200 dollars and A-K suited at 20, seat 2 a straight flush on
/// 30 × 7 = 210, seat 5 three queens on 12 × 5 = 60 at 3 and a pair at 5. Of
/// 100,000 and 21,000 under 50,000 are paid 41,322 and 8,677 rounded down, with
/// 38,000 and 83,000 parts in 121,000 over: seat 2 has the dollar left.
#[test]
fn the_finished_round_without_a_fold() {
    let paid = "take refused 3 settle paid 4152200 20500 10500 0 0 888800 0 0 0 0 \
                0 0 0 0 0 0 0 0 0 0 24000 0 35400 0 0 0 0 0 0 0 0 0 0 0 0 \
                pool 121000 50000 write ";
    assert!(line(&items_of(&base("finished, no fold"))[0]).starts_with(paid));
}

/// The board is 4h 9h Jh, a flush at 4. Seat 3 has aces at 30, seat 5 jack
/// high at 1, seat 7 a pair at 5. With the All-Six card Ah seat 3 has three aces
/// at 8 on 99, seat 5 ace high.
#[test]
fn the_finished_round_in_which_all_folded() {
    let paid = "take refused 3 settle paid 0 0 0 0 0 0 0 0 0 0 0 5000 306900 0 89100 \
                0 0 0 0 0 0 0 0 4000 0 0 0 0 0 0 0 500 58800 0 0 pool 0 0 write ";
    assert!(line(&items_of(&base("finished, all folded"))[0]).starts_with(paid));
}

/// The board is Td Qd Ad, a flush at 3, the All-Six card Jd. Seat 2 has Kd 9d
/// and folded: the six-card royal of diamonds at 200,000 on 100. Seat 6 has
/// three aces: 10 × 4 = 40 dollars at 3, and All-Six at 5 on 1.
#[test]
fn the_finished_round_with_a_six_card_royal() {
    let paid = "take refused 3 settle paid 0 0 0 0 0 0 0 0 0 2000010000 \
                0 0 0 0 0 0 0 0 0 0 0 0 0 0 0 16000 400 0 0 600 0 0 0 0 0 pool 0 0 write ";
    assert!(line(&items_of(&base("finished, six-card royal"))[0]).starts_with(paid));
}

/// A fresh round has no other that a single byte leads to: a table has six
/// numbers that aren't 0, and all else follows the table.
#[test]
fn every_single_byte_change_of_the_fresh_round_is_17() {
    let fresh = base("the fresh round");
    for at in 0..158 {
        for value in 1..=255 {
            let mut bytes = [0; 158];
            bytes[at] = value;
            let held = Held::from_bytes(&bytes);
            assert!(!held.is_held(), "{value} at {at}");
            assert_eq!(held.take(&fresh.record), Step::Refused(17));
            assert_eq!(held.settle(), Err(17));
            assert_eq!(file_of(&held), Err(17));
        }
    }
}

type Case<'a> = (&'a str, &'a str, &'a [(usize, u8)]);

#[rustfmt::skip]
const STILL_HELD: &[Case] = &[
    ("another smallest ante", "a table", &[(0, 15)]),
    ("another largest ante", "a table", &[(1, 25)]),
    ("another base table", "street two", &[(2, 5)]),
    ("another Lo Ball table", "finished, no fold", &[(3, 2)]),
    ("another Board table", "two deck parts", &[(4, 1)]),
    ("another Pocket table", "a whole deck", &[(5, 3)]),
    ("another All-Six table", "finished, six-card royal", &[(6, 1)]),
    ("All-Six table 5", "a whole deck", &[(6, 5)]),
    ("All-Six not offered, before any wager", "a table", &[(6, 0)]),
    ("All-Six offered, nobody wagers", "street two", &[(6, 5)]),
    ("All-Six offered in a finished round", "finished, no fold", &[(6, 1)]),
    ("All-Six wager at the largest ante", "finished, six-card royal", &[(73, 100)]),
    ("All-Six wager taken away", "finished, six-card royal", &[(65, 0)]),
    ("All-Six wager placed", "finished, all folded", &[(75, 99)]),
    ("All-Six offered and a wager placed", "street two", &[(6, 2), (63, 25)]),
    ("All-Six not offered, the wagers gone", "finished, all folded", &[(6, 0), (67, 0), (71, 0)]),
    ("largest ante above all wagers", "street two", &[(1, 26)]),
    ("ante at the lower limit", "street two", &[(7, 15)]),
    ("ante between the limits", "finished, all folded", &[(19, 77)]),
    ("side wager taken away", "street two", &[(21, 0)]),
    ("side wager at the largest ante", "finished, no fold", &[(21, 60)]),
    ("a first seat", "a table", &[(13, 5)]),
    ("a seat more", "seats", &[(7, 100)]),
    ("a seat more after the deck", "a whole deck", &[(19, 100)]),
    ("a seat more on street one", "street one", &[(9, 15)]),
    ("a seat less", "a whole deck", &[(13, 0)]),
    ("a seat less, still to choose", "street one", &[(13, 0)]),
    ("another card", "two deck parts", &[(77, 51)]),
    ("two cards changed round", "finished, no fold", &[(77, 46), (78, 50)]),
    ("one part less", "two deck parts", &[
        (129, 1), (90, 0), (91, 0), (92, 0), (93, 0), (94, 0), (95, 0), (96, 0), (97, 0), (98, 0),
        (99, 0), (100, 0), (101, 0), (102, 0)]),
    ("a raise of 1", "a whole deck", &[(130 + 1, 1)]),
    ("a raise of 2", "street two", &[(130, 2)]),
    ("a raise of 3", "street two", &[(130 + 7, 3)]),
    ("the last raise of 1", "finished, no fold", &[(130 + 14, 1)]),
    ("a last raise taken back", "finished, no fold", &[(130 + 18, 0)]),
    ("a raise on street one taken back", "street one", &[(130 + 5, 0)]),
    ("a fold on street one", "a whole deck", &[(151 + 5, 1)]),
    ("a fold on street two", "street two", &[(151, 2)]),
    ("a fold for the last raise", "finished, no fold", &[(130 + 14, 0), (151, 3)]),
    ("a last fold taken back", "finished, all folded", &[(151 + 4, 0)]),
    ("a raise for the last fold", "finished, all folded", &[(151 + 4, 0), (130 + 18, 2)]),
];

#[test]
fn changes_that_are_still_held() {
    for (what, name, changes) in STILL_HELD {
        assert!(changed(name, changes).is_held(), "{what}");
    }
}

#[rustfmt::skip]
const NOT_HELD: &[Case] = &[
    ("smallest ante 4", "a table", &[(0, 4)]),
    ("smallest ante 16", "a table", &[(0, 16)]),
    ("smallest ante above an ante", "finished, no fold", &[(0, 13)]),
    ("largest ante 24", "a table", &[(1, 24)]),
    ("largest ante 101", "a table", &[(1, 101)]),
    ("largest ante below a side wager", "finished, no fold", &[(1, 58)]),
    ("no base table", "a table", &[(2, 0)]),
    ("base table 6", "a table", &[(2, 6)]),
    ("Lo Ball table 3", "a table", &[(3, 3)]),
    ("Board table 5", "a table", &[(4, 5)]),
    ("Pocket table 4", "a table", &[(5, 4)]),
    ("All-Six table 6", "a table", &[(6, 6)]),
    ("All-Six table 255", "street two", &[(6, 255)]),
    ("All-Six table 6, nobody wagers", "finished, no fold", &[(6, 6)]),
    ("All-Six not offered, with wagers", "seats", &[(6, 0)]),
    ("All-Six not offered, with one wager", "finished, six-card royal", &[(6, 0), (65, 0)]),
    ("an All-Six table alone", "the fresh round", &[(6, 1)]),
    ("no table", "seats", &[(0, 0), (1, 0), (2, 0), (3, 0), (4, 0), (5, 0), (6, 0)]),
    ("no table but All-Six", "a table", &[(0, 0), (1, 0), (2, 0), (3, 0), (4, 0), (5, 0)]),
    ("ante below its limit", "finished, all folded", &[(11, 11)]),
    ("ante above its limit", "street two", &[(7, 26)]),
    ("high byte of an ante", "street two", &[(8, 1)]),
    ("high byte of a side wager", "street two", &[(22, 1)]),
    ("side wager above the largest ante", "street two", &[(61, 26)]),
    ("Board wager of an absent seat", "a table", &[(21, 1)]),
    ("Pocket wager of an absent seat", "street two", &[(37, 1)]),
    ("Lo Ball wager of an absent seat", "finished, no fold", &[(53, 1)]),
    ("All-Six wager of an absent seat", "seats", &[(63, 1)]),
    ("All-Six wager of an absent seat, before any", "a table", &[(65, 1)]),
    ("All-Six wager above the largest ante", "finished, all folded", &[(75, 100)]),
    ("high byte of an All-Six wager", "finished, all folded", &[(76, 1)]),
    ("All-Six wager of 1, not offered", "street two", &[(63, 1)]),
    ("All-Six wager of the largest ante, not offered", "finished, no fold", &[(63, 60)]),
    ("All-Six wager above it, not offered", "finished, no fold", &[(63, 61)]),
    ("high byte of an All-Six wager, not offered", "street two", &[(64, 1)]),
    ("side wagers left without an ante", "seats", &[(9, 0)]),
    ("a seat more on street two", "street two", &[(9, 15)]),
    ("a seat more in a finished round", "finished, no fold", &[(11, 10)]),
    ("a seat less that has chosen", "street two", &[(13, 0)]),
    ("a seat less that folded", "finished, all folded", &[(11, 0), (25, 0), (39, 0)]),
    ("repeated card in the part", "two deck parts", &[(77, 3)]),
    ("repeated card of another part", "two deck parts", &[(77, 0)]),
    ("repeated card of a whole deck", "finished, no fold", &[(128, 50)]),
    ("card 52", "two deck parts", &[(77, 52)]),
    ("card 255", "a whole deck", &[(128, 255)]),
    ("card beyond the parts read", "two deck parts", &[(103, 27)]),
    ("last card beyond the parts read", "two deck parts", &[(128, 2)]),
    ("card without a part", "seats", &[(77, 1)]),
    ("a fifth part", "a whole deck", &[(129, 5)]),
    ("part 255", "a whole deck", &[(129, 255)]),
    ("parts that have not come", "two deck parts", &[(129, 4)]),
    ("a part not counted", "two deck parts", &[(129, 1)]),
    ("cards not counted", "two deck parts", &[(129, 0)]),
    ("a part without seats", "a table", &[(129, 1)]),
    ("a raise of 4", "street two", &[(130, 4)]),
    ("a raise of 255", "street two", &[(130, 255)]),
    ("a raise of an absent seat", "street two", &[(130 + 1, 1)]),
    ("a raise before the deck is whole", "two deck parts", &[(130 + 1, 1)]),
    ("a raise before the table", "the fresh round", &[(130, 1)]),
    ("a raise on street two ahead of it", "street one", &[(130 + 7, 1)]),
    ("a raise on street three ahead of it", "street two", &[(130 + 14 + 5, 1)]),
    ("a raise on street two alone", "a whole deck", &[(130 + 7 + 1, 1)]),
    ("a raise missing on street one", "street two", &[(130, 0)]),
    ("a raise missing on street two", "finished, no fold", &[(130 + 7, 0)]),
    ("a raise on the street of the fold", "street two", &[(130 + 2, 1)]),
    ("a raise after the fold", "street two", &[(130 + 7 + 2, 1)]),
    ("a raise after all have folded", "finished, all folded", &[(130 + 14 + 2, 1)]),
    ("a fold on the street of a raise", "street two", &[(151, 1)]),
    ("a fold on the last raise's street", "finished, no fold", &[(151, 3)]),
    ("a fold without raises before it", "a whole deck", &[(151 + 1, 2)]),
    ("a fold without the second raise", "finished, all folded", &[(151 + 6, 3)]),
    ("a fold on street two ahead of it", "street one", &[(151, 2)]),
    ("a fold on street 4", "finished, all folded", &[(151 + 4, 4)]),
    ("a fold of an absent seat", "street two", &[(151 + 1, 1)]),
    ("a fold of an absent seat on street 255", "street two", &[(151 + 1, 255)]),
    ("a fold before the deck", "seats", &[(151 + 1, 1)]),
    ("a fold taken back too late", "street two", &[(151 + 2, 0)]),
];

#[test]
fn changes_that_are_17() {
    for (what, name, changes) in NOT_HELD {
        let held = changed(name, changes);
        assert!(!held.is_held(), "{what}");
        assert_eq!(held.take(&base(name).record), Step::Refused(17), "{what}");
        assert_eq!(held.settle(), Err(17), "{what}");
        assert_eq!(file_of(&held), Err(17), "{what}");
    }
}

/// "One record: 17, 2, then the rest."
#[test]
fn refusal_2_stands_between_17_and_the_rest() {
    let base = base("finished, no fold");
    let fifteen = &base.record[..15];
    let seventeen = [&base.record[..], &[0]].concat();
    for record in [&[][..], fifteen, &seventeen] {
        assert_eq!(base.held.take(record), Step::Refused(2));
        let no_round = changed(base.name, &[(129, 5)]);
        assert_eq!(no_round.take(record), Step::Refused(17));
    }
}

/// Each count begins with the base round itself. Where a number is at a limit,
/// its neighbour beyond it and the other values outside fall away; side wagers
/// of absent seats and high bytes have no other value, nor have All-Six wagers
/// where it isn't offered; a card of a whole deck has none, since all others lie
/// in it.
#[test]
fn how_many_items_are_held() {
    let counts = [
        // Nothing but a whole table leads away from the fresh round.
        ("the fresh round", 1),
        // Table 5, 100, 5, 1, 4, 2, 2: smallest ante 6, 15; largest 99, 25; base
        // table 4, 1; Lo Ball 2; Board 3, 1; Pocket 3, 1; All-Six 0, 1, 3, 4, 5.
        // Each of seven seats with an ante of 5 or 100.
        ("a table", 1 + 16 + 7 * 2),
        // With antes of 5 and 100 no other limit fits, and with All-Six wagers
        // it is offered: eleven table numbers. Antes: two for each of four
        // absent seats; 6, 100 for seat 2; 99, 5 and none for seat 4; 51, 49, 5,
        // 100 for seat 5. Side wagers, seat by seat: two for 0 and for 100,
        // three for 1 and for 99.
        ("seats", 1 + 11 + (8 + 2 + 3 + 4) + (9 + 8 + 11)),
        // Seat 6 is no longer absent: its ante 21, 19, 5, 100, nine side
        // wagers. Read are the odd cards to 13 and the even ones from 28 to
        // 38. None of those one above or one below is among them. The lowest
        // unread is 0, counted already for 1.
        (
            "one deck part",
            1 + 11 + (6 + 2 + 3 + 4 + 4) + (28 + 9) + (13 + 13 + 12),
        ),
        // Read are the odd cards to 25, the even ones from 28, and 0. One
        // above: 13 + 12 of these are unread. One below: 12 + 12. The lowest
        // unread is 2, counted already for 1 and 3.
        (
            "two deck parts",
            1 + 11 + (6 + 2 + 3 + 4 + 4) + (28 + 9) + (25 + 24 + 24),
        ),
        // Unread are the even cards from 14 to 26 and the odd ones from 41.
        // One above: 7 + 6 of these are unread. One below: 7 + 5. The lowest
        // unread is 14, counted already for 13 and 15.
        (
            "three deck parts",
            1 + 11 + (6 + 2 + 3 + 4 + 4) + (28 + 9) + (13 + 12 + 37),
        ),
        // No card, but three raises and a fold for each of four seats.
        ("a whole deck", 1 + 11 + 19 + 37 + 4 * 3 + 4),
        // Table 15, 25, 1, 2, 1, 3, 0: 14, 5; 26, 100; 2, 5; 1; 2, 4; 2, 1; and
        // All-Six 1 to 5. Antes: two for seats 2 and 5 each, which are absent,
        // and 2, 2, 5, 3, 2 for the others; seat 4 may leave. Side wagers, seat
        // by seat: two for 0 and 25, three for 1 and 24, four for 2, 3 and 5.
        // Raises, on street one alone: two others or none for seats 1 and 6,
        // three for seats 4 and 7. Seat 3 has not folded, or 4 or 7 has.
        (
            "street one",
            1 + 16 + (4 + 14) + (6 + 8 + 6 + 11 + 7) + 4 * 3 + 3,
        ),
        // No seat comes or leaves. Raises: two others for four seats on street
        // one; on street two three for seats 1 and 4, two or none for seat 6.
        // Seat 7 has not folded, or 1 or 4 has.
        ("street two", 1 + 16 + 13 + 38 + 4 * 2 + 3 * 3 + 3),
        // Raises: two others for four seats on street one and for three on
        // street two; on street three three for seats 1 and 6. Seat 4 has not
        // folded, or 1 or 6 has.
        ("street three", 1 + 16 + 13 + 38 + 4 * 2 + 3 * 2 + 2 * 3 + 3),
        // Table 10, 60, 2, 1, 2, 1, 0: 11, 9, 5; 61, 59, 100; 3, 1, 5; 2; 3, 1,
        // 4; 2, 3; All-Six 1 to 5. Four antes for each seat. Side wagers: two
        // for 0, three for 59, four for 5 and 10. Two other raises on each
        // street, and on street three none.
        (
            "finished, no fold",
            1 + 20 + 3 * 4 + (10 + 10 + 7) + 9 * 2 + 3,
        ),
        // Table 12, 99, 4, 2, 3, 2, 3: 13, 11, 5; 100; 5, 3, 1; 1; 4, 2, 1; 3,
        // 1; All-Six 1, 2, 4, 5. Antes: 14, 12, 99; 98, 12; 41, 39, 12, 99. Side
        // wagers: two for 0 and 99, three for 1 and 98, four for the others.
        // Two for each of three raises. Seat 5 alone may not have folded.
        (
            "finished, all folded",
            1 + 17 + (3 + 2 + 4) + (10 + 12 + 12) + 3 * 2 + 1,
        ),
        // Table 5, 100, 1, 1, 1, 1, 5: with an ante of 5 and a wager of 100 no
        // other limit; 2, 5; 2; 2, 4; 2, 3; All-Six 1 to 4. Antes: 6, 100; 11,
        // 9, 5, 100. Side wagers: two for 0 and 100, three for 1. Two others
        // for each of four raises, and none for the last. The fold stands.
        (
            "finished, six-card royal",
            1 + 11 + (2 + 4) + (8 + 10) + 4 * 2 + 1,
        ),
    ];
    for (base, (name, count)) in all().iter().zip(counts) {
        let is_held = |item: &&Item| Held::from_bytes(&item.held).is_held();
        assert_eq!(base.name, name);
        assert_eq!(
            items_of(base).iter().filter(is_held).count(),
            count,
            "{name}"
        );
    }
    assert_eq!(all().len(), counts.len());
}

#[test]
fn each_byte_of_each_base_round_is_changed() {
    for base in all() {
        let items = items_of(&base);
        let unchanged = items[0].held;
        assert_eq!(unchanged, base.held.bytes(), "{}", base.name);
        for at in 0..158 {
            let value = unchanged[at];
            for other in [value.wrapping_add(1), value.wrapping_sub(1), 0, 255] {
                let mut held = unchanged;
                held[at] = other;
                assert!(items.iter().any(|item| item.held == held));
            }
        }
        for item in &items[1..] {
            let places = (0..158).filter(|&at| item.held[at] != unchanged[at]);
            assert_eq!(places.count(), 1, "{}", base.name);
            assert_eq!(item.record, base.record);
        }
    }
}

#[test]
fn no_item_comes_twice() {
    let mut sorted = items();
    let count = sorted.len();
    sorted.sort_unstable();
    sorted.dedup();
    assert_eq!(sorted.len(), count);
}

#[test]
fn the_stream_and_its_answers_are_short() {
    let items = items();
    assert!(items.len() * ITEM < 1_300_000, "{}", items.len());
    let answers: usize = items.iter().map(|item| line(item).len()).sum();
    assert!(answers < 900_000, "{answers}");
}

/// A line without its amounts and records.
fn shape(line: &str) -> String {
    let (answers, written) = line.trim_end().split_once(" write ").unwrap();
    let answers = answers.split(" paid").next().unwrap();
    match written.strip_prefix("refused ") {
        Some(number) => format!("{answers} write refused {number}"),
        None => format!("{answers} write"),
    }
}

/// Every answer comes that a single byte can bring about.
#[test]
fn the_answers_that_come() {
    let mut answers: Vec<String> = items().iter().map(|item| shape(&line(item))).collect();
    answers.sort_unstable();
    answers.dedup();
    let expected = [
        "take finished settle refused 16 write",
        "take next settle refused 16 write",
        "take next settle refused 16 write refused 16",
        "take refused 11 settle refused 16 write",
        "take refused 13 settle refused 16 write",
        "take refused 14 settle refused 16 write",
        "take refused 15 settle refused 16 write",
        "take refused 17 settle refused 17 write refused 17",
        "take refused 3 settle write",
        "take refused 7 settle refused 16 write",
        "take refused 8 settle refused 16 write",
        "take refused 9 settle refused 16 write",
    ];
    assert_eq!(answers, expected);
}
