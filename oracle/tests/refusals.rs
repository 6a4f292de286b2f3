//! Each refusal 2 to 16, in each way, with its number and its place, on a
//! round written by hand.

mod common;

use common::ROUND;
use oracle::answer::lines;
use oracle::settle::{refused_part, settle, Answer};
use oracle::text::pack;

const SEVEN: &str = "seat 7 ante 10 board 0 pocket 0 lo 0";
const SIX: &str = "seat 6 ante 10 board 0 pocket 0 lo 0";
const THREE: &str = "seat 3 ante 10 board 0 pocket 0 lo 0";
const ONE: &str = "seat 1 ante 10 board 0 pocket 0 lo 0";
const EIGHT: &str = "seat 8 ante 10 board 0 pocket 0 lo 0";
const BAD_SEAT: &str = "seat 2 ante 9 board 51 pocket 0 lo 0";

enum Edit {
    /// Put the line in the place of the record.
    Set(usize, &'static str),
    /// Put the line before the record.
    Insert(usize, &'static str),
    Remove(usize),
    /// Keep so many records only.
    Cut(usize),
    /// One byte of a record.
    Byte(usize, usize, u8),
    /// Odd bytes at the end.
    Odd(usize),
}

use Edit::{Byte, Cut, Insert, Odd, Remove, Set};

fn edited(edits: &[Edit]) -> Vec<u8> {
    let record = |line| pack(line).unwrap();
    let mut records: Vec<Vec<u8>> = ROUND.iter().copied().map(record).collect();
    for edit in edits {
        match *edit {
            Set(place, line) => records[place] = record(line),
            Insert(place, line) => records.insert(place, record(line)),
            Remove(place) => drop(records.remove(place)),
            Cut(count) => records.truncate(count),
            Byte(place, at, byte) => records[place][at] = byte,
            Odd(count) => records.push(vec![4; count]),
        }
    }
    records.concat()
}

type Case<'a> = (&'a str, u8, usize, &'a [Edit]);

fn check(cases: &[Case]) {
    for (way, number, place, edits) in cases {
        let file = edited(edits);
        let expected = Answer::Refused {
            number: *number,
            place: *place,
        };
        assert_eq!(settle(&file), expected, "{way}");
        assert_eq!(lines(&file), format!("refused {number} at {place}\n"));
        check_part(way, *number, *place, &file);
    }
}

fn check_part(way: &str, number: u8, place: usize, file: &[u8]) {
    let (begin, part) = refused_part(file);
    let (from, to) = match number {
        2 => (16 * place, file.len()),
        16 => (file.len(), file.len()),
        _ => (16 * place, 16 * place + 16),
    };
    assert_eq!(begin, from, "{way}");
    assert_eq!(part, &file[from..to], "{way}");
    assert!(file.as_ptr_range().contains(&part.as_ptr()) || part.is_empty());
}

#[test]
fn the_round_is_accepted() {
    // Seat 2 holds 2d 2h, seat 4 2s 3c, seat 5 3d 3h; the board is 3s 4c 4d.
    // Seat 4 has two pair on 50 × (1 + 3 + 1 + 2) = 350 dollars at 3/2.
    let printed = "2 0 0 30000 0 0\n4 87500 10000 0 0 0\n5 0 0 0 0 0\npool 0 0\n";
    assert_eq!(lines(&edited(&[])), printed);
}

#[rustfmt::skip]
const REFUSAL_2: &[Case] = &[
    ("one odd byte", 2, 14, &[Odd(1)]),
    ("fifteen odd bytes", 2, 14, &[Odd(15)]),
    ("after a faulty record", 2, 14, &[Byte(0, 0, 0), Odd(3)]),
    ("after many faulty records", 2, 14, &[Byte(3, 10, 1), Byte(0, 1, 0), Odd(8)]),
    ("a file of one byte", 2, 0, &[Cut(0), Odd(1)]),
    ("a file of fifteen bytes", 2, 0, &[Cut(0), Odd(15)]),
    ("an unfinished round", 2, 9, &[Cut(9), Odd(7)]),
    ("after the finish", 2, 15, &[Insert(14, "choice 4 fold"), Odd(7)]),
];

#[test]
fn refusal_2() {
    check(REFUSAL_2);
}

#[test]
fn refusal_2_beyond_34_records() {
    let mut file = edited(&[]);
    file.extend_from_slice(&[0; 16 * 100 + 5]);
    assert_eq!(lines(&file), "refused 2 at 114\n");
    assert_eq!(refused_part(&file), (114 * 16, &[0; 5][..]));
    file.truncate(114 * 16);
    assert_eq!(lines(&file), "refused 3 at 14\n");
    assert_eq!(refused_part(&file), (14 * 16, &[0; 16][..]));
}

#[rustfmt::skip]
const REFUSAL_3_KINDS_AND_TABLES: &[Case] = &[
    ("kind 0", 3, 5, &[Byte(5, 0, 0)]),
    ("kind 5", 3, 9, &[Byte(9, 0, 5)]),
    ("kind 255", 3, 0, &[Byte(0, 0, 255)]),
    ("first a seat", 3, 0, &[Remove(0)]),
    ("first a deck part", 3, 0, &[Set(0, ROUND[4])]),
    ("first a choice", 3, 0, &[Set(0, ROUND[8])]),
    ("second table after the table", 3, 1, &[Insert(1, ROUND[0])]),
    ("second table among the seats", 3, 2, &[Insert(2, ROUND[0])]),
    ("second table before the deck", 3, 4, &[Insert(4, ROUND[0])]),
    ("second table in the deck", 3, 5, &[Insert(5, ROUND[0])]),
    ("second table before the choices", 3, 8, &[Insert(8, ROUND[0])]),
    ("second table among the choices", 3, 12, &[Insert(12, ROUND[0])]),
    ("second table after the finish", 3, 14, &[Insert(14, ROUND[0])]),
];

#[test]
fn refusal_3_kinds_and_tables() {
    check(REFUSAL_3_KINDS_AND_TABLES);
}

#[rustfmt::skip]
const REFUSAL_3_ORDER: &[Case] = &[
    ("deck part after the table", 3, 1, &[Insert(1, ROUND[4])]),
    ("no seat at all", 3, 1, &[Remove(3), Remove(2), Remove(1)]),
    ("seat in the deck", 3, 5, &[Insert(5, ROUND[3])]),
    ("seat before part 3", 3, 7, &[Insert(7, "seat 6 ante 10 board 0 pocket 0 lo 0")]),
    ("seat after the deck", 3, 8, &[Insert(8, ROUND[3])]),
    ("seat among the choices", 3, 10, &[Insert(10, ROUND[1])]),
    ("fifth deck part", 3, 8, &[Insert(8, ROUND[7])]),
    ("deck part among the choices", 3, 11, &[Insert(11, ROUND[4])]),
    ("choice after the table", 3, 1, &[Insert(1, ROUND[9])]),
    ("choice before the deck", 3, 4, &[Insert(4, ROUND[9])]),
    ("choice before part 3", 3, 7, &[Insert(7, ROUND[9])]),
    ("seat after the finish", 3, 14, &[Insert(14, ROUND[1])]),
    ("deck part after the finish", 3, 14, &[Insert(14, ROUND[4])]),
    ("choice after the finish", 3, 14, &[Insert(14, ROUND[13])]),
    ("zeros after the finish", 3, 14, &[Insert(14, "bytes 00 00 00 00 00 00 00 00 00 00 00 00 00 00 00 00")]),
    ("after all have folded", 3, 11, &[Set(9, "choice 2 fold"), Set(10, "choice 4 fold")]),
];

#[test]
fn refusal_3_order() {
    check(REFUSAL_3_ORDER);
}

#[test]
fn refusal_4_each_byte() {
    let kinds = [
        (0, 8..16),
        (1, 12..16),
        (3, 12..16),
        (4, 15..16),
        (7, 15..16),
        (8, 3..16),
        (13, 3..16),
    ];
    for (place, bytes) in kinds {
        for at in bytes {
            for byte in [1, 128, 255] {
                let file = edited(&[Byte(place, at, byte)]);
                assert_eq!(lines(&file), format!("refused 4 at {place}\n"));
            }
        }
    }
}

#[test]
fn refusals_5_and_6() {
    for (at, byte) in [
        (1, 0),
        (1, 4),
        (1, 16),
        (1, 255),
        (2, 0),
        (2, 24),
        (2, 101),
        (2, 255),
    ] {
        assert_eq!(lines(&edited(&[Byte(0, at, byte)])), "refused 5 at 0\n");
    }
    for (at, tables) in [(3, 5), (4, 2), (5, 4), (6, 3)] {
        for byte in [0, tables + 1, 255] {
            assert_eq!(lines(&edited(&[Byte(0, at, byte)])), "refused 6 at 0\n");
        }
        for byte in 1..=tables {
            assert!(lines(&edited(&[Byte(0, at, byte)])).ends_with("pool 0 0\n"));
        }
    }
}

#[rustfmt::skip]
const REFUSAL_7: &[Case] = &[
    ("seat 0", 7, 1, &[Byte(1, 1, 0)]),
    ("seat 8", 7, 3, &[Byte(3, 1, 8)]),
    ("seat 255", 7, 2, &[Byte(2, 1, 255)]),
    ("equal to the one before", 7, 2, &[Byte(2, 1, 2)]),
    ("below the one before", 7, 3, &[Byte(3, 1, 3)]),
    ("after seat 7", 7, 5, &[Insert(4, SEVEN), Insert(5, SIX)]),
    ("seat 7 twice", 7, 5, &[Insert(4, SEVEN), Insert(5, SEVEN)]),
    ("an eighth", 7, 8, &[Insert(4, SIX), Insert(5, SEVEN), Insert(2, THREE), Insert(1, ONE), Insert(8, EIGHT)]),
    ("an eighth with number 7", 7, 8, &[Insert(4, SIX), Insert(5, SEVEN), Insert(2, THREE), Insert(1, ONE), Insert(8, SEVEN)]),
    ("an eighth with a byte that must be zero", 4, 8, &[Insert(4, SIX), Insert(5, SEVEN), Insert(2, THREE), Insert(1, ONE), Insert(8, SEVEN), Byte(8, 12, 1)]),
    ("choice by seat 0", 7, 8, &[Byte(8, 1, 0)]),
    ("choice by seat 8", 7, 11, &[Byte(11, 1, 8)]),
    ("choice by seat 255", 7, 13, &[Byte(13, 1, 255)]),
];

#[test]
fn refusal_7() {
    check(REFUSAL_7);
}

#[rustfmt::skip]
const REFUSALS_8_AND_9: &[Case] = &[
    ("one below", 8, 1, &[Set(1, "seat 2 ante 9 board 0 pocket 50 lo 1")]),
    ("one above", 8, 2, &[Set(2, "seat 4 ante 51 board 50 pocket 0 lo 0")]),
    ("zero", 8, 3, &[Set(3, "seat 5 ante 0 board 0 pocket 0 lo 50")]),
    ("256 + 10", 8, 1, &[Set(1, "seat 2 ante 266 board 0 pocket 50 lo 1")]),
    ("65535", 8, 1, &[Set(1, "seat 2 ante 65535 board 0 pocket 50 lo 1")]),
    ("board one above", 9, 2, &[Set(2, "seat 4 ante 50 board 51 pocket 0 lo 0")]),
    ("pocket one above", 9, 2, &[Set(2, "seat 4 ante 50 board 0 pocket 51 lo 0")]),
    ("lo one above", 9, 2, &[Set(2, "seat 4 ante 50 board 0 pocket 0 lo 51")]),
    ("board 256", 9, 2, &[Set(2, "seat 4 ante 50 board 256 pocket 0 lo 0")]),
    ("pocket 256", 9, 2, &[Set(2, "seat 4 ante 50 board 0 pocket 256 lo 0")]),
    ("lo 256", 9, 2, &[Set(2, "seat 4 ante 50 board 0 pocket 0 lo 256")]),
    ("board 65535", 9, 2, &[Set(2, "seat 4 ante 50 board 65535 pocket 0 lo 0")]),
    ("pocket 65535", 9, 2, &[Set(2, "seat 4 ante 50 board 0 pocket 65535 lo 0")]),
    ("lo 65535", 9, 2, &[Set(2, "seat 4 ante 50 board 0 pocket 0 lo 65535")]),
];

#[test]
fn refusals_8_and_9() {
    check(REFUSALS_8_AND_9);
}

const OFFERED: &str = "table 10 50 base 1 lo 1 board 1 pocket 1 six 5";

/// "6 for table byte 7 above 5."
#[test]
fn the_all_six_table() {
    for byte in 0..=5 {
        let printed = lines(&edited(&[Byte(0, 7, byte)]));
        assert!(printed.ends_with("pool 0 0\n"), "{byte}: {printed}");
    }
    for byte in 6..=255 {
        assert_eq!(lines(&edited(&[Byte(0, 7, byte)])), "refused 6 at 0\n");
    }
}

/// "9 also for a wager where it isn't offered": "also above the largest ante".
#[rustfmt::skip]
const ALL_SIX_WAGERS: &[Case] = &[
    ("1 where it isn't offered", 9, 2, &[Set(2, "seat 4 ante 50 board 50 pocket 0 lo 0 six 1")]),
    ("the largest ante where it isn't offered", 9, 1, &[Set(1, "seat 2 ante 10 board 0 pocket 50 lo 1 six 50")]),
    ("one above where it isn't offered", 9, 3, &[Set(3, "seat 5 ante 20 board 0 pocket 0 lo 50 six 51")]),
    ("256 where it isn't offered", 9, 3, &[Set(3, "seat 5 ante 20 board 0 pocket 0 lo 50 six 256")]),
    ("65535 where it isn't offered", 9, 3, &[Set(3, "seat 5 ante 20 board 0 pocket 0 lo 50 six 65535")]),
    ("low byte where it isn't offered", 9, 2, &[Byte(2, 10, 255)]),
    ("high byte where it isn't offered", 9, 2, &[Byte(2, 11, 1)]),
    ("one above", 9, 2, &[Set(0, OFFERED), Set(2, "seat 4 ante 50 board 50 pocket 0 lo 0 six 51")]),
    ("256", 9, 2, &[Set(0, OFFERED), Set(2, "seat 4 ante 50 board 50 pocket 0 lo 0 six 256")]),
    ("256 + 50", 9, 1, &[Set(0, OFFERED), Set(1, "seat 2 ante 10 board 0 pocket 50 lo 1 six 306")]),
    ("65535", 9, 3, &[Set(0, OFFERED), Set(3, "seat 5 ante 20 board 0 pocket 0 lo 50 six 65535")]),
    ("high byte", 9, 3, &[Set(0, OFFERED), Byte(3, 11, 1)]),
];

#[test]
fn all_six_wagers() {
    check(ALL_SIX_WAGERS);
    for table in 1..=5 {
        for wager in [0, 1, 49, 50] {
            let file = edited(&[Byte(0, 7, table), Byte(1, 10, wager), Byte(3, 10, wager)]);
            assert!(lines(&file).ends_with("pool 0 0\n"), "{table} {wager}");
        }
    }
}

#[rustfmt::skip]
const ALL_SIX_AND_OTHER_FAULTS: &[Case] = &[
    ("3 before 6", 3, 0, &[Byte(0, 0, 5), Byte(0, 7, 6)]),
    ("4 before 6", 4, 0, &[Byte(0, 8, 1), Byte(0, 7, 6)]),
    ("5 before 6", 5, 0, &[Byte(0, 1, 4), Byte(0, 7, 6)]),
    ("6 of another table", 6, 0, &[Byte(0, 6, 0), Byte(0, 7, 5)]),
    ("the table before the seat", 6, 0, &[Byte(0, 7, 6), Byte(1, 10, 1)]),
    ("4 before 9", 4, 1, &[Byte(1, 12, 1), Byte(1, 10, 1)]),
    ("4 at byte 15 before 9", 4, 1, &[Set(0, OFFERED), Byte(1, 15, 1), Byte(1, 11, 1)]),
    ("7 before 9", 7, 2, &[Byte(2, 1, 2), Byte(2, 10, 1)]),
    ("8 before 9", 8, 1, &[Byte(1, 2, 9), Byte(1, 10, 1)]),
    ("9 of another wager", 9, 2, &[Set(0, OFFERED), Byte(2, 4, 51), Byte(2, 10, 50)]),
    ("the first seat", 9, 1, &[Byte(1, 10, 1), Byte(2, 10, 1)]),
    ("the first record", 9, 3, &[Byte(3, 10, 1), Byte(4, 2, 52)]),
    ("a fault before 16", 9, 2, &[Byte(2, 10, 1), Cut(3)]),
    ("2 before all", 2, 14, &[Byte(0, 7, 6), Odd(1)]),
    ("an eighth seat", 7, 8, &[Insert(4, SIX), Insert(5, SEVEN), Insert(2, THREE), Insert(1, ONE), Insert(8, EIGHT), Byte(8, 10, 1)]),
    ("a second table", 3, 1, &[Insert(1, OFFERED)]),
];

#[test]
fn all_six_and_other_faults() {
    check(ALL_SIX_AND_OTHER_FAULTS);
}

#[rustfmt::skip]
const REFUSALS_10_AND_11: &[Case] = &[
    ("part 1 first", 10, 4, &[Byte(4, 1, 1)]),
    ("part 0 again", 10, 5, &[Insert(5, ROUND[4])]),
    ("part 3 for 2", 10, 6, &[Byte(6, 1, 3)]),
    ("part 4", 10, 7, &[Byte(7, 1, 4)]),
    ("part 255", 10, 4, &[Byte(4, 1, 255)]),
    ("card 52", 11, 4, &[Byte(4, 2, 52)]),
    ("card 255", 11, 7, &[Byte(7, 14, 255)]),
    ("repeat within the part", 11, 5, &[Byte(5, 3, 14)]),
    ("part 0 in part 1", 11, 5, &[Byte(5, 14, 1)]),
    ("part 0 in part 3", 11, 7, &[Byte(7, 2, 13)]),
    ("part 2 in part 3", 11, 7, &[Byte(7, 5, 27)]),
    ("card 0 again", 11, 7, &[Byte(4, 9, 0)]),
    ("card 0 twice in part 1", 11, 5, &[Byte(5, 9, 0), Byte(5, 10, 0)]),
];

#[test]
fn refusals_10_and_11() {
    check(REFUSALS_10_AND_11);
}

#[rustfmt::skip]
const REFUSALS_12_TO_15: &[Case] = &[
    ("choice 4", 12, 8, &[Byte(8, 2, 4)]),
    ("choice 255", 12, 13, &[Byte(13, 2, 255)]),
    ("choice 4 by an absent seat", 12, 9, &[Byte(9, 1, 3), Byte(9, 2, 4)]),
    ("choice 4 by a folded seat", 12, 9, &[Byte(9, 1, 5), Byte(9, 2, 4)]),
    ("choice 4 by one that has chosen", 12, 10, &[Byte(10, 1, 2), Byte(10, 2, 4)]),
    ("absent seat 1", 13, 8, &[Byte(8, 1, 1)]),
    ("absent seat 3 folds", 13, 12, &[Byte(12, 1, 3)]),
    ("absent seat 7", 13, 13, &[Byte(13, 1, 7)]),
    ("folded on this very street", 14, 9, &[Insert(9, "choice 5 raise 1")]),
    ("folds twice", 14, 9, &[Insert(9, "choice 5 fold")]),
    ("folded on street one", 14, 11, &[Insert(11, "choice 5 raise 2")]),
    ("folded on street two", 14, 13, &[Insert(13, "choice 2 fold")]),
    ("has already chosen", 15, 10, &[Insert(10, "choice 2 raise 1")]),
    ("has already chosen on street two", 15, 12, &[Insert(12, "choice 4 fold")]),
];

#[test]
fn refusals_12_to_15() {
    check(REFUSALS_12_TO_15);
}

#[test]
fn refusal_16_after_each_record() {
    for count in 0..14 {
        let file = edited(&[Cut(count)]);
        assert_eq!(lines(&file), format!("refused 16 at {count}\n"));
        assert_eq!(refused_part(&file), (16 * count, &[][..]));
    }
}

#[rustfmt::skip]
const THE_LOWEST_NUMBER_AND_THE_FIRST_RECORD: &[Case] = &[
    ("3 before 4", 3, 4, &[Set(4, "bytes 02 ff ff ff ff ff ff ff ff ff ff ff ff ff ff ff"), Byte(4, 0, 9)]),
    ("4 before 5", 4, 0, &[Byte(0, 15, 1), Byte(0, 1, 4)]),
    ("5 before 6", 5, 0, &[Byte(0, 2, 24), Byte(0, 3, 0)]),
    ("4 before 7", 4, 1, &[Byte(1, 12, 1), Byte(1, 1, 8)]),
    ("7 before 8", 7, 2, &[Set(2, BAD_SEAT)]),
    ("8 before 9", 8, 1, &[Set(1, BAD_SEAT)]),
    ("4 before 10", 4, 5, &[Byte(5, 15, 1), Byte(5, 1, 3)]),
    ("10 before 11", 10, 5, &[Byte(5, 1, 3), Byte(5, 2, 52)]),
    ("4 before 7 in a choice", 4, 9, &[Byte(9, 3, 1), Byte(9, 1, 0)]),
    ("7 before 12", 7, 9, &[Byte(9, 1, 8), Byte(9, 2, 4)]),
    ("the first record", 11, 4, &[Byte(4, 14, 52), Byte(5, 15, 1), Byte(8, 0, 0)]),
    ("a fault before 16", 8, 1, &[Byte(1, 3, 1), Cut(6)]),
];

#[test]
fn the_lowest_number_and_the_first_record() {
    check(THE_LOWEST_NUMBER_AND_THE_FIRST_RECORD);
}
