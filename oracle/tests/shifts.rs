//! Shifts: request d of document 02.

mod common;

use common::ROUND;
use oracle::generate::shifts::{single_rounds, ShiftGenerator};
use oracle::settle::{settle, Answer};
use oracle::shift::{count_rounds, rounds, settle_shift, ShiftAnswer};
use oracle::shift_tally::ShiftTally;
use oracle::tally::Section;
use oracle::text::pack;

/// 14 records. Seat 2 has a pair of twos at 5 on 50 dollars, though it folded.
/// Seat 4 has two pair on 50 × (1 + 3 + 1 + 2) = 350 dollars at 3/2, and 50 on
/// the board's pair of fours at 1.
fn fours() -> Vec<u8> {
    pack(&ROUND.join("\n")).unwrap()
}

fn fours_paid() -> Vec<u64> {
    paid(&[(2, [0, 0, 30_000, 0, 0]), (4, [87_500, 10_000, 0, 0, 0])])
}

/// The round of document 01: 13 records, and what request c makes of it.
fn whole() -> Vec<u8> {
    pack(include_str!("round01.txt")).unwrap()
}

fn whole_paid() -> Vec<u64> {
    paid(&[
        (1, [2_183_300, 20_500, 10_500, 0, 0]),
        (2, [516_700, 0, 0, 0, 0]),
    ])
}

/// 18 records. Seat 2: a royal flush on 20 × 10 dollars, 100,000 of which 25,000
/// are paid; a straight flush on the board at 40; A-K suited at 20; 200,000 on
/// 25. Seat 5 folded: queen high is a push; 200 on 40. Seat 7: a pair of nines,
/// a push, on 10 × 5; the board; a pair at 4; 5 on 3.
fn six() -> Vec<u8> {
    pack(include_str!("all_six.txt")).unwrap()
}

fn six_paid() -> Vec<u64> {
    paid(&[
        (2, [2_520_000, 20_500, 21_000, 0, 500_002_500]),
        (5, [0, 0, 0, 1_000, 804_000]),
        (7, [5_000, 4_100, 1_000, 0, 1_800]),
    ])
}

fn nothing() -> Vec<u64> {
    vec![0; 35]
}

/// A round's 35 amounts, where these seats have these.
fn paid(seats: &[(usize, [u64; 5])]) -> Vec<u64> {
    let mut amounts = nothing();
    for (seat, five) in seats {
        amounts[5 * (seat - 1)..5 * seat].copy_from_slice(five);
    }
    amounts
}

/// One byte of one record takes a value.
fn with_byte(mut file: Vec<u8>, place: usize, at: usize, value: u8) -> Vec<u8> {
    file[16 * place + at] = value;
    file
}

/// A record that begins with these bytes.
fn record(bytes: &[u8]) -> Vec<u8> {
    let mut record = bytes.to_vec();
    record.resize(16, 0);
    record
}

const MARK: u64 = 1 << 63;

/// Both lists of a shift that must be settled.
fn settled(file: &[u8], rounds: usize) -> (Vec<u64>, Vec<u64>) {
    let mut amounts = vec![MARK; 35 * rounds];
    let mut answers = vec![MARK; 2 * rounds];
    let answer = settle_shift(file, &mut amounts, &mut answers);
    assert_eq!(answer, ShiftAnswer::Settled { rounds });
    (amounts, answers)
}

/// A shift with these rounds is answered with these parts of the two lists.
fn check(rounds: &[&[u8]], expected: &[(Vec<u64>, [u64; 2])]) {
    let (amounts, answers) = settled(&rounds.concat(), expected.len());
    for (place, (round_amounts, answer)) in expected.iter().enumerate() {
        assert_eq!(answers[2 * place..2 * place + 2], *answer, "round {place}");
        assert_eq!(
            amounts[35 * place..35 * place + 35],
            *round_amounts,
            "round {place}"
        );
    }
}

/// A shift is refused with lists of these lengths, and both are unchanged.
fn check_refused(file: &[u8], [amounts, answers]: [usize; 2], number: u8, place: usize) {
    let mut lists = [vec![MARK; amounts], vec![MARK; answers]];
    let [one, other] = &mut lists;
    let answer = settle_shift(file, one, other);
    let refused = ShiftAnswer::Refused { number, place };
    assert_eq!(answer, refused, "{amounts} amounts, {answers} answers");
    assert_eq!(lists, [vec![MARK; amounts], vec![MARK; answers]]);
}

fn lengths(file: &[u8]) -> Vec<usize> {
    rounds(file).map(|round| round.len() / 16).collect()
}

/// The kinds of the records of a file, and how many records each round has.
/// "Record 0 starts a round, and so does every later record of kind 1."
const CUTS: [(&[u8], &[usize]); 12] = [
    (&[], &[]),
    (&[1], &[1]),
    (&[0], &[1]),
    (&[4], &[1]),
    (&[1, 1], &[1, 1]),
    (&[2, 1], &[1, 1]),
    (&[0, 0, 0], &[3]),
    (&[1, 2, 3, 4, 1, 2], &[4, 2]),
    (&[1, 2, 2, 1, 1, 1, 4], &[3, 1, 1, 2]),
    (&[255, 1, 5, 1], &[1, 2, 1]),
    (&[3, 4, 1, 0, 0, 17, 129, 1], &[2, 5, 1]),
    (&[1, 2, 3, 2, 4, 0, 11, 16, 10], &[9]),
];

#[test]
fn rounds_begin_at_record_0_and_at_each_of_kind_1() {
    for (kinds, counts) in CUTS {
        let file: Vec<u8> = kinds.iter().flat_map(|&kind| record(&[kind])).collect();
        assert_eq!(count_rounds(&file), counts.len(), "{kinds:?}");
        assert_eq!(lengths(&file), counts, "{kinds:?}");
        for odd in 1..16 {
            let tailed = [&file[..], &vec![1; odd]].concat();
            assert_eq!(count_rounds(&tailed), counts.len(), "{kinds:?}");
            assert_eq!(lengths(&tailed), counts, "{kinds:?}");
        }
    }
}

#[test]
fn a_1_beside_the_kind_starts_no_round() {
    let mut stray = vec![1; 16];
    stray[0] = 2;
    let file = [&stray[..], &stray, &stray].concat();
    assert_eq!((count_rounds(&file), lengths(&file)), (1, vec![3]));
    let file = [&file[..], &[1; 16], &stray].concat();
    assert_eq!((count_rounds(&file), lengths(&file)), (2, vec![3, 2]));
}

#[test]
fn rounds_are_parts_of_the_file() {
    let file = [&whole()[..], &fours(), &fours()[..32], &[7; 5]].concat();
    let parts: Vec<&[u8]> = rounds(&file).collect();
    let bounds = [0, 13, 27, 29].map(|place| 16 * place);
    assert_eq!(parts.len(), 3);
    for (part, bound) in parts.iter().zip(bounds.windows(2)) {
        let own = &file[bound[0]..bound[1]];
        assert_eq!(part.as_ptr_range(), own.as_ptr_range());
    }
}

/// The answer of each round of a shift whose rounds are all settled is 0 and 0.
#[test]
fn settled_rounds() {
    check(
        &[&whole(), &fours(), &six(), &whole()],
        &[
            (whole_paid(), [0, 0]),
            (fours_paid(), [0, 0]),
            (six_paid(), [0, 0]),
            (whole_paid(), [0, 0]),
        ],
    );
}

/// A refusal of each number, with its place within the round: a byte of a
/// record of `ROUND` takes a value.
const REFUSALS: [(u64, usize, usize, u8); 14] = [
    (3, 5, 0, 0),
    (3, 8, 0, 5),
    (4, 8, 3, 1),
    (5, 0, 1, 4),
    (6, 0, 3, 6),
    (7, 2, 1, 2),
    (8, 1, 2, 9),
    (9, 3, 4, 51),
    (10, 6, 1, 3),
    (11, 4, 2, 52),
    (12, 13, 2, 4),
    (13, 8, 1, 1),
    (14, 11, 1, 5),
    (15, 10, 1, 2),
];

/// "A refused round spoils no other"; its "amounts are zeros".
#[test]
fn a_refused_round_among_settled_ones() {
    for (number, place, at, value) in REFUSALS {
        let bad = with_byte(fours(), place, at, value);
        let refused = (nothing(), [number, place as u64]);
        let [one, other] = [(whole_paid(), [0, 0]), (six_paid(), [0, 0])];
        check(
            &[&whole(), &bad, &six()],
            &[one.clone(), refused.clone(), other.clone()],
        );
        check(
            &[&bad, &whole(), &six()],
            &[refused.clone(), one.clone(), other.clone()],
        );
        check(
            &[&whole(), &six(), &bad],
            &[one.clone(), other.clone(), refused.clone()],
        );
        check(
            &[&bad, &bad, &six(), &bad],
            &[refused.clone(), refused.clone(), other, refused.clone()],
        );
        check(&[&bad, &bad], &[refused.clone(), refused]);
    }
}

/// "Round isn't finished": its place is the count of its own records.
#[test]
fn a_round_cut_after_each_record() {
    for count in 1..14 {
        let cut = &fours()[..16 * count];
        let refused = (nothing(), [16, count as u64]);
        check(
            &[&six(), cut, &whole()],
            &[
                (six_paid(), [0, 0]),
                refused.clone(),
                (whole_paid(), [0, 0]),
            ],
        );
        check(
            &[cut, cut, cut],
            &[refused.clone(), refused.clone(), refused],
        );
    }
}

/// Where the table of `ROUND` stands once more before a record, the records
/// before it are a round that isn't finished, and those after it go on from it:
/// without seat 2, without seats 2 and 4, where the fold of seat 5 finishes the
/// round, and then without any seat.
#[test]
fn a_second_table_never_is_3() {
    let settled = || (fours_paid(), [0, 0]);
    let refused = |number, place| (nothing(), [number, place]);
    for place in 1..=14 {
        let (before, after) = (&fours()[..16 * place], &fours()[16 * place..]);
        let first = match place {
            14 => settled(),
            _ => refused(16, place as u64),
        };
        let second = match place {
            1 => settled(),
            2 => refused(13, 8),
            3 => refused(3, 7),
            4..=13 => refused(3, 1),
            _ => refused(16, 1),
        };
        check(&[before, &fours()[..16], after], &[first, second]);
    }
}

#[test]
fn tables_in_a_row_and_at_the_end() {
    let table = &fours()[..16];
    let alone = (nothing(), [16, 1]);
    check(&[table], std::slice::from_ref(&alone));
    check(&[&whole(), table], &[(whole_paid(), [0, 0]), alone.clone()]);
    check(
        &[table, table, &fours()],
        &[alone.clone(), alone.clone(), (fours_paid(), [0, 0])],
    );
    check(
        &[&fours()[..64], table, table],
        &[(nothing(), [16, 4]), alone.clone(), alone],
    );
}

/// It starts a round all the same, and is refused in it.
#[test]
fn a_damaged_table_starts_a_round() {
    let damaged = [
        (record(&[1]), 5),
        (record(&[1, 5, 101, 1, 1, 1, 1]), 5),
        (record(&[1, 5, 100, 0, 1, 1, 1]), 6),
        (record(&[1, 5, 100, 1, 1, 1, 1, 6]), 6),
        (record(&[1, 5, 100, 1, 1, 1, 1, 0, 1]), 4),
        (vec![1; 16], 4),
    ];
    for (table, number) in damaged {
        let refused = (nothing(), [number, 0]);
        check(
            &[&whole(), &table, &fours()[16..], &six()],
            &[
                (whole_paid(), [0, 0]),
                refused.clone(),
                (six_paid(), [0, 0]),
            ],
        );
        check(
            &[&fours()[..16 * 8], &table],
            &[(nothing(), [16, 8]), refused],
        );
    }
}

/// Records that are no table belong to the round before them; at the very start
/// they are round 0.
#[test]
fn records_between_rounds() {
    let strays = [
        vec![0; 16],
        record(&[0, 1]),
        record(&[5]),
        vec![255; 16],
        fours()[16..32].to_vec(),
        fours()[64..80].to_vec(),
        fours()[128..144].to_vec(),
    ];
    for stray in &strays {
        check(
            &[&whole(), stray, &six()],
            &[(nothing(), [3, 13]), (six_paid(), [0, 0])],
        );
        check(
            &[stray, &whole(), &six()],
            &[
                (nothing(), [3, 0]),
                (whole_paid(), [0, 0]),
                (six_paid(), [0, 0]),
            ],
        );
        check(&[stray], &[(nothing(), [3, 0])]);
        let many = stray.repeat(50);
        check(
            &[&many, &six(), &many, &whole()],
            &[
                (nothing(), [3, 0]),
                (nothing(), [3, 18]),
                (whole_paid(), [0, 0]),
            ],
        );
    }
}

/// A file that begins with no table: round 0 is what comes before the first.
#[test]
fn a_first_round_without_its_table() {
    check(
        &[&fours()[16..], &fours()],
        &[(nothing(), [3, 0]), (fours_paid(), [0, 0])],
    );
    check(&[&fours()[16..]], &[(nothing(), [3, 0])]);
}

/// "Refusals: 2, then 1": whatever the lists, 2 with "the count of whole
/// records".
#[test]
fn refusal_2_comes_first() {
    let file = [whole(), fours()].concat();
    for odd in 1..16 {
        for byte in [0, 1, 255] {
            let tailed = [&file[..], &vec![byte; odd]].concat();
            for lists in [[70, 4], [105, 6], [0, 0], [69, 4], [70, 3], [4, 70]] {
                check_refused(&tailed, lists, 2, 27);
            }
            for lists in [[0, 0], [35, 2], [1, 0], [0, 1]] {
                check_refused(&vec![byte; odd], lists, 2, 0);
            }
            let bad = [&[0; 1600][..], &vec![byte; odd]].concat();
            check_refused(&bad, [35, 2], 2, 100);
        }
    }
}

/// "Then 1 if either list isn't exactly that long for the number of rounds":
/// all lengths but one pair, for each number of rounds.
#[test]
fn refusal_1_for_each_length() {
    let file = [whole(), fours(), six()].concat();
    for (count, records) in [(0, 0), (1, 13), (2, 27), (3, 45)] {
        for amounts in 0..=142 {
            for answers in 0..=9 {
                if [amounts, answers] != [35 * count, 2 * count] {
                    check_refused(&file[..16 * records], [amounts, answers], 1, 0);
                }
            }
        }
        settled(&file[..16 * records], count);
    }
}

/// The number of rounds counts, settled or not.
#[test]
fn refusal_1_where_rounds_are_refused() {
    let file = [&fours()[..16], &[0; 16], &fours()[..32]].concat();
    let (amounts, answers) = settled(&file, 2);
    assert_eq!((amounts, answers), (vec![0; 70], vec![3, 1, 16, 2]));
    for lists in [[0, 4], [70, 0], [0, 0], [35, 2], [105, 6], [4, 70]] {
        check_refused(&file, lists, 1, 0);
    }
}

/// "An empty file has no rounds."
#[test]
fn the_empty_file() {
    assert_eq!((count_rounds(&[]), lengths(&[])), (0, vec![]));
    assert_eq!(settled(&[], 0), (vec![], vec![]));
    for lists in [[1, 0], [0, 1], [35, 0], [0, 2], [35, 2], [2, 35]] {
        check_refused(&[], lists, 1, 0);
    }
}

#[test]
fn fewer_bytes_than_a_record() {
    for length in 1..16 {
        for byte in [0, 1, 2] {
            let file = vec![byte; length];
            assert_eq!((count_rounds(&file), lengths(&file)), (0, vec![]));
            check_refused(&file, [0, 0], 2, 0);
        }
    }
}

/// What a round is answered in a call of its own.
fn own(round: &[u8]) -> (Vec<u64>, [u64; 2]) {
    match settle(round) {
        Answer::Paid(paid) => (paid.amounts.to_vec(), [0, 0]),
        Answer::Refused { number, place } => (nothing(), [number.into(), place as u64]),
    }
}

/// "Each round's answer and results equal those of its own call."
#[test]
fn each_round_equals_its_own_call() {
    let files: Vec<Vec<u8>> = single_rounds(4).take(3_000).collect();
    for file in &files {
        check(&[file], &[own(file)]);
    }
    let parts: Vec<&[u8]> = files.iter().map(Vec::as_slice).collect();
    let expected: Vec<_> = files.iter().map(|file| own(file)).collect();
    check(&parts, &expected);
}

#[test]
fn joined_shifts_give_the_joined_lists() {
    let bad = with_byte(fours(), 2, 1, 2);
    let one = [&whole()[..], &bad, &[0; 16]].concat();
    let other = [&fours()[..48], &six()].concat();
    let (mut amounts, mut answers) = settled(&one, 2);
    let (more_amounts, more_answers) = settled(&other, 2);
    assert_eq!([&answers[..], &more_answers], [[0, 0, 7, 2], [16, 3, 0, 0]]);
    amounts.extend(more_amounts);
    answers.extend(more_answers);
    let joined = [one, other].concat();
    assert_eq!(settled(&joined, 4), (amounts, answers));
}

#[test]
fn generated_shifts_joined() {
    let generator = ShiftGenerator::new(8);
    let files = (0..1_500).map(|place| generator.make(place).file);
    let files: Vec<Vec<u8>> = files.filter(|file| file.len() % 16 == 0).collect();
    let mut joined = 0;
    for pair in files.windows(2).filter(|pair| pair[1].first() == Some(&1)) {
        let [one, other] = [&pair[0], &pair[1]].map(|file| settled(file, count_rounds(file)));
        let lists = ([one.0, other.0].concat(), [one.1, other.1].concat());
        assert_eq!(settled(&pair.concat(), lists.1.len() / 2), lists);
        joined += 1;
    }
    assert!(joined > 500, "{joined}");
}

#[test]
fn a_round_replaced_leaves_the_others() {
    let files: Vec<Vec<u8>> = single_rounds(5).take(30).collect();
    let (amounts, answers) = settled(&files.concat(), 30);
    let others = single_rounds(6).take(30);
    for (place, other) in others.enumerate() {
        let mut replaced = files.clone();
        replaced[place] = other;
        let (new_amounts, new_answers) = settled(&replaced.concat(), 30);
        let (from, to) = (35 * place, 35 * (place + 1));
        assert_eq!(new_amounts[..from], amounts[..from]);
        assert_eq!(new_amounts[to..], amounts[to..]);
        assert_eq!(new_answers[..2 * place], answers[..2 * place]);
        assert_eq!(new_answers[2 * place + 2..], answers[2 * place + 2..]);
    }
}

#[test]
fn generated_shifts_keep_their_limits() {
    for seed in [1, 2, u64::MAX] {
        let generator = ShiftGenerator::new(seed);
        for place in 0..3_000 {
            let item = generator.make(place);
            assert!(item.amounts <= 4_096, "{seed} {place}");
            assert!(item.answers <= 256, "{seed} {place}");
            assert!(item.file.len() <= 65_535, "{seed} {place}");
            assert!(count_rounds(&item.file) <= 40, "{seed} {place}");
        }
    }
}

#[test]
fn a_shift_depends_on_seed_and_place_alone() {
    let [one, same, other] = [5, 5, 6].map(ShiftGenerator::new);
    for place in [0, 7, 3, 100, u64::MAX] {
        assert_eq!(one.make(place), same.make(place));
    }
    assert!((0..10).any(|place| one.make(place) != other.make(place)));
}

/// Each row of a section comes at least so often in 3,000 shifts.
#[test]
fn everything_comes_often_in_the_first_shifts() {
    let tally = ShiftTally::of(3_000, 1);
    let floors = [
        (&tally.answers, 400),
        (&tally.counts, 100),
        (&tally.round_answers, 20),
        (&tally.refused, 200),
        (&tally.neighbours, 500),
        (&tally.mixes, 150),
        (&tally.beginnings, 15),
        (&tally.one_record, 25),
        (&tally.lengths, 30),
        (&tally.stages, 30),
        (&tally.unfinished, 250),
        (&tally.unfinished_lengths, 15),
        (&tally.strays, 10),
        (&tally.lists, 20),
        (&tally.empty_lists, 15),
        (&tally.tails, 20),
        (&tally.odd, 40),
        (&tally.odd_lists, 60),
    ];
    assert_eq!(floors.len(), tally.sections().len());
    for (section, least) in floors {
        assert!(!section.rows.is_empty(), "{}", section.title);
        for (label, count) in &section.rows {
            assert!(*count >= least, "{}: {label}: {count}", section.title);
        }
    }
}

/// Most lists are right, and most shifts have a few rounds, some have many.
#[test]
fn most_shifts_are_settled_and_short() {
    let tally = ShiftTally::of(3_000, 1);
    let row = |section: &Section, row: usize| section.rows[row].1;
    assert!(row(&tally.answers, 0) > 1_500);
    assert!(row(&tally.counts, 2) > 1_500);
    assert!((250..500).contains(&row(&tally.counts, 0)));
    assert!((250..750).contains(&row(&tally.counts, 1)));
    let average = tally.bytes / tally.shifts;
    assert!((800..1_600).contains(&average), "{average}");
    let generator = ShiftGenerator::new(1);
    let counts = (0..3_000).map(|place| count_rounds(&generator.make(place).file));
    assert_eq!(counts.max(), Some(40));
}

/// Odd bytes alone come with right lists, which are empty, and with wrong ones;
/// so do those after whole records.
#[test]
fn odd_bytes_come_with_right_and_wrong_lists() {
    let generator = ShiftGenerator::new(1);
    let mut counts = [[0; 2]; 2];
    for item in (0..3_000).map(|place| generator.make(place)) {
        let rounds = count_rounds(&item.file);
        let lent = [item.amounts, item.answers].map(usize::from);
        if item.file.len() % 16 != 0 {
            let right = lent == [35 * rounds, 2 * rounds];
            counts[usize::from(rounds > 0)][usize::from(right)] += 1;
        }
    }
    for count in counts.concat() {
        assert!(count >= 15, "{counts:?}");
    }
}
