//! Writing round files: request a of document 02.

use oracle::answer::push_stream_line;
use oracle::generate::prng::Prng;
use oracle::generate::Generator;
use oracle::handmade::{bases, items, push_line, Item};
use oracle::held::{Held, Step};
use oracle::held_file;
use oracle::reading::Refusal;
use oracle::settle::settle;
use oracle::text::pack;
use oracle::writing::{file_of, rewritten, write};

/// Records that begin with these bytes: "Bytes not named are zero."
fn records(beginnings: &[&[u8]]) -> Vec<u8> {
    let mut file = Vec::new();
    for beginning in beginnings {
        file.extend_from_slice(beginning);
        file.resize(file.len().next_multiple_of(16), 0);
    }
    file
}

/// The round that the records of a file lead to, one after the other.
fn fed(file: &[u8]) -> Held {
    let mut held = Held::fresh();
    for (place, record) in file.chunks(16).enumerate() {
        held = match held.take(record) {
            Step::Next(after) | Step::Finished(after) => after,
            Step::Refused(number) => panic!("refused {number} at {place}"),
        };
    }
    held
}

/// "Table 5, 100, then 2, 1, 1, 1. Seat 1: ante 100, Board 5, Pocket 5, Lo
/// Ball 0. Seat 2: ante 100, 0, 5, 10. Deck from the top 50, 46, 26, 30, 34,
/// 38, 42, then the other cards rising. Choice 3 by seat 1, then seat 2, on
/// each street."
fn whole_round() -> Vec<u8> {
    let mut file = records(&[
        &[1, 5, 100, 2, 1, 1, 1],
        &[2, 1, 100, 0, 5, 0, 5, 0, 0, 0],
        &[2, 2, 100, 0, 0, 0, 5, 0, 10, 0],
    ]);
    let mut deck = vec![50, 46, 26, 30, 34, 38, 42];
    for card in 0..52 {
        if !deck.contains(&card) {
            deck.push(card);
        }
    }
    for (part, cards) in (0..).zip(deck.chunks(13)) {
        file.extend(records(&[&[&[3, part], cards].concat()]));
    }
    for _ in 0..3 {
        file.extend(records(&[&[4, 1, 3], &[4, 2, 3]]));
    }
    file
}

#[test]
fn the_whole_round_of_document_01() {
    let file = whole_round();
    assert_eq!(file.len(), 13 * 16);
    assert_eq!(file_of(&fed(&file)), Ok(file.clone()));
    assert_eq!(rewritten(&file), Ok(file.clone()));
    assert_eq!(held_file::file_of(&file), Ok(file));
}

/// Up to the deck: records 0 to 8. Card 0 is the last of all.
const START: [&str; 9] = [
    "table 10 50 base 1 lo 2 board 3 pocket 1",
    "seat 1 ante 10 board 0 pocket 50 lo 1",
    "seat 3 ante 50 board 0 pocket 0 lo 0",
    "seat 6 ante 20 board 7 pocket 0 lo 0",
    "seat 7 ante 11 board 50 pocket 50 lo 50",
    "deck 0: As Ah Ad Ac Ks Kh Kd Kc Qs Qh Qd Qc Js",
    "deck 1: 3c Jh Jd Jc Ts Th Td Tc 9s 9h 9d 9c 8s",
    "deck 2: 8h 8d 8c 7s 7h 7d 7c 6s 6h 6d 6c 5s 5h",
    "deck 3: 5d 5c 4s 4h 4d 4c 3s 3h 3d 2s 2h 2d 2c",
];

/// The start with choices after it, each as its seat and its choice.
fn with_choices(choices: &str) -> Vec<u8> {
    let mut file = pack(&START.join("\n")).unwrap();
    for word in choices.split_whitespace() {
        let [seat, choice] = [0, 1].map(|at| word.as_bytes()[at] - b'0');
        file.extend(records(&[&[4, seat, choice]]));
    }
    file
}

/// A fold on each street, and no street in the order of the seats. Street one
/// has four choices, street two three, street three two: records 9 to 17.
const CAME: &str = "72 30 11 63  61 12 70  60 13";
const SORTED: &str = "11 30 63 72  12 61 70  13 60";

/// The choices to be written as each of those above comes.
const WRITTEN: [&str; 10] = [
    "",
    "72",
    "30 72",
    "11 30 72",
    "11 30 63 72",
    "11 30 63 72  61",
    "11 30 63 72  12 61",
    "11 30 63 72  12 61 70",
    "11 30 63 72  12 61 70  60",
    SORTED,
];

#[test]
fn choices_are_written_by_street_and_by_rising_seat() {
    for (count, written) in WRITTEN.iter().enumerate() {
        let came = &with_choices(CAME)[..16 * (9 + count)];
        let expected = with_choices(written);
        assert_eq!(file_of(&fed(came)), Ok(expected.clone()), "{count}");
        assert_eq!(rewritten(came), Ok(expected.clone()), "{count}");
        assert_eq!(rewritten(&expected), Ok(expected), "{count}");
    }
}

/// "An unfinished round is written as far as it has come": after the table,
/// after each seat and after each deck part.
#[test]
fn rounds_that_have_not_come_to_a_choice() {
    for count in 1..=START.len() {
        let file = with_choices("")[..16 * count].to_vec();
        assert_eq!(file_of(&fed(&file)), Ok(file), "{count}");
    }
}

/// Every order in which one, two, three or four seats choose on street one.
#[test]
fn every_order_of_a_street() {
    let choices = ["11", "30", "63", "72"];
    let mut orders = vec![Vec::new()];
    for length in 1..=4 {
        let longer = |order: &Vec<&'static str>| -> Vec<Vec<&'static str>> {
            let others = choices.iter().filter(|choice| !order.contains(choice));
            let more = others.map(|choice| [&order[..], &[choice]].concat());
            more.collect()
        };
        orders = orders.iter().flat_map(longer).collect();
        assert_eq!(orders.len(), [4, 12, 24, 24][length - 1]);
        for order in &orders {
            let mut sorted = order.clone();
            sorted.sort_unstable();
            let expected = with_choices(&sorted.join(" "));
            assert_eq!(rewritten(&with_choices(&order.join(" "))), Ok(expected));
        }
    }
}

/// Seat 3 folds on street one, two and three: its fold is its last record.
#[test]
fn a_folded_seat_has_no_record_on_later_streets() {
    let cases = [
        (
            "71 61 30 11  71 61 11  71 61 11",
            "11 30 61 71  11 61 71  11 61 71",
        ),
        (
            "71 61 31 11  71 61 30 11  71 61 11",
            "11 31 61 71  11 30 61 71  11 61 71",
        ),
        (
            "71 61 31 11  71 61 31 11  71 61 30 11",
            "11 31 61 71  11 31 61 71  11 30 61 71",
        ),
    ];
    for (came, written) in cases {
        assert!(fed(&with_choices(came)).settle().is_ok());
        assert_eq!(rewritten(&with_choices(came)), Ok(with_choices(written)));
    }
}

/// "The round is finished after street three, or when no seat is still in."
#[test]
fn a_round_in_which_all_folded() {
    let came = with_choices("60 70 10 30");
    assert!(fed(&came).settle().is_ok());
    assert_eq!(rewritten(&came), Ok(with_choices("10 30 60 70")));
}

/// Writes into rooms of many lengths. Only a fitting one is written to.
fn check_rooms(write: impl Fn(&mut [u8]) -> Result<(), u8>, expected: Result<&[u8], u8>) {
    for length in 0..600 {
        let mut room = vec![0xa5; length];
        let answer = write(&mut room);
        match expected {
            Ok(file) if file.len() == length => {
                assert_eq!(answer, Ok(()));
                assert_eq!(room, file);
                continue;
            }
            Ok(_) => assert_eq!(answer, Err(1), "{length}"),
            Err(number) => assert_eq!(answer, Err(number), "{length}"),
        }
        assert_eq!(room, vec![0xa5; length], "the room is unchanged");
    }
}

/// "Refusals: 17, then 16 for a round with no table record, then 1 if the lent
/// room isn't exactly the file's length; the room is then unchanged."
#[test]
fn refusals_and_the_room() {
    let file = with_choices(SORTED);
    let held = fed(&with_choices(CAME));
    check_rooms(|room| write(&held, room), Ok(&file));
    let table = fed(&file[..16]);
    check_rooms(|room| write(&table, room), Ok(&file[..16]));
    check_rooms(|room| write(&Held::fresh(), room), Err(16));
    let mut no_table = held.clone();
    no_table.table = [0; 7];
    check_rooms(|room| write(&no_table, room), Err(17));
    let mut parts_alone = Held::fresh();
    parts_alone.parts = 1;
    check_rooms(|room| write(&parts_alone, room), Err(17));
    let mut fifth_part = held;
    fifth_part.parts = 5;
    check_rooms(|room| write(&fifth_part, room), Err(17));
}

#[test]
fn refusals_and_the_room_of_a_held_file() {
    let came = with_choices(CAME);
    let file = with_choices(SORTED);
    check_rooms(|room| held_file::write(&came, room), Ok(&file));
    check_rooms(|room| held_file::write(&file[..80], room), Ok(&file[..80]));
    check_rooms(|room| held_file::write(&[], room), Err(16));
    for length in [1, 15, 17, 31, came.len() - 1] {
        check_rooms(|room| held_file::write(&came[..length], room), Err(17));
    }
    let too_long = with_choices(&format!("{CAME} 11"));
    check_rooms(|room| held_file::write(&too_long, room), Err(17));
    check_rooms(|room| held_file::write(&[0; 16], room), Err(17));
}

/// What a held file answers to a record.
fn answer(held: &[u8], record: &[u8]) -> Result<bool, u8> {
    match held_file::take(held, record) {
        Step::Next(_) => Ok(false),
        Step::Finished(_) => Ok(true),
        Step::Refused(number) => Err(number),
    }
}

#[test]
fn a_held_file_takes_each_record() {
    let came = with_choices(CAME);
    for place in 0..18 {
        let record = &came[16 * place..16 * place + 16];
        let last = place == 17;
        assert_eq!(answer(&came[..16 * place], record), Ok(last), "{place}");
    }
}

/// "One record: 17, 2, then the rest."
#[test]
fn a_held_file_refuses_a_record() {
    let came = with_choices(CAME);
    let seat = &came[16..32];
    let choice = &came[16 * 9..16 * 10];
    assert_eq!(answer(&[], seat), Err(3), "the fresh round");
    assert_eq!(answer(&came[..32], seat), Err(7));
    assert_eq!(answer(&came[..16 * 10], choice), Err(15));
    assert_eq!(answer(&came[..16 * 16], choice), Err(14));
    assert_eq!(answer(&came, choice), Err(3), "the round is finished");
    for length in [0, 1, 15] {
        assert_eq!(answer(&came[..16], &seat[..length]), Err(2));
        assert_eq!(answer(&came, &seat[..length]), Err(2));
        assert_eq!(answer(&came[..17], &seat[..length]), Err(17));
    }
    assert_eq!(answer(&came[..16], &came[16..33]), Err(2));
    assert_eq!(answer(&came[..17], seat), Err(17), "an odd byte");
    assert_eq!(answer(seat, seat), Err(17), "a seat comes first");
    let mut faulty = came.clone();
    faulty[16 * 4 + 15] = 1;
    assert_eq!(answer(&faulty[..64], &faulty[64..80]), Err(4));
    assert_eq!(answer(&faulty[..80], &faulty[80..96]), Err(17));
}

/// A refused file is refused at its place, the empty one with 16 at 0.
#[test]
fn refusals_of_rewriting() {
    let came = with_choices(CAME);
    let twice = [&came[..], &came].concat();
    let mut faulty = came.clone();
    faulty[16 * 4 + 15] = 1;
    let cases: [(&[u8], u8, usize); 5] = [
        (&[], 16, 0),
        (&came[..100], 2, 6),
        (&faulty[..287], 2, 17),
        (&faulty, 4, 4),
        (&twice, 3, 18),
    ];
    for (file, number, place) in cases {
        assert_eq!(rewritten(file), Err(Refusal { number, place }));
    }
}

fn stream_line(file: &[u8]) -> String {
    let mut line = Vec::new();
    push_stream_line(&mut line, file);
    String::from_utf8(line).unwrap()
}

/// The end of a stream line, from `take` on.
fn end_of_line(file: &[u8]) -> String {
    let line = stream_line(file);
    let from = line.find(" take ").unwrap() + 1;
    line[from..].to_string()
}

#[test]
fn stream_lines() {
    let came = with_choices(CAME);
    let cases: [(&[u8], &str); 6] = [
        (
            &[0x78],
            "refused 2 at 0 part 0 78 take refused 2 written refused 17\n",
        ),
        (
            &[],
            "refused 16 at 0 part 0 take refused 2 written refused 16\n",
        ),
        (&came[..16], "refused 16 at 1 part 16 take next written 1\n"),
        (
            &came[..16 * 11],
            "refused 16 at 11 part 176 take next written 9 0403 040702\n",
        ),
        (
            &came[..16 * 9 + 1],
            "refused 2 at 9 part 144 04 take refused 2 written refused 17\n",
        ),
        (
            &came[16..32],
            "refused 3 at 0 part 0 02010a00000032000100000000000000 take refused 3 \
             written refused 17\n",
        ),
    ];
    for (file, line) in cases {
        assert_eq!(stream_line(file), line);
    }
}

/// A fold is `04` and the seat: its choice, 0, is a zero byte at the end.
#[test]
fn the_ends_of_stream_lines() {
    let came = with_choices(CAME);
    let records = "040101 0403 040603 040702 040102 040601 0407 040103 0406";
    let end = format!("take finished written 9 {records}\n");
    assert_eq!(end_of_line(&came), end);
    let sorted = with_choices(SORTED);
    assert_eq!(end_of_line(&sorted), "take finished written 18\n");
    let street_two = with_choices("11 30 63 72  61 12 70  13 60");
    let end = "take finished written 13 040102 040601 0407 040103 0406\n";
    assert_eq!(end_of_line(&street_two), end);
    let again = with_choices("72 71");
    assert_eq!(end_of_line(&again), "take refused 15 written refused 17\n");
    let and_more = with_choices("72 71 63");
    let end = "take refused 17 written refused 17\n";
    assert_eq!(end_of_line(&and_more), end);
    let odd = [&and_more[..], &[4]].concat();
    assert_eq!(end_of_line(&odd), end, "17 comes before 2");
    let too_long = with_choices(&format!("{CAME} 11"));
    let end = "take refused 3 written refused 17\n";
    assert_eq!(end_of_line(&too_long), end);
}

/// Zero bytes inside a record stay. The last card is 0 and is left out.
#[test]
fn lines_of_held_rounds() {
    let came = with_choices(CAME);
    let line = |count: usize, record: &[u8]| {
        let mut line = Vec::new();
        let held = fed(&came[..16 * count]).bytes();
        let record = record.try_into().unwrap();
        push_line(&mut line, &Item { held, record });
        String::from_utf8(line).unwrap()
    };
    let next = |count: usize| line(count, &came[16 * count..16 * count + 16]);
    let begin = "take next settle refused 16 write";
    let table = "010a3201020301";
    let seats = "02010a000000320001 020332 0206140007 02070b003200320032";
    let first_parts = "0300333231302f2e2d2c2b2a292827 030104262524232221201f1e1d1c1b";
    let last_parts = "03021a191817161514131211100f0e 03030d0c0b0a0908070605030201";
    let deck = format!("{first_parts} {last_parts}");
    assert_eq!(next(0), format!("{begin} refused 16\n"));
    assert_eq!(next(1), format!("{begin} {table}\n"));
    assert_eq!(next(5), format!("{begin} {table} {seats}\n"));
    let two_parts = format!("{begin} {table} {seats} {first_parts}\n");
    assert_eq!(next(7), two_parts);
    assert_eq!(next(9), format!("{begin} {table} {seats} {deck}\n"));
    let two_chose = format!("{begin} {table} {seats} {deck} 0403 040702\n");
    assert_eq!(next(11), two_chose);
    let finished = line(18, &came[..16]);
    let choices = "040101 0403 040603 040702 040102 040601 0407 040103 0406";
    assert!(finished.starts_with("take refused 3 settle paid "));
    let end = format!(" pool 0 0 write {table} {seats} {deck} {choices}\n");
    assert!(finished.ends_with(&end), "{finished}");
}

/// The accepted file with the choices of each street in the order of the
/// seats. A street ends when every seat still in has chosen on it.
fn sorted_within_streets(file: &[u8]) -> Vec<u8> {
    let records: Vec<&[u8]> = file.chunks(16).collect();
    let count = records.iter().filter(|record| record[0] < 4).count();
    let mut sorted = records[..count].to_vec();
    let seats = records.iter().filter(|record| record[0] == 2);
    let mut still_in: Vec<u8> = seats.map(|record| record[1]).collect();
    let mut rest = &records[count..];
    while !rest.is_empty() {
        let (street, later) = rest.split_at(still_in.len().min(rest.len()));
        let mut street = street.to_vec();
        street.sort_unstable_by_key(|record| record[1]);
        still_in.retain(|seat| !street.iter().any(|record| record[1..3] == [*seat, 0]));
        sorted.extend(street);
        rest = later;
    }
    sorted.concat()
}

/// What request a says of a file of one or more records, all accepted.
fn check_written(file: &[u8]) {
    let held = fed(file);
    let written = file_of(&held).unwrap();
    assert_eq!(fed(&written), held, "the same held round");
    assert_eq!(Held::led_to(&written), Ok(held), "the same held round");
    assert_eq!(written, sorted_within_streets(file));
    let mut records: [Vec<&[u8]>; 2] = [file, &written].map(|bytes| bytes.chunks(16).collect());
    let no_choices = |records: &Vec<&[u8]>| -> Vec<u8> {
        let others = records.iter().filter(|record| record[0] != 4);
        others.copied().collect::<Vec<&[u8]>>().concat()
    };
    assert_eq!(no_choices(&records[0]), no_choices(&records[1]));
    records.iter_mut().for_each(|list| list.sort_unstable());
    assert_eq!(records[0], records[1], "the same records");
    assert_eq!(settle(&written), settle(file));
    assert_eq!(rewritten(file).as_ref(), Ok(&written));
    assert_eq!(rewritten(&written).as_ref(), Ok(&written));
    assert_eq!(held_file::file_of(file).as_ref(), Ok(&written));
    let mut room = vec![0xa5; file.len()];
    assert_eq!(held_file::write(file, &mut room), Ok(()));
    assert_eq!(room, written);
}

#[test]
fn generated_files_are_written_or_refused() {
    let mut found = [0, 0];
    for seed in [31, 32] {
        let generator = Generator::new(seed);
        for place in 0..5_000 {
            let file = generator.make(place).file;
            let mut room = vec![0xa5; file.len()];
            match rewritten(&file) {
                Ok(_) => check_written(&file),
                Err(Refusal { number, place }) => {
                    let held = if file.is_empty() { 16 } else { 17 };
                    assert_eq!(held_file::write(&file, &mut room), Err(held));
                    assert_eq!(room, vec![0xa5; file.len()]);
                    let line = stream_line(&file);
                    assert!(line.starts_with(&format!("refused {number} at {place} ")));
                }
            }
            found[usize::from(rewritten(&file).is_ok())] += 1;
        }
    }
    assert!(found[0] > 3_000 && found[1] > 5_000, "{found:?}");
}

#[test]
fn every_stage_of_generated_rounds_is_written() {
    let generator = Generator::new(33);
    for place in 0..400 {
        let made = generator.make(place);
        if made.damage.is_none() {
            for count in 1..=made.file.len() / 16 {
                check_written(&made.file[..16 * count]);
            }
        }
    }
}

/// Where the records before the last are accepted, the last is answered as in
/// the whole file.
#[test]
fn generated_files_take_their_last_record() {
    let generator = Generator::new(34);
    let mut found = [0; 18];
    for place in 0..5_000 {
        let file = generator.make(place).file;
        let last = file.len().saturating_sub(1) / 16 * 16;
        let expected = match rewritten(&file).map_err(|refusal| (refusal.number, refusal.place)) {
            Ok(_) => Ok(fed(&file).settle().is_ok()),
            Err(_) if last > 0 && rewritten(&file[..last]).is_err() => Err(17),
            Err((16, _)) => Err(2),
            Err((number, at)) => {
                assert_eq!(at, last / 16);
                Err(number)
            }
        };
        assert_eq!(answer(&file[..last], &file[last..]), expected, "{place}");
        found[usize::from(expected.map_or_else(|number| number, u8::from))] += 1;
    }
    let numbers = (0..18).filter(|number| *number != 16);
    for number in numbers {
        assert!(found[number] > 9, "{number}: {found:?}");
    }
}

/// Held rounds made by hand, and base rounds with a few bytes by chance.
#[test]
fn held_rounds_are_written_or_refused() {
    let mut rng = Prng::new(35, 0);
    let mut rounds: Vec<[u8; 158]> = items().iter().map(|item| item.held).collect();
    let bases = bases::all();
    for turn in 0..20_000 {
        let mut bytes = bases[turn % bases.len()].held.bytes();
        for _ in 0..rng.between(1, 3) {
            bytes[rng.below(158)] = rng.below(7) as u8;
        }
        rounds.push(bytes);
    }
    let mut written = 0;
    for bytes in rounds {
        let held = Held::from_bytes(&bytes);
        match file_of(&held) {
            Ok(file) => {
                assert_eq!(fed(&file), held);
                assert_eq!(sorted_within_streets(&file), file);
                written += 1;
            }
            Err(16) => assert_eq!(bytes, [0; 158]),
            Err(number) => assert_eq!((number, held.is_held()), (17, false)),
        }
    }
    assert!(written > 2_000, "{written}");
}
