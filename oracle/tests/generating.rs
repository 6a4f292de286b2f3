//! The generator: what it means is what the settler finds, and everything it
//! is there for comes.

use oracle::generate::stacks::{in_turn, STACKS};
use oracle::generate::ways::Expected;
use oracle::generate::Generator;
use oracle::settle::{settle, Answer};
use oracle::tally::{Section, Tally};

#[test]
fn each_file_is_answered_as_it_was_meant() {
    for seed in [1, 2, u64::MAX] {
        let generator = Generator::new(seed);
        for place in 0..20_000 {
            let made = generator.make(place);
            let answer = settle(&made.file);
            match made.damage {
                None => assert!(matches!(answer, Answer::Paid(_)), "{seed} {place}"),
                Some((way, Expected::Refusal(number, at))) => assert_eq!(
                    answer,
                    Answer::Refused { number, place: at },
                    "{seed} {place}: {}",
                    generator.ways[way].name
                ),
                Some((_, Expected::Anything)) => (),
            }
        }
    }
}

/// A way whose name begins with a number leads to that refusal.
#[test]
fn names_of_ways_tell_the_refusal() {
    let generator = Generator::new(1);
    for place in 0..20_000 {
        let Some((way, expected)) = generator.make(place).damage else {
            continue;
        };
        let name = &generator.ways[way].name;
        let first = name.split(' ').next().and_then(|word| word.parse().ok());
        if let (Some(named), Expected::Refusal(number, _)) = (first, expected) {
            assert_eq!(number, named, "{name}");
        }
    }
}

#[test]
fn everything_comes_in_the_first_files() {
    let tally = Tally::of(5_000, 1);
    let is_empty = |section: &Section| section.rows.is_empty();
    for section in tally.sections() {
        assert!(!is_empty(section), "{}", section.title);
        for (label, count) in &section.rows {
            assert!(*count > 0, "{}: {label}", section.title);
        }
    }
}

#[test]
fn about_half_are_damaged_and_files_are_short() {
    let tally = Tally::of(5_000, 1);
    let accepted = tally.answers.rows[0].1;
    assert!((2_500..3_000).contains(&accepted), "{accepted}");
    let average = tally.bytes / tally.files;
    assert!((250..=350).contains(&average), "{average}");
}

/// "Each at least in about 1 to 3 % of rounds": of some 2,800 accepted ones.
#[test]
fn each_stacked_deck_comes_often() {
    let tally = Tally::of(5_000, 1);
    for (name, count) in &tally.stacks.rows {
        assert!(*count >= 20, "{name}: {count}");
    }
}

#[test]
fn each_way_of_damage_comes_more_than_once() {
    let tally = Tally::of(5_000, 1);
    for (name, count) in &tally.ways.rows {
        assert!(*count >= 2, "{name}: {count}");
    }
}

/// Offered and not, each kind of round and seat comes; each six-card royal; each
/// name with each table, and without each card of the six.
#[test]
fn each_thing_of_all_six_comes_often() {
    let tally = Tally::of(5_000, 1);
    let often = [
        &tally.all_six_tables,
        &tally.all_six_rounds,
        &tally.all_six_seats,
        &tally.six_card_royals,
    ];
    let each = [&tally.all_six, &tally.kept, &tally.kept_alone];
    for (sections, least) in [(&often[..], 20), (&each, 3)] {
        for section in sections {
            for (label, count) in &section.rows {
                assert!(*count >= least, "{}: {label}: {count}", section.title);
            }
        }
    }
}

/// A pool above the maximum comes with each kind of shares.
#[test]
fn each_kind_of_shares_comes_often() {
    let tally = Tally::of(5_000, 1);
    for (label, count) in &tally.shares.rows {
        assert!(*count >= 10, "{label}: {count}");
    }
}

/// Stacks come in turn: a stretch as long as all weights together has each as
/// often as its weight says.
#[test]
fn each_stack_comes_in_its_turn() {
    let total: usize = STACKS.iter().map(|stack| stack.weight).sum();
    assert!(total % 2 != 0 && total % 5 != 0, "{total}");
    for first in [0, 1, 1_000_000, u64::MAX - total as u64] {
        let mut counts = vec![0; STACKS.len()];
        for turn in 0..total as u64 {
            counts[in_turn(first + turn)] += 1;
        }
        let weights: Vec<usize> = STACKS.iter().map(|stack| stack.weight).collect();
        assert_eq!(counts, weights);
    }
}

/// The last record is answered with each number, and unfinished rounds come as
/// far as each stage.
#[test]
fn each_answer_of_a_held_file_comes_often() {
    let tally = Tally::of(5_000, 1);
    for section in [&tally.taken, &tally.written, &tally.stages] {
        for (label, count) in &section.rows {
            assert!(*count >= 20, "{}: {label}: {count}", section.title);
        }
    }
}

#[test]
fn a_file_depends_on_seed_and_place_alone() {
    let [one, same, other] = [5, 5, 6].map(Generator::new);
    let file = |generator: &Generator, place| generator.make(place).file;
    for place in [0, 7, 3, 100, u64::MAX] {
        assert_eq!(file(&one, place), file(&same, place));
    }
    assert!((0..10).any(|place| file(&one, place) != file(&other, place)));
}
