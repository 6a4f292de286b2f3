//! Counts what comes in generated shifts, as the settler finds it.

use std::fmt::Write;

use crate::generate::shifts::ShiftGenerator;
use crate::held::Held;
use crate::reading::{CHOICE, DECK_PART, RECORD, SEAT, TABLE};
use crate::settle::{settle, Answer, RESULTS};
use crate::shift::{count_rounds, right_lists, rounds, settle_shift, ShiftAnswer, ANSWERS};
use crate::shift_stream::Item;
use crate::tally::{print_section, stage, Section, STAGES};

const COUNTS: [&str; 5] = ["0", "1", "2 to 6", "7 to 20", "more"];
const REFUSED: [&str; 4] = [
    "the only round",
    "the first, another after it",
    "in the middle",
    "the last, another before it",
];
const NEIGHBOURS: [&str; 5] = [
    "settled after a settled one",
    "settled after a refused one",
    "refused after a settled one",
    "refused after a refused one",
    "refused after two refused ones",
];
const MIXES: [&str; 3] = ["all settled", "some refused", "all refused"];
const BEGINNINGS: [&str; 7] = [
    "a table record, accepted",
    "a table record, refused",
    "a record of kind 0",
    "a seat",
    "a deck part",
    "a choice",
    "a record of another kind",
];
const ONE_RECORD: [&str; 6] = [
    "a table record, accepted, another round after it",
    "a table record, accepted, the last of the shift",
    "a table record, refused, another round after it",
    "a table record, refused, the last of the shift",
    "another record, another round after it",
    "another record, the last of the shift",
];
const LENGTHS: [&str; 4] = ["1", "2 to 33", "34", "more"];
const UNFINISHED: [&str; 2] = ["another round after it", "the last of the shift"];
const STRAYS: [&str; 6] = [
    "zeros",
    "kind 0, not all zeros",
    "a seat",
    "a deck part",
    "a choice",
    "another kind",
];
const LISTS: [&str; 18] = [
    "right",
    "no amounts",
    "amounts one fewer",
    "amounts one more",
    "amounts 35 fewer",
    "amounts 35 more",
    "amounts wrong in another way",
    "no answers",
    "answers one fewer",
    "answers one more",
    "answers two fewer",
    "answers two more",
    "answers wrong in another way",
    "neither amounts nor answers",
    "the two exchanged",
    "both right for fewer rounds",
    "both right for more rounds",
    "both wrong in another way",
];
const FAULTS: [&str; 4] = ["right", "amounts wrong", "answers wrong", "both wrong"];
const ODD: [&str; 3] = [
    "no whole record before them",
    "whole records before them",
    "they begin as a table record does",
];

pub struct ShiftTally {
    pub shifts: u64,
    pub bytes: u64,
    pub answers: Section,
    pub counts: Section,
    pub round_answers: Section,
    pub refused: Section,
    pub neighbours: Section,
    pub mixes: Section,
    pub beginnings: Section,
    pub one_record: Section,
    pub lengths: Section,
    /// How far a round has come where another begins.
    pub stages: Section,
    pub unfinished: Section,
    pub unfinished_lengths: Section,
    pub strays: Section,
    pub lists: Section,
    pub empty_lists: Section,
    pub tails: Section,
    pub odd: Section,
    pub odd_lists: Section,
}

/// The tally of the first shifts of a seed, as a readable table.
pub fn table(count: u64, seed: u64) -> String {
    ShiftTally::of(count, seed).printed()
}

impl ShiftTally {
    pub fn of(count: u64, seed: u64) -> ShiftTally {
        let generator = ShiftGenerator::new(seed);
        let mut tally = ShiftTally::empty();
        for place in 0..count {
            tally.shift(&generator.make(place));
        }
        tally
    }

    fn empty() -> ShiftTally {
        let refused = |number| format!("refused {number}");
        let settled = || std::iter::once("settled".to_string());
        let stages = STAGES.into_iter().chain(["finished", "refused"]);
        ShiftTally {
            shifts: 0,
            bytes: 0,
            answers: Section::new("shifts", settled().chain((1..3).map(refused))),
            counts: Section::new("shifts by their rounds", COUNTS),
            round_answers: Section::new(
                "rounds of settled shifts",
                settled().chain((3..17).map(refused)),
            ),
            refused: Section::new("refused rounds", REFUSED),
            neighbours: Section::new("rounds by the one before", NEIGHBOURS),
            mixes: Section::new("settled shifts of two rounds or more", MIXES),
            beginnings: Section::new("first records of rounds", BEGINNINGS),
            one_record: Section::new("rounds of one record", ONE_RECORD),
            lengths: Section::new("rounds by their records", LENGTHS),
            stages: Section::new("how far a round has come where another begins", stages),
            unfinished: Section::new("rounds refused 16", UNFINISHED),
            unfinished_lengths: Section::new("rounds refused 16 by their records", 1..33),
            strays: Section::new("first records after the finish of a round", STRAYS),
            lists: Section::new("lists of shifts without odd bytes", LISTS),
            empty_lists: Section::new("lists of empty files", FAULTS),
            tails: Section::new("odd bytes at the end", 1..16),
            odd: Section::new("shifts with odd bytes", ODD),
            odd_lists: Section::new("lists of shifts with odd bytes", FAULTS),
        }
    }

    pub fn sections(&self) -> [&Section; 18] {
        [
            &self.answers,
            &self.counts,
            &self.round_answers,
            &self.refused,
            &self.neighbours,
            &self.mixes,
            &self.beginnings,
            &self.one_record,
            &self.lengths,
            &self.stages,
            &self.unfinished,
            &self.unfinished_lengths,
            &self.strays,
            &self.lists,
            &self.empty_lists,
            &self.tails,
            &self.odd,
            &self.odd_lists,
        ]
    }

    /// The rounds of settled shifts.
    pub fn rounds(&self) -> u64 {
        self.round_answers.rows.iter().map(|(_, count)| count).sum()
    }

    fn shift(&mut self, item: &Item) {
        self.shifts += 1;
        self.bytes += item.file.len() as u64;
        let mut amounts = vec![0; item.amounts.into()];
        let mut answers = vec![0; item.answers.into()];
        match settle_shift(&item.file, &mut amounts, &mut answers) {
            ShiftAnswer::Refused { number, .. } => self.answers.count(number.into()),
            ShiftAnswer::Settled { .. } => {
                self.answers.count(0);
                self.settled(&item.file, &answers);
            }
        }
        let count = count_rounds(&item.file);
        self.counts.count(match count {
            0 => 0,
            1 => 1,
            2..=6 => 2,
            7..=20 => 3,
            _ => 4,
        });
        self.lists(item, lists_row(item, count));
    }

    fn lists(&mut self, item: &Item, row: usize) {
        let whole = item.file.len() / RECORD * RECORD;
        if let [first, ..] = item.file[whole..] {
            self.tails.count(item.file.len() - whole - 1);
            self.odd.count(usize::from(whole > 0));
            if first == TABLE {
                self.odd.count(2);
            }
            self.odd_lists.count(fault_row(row));
            return;
        }
        self.lists.count(row);
        if item.file.is_empty() {
            self.empty_lists.count(fault_row(row));
        }
    }

    fn settled(&mut self, file: &[u8], answers: &[u64]) {
        let whole = file.len();
        let mut end = 0;
        for (records, answer) in rounds(file).zip(answers.chunks(ANSWERS)) {
            let first = end == 0;
            end += records.len();
            self.round(&Round {
                records,
                number: answer[0],
                place: answer[1] as usize,
                first,
                last: end == whole,
            });
        }
        let refused = answers.chunks(ANSWERS).map(|answer| answer[0] != 0);
        self.side_by_side(&refused.collect::<Vec<bool>>());
    }

    /// Counts which rounds of a shift are refused, seen together.
    fn side_by_side(&mut self, refused: &[bool]) {
        for pair in refused.windows(2) {
            let [before, this] = [pair[0], pair[1]].map(usize::from);
            self.neighbours.count(2 * this + before);
        }
        let three = refused.windows(3).filter(|three| **three == [true; 3]);
        three.for_each(|_| self.neighbours.count(4));
        let all = refused.iter().filter(|refused| **refused).count();
        match refused.len() {
            0 | 1 => (),
            _ if all == 0 => self.mixes.count(0),
            count if all < count => self.mixes.count(1),
            _ => self.mixes.count(2),
        }
    }

    fn round(&mut self, round: &Round) {
        let count = round.records.len() / RECORD;
        let beginning = round.beginning();
        self.beginnings.count(beginning);
        self.lengths.count(match count {
            1 => 0,
            2..=33 => 1,
            34 => 2,
            _ => 3,
        });
        if count == 1 {
            let row = 2 * beginning.min(2);
            self.one_record.count(row + usize::from(round.last));
        }
        if !round.last {
            self.stages.count(round.stage());
        }
        self.round_answers.count(match round.number {
            0 => 0,
            number => number as usize - 2,
        });
        if round.number != 0 {
            self.refused_round(round);
        }
    }

    fn refused_round(&mut self, round: &Round) {
        self.refused.count(match (round.first, round.last) {
            (true, true) => 0,
            (true, false) => 1,
            (false, false) => 2,
            (false, true) => 3,
        });
        if round.number == 16 {
            self.unfinished.count(usize::from(round.last));
            self.unfinished_lengths.count(round.place - 1);
        }
        let (before, after) = round.records.split_at(RECORD * round.place);
        if round.number == 3 && matches!(settle(before), Answer::Paid(_)) {
            self.strays.count(stray_row(&after[..RECORD]));
        }
    }

    pub fn printed(&self) -> String {
        let mut text = format!("shifts {}, bytes {}", self.shifts, self.bytes);
        let average = self.bytes as f64 / self.shifts.max(1) as f64;
        let _ = write!(text, ", bytes a shift {average:.1}");
        let _ = writeln!(text, ", rounds of settled shifts {}", self.rounds());
        for section in self.sections() {
            print_section(&mut text, section);
        }
        text
    }
}

/// A round of a settled shift and its answer, "0 and 0 when settled".
struct Round<'a> {
    records: &'a [u8],
    number: u64,
    place: usize,
    first: bool,
    last: bool,
}

impl Round<'_> {
    /// The place in `BEGINNINGS`.
    fn beginning(&self) -> usize {
        match self.records[0] {
            TABLE if self.number != 0 && self.place == 0 => 1,
            TABLE => 0,
            0 => 2,
            SEAT => 3,
            DECK_PART => 4,
            CHOICE => 5,
            _ => 6,
        }
    }

    /// The place in `STAGES`, or after them that of a finished and that of a
    /// refused round.
    fn stage(&self) -> usize {
        match (self.number, Held::led_to(self.records)) {
            (0, _) => STAGES.len(),
            (_, Ok(held)) => stage(&held),
            _ => STAGES.len() + 1,
        }
    }
}

/// The place in `STRAYS` of a record.
fn stray_row(record: &[u8]) -> usize {
    match record[0] {
        0 if record.iter().all(|&byte| byte == 0) => 0,
        0 => 1,
        SEAT => 2,
        DECK_PART => 3,
        CHOICE => 4,
        _ => 5,
    }
}

/// The place in `LISTS` of the lists that are lent for so many rounds.
fn lists_row(item: &Item, rounds: usize) -> usize {
    let lent = [item.amounts, item.answers].map(usize::from);
    let right = right_lists(rounds);
    match (lent[0] == right[0], lent[1] == right[1]) {
        (true, true) => 0,
        (false, true) => 1 + length_row(lent[0], right[0], RESULTS),
        (true, false) => 7 + length_row(lent[1], right[1], ANSWERS),
        (false, false) => 13 + both_row(lent, right),
    }
}

/// The place, among the ways in which one list is wrong, of a length.
fn length_row(lent: usize, right: usize, a_round: usize) -> usize {
    match lent {
        0 => 0,
        _ if lent + 1 == right => 1,
        _ if lent == right + 1 => 2,
        _ if lent + a_round == right => 3,
        _ if lent == right + a_round => 4,
        _ => 5,
    }
}

/// The place, among the ways in which both lists are wrong, of their lengths.
fn both_row(lent: [usize; 2], right: [usize; 2]) -> usize {
    let fit_together = right_lists(lent[0] / RESULTS) == lent;
    match lent {
        [0, 0] => 0,
        [amounts, answers] if [answers, amounts] == right => 1,
        [amounts, _] if fit_together && amounts < right[0] => 2,
        _ if fit_together => 3,
        _ => 4,
    }
}

/// The place in `FAULTS` of a place in `LISTS`.
fn fault_row(lists: usize) -> usize {
    match lists {
        0 => 0,
        1..=6 => 1,
        7..=12 => 2,
        _ => 3,
    }
}
