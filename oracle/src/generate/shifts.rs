//! Makes shifts to be settled: round files, valid and damaged, cut short, with
//! records between them and table records inside them, and the lengths of the
//! lists that are lent with them, right and wrong.

use super::prng::Prng;
use super::{Generator, Made};
use crate::reading::{RECORD, TABLE};
use crate::records::record;
use crate::settle::RESULTS;
use crate::shift::{check_length, count_rounds, right_lists, rounds, ANSWERS};
use crate::shift_stream::Item;
use crate::stream::LONGEST_FILE;

/// What a shift has at most, and what is lent for one at most.
pub const MOST_ROUNDS: usize = 40;
pub const MOST_AMOUNTS: usize = 4_096;
pub const MOST_ANSWERS: usize = 256;

/// "No accepted file has more than 33 records."
const LONGEST_ROUND: usize = 33;
/// The results of a round without All-Six.
const OLD_RESULTS: usize = 28;

pub struct ShiftGenerator {
    seed: u64,
    /// Makes the files that the shifts are joined from.
    files: Generator,
}

impl ShiftGenerator {
    pub fn new(seed: u64) -> ShiftGenerator {
        ShiftGenerator {
            seed,
            files: Generator::new(seed),
        }
    }

    /// The shift at a place of the stream; it depends on the seed and the place
    /// alone.
    pub fn make(&self, place: u64) -> Item {
        let mut rng = Prng::new(self.seed, place);
        let mut file = self.file(&mut rng);
        let count = count_rounds(&file);
        let odd = rng.one_in(6);
        if odd {
            add_odd_bytes(&mut rng, &mut file);
        }
        let wrong = rng.one_in(if odd { 2 } else { 4 });
        let [amounts, answers] = if wrong {
            wrong_lists(&mut rng, count)
        } else {
            right_lists(count)
        };
        Item {
            amounts: amounts as u16,
            answers: answers as u16,
            file,
        }
    }

    /// Whole records.
    fn file(&self, rng: &mut Prng) -> Vec<u8> {
        let mut file = Vec::new();
        if rng.one_in(10) {
            self.add_stray(rng, &mut file);
        }
        let count = some_count(rng);
        let spoilt = spoilt_places(rng, count);
        while let Some(&spoilt) = spoilt.get(count_rounds(&file)) {
            if spoilt {
                self.add_spoilt(rng, &mut file);
            } else {
                file.extend(self.valid(rng));
            }
        }
        if rng.one_in(10) {
            file.extend(self.table(rng));
        }
        file.truncate(fitting(&file));
        file
    }

    /// Adds what leads to a refused round, at least as a rule.
    fn add_spoilt(&self, rng: &mut Prng, file: &mut Vec<u8>) {
        match rng.below(10) {
            0 | 1 => file.extend(self.cut_short(rng)),
            2 => {
                file.extend(self.valid(rng));
                self.add_stray(rng, file);
            }
            3 => file.extend(self.with_table_inside(rng)),
            4 => {
                for _ in 0..rng.between(1, 3) {
                    file.extend(self.table(rng));
                }
            }
            _ => file.extend(self.damaged(rng)),
        }
    }

    /// The first of the files at places by chance that is wanted.
    fn some_file(&self, rng: &mut Prng, wanted: impl Fn(&Made) -> bool) -> Vec<u8> {
        loop {
            let made = self.files.make(rng.draw());
            if wanted(&made) {
                return made.file;
            }
        }
    }

    fn valid(&self, rng: &mut Prng) -> Vec<u8> {
        self.some_file(rng, |made| made.damage.is_none())
    }

    /// The whole records of a damaged file; there may be none.
    fn damaged(&self, rng: &mut Prng) -> Vec<u8> {
        let mut file = self.some_file(rng, |made| made.damage.is_some());
        file.truncate(file.len() / RECORD * RECORD);
        file
    }

    /// A valid file cut after any number of records, each as often.
    fn cut_short(&self, rng: &mut Prng) -> Vec<u8> {
        let length = RECORD * rng.between(1, LONGEST_ROUND - 1);
        let mut file = self.some_file(rng, |made| {
            made.damage.is_none() && made.file.len() > length
        });
        file.truncate(length);
        file
    }

    /// A valid file with a table record after any of its records, or with any
    /// record but the first made one.
    fn with_table_inside(&self, rng: &mut Prng) -> Vec<u8> {
        let mut file = self.valid(rng);
        let records = file.len() / RECORD;
        if rng.one_in(4) {
            file[RECORD * rng.between(1, records - 1)] = TABLE;
        } else {
            let at = RECORD * rng.between(1, records);
            file.splice(at..at, self.table(rng));
        }
        file
    }

    /// A record of kind 1: that of a valid file, whole or with a byte changed,
    /// or one with any other bytes.
    fn table(&self, rng: &mut Prng) -> [u8; RECORD] {
        let mut table = record(&self.valid(rng)[..RECORD]);
        match rng.below(6) {
            0 => table[rng.between(1, 15)] = rng.byte(),
            1 => table[1..].fill(rng.pick(&[0, 1, 255]).unwrap_or(0)),
            2 => table[1..].fill_with(|| rng.byte()),
            _ => (),
        }
        table
    }

    /// Adds records that continue no round, now and then more than any round
    /// has. Those that are by chance of kind 1 start one.
    fn add_stray(&self, rng: &mut Prng, file: &mut Vec<u8>) {
        let kind = rng.below(4);
        let count = match rng.below(8) {
            0 => rng.between(34, 50),
            1 | 2 => rng.between(2, 4),
            _ => 1,
        };
        for _ in 0..count {
            file.extend(self.stray(rng, kind));
        }
    }

    fn stray(&self, rng: &mut Prng, kind: usize) -> [u8; RECORD] {
        match kind {
            0 => [0; RECORD],
            1 => [0; RECORD].map(|_| rng.byte()),
            2 => record(&[rng.below(6) as u8, rng.below(9) as u8, rng.below(5) as u8]),
            _ => {
                let file = self.valid(rng);
                let at = RECORD * rng.between(1, file.len() / RECORD - 1);
                record(&file[at..at + RECORD])
            }
        }
    }
}

/// The files of a seed, in order, that are each one round that begins with a
/// table record.
pub fn single_rounds(seed: u64) -> impl Iterator<Item = Vec<u8>> {
    let generator = Generator::new(seed);
    let files = (0..=u64::MAX).map(move |place| generator.make(place).file);
    files.filter(|file| is_single_round(file))
}

fn is_single_round(file: &[u8]) -> bool {
    check_length(file).is_ok() && file.first() == Some(&TABLE) && count_rounds(file) == 1
}

fn some_count(rng: &mut Prng) -> usize {
    match rng.below(16) {
        0 | 1 => 0,
        2..=4 => 1,
        5 => rng.between(7, MOST_ROUNDS),
        _ => rng.between(2, 6),
    }
}

/// Which of so many rounds are to be refused: none, all, the first, the last, a
/// stretch, or each by chance.
fn spoilt_places(rng: &mut Prng, count: usize) -> Vec<bool> {
    let first = rng.below(count);
    let stretch = match rng.below(8) {
        0 => 0..0,
        1 => 0..count,
        2 => 0..1,
        3 => count.saturating_sub(1)..count,
        4 => first..first + 1,
        5 => first..rng.between(first, count),
        _ => return (0..count).map(|_| rng.one_in(2)).collect(),
    };
    (0..count).map(|place| stretch.contains(&place)).collect()
}

/// The length of as many first rounds as a shift may have, with odd bytes after
/// them.
fn fitting(file: &[u8]) -> usize {
    let mut length = 0;
    for round in rounds(file).take(MOST_ROUNDS) {
        if length + round.len() + RECORD > LONGEST_FILE {
            break;
        }
        length += round.len();
    }
    length
}

/// Adds 1 to 15 bytes, which often begin as a table record does.
fn add_odd_bytes(rng: &mut Prng, file: &mut Vec<u8>) {
    let begin = file.len();
    for _ in 0..rng.between(1, 15) {
        file.push(rng.byte());
    }
    if rng.one_in(3) {
        file[begin] = TABLE;
    }
}

/// How many amounts and answers are lent where either number is wrong for so
/// many rounds.
fn wrong_lists(rng: &mut Prng, rounds: usize) -> [usize; 2] {
    let right = right_lists(rounds);
    let fits = |lists: &[usize; 2]| lists[0] <= MOST_AMOUNTS && lists[1] <= MOST_ANSWERS;
    loop {
        let lists = some_wrong_lists(rng, rounds).filter(fits);
        if let Some(wrong) = lists.filter(|lists| *lists != right) {
            return wrong;
        }
    }
}

/// One way of lending wrong lists, if there are rounds enough for it.
fn some_wrong_lists(rng: &mut Prng, rounds: usize) -> Option<[usize; 2]> {
    let [amounts, answers] = right_lists(rounds);
    Some(match rng.below(20) {
        0 => [amounts.checked_sub(1)?, answers],
        1 => [amounts + 1, answers],
        2 => [amounts.checked_sub(RESULTS)?, answers],
        3 => [amounts + RESULTS, answers],
        4 => [0, answers],
        5 => [OLD_RESULTS * rounds, answers],
        6 => [rng.below(MOST_AMOUNTS + 1), answers],
        7 => [amounts, answers.checked_sub(1)?],
        8 => [amounts, answers + 1],
        9 => [amounts, answers.checked_sub(ANSWERS)?],
        10 => [amounts, answers + ANSWERS],
        11 => [amounts, 0],
        12 => [amounts, rounds],
        13 => [amounts, rng.below(MOST_ANSWERS + 1)],
        14 => [answers, amounts],
        15 => right_lists(rounds.checked_sub(1)?),
        16 => right_lists(rounds + 1),
        17 => right_lists(rng.below(MOST_ROUNDS + 1)),
        18 => [0, 0],
        _ => [rng.below(MOST_AMOUNTS + 1), rng.below(MOST_ANSWERS + 1)],
    })
}
