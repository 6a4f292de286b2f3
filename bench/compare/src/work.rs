//! What is timed: the same inputs for both settlers, and that they answer alike.

use crate::draws::Draws;
use crate::proved::{self, Answer, Taken};
use oracle::held::Step;
use oracle::held_file;
use oracle::pool;
use oracle::settle;
use std::hint::black_box;
use std::rc::Rc;

/// One kind of work, done by either settler over all its inputs.
pub struct Work {
    pub name: &'static str,
    pub calls: usize,
    pub proved: Box<dyn Fn()>,
    pub oracle: Box<dyn Fn()>,
}

pub type Files = Rc<Vec<Vec<u8>>>;

/// The settled files of a stream that offer All-Six, and the same files without it: the table's byte and the seats' wagers are taken out.
pub fn offering(files: &[Vec<u8>]) -> (Files, Files) {
    let offers = |file: &&Vec<u8>| {
        file[7.min(file.len())..]
            .first()
            .is_some_and(|&table| table != 0)
            && matches!(settle::settle(file), settle::Answer::Paid(_))
    };
    let with: Vec<Vec<u8>> = files.iter().filter(offers).cloned().collect();
    let without = with.iter().map(|file| without_six(file)).collect();
    (Rc::new(with), Rc::new(without))
}

fn without_six(file: &[u8]) -> Vec<u8> {
    let mut file = file.to_vec();
    for record in file.chunks_exact_mut(16) {
        match record[0] {
            1 => record[7] = 0,
            2 => record[10..12].fill(0),
            _ => {}
        }
    }
    file
}

/// Settling every file of a stream.
pub fn settling(name: &'static str, files: Files) -> Result<Work, String> {
    for (n, file) in files.iter().enumerate() {
        if proved::settle(file) != theirs(file) {
            return Err(format!("the settlers differ at file {n}"));
        }
        if proved::refused_part(file) != settle::refused_part(file).1 {
            return Err(format!("the refused parts differ at file {n}"));
        }
    }
    let other = Rc::clone(&files);
    Ok(Work {
        name,
        calls: files.len(),
        proved: Box::new(move || each(&files, proved::settle)),
        oracle: Box::new(move || each(&other, settle::settle)),
    })
}

/// What oracle/ answers, as the library says it.
fn theirs(file: &[u8]) -> Answer {
    match settle::settle(file) {
        settle::Answer::Paid(settled) => Answer::Paid {
            amounts: settled.amounts,
            full: settled.full,
            paid: settled.paid,
        },
        settle::Answer::Refused { number, place } => Answer::Refused { number, place },
    }
}

/// Answering the last record of every file, or the odd bytes at its end, with what stands before it as the held file.
pub fn taking(files: Files) -> Result<Work, String> {
    for (n, file) in files.iter().enumerate() {
        if take(file) != their_take(file) {
            return Err(format!("the answers to the last record differ at file {n}"));
        }
    }
    let other = Rc::clone(&files);
    Ok(Work {
        name: "a record to a held file",
        calls: files.len(),
        proved: Box::new(move || each(&files, take)),
        oracle: Box::new(move || each(&other, their_take)),
    })
}

fn take(file: &[u8]) -> Result<Taken, u8> {
    let (held, record) = held_file::split(file);
    proved::take(held, record)
}

fn their_take(file: &[u8]) -> Result<Taken, u8> {
    let (held, record) = held_file::split(file);
    match held_file::take(held, record) {
        Step::Next(_) => Ok(Taken::Next),
        Step::Finished(_) => Ok(Taken::Finished),
        Step::Refused(number) => Err(number),
    }
}

/// Writing every file as a held one, in the writer's order.
pub fn writing(files: Files) -> Result<Work, String> {
    for (n, file) in files.iter().enumerate() {
        let (mut ours, mut theirs) = (vec![9; file.len()], vec![9; file.len()]);
        let same = proved::write(file, &mut ours) == held_file::write(file, &mut theirs);
        if !same || ours != theirs {
            return Err(format!("the written files differ at file {n}"));
        }
    }
    let other = Rc::clone(&files);
    Ok(Work {
        name: "writing a held file",
        calls: files.len(),
        proved: Box::new(move || each_room(&files, proved::write)),
        oracle: Box::new(move || each_room(&other, held_file::write)),
    })
}

fn each_room<A>(files: &[Vec<u8>], write: impl Fn(&[u8], &mut [u8]) -> A) {
    let mut room = vec![0; files.iter().map(Vec::len).max().unwrap_or(0)];
    for file in files {
        black_box(write(black_box(file), &mut room[..file.len()]));
    }
    black_box(room);
}

/// The proved settler alone, over every file.
pub fn prove_all(files: &[Vec<u8>]) {
    each(files, proved::settle);
}

fn each<A>(files: &[Vec<u8>], answer: impl Fn(&[u8]) -> A) {
    for file in files {
        black_box(answer(black_box(file)));
    }
}

/// Sharing the maximum among wins: pools of none to eight wins, within their limits and beyond, below the maximum and above.
pub fn sharing() -> Result<Work, String> {
    shared("sharing a pool", pools())
}

/// Sharing it among seven wins that come to more.
pub fn sharing_seven() -> Result<Work, String> {
    shared("sharing seven wins above the maximum", pools_of_seven())
}

/// Small wins under small maximums, whose fractions are often equal. These are compared, and not timed.
pub fn sharing_ties() -> Result<(), String> {
    let mut draws = Draws::from(2);
    for _ in 0..400_000 {
        let (maximum, wins) = (draws.below(60) as u64, draws.below(8));
        let wins: Vec<u64> = (0..wins).map(|_| draws.below(16) as u64).collect();
        same_shares(&wins, maximum)?;
    }
    Ok(())
}

fn shared(name: &'static str, pools: Vec<Vec<u64>>) -> Result<Work, String> {
    for wins in &pools {
        same_shares(wins, MAXIMUM)?;
    }
    let pools = Rc::new(pools);
    let other = Rc::clone(&pools);
    Ok(Work {
        name,
        calls: pools.len(),
        proved: Box::new(move || {
            each_pool(&pools, |wins, shares| proved::share(wins, MAXIMUM, shares))
        }),
        oracle: Box::new(move || {
            each_pool(&other, |wins, shares| pool::share(wins, MAXIMUM, shares))
        }),
    })
}

fn same_shares(wins: &[u64], maximum: u64) -> Result<(), String> {
    let (mut ours, mut theirs) = (vec![9; wins.len()], vec![9; wins.len()]);
    let same = proved::share(wins, maximum, &mut ours) == pool::share(wins, maximum, &mut theirs);
    if same && ours == theirs {
        Ok(())
    } else {
        Err(format!("the shares of {maximum} differ of {wins:?}"))
    }
}

const MAXIMUM: u64 = 25_000;

fn each_pool<A>(pools: &[Vec<u64>], share: impl Fn(&[u64], &mut [u64]) -> A) {
    let mut shares = [0; 8];
    for wins in pools {
        black_box(share(black_box(wins), &mut shares[..wins.len()]));
    }
    black_box(shares);
}

fn pools() -> Vec<Vec<u64>> {
    let mut draws = Draws::from(1);
    (0..200_000)
        .map(|_| {
            let (wins, most) = (draws.below(9), [1_000, 20_000, 500_001][draws.below(3)]);
            (0..wins).map(|_| draws.below(most) as u64).collect()
        })
        .collect()
}

fn pools_of_seven() -> Vec<Vec<u64>> {
    let mut draws = Draws::from(3);
    (0..100_000)
        .map(|_| {
            (0..7)
                .map(|_| 5_000 + draws.below(495_001) as u64)
                .collect()
        })
        .collect()
}
