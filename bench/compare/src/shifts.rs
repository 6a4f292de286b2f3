//! A shift in one call, and its rounds in calls of their own, by either settler.

use crate::proved::{self, ShiftAnswer, ANSWER, RESULTS};
use crate::work::Work;
use oracle::{settle, shift};
use std::cell::RefCell;
use std::hint::black_box;
use std::rc::Rc;

extern "C" {
    fn ripplehatch_settle_file(
        file: *const u8,
        bytes: usize,
        results: *mut u64,
        room: usize,
        full: &mut u64,
        paid: &mut u64,
        place: &mut usize,
    ) -> u8;
}

/// The two lists that a shift is lent.
#[derive(PartialEq)]
struct Lists {
    amounts: Vec<u64>,
    answers: Vec<u64>,
}

impl Lists {
    /// Lists for so many rounds, with something in them.
    fn of(rounds: usize) -> Lists {
        Lists {
            amounts: vec![9; RESULTS * rounds],
            answers: vec![9; ANSWER * rounds],
        }
    }
}

/// The shift at once, beside its rounds by oracle/ one by one; and its rounds one by one, by both.
pub fn settling(file: Vec<u8>) -> Result<(Work, Work), String> {
    let rounds = proved::count_rounds(&file);
    let (mut ours, mut theirs) = (Lists::of(rounds), Lists::of(rounds));
    let settled = ShiftAnswer::Settled { rounds };
    if proved::settle_shift(&file, &mut ours.amounts, &mut ours.answers) != settled {
        return Err("the proved settler refuses the shift".to_string());
    }
    shift::settle_shift(&file, &mut theirs.amounts, &mut theirs.answers);
    if ours != theirs {
        return Err("the settlers differ in the shift".to_string());
    }
    let (file, lists) = (Rc::new(file), Rc::new(RefCell::new(ours)));
    let work = |name, proved| Work {
        name,
        calls: rounds,
        proved,
        oracle: each_round(Rc::clone(&file)),
    };
    Ok((
        work("a round of a shift", at_once(&file, &lists)),
        work("the same rounds in single calls", one_by_one(&file, &lists)),
    ))
}

fn at_once(file: &Rc<Vec<u8>>, lists: &Rc<RefCell<Lists>>) -> Box<dyn Fn()> {
    let (file, lists) = (Rc::clone(file), Rc::clone(lists));
    Box::new(move || {
        let lists = &mut *lists.borrow_mut();
        black_box(proved::settle_shift(
            black_box(&file),
            &mut lists.amounts,
            &mut lists.answers,
        ));
    })
}

/// Each round by the library's function for one file, into the same list.
fn one_by_one(file: &Rc<Vec<u8>>, lists: &Rc<RefCell<Lists>>) -> Box<dyn Fn()> {
    let (file, lists) = (Rc::clone(file), Rc::clone(lists));
    let lengths: Vec<usize> = shift::rounds(&file).map(<[u8]>::len).collect();
    Box::new(move || {
        let amounts = &mut lists.borrow_mut().amounts;
        let mut rest = black_box(&file[..]);
        for (long, results) in lengths.iter().zip(amounts.chunks_exact_mut(RESULTS)) {
            let (round, after) = rest.split_at(*long);
            settle_into(round, results);
            rest = after;
        }
    })
}

fn settle_into(file: &[u8], results: &mut [u64]) {
    let (mut full, mut paid, mut place) = (0, 0, 0);
    black_box(unsafe {
        ripplehatch_settle_file(
            file.as_ptr(),
            file.len(),
            results.as_mut_ptr(),
            results.len(),
            &mut full,
            &mut paid,
            &mut place,
        )
    });
}

fn each_round(file: Rc<Vec<u8>>) -> Box<dyn Fn()> {
    Box::new(move || {
        for round in shift::rounds(&file) {
            black_box(settle::settle(black_box(round)));
        }
    })
}
