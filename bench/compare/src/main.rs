//! Compares the cost of the proved settler with that of the one in oracle/, in one run, call beside call.
//!
//! usage: compare STREAM SHIFT PASSES     the table, as lines of Markdown: each kind of work is timed so often, and the fastest pass of each settler counts
//!        compare STREAM proved           settles the stream with the proved settler alone, for a profiler
//!
//! STREAM is a file that `oracle generate` wrote, SHIFT one that `oracle join` wrote. Both settlers are asked the same, and have to answer alike, before anything is timed.

mod draws;
mod naming;
#[path = "../../../samples/embed/ripplehatch.rs"]
mod proved;
mod shifts;
mod work;

use oracle::stream::next_file;
use std::fs::File;
use std::io::BufReader;
use std::process::ExitCode;
use std::rc::Rc;
use work::Work;

const USAGE: &str = "usage: compare STREAM SHIFT PASSES, or compare STREAM proved";

extern "C" {
    /// C's CPU time of the process, in millionths of a second on Linux.
    fn clock() -> std::ffi::c_long;
}

fn seconds(work: &dyn Fn()) -> f64 {
    let start = unsafe { clock() };
    work();
    (unsafe { clock() } - start) as f64 / 1e6
}

fn least(a: f64, b: f64) -> f64 {
    if a < b {
        a
    } else {
        b
    }
}

/// Nanoseconds, with one decimal below 100.
fn told(each: f64) -> String {
    let decimals = usize::from(each < 100.0);
    format!("{each:.decimals$} ns")
}

/// Prints the work's row; the seconds of the proved settler's fastest pass.
fn print_row(work: &Work, passes: usize) -> f64 {
    let (mut proved, mut oracle) = (f64::MAX, f64::MAX);
    for _ in 0..passes {
        proved = least(proved, seconds(&work.proved));
        oracle = least(oracle, seconds(&work.oracle));
    }
    let each = |total: f64| told(total * 1e9 / work.calls as f64);
    println!(
        "| {} | {} | {} | {} | {:.2} |",
        work.name,
        work.calls,
        each(proved),
        each(oracle),
        proved / oracle
    );
    proved
}

fn print_table(files: Vec<Vec<u8>>, shift: Vec<u8>, passes: usize) -> Result<(), String> {
    let files = Rc::new(files);
    let (with, without) = work::offering(&files);
    let (at_once, one_by_one) = shifts::settling(shift)?;
    let mut works = vec![
        work::settling("settling a file", Rc::clone(&files))?,
        work::settling("settling a file that offers All-Six", with)?,
        work::settling("the same files without All-Six", without)?,
        work::taking(Rc::clone(&files))?,
        work::writing(files)?,
    ];
    works.extend(naming::namings()?);
    works.push(work::sharing()?);
    works.push(work::sharing_seven()?);
    work::sharing_ties()?;
    println!("| Work | inputs | proved, each | oracle, each | ratio |");
    println!("|---|---|---|---|---|");
    for work in &works {
        print_row(work, passes);
    }
    let times = print_row(&at_once, passes) / print_row(&one_by_one, passes);
    println!("\nA shift costs {times:.3} times its rounds' own calls.");
    Ok(())
}

fn files_of(path: &str) -> Result<Vec<Vec<u8>>, String> {
    let said = |error: std::io::Error| format!("{path}: {error}");
    let mut stream = BufReader::new(File::open(path).map_err(said)?);
    let (mut files, mut file) = (Vec::new(), Vec::new());
    while next_file(&mut stream, &mut file).map_err(said)? {
        files.push(file.clone());
    }
    Ok(files)
}

fn run() -> Result<(), String> {
    let words: Vec<String> = std::env::args().skip(1).collect();
    match words.iter().map(String::as_str).collect::<Vec<_>>()[..] {
        [stream, "proved"] => {
            work::prove_all(&files_of(stream)?);
            Ok(())
        }
        [stream, shift, passes] => {
            let passes = passes.parse().map_err(|_| USAGE)?;
            let shift = std::fs::read(shift).map_err(|error| format!("{shift}: {error}"))?;
            print_table(files_of(stream)?, shift, passes)
        }
        _ => Err(USAGE.to_string()),
    }
}

fn main() -> ExitCode {
    match run() {
        Ok(()) => ExitCode::SUCCESS,
        Err(said) => {
            eprintln!("compare: {said}");
            ExitCode::from(1)
        }
    }
}
