//! The program `oracle`.

use std::fs::File;
use std::io::{self, BufReader, BufWriter, ErrorKind, Read, Write};
use std::num::{IntErrorKind, ParseIntError};
use std::process::ExitCode;

use oracle::generate::shifts;
use oracle::reading::Refusal;
use oracle::{answer, generate, handmade, shift_stream, shift_tally, stream, tally, text, writing};

const HELP: &str = "\
oracle: settles rounds of Cajun Stud, and makes rounds to be settled

  oracle settle [FILE]             settle one round file
  oracle rewrite [FILE]            a round file to the file of its held round
  oracle shift [FILE]              settle a shift file, one line a round
  oracle stream                    settle a stream of round files, one line each
  oracle stream --shifts           settle a stream of shifts
  oracle generate N SEED           write a stream of N round files
  oracle generate --shifts N SEED  write a stream of N shifts
  oracle tally N SEED              count what comes in those N files
  oracle tally --shifts N SEED     count what comes in those N shifts
  oracle join N SEED               join N generated round files to a shift file
  oracle pack [FILE]               a readable text to its round or shift file
  oracle show [FILE]               a round or shift file to its readable text
  oracle show --stream K           the K-th file, from 0, of a stream
  oracle show --stream --shifts K  the K-th shift, from 0, of a stream of shifts
  oracle handmade                  write a stream of held rounds made by hand
  oracle hold                      answer a stream of held rounds, one line each

Without FILE, and for stream and hold, standard input is read.
'oracle COMMAND --help' says more.
Exit status: 0 done, 1 unreadable input or a file refused by rewrite, 2 bad
usage.
";

const SETTLE_HELP: &str = "\
oracle settle [FILE]

Reads a round file and prints a line for each playing seat (its number, then
base, Board, Pocket, Lo Ball and All-Six in cents), then 'pool F P' in dollars,
full and as paid; or 'refused N at R' alone.
";

const REWRITE_HELP: &str = "\
oracle rewrite [FILE]

Reads a round file and writes the file of the held round that its records lead
to, finished or not: table, seats, deck parts, then choices by street and by
rising seat. A refused file, and the empty one, writes nothing: 'refused N at R'
goes to standard error, and the exit status is 1.
";

const SHIFT_HELP: &str = "\
oracle shift [FILE]

Reads a shift file, rounds joined end to end: record 0 starts a round, and so
does every later record of kind 1. Prints a line a round, R being the place
within the round:
  paid A1 ... A35 pool F P
  refused N at R
A shift that isn't of whole records prints 'refused 2 at R' alone, R being the
count of whole records; the empty one prints nothing.
";

const STREAM_HELP: &str = "\
oracle stream
oracle stream --shifts

Standard input is a run of round files, each preceded by its length as two
bytes, low byte first. Prints one line a file:
  paid A1 ... A35 pool F P part B take A written S RECORDS
  refused N at R part B HEX take A written S RECORDS
B is the byte at which the refused part begins, HEX the part (nothing follows B
where it is empty). A is what a round held as the file of it answers to a
record: the record is the last of the file, or the odd bytes at its end, and the
held file is what stands before it. A is 'next', 'finished' or 'refused N'.
The whole file is held too, and written: RECORDS are those of the written file
from record S on, from 0, each in hex without the zero bytes at its end; the S
before them are the same as those of the file. 'written refused 17' or
'written refused 16' stands where it isn't written.

With --shifts standard input is a run of shifts, each preceded by how many
amounts are lent, how many answers are lent and the length of its file, as two
bytes each, low byte first. Prints for each, with K the count of its rounds:
  rounds K settled K
  rounds K refused N at R kept
'kept' says that neither list was changed, 'changed' that one was. After the
line of a settled shift comes a line a round, from the two lists: its refusal
number and place, 0 0 when settled, and its amounts.
  answer N R amounts A1 ... A35
";

const GENERATE_HELP: &str = "\
oracle generate N SEED
oracle generate --shifts N SEED

Writes a stream of N round files, valid and damaged, the same for the same SEED
everywhere. The first M files do not depend on N.
With --shifts it is a stream of N shifts, as 'oracle stream --shifts' reads it:
round files, valid and damaged, joined end to end, with lists of right and wrong
lengths. A shift has at most 4096 amounts, 256 answers and 65535 bytes. The
first M shifts do not depend on N.
";

const TALLY_HELP: &str = "\
oracle tally N SEED
oracle tally --shifts N SEED

Counts what comes in the N files of 'oracle generate N SEED', or in the N shifts
of 'oracle generate --shifts N SEED', as the settler found it.
";

const JOIN_HELP: &str = "\
oracle join N SEED

Writes one shift file of exactly N rounds: the files of 'oracle generate' with
that SEED, in order, joined end to end until there are N. Only files that are
each one round that begins with a table record are taken: whole records, at
least one, the first of kind 1 and no other.
";

const PACK_HELP: &str = "\
oracle pack [FILE]

Reads a text, one record a line, and writes its 16-byte records:
  table 5 100 base 2 lo 1 board 1 pocket 1
  seat 1 ante 100 board 5 pocket 5 lo 0
  deck 0: Ah Kh 8h 9h Th Jh Qh 2c 2d 2h 2s 3c 3d
  choice 1 raise 3
  choice 2 fold
  choice 2 number 7
  bytes 05 00 ff         (a record in hex, or the odd bytes at the end)
A table that offers All-Six ends in 'six' and its pay table, a seat in 'six' and
its All-Six wager; where that is left out it is 0:
  table 5 100 base 2 lo 1 board 1 pocket 1 six 5
  seat 1 ante 100 board 5 pocket 5 lo 0 six 10
'#' begins a comment.
";

const SHOW_HELP: &str = "\
oracle show [FILE]
oracle show --stream K
oracle show --stream --shifts K

Reads a round or shift file, or with --stream the K-th file (from 0) of a stream
on standard input, and prints the text that 'oracle pack' packs to the same
bytes. With --stream the file's answer line stands above it as a comment.
With --stream --shifts it is the K-th shift of a stream of shifts; how many
amounts and answers are lent and its answer lines stand above it.
";

const HANDMADE_HELP: &str = "\
oracle handmade

Writes a stream of held rounds, the same everywhere: some base rounds, and each
of them with one byte changed, for every byte, to several other values. With
each goes the record that the base round would accept next (for a finished
round a choice, which is refused). An item is 174 bytes, with nothing between:
    7  smallest and largest ante; base, Lo Ball, Board, Pocket and All-Six tables
   70  antes, Board, Pocket, Lo Ball and All-Six wagers of seats 1 to 7, two
       bytes each, low byte first
   52  the cards, top first
    1  how many deck parts were read
   21  raises in antes, streets one to three, of seats 1 to 7 each
    7  the street on which each seat folded, from 1; 0 for none
   16  a record
";

const HOLD_HELP: &str = "\
oracle hold

Standard input is a stream as 'oracle handmade' writes it. Prints one line an
item: what the held round answers to the record, then what settling it is
answered with a results list of 35, then the records of the file that it is
written as, each in hex without the zero bytes at its end.
  take next settle refused 16 write RECORDS
  take next settle refused 16 write refused 16
  take refused 17 settle refused 17 write refused 17
  take refused 3 settle paid A1 ... A35 pool F P write RECORDS
'take finished' stands where the record finishes the round.
";

enum Failure {
    Usage(String),
    Input(String),
    Refused(Refusal),
    /// Nobody reads what we write any more.
    OutputClosed,
}

impl From<io::Error> for Failure {
    fn from(error: io::Error) -> Failure {
        match error.kind() {
            ErrorKind::BrokenPipe => Failure::OutputClosed,
            _ => Failure::Input(error.to_string()),
        }
    }
}

fn main() -> ExitCode {
    let mut words = Vec::new();
    for word in std::env::args_os().skip(1) {
        words.push(word.to_string_lossy().into_owned());
    }
    let words: Vec<&str> = words.iter().map(String::as_str).collect();
    match run(&words) {
        Ok(()) | Err(Failure::OutputClosed) => ExitCode::SUCCESS,
        Err(Failure::Usage(wrong)) => {
            eprintln!("oracle: {wrong}; 'oracle --help' lists the commands");
            ExitCode::from(2)
        }
        Err(Failure::Input(wrong)) => {
            eprintln!("oracle: {wrong}");
            ExitCode::from(1)
        }
        Err(Failure::Refused(Refusal { number, place })) => {
            eprintln!("refused {number} at {place}");
            ExitCode::from(1)
        }
    }
}

fn run(words: &[&str]) -> Result<(), Failure> {
    match words {
        ["--help" | "-h" | "help"] => print(HELP.as_bytes()),
        [command, "--help" | "-h"] => print(help_of(command)?.as_bytes()),
        ["settle", file @ ..] => print(answer::lines(&input(file)?).as_bytes()),
        ["rewrite", file @ ..] => rewrite(file),
        ["shift", file @ ..] => answer_shift(file),
        ["stream"] => answer_stream(),
        ["stream", "--shifts"] => answer_shifts(),
        ["generate", count, seed] => write_generated(number("N", count)?, number("SEED", seed)?),
        ["generate", "--shifts", count, seed] => {
            write_shifts(number("N", count)?, number("SEED", seed)?)
        }
        ["tally", count, seed] => {
            print(tally::table(number("N", count)?, number("SEED", seed)?).as_bytes())
        }
        ["tally", "--shifts", count, seed] => {
            print(shift_tally::table(number("N", count)?, number("SEED", seed)?).as_bytes())
        }
        ["join", count, seed] => write_joined(number("N", count)?, number("SEED", seed)?),
        ["pack", file @ ..] => pack(file),
        ["show", "--stream", place] => show_of_stream(number("K", place)?),
        ["show", "--stream", "--shifts", place] => show_of_shifts(number("K", place)?),
        ["show", file @ ..] => print(text::show(&input(file)?).as_bytes()),
        ["handmade"] => write_handmade(),
        ["hold"] => answer_held(),
        [command, ..] => {
            help_of(command)?;
            Err(Failure::Usage(format!("wrong arguments for {command}")))
        }
        [] => Err(Failure::Usage("no command".to_string())),
    }
}

fn help_of(command: &str) -> Result<&'static str, Failure> {
    match command {
        "settle" => Ok(SETTLE_HELP),
        "rewrite" => Ok(REWRITE_HELP),
        "shift" => Ok(SHIFT_HELP),
        "stream" => Ok(STREAM_HELP),
        "generate" => Ok(GENERATE_HELP),
        "tally" => Ok(TALLY_HELP),
        "join" => Ok(JOIN_HELP),
        "pack" => Ok(PACK_HELP),
        "show" => Ok(SHOW_HELP),
        "handmade" => Ok(HANDMADE_HELP),
        "hold" => Ok(HOLD_HELP),
        _ => Err(Failure::Usage(format!("no command '{command}'"))),
    }
}

fn number(name: &str, word: &str) -> Result<u64, Failure> {
    word.parse().map_err(|error: ParseIntError| {
        Failure::Usage(match error.kind() {
            IntErrorKind::PosOverflow => format!("{name} is at most {}, not {word}", u64::MAX),
            _ => format!("{name} is a whole number from 0, not '{word}'"),
        })
    })
}

fn print(bytes: &[u8]) -> Result<(), Failure> {
    let mut out = io::stdout().lock();
    out.write_all(bytes)?;
    Ok(out.flush()?)
}

/// The whole of the named file, or of standard input where none is named.
fn input(file: &[&str]) -> Result<Vec<u8>, Failure> {
    let mut bytes = Vec::new();
    match file {
        [] => io::stdin().lock().read_to_end(&mut bytes)?,
        [option] if option.starts_with('-') => {
            return Err(Failure::Usage(format!("no option '{option}' here")))
        }
        [path] => File::open(path)
            .and_then(|mut opened| opened.read_to_end(&mut bytes))
            .map_err(|error| Failure::Input(format!("{path}: {error}")))?,
        _ => return Err(Failure::Usage("more than one FILE".to_string())),
    };
    Ok(bytes)
}

fn rewrite(file: &[&str]) -> Result<(), Failure> {
    print(&writing::rewritten(&input(file)?).map_err(Failure::Refused)?)
}

fn answer_shift(file: &[&str]) -> Result<(), Failure> {
    let file = input(file)?;
    let mut to = BufWriter::with_capacity(1 << 16, io::stdout().lock());
    answer::write_shift(&mut to, &file)?;
    Ok(to.flush()?)
}

fn answer_stream() -> Result<(), Failure> {
    let mut from = BufReader::with_capacity(1 << 16, io::stdin().lock());
    let mut to = BufWriter::with_capacity(1 << 16, io::stdout().lock());
    let answered = stream::answer_all(&mut from, &mut to);
    to.flush()?;
    Ok(answered?)
}

fn answer_shifts() -> Result<(), Failure> {
    let mut from = BufReader::with_capacity(1 << 16, io::stdin().lock());
    let mut to = BufWriter::with_capacity(1 << 16, io::stdout().lock());
    let answered = shift_stream::answer_all(&mut from, &mut to);
    to.flush()?;
    Ok(answered?)
}

fn write_generated(count: u64, seed: u64) -> Result<(), Failure> {
    let mut to = BufWriter::with_capacity(1 << 16, io::stdout().lock());
    let generator = generate::Generator::new(seed);
    for place in 0..count {
        stream::put_file(&mut to, &generator.make(place).file)?;
    }
    Ok(to.flush()?)
}

fn write_shifts(count: u64, seed: u64) -> Result<(), Failure> {
    let mut to = BufWriter::with_capacity(1 << 16, io::stdout().lock());
    let generator = shifts::ShiftGenerator::new(seed);
    for place in 0..count {
        shift_stream::put_item(&mut to, &generator.make(place))?;
    }
    Ok(to.flush()?)
}

fn write_joined(count: u64, seed: u64) -> Result<(), Failure> {
    let mut to = BufWriter::with_capacity(1 << 16, io::stdout().lock());
    for (_, file) in (0..count).zip(shifts::single_rounds(seed)) {
        to.write_all(&file)?;
    }
    Ok(to.flush()?)
}

fn write_handmade() -> Result<(), Failure> {
    let mut to = BufWriter::with_capacity(1 << 16, io::stdout().lock());
    handmade::write_all(&mut to)?;
    Ok(to.flush()?)
}

fn answer_held() -> Result<(), Failure> {
    let mut from = BufReader::with_capacity(1 << 16, io::stdin().lock());
    let mut to = BufWriter::with_capacity(1 << 16, io::stdout().lock());
    let answered = handmade::answer_all(&mut from, &mut to);
    to.flush()?;
    Ok(answered?)
}

fn pack(file: &[&str]) -> Result<(), Failure> {
    let bytes = input(file)?;
    let text = String::from_utf8(bytes)
        .map_err(|_| Failure::Input("the text is not UTF-8".to_string()))?;
    print(&text::pack(&text).map_err(Failure::Input)?)
}

fn show_of_stream(place: u64) -> Result<(), Failure> {
    let mut from = BufReader::new(io::stdin().lock());
    let mut file = Vec::new();
    for before in 0..=place {
        if !stream::next_file(&mut from, &mut file)? {
            return Err(Failure::Input(format!("the stream has {before} files")));
        }
    }
    let mut out = b"# ".to_vec();
    answer::push_stream_line(&mut out, &file);
    out.extend_from_slice(text::show(&file).as_bytes());
    print(&out)
}

fn show_of_shifts(place: u64) -> Result<(), Failure> {
    let mut from = BufReader::new(io::stdin().lock());
    let mut item = shift_stream::Item::default();
    for before in 0..=place {
        item = shift_stream::next_item(&mut from)?
            .ok_or_else(|| Failure::Input(format!("the stream has {before} shifts")))?;
    }
    print(shift_stream::show(&item).as_bytes())
}
