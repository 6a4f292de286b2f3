//! A readable text of a round file, one record a line:
//!
//! ```text
//! table 5 100 base 2 lo 1 board 1 pocket 1
//! seat 1 ante 100 board 5 pocket 5 lo 0
//! deck 0: Ah Kh 8h 9h Th Jh Qh 2c 2d 2h 2s 3c 3d
//! choice 1 raise 3
//! choice 2 fold
//! choice 2 number 7
//! bytes 05 00 ff
//! ```
//!
//! A table that offers All-Six ends in `six` and its pay table, and a seat at
//! such a table in `six` and its wager; where that is left out it is 0.
//!
//! ```text
//! table 5 100 base 2 lo 1 board 1 pocket 1 six 5
//! seat 1 ante 100 board 5 pocket 5 lo 0 six 10
//! ```
//!
//! `#` begins a comment. `bytes` gives a record, or the odd bytes at the end,
//! in hex where no other line can say it exactly.

use crate::cards;
use crate::reading::{two_bytes, CHOICE, DECK_PART, RECORD, SEAT, TABLE};

/// The text of a file. Packing it gives the same file back.
///
/// A seat has its All-Six wager written where the table record above it offers
/// All-Six, and where the wager isn't 0.
pub fn show(file: &[u8]) -> String {
    let mut text = String::new();
    let mut offered = false;
    for part in file.chunks(RECORD) {
        if let [TABLE, _, _, _, _, _, _, six, ..] = *part {
            offered = six != 0;
        }
        text += &line_of(part, offered);
        text.push('\n');
    }
    text
}

/// The file of a text, or what is wrong and in which line, from 1.
pub fn pack(text: &str) -> Result<Vec<u8>, String> {
    let mut file = Vec::new();
    for (number, line) in text.lines().enumerate() {
        let words = line.split('#').next().unwrap_or("");
        if words.trim().is_empty() {
            continue;
        }
        if file.len() % RECORD != 0 {
            let number = number + 1;
            return Err(format!("line {number}: odd bytes may only end the file"));
        }
        let part = part_of(words).map_err(|wrong| format!("line {}: {wrong}", number + 1))?;
        file.extend_from_slice(&part);
    }
    Ok(file)
}

/// The readable line if packing it gives the part back, else its bytes.
fn line_of(part: &[u8], offered: bool) -> String {
    match readable(part, offered) {
        Some(line) if part_of(&line).as_deref() == Ok(part) => line,
        _ => bytes_line(part),
    }
}

fn bytes_line(part: &[u8]) -> String {
    let hex = part.iter().map(|byte| format!(" {byte:02x}"));
    format!("bytes{}", hex.collect::<String>())
}

/// A readable line for the named bytes of a whole record; none where it has
/// no readable form.
fn readable(part: &[u8], offered: bool) -> Option<String> {
    let record: &[u8; RECORD] = part.try_into().ok()?;
    match record[0] {
        TABLE => Some(table_line(record)),
        SEAT => Some(seat_line(record, offered)),
        DECK_PART => deck_line(record),
        CHOICE => Some(choice_line(record)),
        _ => None,
    }
}

fn table_line(record: &[u8; RECORD]) -> String {
    let [_, smallest, largest, base, lo, board, pocket, six, ..] = *record;
    let line =
        format!("table {smallest} {largest} base {base} lo {lo} board {board} pocket {pocket}");
    with_six(line, six.into(), six != 0)
}

fn seat_line(record: &[u8; RECORD], offered: bool) -> String {
    let [ante, board, pocket, lo, six] = [2, 4, 6, 8, 10].map(|at| two_bytes(record, at));
    let seat = record[1];
    let line = format!("seat {seat} ante {ante} board {board} pocket {pocket} lo {lo}");
    with_six(line, six, offered || six != 0)
}

fn with_six(line: String, six: u16, written: bool) -> String {
    if written {
        format!("{line} six {six}")
    } else {
        line
    }
}

fn deck_line(record: &[u8; RECORD]) -> Option<String> {
    let mut line = format!("deck {}:", record[1]);
    for &card in &record[2..15] {
        line.push(' ');
        line.push_str(&cards::written(card)?);
    }
    Some(line)
}

fn choice_line(record: &[u8; RECORD]) -> String {
    let seat = record[1];
    match record[2] {
        0 => format!("choice {seat} fold"),
        raise @ 1..=3 => format!("choice {seat} raise {raise}"),
        number => format!("choice {seat} number {number}"),
    }
}

fn part_of(line: &str) -> Result<Vec<u8>, String> {
    let words: Vec<&str> = line.split_whitespace().collect();
    match words.as_slice() {
        ["table", numbers @ ..] => table_record(numbers),
        ["seat", numbers @ ..] => seat_record(numbers),
        ["deck", part, cards @ ..] => deck_record(part, cards),
        ["choice", seat, "fold"] => record_of_bytes(CHOICE, &[seat, "0"]),
        ["choice", seat, "raise" | "number", number] => record_of_bytes(CHOICE, &[seat, number]),
        ["bytes", bytes @ ..] => bytes_of(bytes),
        ["choice", ..] => Err(see("choice")),
        [word, ..] => Err(format!(
            "'{word}' is none of table, seat, deck, choice, bytes"
        )),
        [] => Err("nothing here".to_string()),
    }
}

fn see(kind: &str) -> String {
    let form = match kind {
        "table" => "'table 5 100 base 2 lo 1 board 1 pocket 1', which may end in 'six 5'",
        "seat" => "'seat 1 ante 100 board 5 pocket 5 lo 0', which may end in 'six 10'",
        _ => "'choice 1 raise 3', 'choice 1 fold' or 'choice 1 number 7'",
    };
    format!("{kind}: see {form}")
}

/// The words before `six N` at the end, and N; 0 where that is left out.
fn split_six<'a>(words: &'a [&'a str]) -> (&'a [&'a str], &'a str) {
    match words {
        [before @ .., "six", six] => (before, six),
        _ => (words, "0"),
    }
}

fn table_record(words: &[&str]) -> Result<Vec<u8>, String> {
    let (words, six) = split_six(words);
    let [smallest, largest, "base", base, "lo", lo, "board", board, "pocket", pocket] = words
    else {
        return Err(see("table"));
    };
    record_of_bytes(TABLE, &[smallest, largest, base, lo, board, pocket, six])
}

fn record_of_bytes(kind: u8, words: &[&str]) -> Result<Vec<u8>, String> {
    let mut record = vec![kind];
    for word in words {
        record.push(byte_of(word)?);
    }
    record.resize(RECORD, 0);
    Ok(record)
}

fn seat_record(words: &[&str]) -> Result<Vec<u8>, String> {
    let (words, six) = split_six(words);
    let [seat, "ante", ante, "board", board, "pocket", pocket, "lo", lo] = words else {
        return Err(see("seat"));
    };
    let mut record = vec![SEAT, byte_of(seat)?];
    for word in [ante, board, pocket, lo, &six] {
        let wager: u16 = word
            .parse()
            .map_err(|_| format!("'{word}' is no number of 0 to 65535"))?;
        record.extend_from_slice(&wager.to_le_bytes());
    }
    record.resize(RECORD, 0);
    Ok(record)
}

fn deck_record(part: &str, words: &[&str]) -> Result<Vec<u8>, String> {
    let number = part
        .strip_suffix(':')
        .ok_or_else(|| format!("':' must follow the part '{part}'"))?;
    if words.len() != 13 {
        return Err(format!(
            "a deck part has 13 cards, here are {}",
            words.len()
        ));
    }
    let mut record = vec![DECK_PART, byte_of(number)?];
    for word in words {
        record.push(cards::read(word).ok_or_else(|| format!("'{word}' is no card"))?);
    }
    record.resize(RECORD, 0);
    Ok(record)
}

fn bytes_of(words: &[&str]) -> Result<Vec<u8>, String> {
    if words.is_empty() || words.len() > RECORD {
        return Err(format!("bytes: 1 to 16 of them, here are {}", words.len()));
    }
    words.iter().map(|word| hex_byte(word)).collect()
}

fn hex_byte(word: &str) -> Result<u8, String> {
    let two_digits = word.len() == 2 && word.bytes().all(|digit| digit.is_ascii_hexdigit());
    u8::from_str_radix(word, 16)
        .ok()
        .filter(|_| two_digits)
        .ok_or_else(|| format!("'{word}' is no byte of two hex digits"))
}

fn byte_of(word: &str) -> Result<u8, String> {
    word.parse()
        .map_err(|_| format!("'{word}' is no number of 0 to 255"))
}
