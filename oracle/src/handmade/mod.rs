//! Held rounds made by hand, and what they are answered. An item is a held
//! round's 158 bytes, then a record's 16; items stand in a stream with nothing
//! between.

pub mod bases;
pub mod changes;

use std::io::{self, Read, Write};

use crate::answer::{push_paid, push_records, push_refused, push_step};
use crate::held::{Held, LENGTH};
use crate::reading::RECORD;
use crate::stream::{ended_inside, read_up_to};
use crate::writing;

pub const ITEM: usize = LENGTH + RECORD;

#[derive(Clone, Copy, Debug, PartialEq, Eq, PartialOrd, Ord)]
pub struct Item {
    pub held: [u8; LENGTH],
    pub record: [u8; RECORD],
}

/// For each base round the round itself, then with each of its bytes changed
/// to each of some other values.
pub fn items() -> Vec<Item> {
    bases::all().iter().flat_map(items_of).collect()
}

pub fn items_of(base: &bases::Base) -> Vec<Item> {
    let unchanged = Item {
        held: base.held.bytes(),
        record: base.record,
    };
    let mut items = vec![unchanged];
    for at in 0..LENGTH {
        for value in changes::of(&base.held, at) {
            let mut item = unchanged;
            item.held[at] = value;
            items.push(item);
        }
    }
    items
}

pub fn write_all(to: &mut impl Write) -> io::Result<()> {
    for item in items() {
        to.write_all(&item.held)?;
        to.write_all(&item.record)?;
    }
    Ok(())
}

/// Reads the next item; none at the end of the stream.
fn next_item(from: &mut impl Read) -> io::Result<Option<Item>> {
    let mut item = Item {
        held: [0; LENGTH],
        record: [0; RECORD],
    };
    let read = read_up_to(from, &mut item.held)? + read_up_to(from, &mut item.record)?;
    match read {
        0 => Ok(None),
        ITEM => Ok(Some(item)),
        _ => Err(ended_inside("an item")),
    }
}

/// Answers each item of a stream with one line.
pub fn answer_all(from: &mut impl Read, to: &mut impl Write) -> io::Result<()> {
    let mut line = Vec::new();
    while let Some(item) = next_item(from)? {
        line.clear();
        push_line(&mut line, &item);
        to.write_all(&line)?;
    }
    Ok(())
}

/// Appends what taking the item's record, settling its held round and writing
/// it is answered.
pub fn push_line(out: &mut Vec<u8>, item: &Item) {
    let held = Held::from_bytes(&item.held);
    out.extend_from_slice(b"take ");
    push_step(out, &held.take(&item.record));
    out.extend_from_slice(b" settle ");
    match held.settle() {
        Ok(settled) => push_paid(out, &settled),
        Err(number) => push_refused(out, number),
    }
    out.extend_from_slice(b" write");
    match writing::file_of(&held) {
        Ok(file) => push_records(out, &file),
        Err(number) => {
            out.push(b' ');
            push_refused(out, number);
        }
    }
    out.push(b'\n');
}
