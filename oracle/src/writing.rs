//! Writing round files: "The dealer's pad holds a round and needs the file of
//! it."

use crate::held::Held;
use crate::reading::{refuse, Refusal, RECORD};

/// The file of a held round, "table, seats, deck parts, then choices by street
/// and by rising seat": its own records stand in this order. "An unfinished
/// round is written as far as it has come."
///
/// "Refusals: 17, then 16 for a round with no table record."
pub fn file_of(held: &Held) -> Result<Vec<u8>, u8> {
    refuse(17, !held.is_held())?;
    refuse(16, !has_table(held))?;
    Ok(held.own_records().concat())
}

/// Writes the file of a held round into the room. "Refusals: 17, then 16 ..,
/// then 1 if the lent room isn't exactly the file's length; the room is then
/// unchanged."
pub fn write(held: &Held, room: &mut [u8]) -> Result<(), u8> {
    let file = file_of(held)?;
    refuse(1, room.len() != file.len())?;
    room.copy_from_slice(&file);
    Ok(())
}

/// A file "read and written again". Its refusal carries a place as a file's
/// does: "for 2 and 16 the count of whole records".
pub fn rewritten(file: &[u8]) -> Result<Vec<u8>, Refusal> {
    let held = Held::led_to(file)?;
    file_of(&held).map_err(|number| Refusal {
        number,
        place: file.len() / RECORD,
    })
}

/// Of the table's numbers only that of All-Six may be 0, and "parts not yet
/// filled are zero".
fn has_table(held: &Held) -> bool {
    held.table != [0; 7]
}
