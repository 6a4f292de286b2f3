//! A round that is held as the file of it: records that are all accepted, in
//! the order in which they came. The empty file is the fresh round.

use crate::held::{Held, Step};
use crate::reading::RECORD;
use crate::writing;

/// A file as a held file and the record that comes to it: its last record, or
/// the odd bytes at its end. Both are empty where the file is.
pub fn split(file: &[u8]) -> (&[u8], &[u8]) {
    file.split_at(file.len().saturating_sub(1) / RECORD * RECORD)
}

/// "One record: 17, 2, then the rest." The round that the file leads to takes
/// the record.
pub fn take(file: &[u8], record: &[u8]) -> Step {
    match held(file) {
        Ok(round) => round.take(record),
        Err(number) => Step::Refused(number),
    }
}

/// The file of the round that the file leads to: 17, then 16.
pub fn file_of(file: &[u8]) -> Result<Vec<u8>, u8> {
    writing::file_of(&held(file)?)
}

/// Writes the file of the round that the file leads to: 17, then 16, then 1.
pub fn write(file: &[u8], room: &mut [u8]) -> Result<(), u8> {
    writing::write(&held(file)?, room)
}

/// The round that the file leads to. 17 is given for a round "neither the
/// fresh one nor led to by accepted records": here for odd bytes at the end
/// and for a record that is refused.
fn held(file: &[u8]) -> Result<Held, u8> {
    Held::led_to(file).map_err(|_| 17)
}
