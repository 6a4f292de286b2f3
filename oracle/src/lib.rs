//! A settler for rounds of Cajun Stud and for shifts of them, and a writer of
//! round files, written from document 01, requests a to d of document 02 and
//! their readings as a plain rule sheet, with a generator of round files and
//! shifts: it exists to be compared with another settler.

pub mod answer;
pub mod cards;
pub mod deal;
pub mod generate;
pub mod handmade;
pub mod held;
pub mod held_file;
pub mod names;
pub mod paytables;
pub mod pool;
pub mod reading;
pub mod records;
pub mod settle;
pub mod shift;
pub mod shift_stream;
pub mod shift_tally;
pub mod stream;
pub mod tally;
pub mod text;
pub mod writing;
