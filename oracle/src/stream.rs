//! A stream: a run of files, each preceded by its length as two bytes, low
//! byte first.

use std::io::{self, ErrorKind, Read, Write};

use crate::answer::push_stream_line;

pub const LONGEST_FILE: usize = 65_535;

/// Reads the next file into `file`; false at the end of the stream.
pub fn next_file(from: &mut impl Read, file: &mut Vec<u8>) -> io::Result<bool> {
    let mut length = [0; 2];
    match read_up_to(from, &mut length)? {
        0 => return Ok(false),
        2 => (),
        _ => return Err(ended_inside("a length")),
    }
    file.resize(usize::from(u16::from_le_bytes(length)), 0);
    if read_up_to(from, file)? < file.len() {
        return Err(ended_inside("a file"));
    }
    Ok(true)
}

/// Fills the bytes as far as the stream goes; tells how many it filled.
pub(crate) fn read_up_to(from: &mut impl Read, bytes: &mut [u8]) -> io::Result<usize> {
    let mut filled = 0;
    while filled < bytes.len() {
        match from.read(&mut bytes[filled..]) {
            Ok(0) => break,
            Ok(count) => filled += count,
            Err(error) if error.kind() == ErrorKind::Interrupted => (),
            Err(error) => return Err(error),
        }
    }
    Ok(filled)
}

pub(crate) fn ended_inside(what: &str) -> io::Error {
    io::Error::new(
        ErrorKind::UnexpectedEof,
        format!("the stream ends inside {what}"),
    )
}

/// Appends a file to a stream. A file too long for its length is cut.
pub fn put_file(to: &mut impl Write, file: &[u8]) -> io::Result<()> {
    let file = &file[..file.len().min(LONGEST_FILE)];
    to.write_all(&(file.len() as u16).to_le_bytes())?;
    to.write_all(file)
}

/// Answers each file of a stream with one line.
pub fn answer_all(from: &mut impl Read, to: &mut impl Write) -> io::Result<()> {
    let mut file = Vec::new();
    let mut line = Vec::new();
    while next_file(from, &mut file)? {
        line.clear();
        push_stream_line(&mut line, &file);
        to.write_all(&line)?;
    }
    Ok(())
}
