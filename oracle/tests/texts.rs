//! The text of a round: packing what is shown gives the file back.

use oracle::generate::prng::Prng;
use oracle::generate::Generator;
use oracle::text::{pack, show};

fn round_trip(file: &[u8]) {
    let text = show(file);
    assert_eq!(pack(&text).as_deref(), Ok(file), "{text}");
}

#[test]
fn generated_files_come_back() {
    let generator = Generator::new(3);
    for place in 0..3_000 {
        round_trip(&generator.make(place).file);
    }
}

#[test]
fn random_bytes_come_back() {
    let mut rng = Prng::new(11, 0);
    for length in 0..200 {
        for small in [false, true] {
            let mut byte = || {
                if small {
                    rng.below(5) as u8
                } else {
                    rng.byte()
                }
            };
            let file: Vec<u8> = (0..length).map(|_| byte()).collect();
            round_trip(&file);
        }
    }
}

#[test]
fn every_single_byte_of_a_round_comes_back() {
    let file = pack(include_str!("round01.txt")).unwrap();
    for at in 0..file.len() {
        for byte in 0..=255 {
            let mut changed = file.clone();
            changed[at] = byte;
            round_trip(&changed[at / 16 * 16..at / 16 * 16 + 16]);
        }
    }
}

#[test]
fn the_round_of_document_01_is_readable() {
    let text = include_str!("round01.txt");
    let lines: Vec<&str> = text.lines().filter(|line| !line.starts_with('#')).collect();
    assert_eq!(show(&pack(text).unwrap()), lines.join("\n") + "\n");
}

/// Bytes from the records of document 01: "50, 46, 26, 30, 34, 38, 42".
#[test]
fn packed_bytes() {
    let seat = [2, 1, 100, 0, 5, 0, 5, 0, 0, 1, 0, 0, 0, 0, 0, 0];
    let line = "seat 1 ante 100 board 5 pocket 5 lo 256 # a comment";
    assert_eq!(pack(line).as_deref(), Ok(&seat[..]));
    let deck = "deck 0: Ah Kh 8h 9h Th Jh Qh 2c 2d 2h 2s 3c 3d";
    let cards = [3, 0, 50, 46, 26, 30, 34, 38, 42, 0, 1, 2, 3, 4, 5, 0];
    assert_eq!(pack(deck).as_deref(), Ok(&cards[..]));
    let choice = [4, 1, 7, 0, 0, 0, 0, 0, 0, 0, 0, 0, 0, 0, 0, 0];
    assert_eq!(
        pack("\n  choice 1 number 7\n\n").as_deref(),
        Ok(&choice[..])
    );
    assert_eq!(pack("bytes 00 fF 10").as_deref(), Ok(&[0, 255, 16][..]));
    assert_eq!(pack("# nothing\n").as_deref(), Ok(&[][..]));
}

/// "Table byte 7"; "seat bytes 10 and 11".
#[test]
fn packed_all_six() {
    let table = [1, 5, 100, 2, 1, 1, 1, 5, 0, 0, 0, 0, 0, 0, 0, 0];
    let line = "table 5 100 base 2 lo 1 board 1 pocket 1 six 5";
    assert_eq!(pack(line).as_deref(), Ok(&table[..]));
    let seat = [2, 1, 100, 0, 5, 0, 6, 0, 7, 0, 2, 1, 0, 0, 0, 0];
    let line = "seat 1 ante 100 board 5 pocket 6 lo 7 six 258";
    assert_eq!(pack(line).as_deref(), Ok(&seat[..]));
}

/// Left out, it is 0.
#[test]
fn all_six_left_out() {
    for line in [
        "table 5 100 base 2 lo 1 board 1 pocket 1",
        "seat 1 ante 100 board 5 pocket 6 lo 7",
    ] {
        let with_0 = pack(&format!("{line} six 0"));
        assert_eq!(pack(line), with_0);
        assert_eq!(show(&with_0.unwrap()), format!("{line}\n"));
    }
}

/// Where All-Six is offered each seat shows its wager, 0 too; elsewhere only a
/// wager that isn't 0 is shown. The table above a seat counts.
#[test]
fn shown_all_six() {
    let offered = "table 5 100 base 2 lo 1 board 1 pocket 1 six 255";
    let not_offered = "table 5 100 base 2 lo 1 board 1 pocket 1";
    let seat = "seat 1 ante 100 board 5 pocket 6 lo 7";
    let shown = [
        seat,
        offered,
        &format!("{seat} six 0"),
        &format!("{seat} six 65535"),
        "choice 1 fold",
        &format!("{seat} six 0"),
        not_offered,
        seat,
        &format!("{seat} six 1"),
        "bytes 01 05 64 02 01 01 01 03 01 00 00 00 00 00 00 00",
        &format!("{seat} six 0"),
        "bytes 02 01 64 00 05 00 06 00 07 00 01 00 01 00 00 00",
        "bytes 01 05",
    ];
    let text = shown.join("\n") + "\n";
    assert_eq!(show(&pack(&text).unwrap()), text);
}

#[test]
fn errors_name_the_line_and_what_is_wrong() {
    let cases = [
        ("# one\nchair 1", "line 2: 'chair' is none of"),
        ("table 5 100", "line 1: table: see 'table 5 100 base"),
        (
            "seat 256 ante 1 board 0 pocket 0 lo 0",
            "'256' is no number of 0 to 255",
        ),
        (
            "seat 1 ante 65536 board 0 pocket 0 lo 0",
            "'65536' is no number of 0 to 65535",
        ),
        ("deck 0: Ah", "a deck part has 13 cards, here are 1"),
        (
            "deck 0 Ah Kh 8h 9h Th Jh Qh 2c 2d 2h 2s 3c 3d",
            "':' must follow the part '0'",
        ),
        (
            "deck 0: Ax Kh 8h 9h Th Jh Qh 2c 2d 2h 2s 3c 3d",
            "'Ax' is no card",
        ),
        (
            "table 5 100 base 1 lo 1 board 1 pocket 1 six 256",
            "'256' is no number of 0 to 255",
        ),
        ("table 5 100 base 1 lo 1 board 1 pocket 1 six", "table: see"),
        ("table six 5", "table: see"),
        (
            "seat 1 ante 5 board 0 pocket 0 lo 0 six 65536",
            "'65536' is no number of 0 to 65535",
        ),
        ("seat 1 six 5 ante 5 board 0 pocket 0 lo 0", "seat: see"),
        (
            "seat 1 ante 5 board 0 pocket 0 lo 0 six 5 six 5",
            "seat: see",
        ),
        ("seat", "line 1: seat: see"),
        ("choice 1 fold six 5", "choice: see"),
        ("choice 1 raise", "line 1: choice: see"),
        ("bytes", "1 to 16 of them, here are 0"),
        ("bytes 0", "'0' is no byte of two hex digits"),
        ("bytes +1", "'+1' is no byte of two hex digits"),
        (
            "bytes 01\n\nchoice 1 fold",
            "line 3: odd bytes may only end the file",
        ),
    ];
    for (text, wrong) in cases {
        let error = pack(text).unwrap_err();
        assert!(error.contains(wrong), "{text}: {error}");
    }
}
