//! The program: its commands, answers and exit statuses.

use std::io::Write;
use std::process::{Command, Output, Stdio};

use oracle::text::pack;

fn oracle(words: &[&str], input: &[u8]) -> Output {
    let mut child = Command::new(env!("CARGO_BIN_EXE_oracle"))
        .args(words)
        .stdin(Stdio::piped())
        .stdout(Stdio::piped())
        .stderr(Stdio::piped())
        .spawn()
        .unwrap();
    let mut stdin = child.stdin.take().unwrap();
    let input = input.to_vec();
    let writer = std::thread::spawn(move || {
        let _ = stdin.write_all(&input);
    });
    let output = child.wait_with_output().unwrap();
    writer.join().unwrap();
    output
}

fn printed(words: &[&str], input: &[u8]) -> String {
    let output = oracle(words, input);
    assert_eq!(output.status.code(), Some(0), "{words:?}");
    String::from_utf8(output.stdout).unwrap()
}

fn status(words: &[&str], input: &[u8]) -> Option<i32> {
    let output = oracle(words, input);
    assert!(!output.stderr.is_empty(), "{words:?}");
    output.status.code()
}

fn round() -> Vec<u8> {
    pack(include_str!("round01.txt")).unwrap()
}

fn stream_of(files: &[&[u8]]) -> Vec<u8> {
    let mut stream = Vec::new();
    for file in files {
        stream.extend_from_slice(&(file.len() as u16).to_le_bytes());
        stream.extend_from_slice(file);
    }
    stream
}

#[test]
fn settles_one_file() {
    let lines = "1 2183300 20500 10500 0 0\n2 516700 0 0 0 0\npool 600000 25000\n";
    assert_eq!(printed(&["settle"], &round()), lines);
    assert_eq!(printed(&["settle"], &[]), "refused 16 at 0\n");
    assert_eq!(printed(&["settle"], &[1; 33]), "refused 2 at 2\n");
}

/// Seat 2: a royal flush on 20 × 10 dollars, 100,000 of which 25,000 are paid; a
/// straight flush on the board at 40; A-K suited at 20; 200,000 on 25. Seat 5
/// folded: queen high is a push; 200 on 40. Seat 7: a pair of nines, a push, on
/// 10 × 5; the board; a pair at 4; 5 on 3.
#[test]
fn settles_a_file_with_all_six() {
    let file = pack(include_str!("all_six.txt")).unwrap();
    let lines = "1 0 0 0 0 0\n2 2520000 20500 21000 0 500002500\n5 0 0 0 1000 804000\n\
                 7 5000 4100 1000 0 1800\npool 100000 25000\n";
    assert_eq!(printed(&["settle"], &file), lines);
    let two_absent = " 0".repeat(10);
    let line = format!(
        "paid 0 0 0 0 0 2520000 20500 21000 0 500002500{two_absent} 0 0 0 1000 804000 \
         0 0 0 0 0 5000 4100 1000 0 1800 pool 100000 25000 part 288 take finished written 9 "
    );
    let answer = printed(&["stream"], &stream_of(&[&file]));
    assert!(answer.starts_with(&line), "{answer}");
    let shown = printed(&["show"], &file);
    assert!(shown.starts_with("table 5 100 base 3 lo 2 board 2 pocket 3 six 5\nseat 1 "));
    assert!(shown.contains("\nseat 1 ante 5 board 0 pocket 0 lo 0 six 0\n"));
    let mut not_offered = file;
    not_offered[7] = 0;
    assert_eq!(printed(&["settle"], &not_offered), "refused 9 at 2\n");
    let seat = "refused 9 at 2 part 32 0202140005000a000000190000000000 take refused 17 ";
    let answer = printed(&["stream"], &stream_of(&[&not_offered]));
    assert!(answer.starts_with(seat), "{answer}");
}

#[test]
fn rewrites_one_file() {
    let file = round();
    let mut swapped = file.clone();
    swapped[7 * 16..9 * 16].rotate_left(16);
    for (input, written) in [
        (&file[..], &file[..]),
        (&swapped, &file),
        (&file[..48], &file[..48]),
    ] {
        let output = oracle(&["rewrite"], input);
        assert_eq!(output.status.code(), Some(0));
        assert_eq!(output.stdout, written);
        assert!(output.stderr.is_empty());
    }
    let mut bad = file.clone();
    bad[16 + 15] = 1;
    let refused: [(&[u8], &str); 4] = [
        (&[], "refused 16 at 0\n"),
        (&file[..47], "refused 2 at 2\n"),
        (&bad, "refused 4 at 1\n"),
        (&[&file[..], &file[..16]].concat(), "refused 3 at 13\n"),
    ];
    for (input, error) in refused {
        let output = oracle(&["rewrite"], input);
        assert_eq!(output.status.code(), Some(1));
        assert!(output.stdout.is_empty());
        assert_eq!(String::from_utf8(output.stderr).unwrap(), error);
    }
}

#[test]
fn answers_a_stream() {
    let mut bad = round();
    bad[1] = 4;
    let stream = stream_of(&[&round(), &[], &bad, &[0xab, 0x0c], &round()[..32]]);
    let zeros = " 0".repeat(25);
    let paid = format!(
        "paid 2183300 20500 10500 0 0 516700 0 0 0 0{zeros} pool 600000 25000 part 208 \
         take finished written 13"
    );
    let lines = [
        paid.as_str(),
        "refused 16 at 0 part 0 take refused 2 written refused 16",
        "refused 5 at 0 part 0 01046402010101000000000000000000 take refused 17 written refused 17",
        "refused 2 at 0 part 0 ab0c take refused 2 written refused 17",
        "refused 16 at 2 part 32 take next written 2",
    ];
    assert_eq!(printed(&["stream"], &stream), lines.join("\n") + "\n");
    assert_eq!(printed(&["stream"], &[]), "");
}

#[test]
fn a_stream_that_ends_inside_a_file() {
    for rest in [&[3][..], &[3, 0][..], &[3, 0, 1, 2][..]] {
        let mut stream = stream_of(&[&[]]);
        stream.extend_from_slice(rest);
        let output = oracle(&["stream"], &stream);
        assert_eq!(output.status.code(), Some(1));
        let line = b"refused 16 at 0 part 0 take refused 2 written refused 16\n";
        assert_eq!(output.stdout, line);
        assert!(!output.stderr.is_empty());
    }
}

/// A round with a fault of number 4 at record 1.
fn bad_round() -> Vec<u8> {
    let mut bad = round();
    bad[16 + 15] = 1;
    bad
}

#[test]
fn settles_a_shift() {
    let paid = format!(
        "paid 2183300 20500 10500 0 0 516700{} pool 600000 25000\n",
        " 0".repeat(29)
    );
    let file = [&round()[..], &bad_round(), &round()[..32], &round()].concat();
    let lines = format!("{paid}refused 4 at 1\nrefused 16 at 2\n{paid}");
    assert_eq!(printed(&["shift"], &file), lines);
    assert_eq!(printed(&["shift"], &[]), "");
    assert_eq!(printed(&["shift"], &[0; 32]), "refused 3 at 0\n");
    let tailed = [&file[..], &[1; 7]].concat();
    assert_eq!(printed(&["shift"], &tailed), "refused 2 at 41\n");
    assert_eq!(printed(&["shift"], &[1; 15]), "refused 2 at 0\n");
}

/// A shift of a stream, with so many amounts and answers.
fn item(amounts: u16, answers: u16, file: &[u8]) -> Vec<u8> {
    let head = [amounts, answers, file.len() as u16].map(u16::to_le_bytes);
    [&head.concat()[..], file].concat()
}

#[test]
fn answers_a_stream_of_shifts() {
    let file = [round(), bad_round()].concat();
    let tailed = [&file[..], &[1]].concat();
    let stream = [
        item(70, 4, &file),
        item(0, 0, &[]),
        item(35, 0, &[]),
        item(69, 4, &file),
        item(70, 5, &file),
        item(256, 512, &file),
        item(70, 4, &tailed),
        item(0, 0, &[1; 15]),
        item(35, 2, &round()[..16]),
    ];
    let zeros = " 0".repeat(35);
    let paid = " 2183300 20500 10500 0 0 516700".to_string() + &" 0".repeat(29);
    let lines = format!(
        "rounds 2 settled 2\nanswer 0 0 amounts{paid}\nanswer 4 1 amounts{zeros}\n\
         rounds 0 settled 0\n\
         rounds 0 refused 1 at 0 kept\n\
         rounds 2 refused 1 at 0 kept\n\
         rounds 2 refused 1 at 0 kept\n\
         rounds 2 refused 1 at 0 kept\n\
         rounds 2 refused 2 at 26 kept\n\
         rounds 0 refused 2 at 0 kept\n\
         rounds 1 settled 1\nanswer 16 1 amounts{zeros}\n"
    );
    assert_eq!(printed(&["stream", "--shifts"], &stream.concat()), lines);
    assert_eq!(printed(&["stream", "--shifts"], &[]), "");
}

#[test]
fn a_stream_that_ends_inside_a_shift() {
    let last = item(1, 0, &[2, 0, 0]);
    for length in 1..last.len() {
        let stream = [&item(0, 0, &[])[..], &last[..length]].concat();
        let output = oracle(&["stream", "--shifts"], &stream);
        assert_eq!(output.status.code(), Some(1), "{length}");
        assert_eq!(output.stdout, b"rounds 0 settled 0\n");
        let error = String::from_utf8(output.stderr).unwrap();
        assert_eq!(error, "oracle: the stream ends inside an item\n");
    }
}

#[test]
fn shows_a_shift_of_a_stream() {
    let file = [&bad_round()[..], &round()[..16], &[255, 0]].concat();
    let stream = [item(35, 2, &round()[..16]), item(70, 4, &file)].concat();
    let shown = printed(&["show", "--stream", "--shifts", "0"], &stream);
    let zeros = " 0".repeat(35);
    let above = format!(
        "# lent 35 amounts, 2 answers\n# rounds 1 settled 1\n# answer 16 1 amounts{zeros}\n"
    );
    let text = "table 5 100 base 2 lo 1 board 1 pocket 1\n";
    assert_eq!(shown, above + text);
    let shown = printed(&["show", "--stream", "--shifts", "1"], &stream);
    let above = "# lent 70 amounts, 4 answers\n# rounds 2 refused 2 at 14 kept\ntable ";
    assert!(shown.starts_with(above), "{shown}");
    assert_eq!(oracle(&["pack"], shown.as_bytes()).stdout, file);
    let beyond = oracle(&["show", "--stream", "--shifts", "2"], &stream);
    assert_eq!(beyond.status.code(), Some(1));
    assert_eq!(beyond.stderr, b"oracle: the stream has 2 shifts\n");
}

#[test]
fn generates_the_same_first_shifts_for_any_count() {
    let long = oracle(&["generate", "--shifts", "60", "9"], &[]).stdout;
    let short = oracle(&["generate", "--shifts", "20", "9"], &[]).stdout;
    assert!(!short.is_empty() && short.len() < long.len());
    assert_eq!(short, long[..short.len()]);
    let answers = printed(&["stream", "--shifts"], &long);
    let shifts = answers.lines().filter(|line| line.starts_with("rounds"));
    assert_eq!(shifts.count(), 60);
    assert!(!answers.contains("changed"));
    let mut packed = Vec::new();
    for place in 0..20 {
        let place = place.to_string();
        let shown = printed(&["show", "--stream", "--shifts", &place], &long);
        let lent = shown.lines().next().unwrap();
        let [amounts, answers] = [2, 4].map(|word| {
            let number = lent.split(' ').nth(word).unwrap();
            number.parse().unwrap()
        });
        let file = oracle(&["pack"], shown.as_bytes()).stdout;
        packed.extend(item(amounts, answers, &file));
    }
    assert_eq!(packed, short);
}

/// The files of a stream.
fn files_of(mut stream: &[u8]) -> Vec<&[u8]> {
    let mut files = Vec::new();
    while let [low, high, rest @ ..] = stream {
        let (file, after) = rest.split_at(u16::from_le_bytes([*low, *high]).into());
        files.push(file);
        stream = after;
    }
    files
}

#[test]
fn joins_round_files() {
    let stream = oracle(&["generate", "300", "3"], &[]).stdout;
    let mut files = files_of(&stream);
    files.retain(|file| {
        let kinds: Vec<u8> = file.iter().copied().step_by(16).collect();
        let [1, later @ ..] = kinds.as_slice() else {
            return false;
        };
        file.len() % 16 == 0 && !later.contains(&1)
    });
    assert!((150..300).contains(&files.len()), "{}", files.len());
    for count in [0, 1, 2, 150] {
        let joined = oracle(&["join", &count.to_string(), "3"], &[]).stdout;
        assert_eq!(joined, files[..count].concat(), "{count}");
        assert_eq!(printed(&["shift"], &joined).lines().count(), count);
    }
}

#[test]
fn generates_the_same_head_for_any_count() {
    let long = oracle(&["generate", "50", "9"], &[]).stdout;
    let short = oracle(&["generate", "20", "9"], &[]).stdout;
    assert!(!short.is_empty() && short.len() < long.len());
    assert_eq!(short, long[..short.len()]);
    assert_eq!(printed(&["stream"], &long).lines().count(), 50);
    let shown = printed(&["show", "--stream", "19"], &long);
    assert!(shown.starts_with("# paid") || shown.starts_with("# refused"));
    let packed = oracle(&["pack"], shown.as_bytes()).stdout;
    assert!(short.ends_with(&packed));
}

#[test]
fn packs_and_shows() {
    let packed = oracle(&["pack"], include_bytes!("round01.txt")).stdout;
    assert_eq!(packed, round());
    let shown = printed(&["show"], &packed);
    assert_eq!(oracle(&["pack"], shown.as_bytes()).stdout, packed);
}

#[test]
fn helps() {
    let help = printed(&["--help"], &[]);
    for command in [
        "settle", "rewrite", "shift", "stream", "generate", "tally", "join", "pack", "show",
        "handmade", "hold",
    ] {
        assert!(help.contains(&format!("oracle {command}")));
        assert!(printed(&[command, "--help"], &[]).contains(command));
    }
    for command in ["stream", "generate", "tally", "show --stream"] {
        let with_shifts = format!("oracle {command} --shifts");
        assert!(help.contains(&with_shifts));
        let first = command.split(' ').next().unwrap();
        assert!(printed(&[first, "--help"], &[]).contains(&with_shifts));
    }
    assert!(printed(&["tally", "20", "1"], &[]).starts_with("files 20"));
    assert!(printed(&["tally", "--shifts", "20", "1"], &[]).starts_with("shifts 20"));
}

#[test]
fn exit_statuses() {
    let usages: [&[&str]; 23] = [
        &[],
        &["deal"],
        &["deal", "--help"],
        &["generate", "5"],
        &["generate", "x", "1"],
        &["stream", "file"],
        &["settle", "--fast"],
        &["rewrite", "--sorted"],
        &["rewrite", "one", "two"],
        &["show", "--stream", "-1"],
        &["pack", "one", "two"],
        &["handmade", "1"],
        &["hold", "file"],
        &["shift", "--fast"],
        &["shift", "one", "two"],
        &["stream", "--shifts", "file"],
        &["generate", "--shifts", "5"],
        &["generate", "--rounds", "5", "1"],
        &["tally", "--shifts", "5", "x"],
        &["show", "--stream", "--shifts"],
        &["show", "--shifts", "1"],
        &["join", "5"],
        &["join", "--shifts", "5", "1"],
    ];
    for words in usages {
        assert_eq!(status(words, &[]), Some(2), "{words:?}");
    }
    assert_eq!(status(&["settle", "/nowhere/at/all"], &[]), Some(1));
    assert_eq!(status(&["rewrite", "/nowhere/at/all"], &[]), Some(1));
    assert_eq!(status(&["shift", "/nowhere/at/all"], &[]), Some(1));
    assert_eq!(status(&["pack"], b"chair 1"), Some(1));
    assert_eq!(status(&["pack"], &[255]), Some(1));
    assert_eq!(status(&["show", "--stream", "1"], &[0, 0]), Some(1));
}

#[test]
fn numbers_that_are_too_large() {
    let too_large = ["18446744073709551616", "99999999999999999999999999999999"];
    for large in too_large {
        let calls: [(&str, &[&str]); 10] = [
            ("N", &["generate", large, "1"]),
            ("SEED", &["generate", "1", large]),
            ("N", &["tally", large, "1"]),
            ("SEED", &["tally", "1", large]),
            ("K", &["show", "--stream", large]),
            ("N", &["generate", "--shifts", large, "1"]),
            ("SEED", &["generate", "--shifts", "1", large]),
            ("N", &["tally", "--shifts", large, "1"]),
            ("K", &["show", "--stream", "--shifts", large]),
            ("N", &["join", large, "1"]),
        ];
        for (name, words) in calls {
            let output = oracle(words, &[]);
            let error = String::from_utf8(output.stderr).unwrap();
            let most = format!("oracle: {name} is at most 18446744073709551615, not {large};");
            assert_eq!(output.status.code(), Some(2), "{words:?}");
            assert!(error.starts_with(&most), "{error}");
            assert_eq!(error.lines().count(), 1);
            assert!(output.stdout.is_empty());
        }
    }
    assert!(!oracle(&["generate", "1", "18446744073709551615"], &[])
        .stdout
        .is_empty());
}

#[test]
fn answers_held_rounds() {
    let stream = oracle(&["handmade"], &[]).stdout;
    let answers = printed(&["hold"], &stream);
    assert_eq!(stream.len() % 174, 0);
    assert_eq!(answers.lines().count(), stream.len() / 174);
    let lines = "take next settle refused 16 write refused 16\n\
                 take refused 17 settle refused 17 write refused 17\n";
    assert!(
        answers.starts_with(lines),
        "the fresh round, then one changed"
    );
    let mut fresh = [0; 174];
    fresh[158..].copy_from_slice(&round()[..16]);
    assert_eq!(printed(&["hold"], &fresh), &lines[..45]);
    fresh[158] = 2;
    let line = "take refused 3 settle refused 16 write refused 16\n";
    assert_eq!(printed(&["hold"], &fresh), line);
    assert_eq!(printed(&["hold"], &[]), "");
}

#[test]
fn held_rounds_that_end_inside_an_item() {
    let stream = oracle(&["handmade"], &[]).stdout;
    for length in [1, 157, 158, 159, 173, 175, 174 + 158, 174 + 173] {
        let output = oracle(&["hold"], &stream[..length]);
        let answers = String::from_utf8(output.stdout).unwrap();
        assert_eq!(output.status.code(), Some(1), "{length}");
        assert_eq!(answers.lines().count(), length / 174);
        let error = String::from_utf8(output.stderr).unwrap();
        assert_eq!(error, "oracle: the stream ends inside an item\n");
    }
}
