//! Pay tables, sharing and whole rounds.

use oracle::answer::lines;
use oracle::paytables::Pays::{self, Loss, Push, ThreeHalves, To};
use oracle::paytables::{ALL_SIX, BASE, BOARD, LO_BALL, POCKET};
use oracle::pool::share;
use oracle::settle::{refused_part, settle, Answer, Paid};
use oracle::text::pack;

/// The column of a pay table.
fn column<const T: usize>(rows: &[[Pays; T]], table: usize) -> Vec<Pays> {
    rows.iter().map(|row| row[table - 1]).collect()
}

fn odds(numbers: &[u64]) -> Vec<Pays> {
    numbers.iter().map(|&number| To(number)).collect()
}

#[test]
fn base_odds_of_document_01() {
    let expected: [([u64; 7], Pays); 5] = [
        ([500, 100, 40, 10, 6, 4, 3], ThreeHalves),
        ([500, 100, 40, 10, 6, 4, 3], To(2)),
        ([500, 100, 40, 11, 7, 4, 3], ThreeHalves),
        ([500, 100, 40, 11, 7, 5, 3], ThreeHalves),
        ([500, 100, 40, 10, 8, 4, 3], ThreeHalves),
    ];
    for (table, (upper, two_pair)) in expected.iter().enumerate() {
        let mut rows = odds(upper);
        rows.extend([*two_pair, To(1), Push, Loss]);
        assert_eq!(column(&BASE, table + 1), rows, "base {}", table + 1);
    }
}

#[test]
fn side_odds_of_document_01() {
    let lo_1 = [odds(&[100, 50, 15, 5, 1]), vec![Loss; 4]].concat();
    let lo_2 = [odds(&[100, 50, 10, 5, 1]), vec![Push, Loss, Loss, Loss]].concat();
    assert_eq!(column(&LO_BALL, 1), lo_1);
    assert_eq!(column(&LO_BALL, 2), lo_2);
    let boards = [
        [50, 40, 30, 6, 3, 1],
        [50, 40, 30, 5, 4, 1],
        [40, 40, 30, 5, 4, 1],
        [50, 40, 30, 6, 4, 1],
    ];
    for (table, row) in boards.iter().enumerate() {
        let rows = [odds(row), vec![Loss]].concat();
        assert_eq!(column(&BOARD, table + 1), rows);
    }
    let pockets = [[25, 20, 10, 5], [30, 20, 10, 5], [30, 20, 10, 4]];
    for (table, row) in pockets.iter().enumerate() {
        let rows = [odds(row), vec![Loss]].concat();
        assert_eq!(column(&POCKET, table + 1), rows);
    }
}

/// The columns of Appendix E; two pair and below are its "Other".
#[test]
fn all_six_odds_of_appendix_e() {
    let columns = [
        [1_000, 1_000, 1_000, 200, 50, 25, 20, 10, 5],
        [1_000, 1_000, 1_000, 200, 50, 25, 15, 10, 5],
        [1_000, 1_000, 1_000, 200, 100, 20, 15, 9, 8],
        [1_000, 1_000, 1_000, 200, 100, 20, 15, 10, 7],
        [200_000, 20_000, 1_000, 200, 50, 20, 15, 10, 5],
    ];
    for (table, row) in columns.iter().enumerate() {
        let rows = [odds(row), vec![Loss; 4]].concat();
        assert_eq!(column(&ALL_SIX, table + 1), rows, "All-Six {}", table + 1);
    }
}

#[test]
fn p14_and_other_shares() {
    let mut shares = [0; 3];
    // Rounded down 16,393, 8,196 and 409 with 13,500, 22,000 and 25,500 parts in
    // 30,500 over: the two dollars left go to the third and the second.
    assert_eq!(share(&[20_000, 10_000, 500], 25_000, &mut shares), Ok(()));
    assert_eq!(shares, [16_393, 8_197, 410]);
    assert_eq!(share(&[20_000, 4_500, 500], 25_000, &mut shares), Ok(()));
    assert_eq!(shares, [20_000, 4_500, 500], "exactly at the maximum");
    assert_eq!(share(&[20_000, 4_501, 500], 25_000, &mut shares), Ok(()));
    // Each is short of its win by the win's parts in 25,001. Rounded down they
    // are 19,999, 4,500 and 499: two dollars are left, and the largest win has
    // the smallest fraction.
    assert_eq!(shares, [19_999, 4_501, 500]);
    assert_eq!(share(&[5, 0, 7], 0, &mut shares), Ok(()));
    assert_eq!(shares, [0, 0, 0]);
    assert_eq!(share(&[0, 0, 0], 0, &mut shares), Ok(()));
    assert_eq!(shares, [0, 0, 0]);
    let mut seven = [1; 7];
    assert_eq!(share(&[500_000; 7], 75_000, &mut seven), Ok(()));
    // 75,000 is 7 × 10,714 and 2.
    assert_eq!(
        seven,
        [10_715, 10_715, 10_714, 10_714, 10_714, 10_714, 10_714]
    );
    assert_eq!(share(&[], 75_000, &mut []), Ok(()));
}

#[test]
fn sharing_refusals() {
    let mut shares = [9; 8];
    assert_eq!(share(&[1, 2], 75_001, &mut shares[..3]), Err(19));
    assert_eq!(share(&[1; 8], 5, &mut shares), Err(19));
    assert_eq!(share(&[500_001; 8], 75_001, &mut shares), Err(19));
    assert_eq!(share(&[], 5, &mut shares[..1]), Err(19));
    assert_eq!(share(&[], 75_001, &mut []), Err(20));
    assert_eq!(share(&[1, 2], 75_001, &mut shares[..2]), Err(20));
    assert_eq!(share(&[1, 500_001], 75_000, &mut shares[..2]), Err(20));
    assert_eq!(share(&[u64::MAX; 7], 75_000, &mut shares[..7]), Err(20));
    assert_eq!(shares, [9; 8], "a refusal changes no lent list");
}

/// Of 25,000 the wins of 500,000 and 100,000 get 20,833 1/3 and 4,166 2/3: seat 2
/// has the dollar left, 4,167 and its wager of 1,000.
#[test]
fn the_whole_round_of_document_01() {
    let file = pack(include_str!("round01.txt")).unwrap();
    assert_eq!(file.len(), 13 * 16);
    let printed = "1 2183300 20500 10500 0 0\n2 516700 0 0 0 0\npool 600000 25000\n";
    assert_eq!(lines(&file), printed);
    let mut amounts = [0; 35];
    amounts[..4].copy_from_slice(&[2_183_300, 20_500, 10_500, 0]);
    amounts[5] = 516_700;
    let answer = Answer::Paid(Paid {
        amounts,
        full: 600_000,
        paid: 25_000,
    });
    assert_eq!(settle(&file), answer);
    assert_eq!(refused_part(&file), (208, &[][..]));
}

/// A round over a deck that begins with the cards given, the rest rising.
fn round(head: &str, top: &str, choices: &str) -> Vec<u8> {
    let read = |word| oracle::cards::read(word).unwrap();
    let mut deck: Vec<u8> = top.split(' ').map(read).collect();
    for card in 0..52 {
        if !deck.contains(&card) {
            deck.push(card);
        }
    }
    let mut text = head.to_string();
    for (part, cards) in deck.chunks(13).enumerate() {
        let cards: Vec<String> = cards
            .iter()
            .map(|&card| oracle::cards::written(card).unwrap())
            .collect();
        text += &format!("\ndeck {part}: {}", cards.join(" "));
    }
    pack(&(text + "\n" + choices)).unwrap()
}

const ONE: &str = "table 5 100 base 1 lo 2 board 3 pocket 3\n";

#[test]
fn half_dollars_and_pushes() {
    let head = ONE.to_string() + "seat 7 ante 5 board 1 pocket 1 lo 1";
    let choices = "choice 7 raise 1\nchoice 7 raise 2\nchoice 7 raise 3";
    let two_pair = round(&head, "2c 3c 2d 3d 9h", choices);
    // Base wager 5 × 7 = 35, and 35 × 3/2 = 52.50 besides.
    assert_eq!(lines(&two_pair), "7 8750 0 0 0 0\npool 0 0\n");
    let pair_of_tens = round(&head, "Tc Td 2d 3d 9d", choices);
    // A push; a board flush at 4; a pair in the pocket at 4.
    assert_eq!(lines(&pair_of_tens), "7 3500 500 500 0 0\npool 0 0\n");
    let queen_high = round(&head, "2c Qd 4d 7s 9d", choices);
    assert_eq!(lines(&queen_high), "7 0 0 0 100 0\npool 0 0\n");
}

#[test]
fn a_fold_keeps_the_side_wagers() {
    let head = ONE.to_string() + "seat 3 ante 5 board 2 pocket 100 lo 1";
    // A royal on the board at 40, the seat folded at once.
    let folded = round(&head, "Th Jh Qh Kh Ah", "choice 3 fold");
    assert_eq!(lines(&folded), "3 0 8200 0 0 0\npool 0 0\n");
    let seven_high = round(&head, "2c 3d 4h 5s 7c", "choice 3 raise 1\nchoice 3 fold");
    assert_eq!(lines(&seven_high), "3 0 0 0 10100 0\npool 0 0\n");
}

#[test]
fn the_pool_at_its_maximum_and_just_above() {
    let head = ONE.to_string() + "seat 1 ante 5 board 0 pocket 0 lo 0";
    let raises = "choice 1 raise 3\nchoice 1 raise 3\nchoice 1 raise 3";
    let at = round(&head, "Th Jh Qh Kh Ah", raises);
    assert_eq!(lines(&at), "1 2505000 0 0 0 0\npool 25000 25000\n");
    let head = ONE.to_string() + "seat 1 ante 6 board 0 pocket 0 lo 0";
    let above = round(&head, "Th Jh Qh Kh Ah", raises);
    assert_eq!(lines(&above), "1 2506000 0 0 0 0\npool 30000 25000\n");
}

/// The board is 5h 6h 7h: 5 to 9 and 3 to 7 of hearts.
const STRAIGHT_FLUSHES: &str = "8h 9h 3h 4h 5h 6h 7h";
/// The board is Th Jh Qh, the royal flush the lower seat's or the higher one's.
const ROYAL_LOWER: &str = "Ah Kh 8h 9h Th Jh Qh";
const ROYAL_HIGHER: &str = "8h 9h Ah Kh Th Jh Qh";

/// What is printed for seats 2 and 6 at a 5 dollar table, whose maximum is
/// 25,000, each with its ante and raises.
fn two_share(top: &str, seats: [(u64, [u8; 3]); 2]) -> String {
    let [lower, higher] = seats;
    let head = format!(
        "{ONE}seat 2 ante {} board 0 pocket 0 lo 0\nseat 6 ante {} board 0 pocket 0 lo 0",
        lower.0, higher.0
    );
    let mut choices = String::new();
    for (raise, other) in lower.1.iter().zip(higher.1) {
        choices += &format!("choice 2 raise {raise}\nchoice 6 raise {other}\n");
    }
    lines(&round(&head, top, &choices))
}

/// What is printed where seats 2 and 6 have these wagers back and these shares
/// of a pool, in dollars.
fn shares(wagers: [u64; 2], shares: [u64; 2], full: u64) -> String {
    let [lower, higher] = [0, 1].map(|seat| 100 * (wagers[seat] + shares[seat]));
    format!("2 {lower} 0 0 0 0\n6 {higher} 0 0 0 0\npool {full} 25000\n")
}

/// Wagers of 20 × 10 and 10 × 10 dollars at 100, and of 100 × 10 at 500 and 100.
#[test]
fn the_dollar_left_goes_to_the_larger_fraction() {
    let [ten, twenty, hundred] = [10, 20, 100].map(|ante| (ante, [3; 3]));
    // 16,666 2/3 and 8,333 1/3.
    let printed = shares([200, 100], [16_667, 8_333], 30_000);
    assert_eq!(two_share(STRAIGHT_FLUSHES, [twenty, ten]), printed);
    let printed = shares([100, 200], [8_333, 16_667], 30_000);
    assert_eq!(two_share(STRAIGHT_FLUSHES, [ten, twenty]), printed);
    // 20,833 1/3 and 4,166 2/3.
    let printed = shares([1_000; 2], [20_833, 4_167], 600_000);
    assert_eq!(two_share(ROYAL_LOWER, [hundred; 2]), printed);
    let printed = shares([1_000; 2], [4_167, 20_833], 600_000);
    assert_eq!(two_share(ROYAL_HIGHER, [hundred; 2]), printed);
}

/// Wagers of 25 × 7 = 175 and 25 × 9 = 225 dollars at 100. Of 40,000 the wins of
/// 17,500 and 22,500 get 10,937 1/2 and 14,062 1/2.
#[test]
fn the_dollar_left_of_equal_fractions_goes_to_the_lower_seat() {
    let [seven, nine] = [[2, 2, 2], [3, 3, 2]].map(|raises| (25, raises));
    let printed = shares([175, 225], [10_938, 14_062], 40_000);
    assert_eq!(two_share(STRAIGHT_FLUSHES, [seven, nine]), printed);
    let printed = shares([225, 175], [14_063, 10_937], 40_000);
    assert_eq!(two_share(STRAIGHT_FLUSHES, [nine, seven]), printed);
}

/// Wagers of 77 × 7 = 539 and 62 × 9 = 558 dollars at 100. In parts of 109,700
/// 25,000 × 53,900 is 12,283 dollars and 54,900, 25,000 × 55,800 is 12,716 and
/// 54,800.
#[test]
fn the_dollar_left_of_nearly_equal_fractions() {
    let [smaller, larger] = [(77, [1, 2, 3]), (62, [2, 3, 3])];
    let printed = shares([539, 558], [12_284, 12_716], 109_700);
    assert_eq!(two_share(STRAIGHT_FLUSHES, [smaller, larger]), printed);
    let printed = shares([558, 539], [12_716, 12_284], 109_700);
    assert_eq!(two_share(STRAIGHT_FLUSHES, [larger, smaller]), printed);
}

/// Wins of 10,000 and 30,000 get a quarter and three quarters of the maximum,
/// equal wins half of it each.
#[test]
fn no_dollar_is_left() {
    let [ten, thirty] = [10, 30].map(|ante| (ante, [3; 3]));
    let printed = shares([100, 300], [6_250, 18_750], 40_000);
    assert_eq!(two_share(STRAIGHT_FLUSHES, [ten, thirty]), printed);
    let printed = shares([300; 2], [12_500; 2], 60_000);
    assert_eq!(two_share(STRAIGHT_FLUSHES, [thirty; 2]), printed);
}

#[test]
fn a_folded_royal_is_not_in_the_pool() {
    let head = ONE.to_string()
        + "seat 2 ante 100 board 0 pocket 0 lo 0\nseat 6 ante 7 board 0 pocket 0 lo 0";
    let choices = "choice 6 raise 1\nchoice 2 fold\nchoice 6 raise 1\nchoice 6 raise 1";
    let file = round(&head, "Kh Ah 8h 9h Th Jh Qh", choices);
    assert_eq!(
        lines(&file),
        "2 0 0 0 0 0\n6 282800 0 0 0 0\npool 2800 2800\n"
    );
}

#[test]
fn a_board_royal_at_50_and_a_lo_ball_at_100_are_not_pooled() {
    let head = "table 5 100 base 1 lo 1 board 1 pocket 1\nseat 1 ante 5 board 100 pocket 0 lo 100";
    let raises = "choice 1 raise 1\nchoice 1 raise 1\nchoice 1 raise 1";
    let royal = round(head, "2c 3d Qh Kh Ah", raises);
    assert_eq!(lines(&royal), "1 0 510000 0 0 0\npool 0 0\n");
    let low = round(head, "2c 3d 4h 5s 7h", raises);
    assert_eq!(lines(&low), "1 0 0 0 1010000 0\npool 0 0\n");
}
