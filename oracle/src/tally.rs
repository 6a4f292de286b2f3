//! Counts what comes in generated files, as the settler finds it.

use std::fmt::Write;

use crate::cards::suit;
use crate::generate::draft::{FOLDS, POOLS};
use crate::generate::stacks::STACKS;
use crate::generate::{Generator, Made};
use crate::held::{Held, Step};
use crate::held_file;
use crate::names::{five_name, five_of_six, six_name, FiveName, SixName};
use crate::paytables;
use crate::pool::maximum;
use crate::reading::{read, Finished, Seat, STREETS};
use crate::settle::{first_result, names_of_seat, settle_round, six_cards, Paid, SeatNames};

const FIVE_NAMES: [&str; 11] = [
    "royal flush",
    "straight flush",
    "four of a kind",
    "full house",
    "flush",
    "straight",
    "three of a kind",
    "two pair",
    "pair of jacks to aces",
    "pair of sixes to tens",
    "other",
];
const BOARD_NAMES: [&str; 7] = [
    "royal",
    "straight flush",
    "three of a kind",
    "straight",
    "flush",
    "pair",
    "other",
];
const POCKET_NAMES: [&str; 5] = [
    "pair of aces",
    "ace with K, Q or J suited",
    "ace with K, Q or J unsuited",
    "other pair",
    "nothing",
];
const LO_BALL_NAMES: [&str; 9] = [
    "7 high",
    "8 high",
    "9 high",
    "10 high",
    "jack high",
    "queen high",
    "king high",
    "ace high",
    "nothing",
];
const SIX_NAMES: [&str; 13] = [
    "six-card royal of diamonds",
    "six-card royal, other",
    "royal flush",
    "straight flush",
    "four of a kind",
    "full house",
    "flush",
    "straight",
    "three of a kind",
    "two pair",
    "pair of jacks to aces",
    "pair of sixes to tens",
    "other",
];
const SUIT_NAMES: [&str; 4] = ["clubs", "diamonds", "hearts", "spades"];
/// The places of an All-Six hand.
const SIX_PLACES: [&str; 6] = [
    "community card 1",
    "community card 2",
    "community card 3",
    "the All-Six card",
    "the seat's first",
    "the seat's second",
];
/// The names that win on All-Six by five cards.
const WON_BY_FIVE: [FiveName; 7] = [
    FiveName::RoyalFlush,
    FiveName::StraightFlush,
    FiveName::FourOfAKind,
    FiveName::FullHouse,
    FiveName::Flush,
    FiveName::Straight,
    FiveName::ThreeOfAKind,
];
/// Those of them that each of the five cards is needed for.
const WHOLE_FIVE: [FiveName; 5] = [
    FiveName::RoyalFlush,
    FiveName::StraightFlush,
    FiveName::FullHouse,
    FiveName::Flush,
    FiveName::Straight,
];
const ALL_SIX_ROUNDS: [&str; 12] = [
    "not offered",
    "offered, nobody wagers",
    "offered, some wager",
    "offered, everybody wagers",
    "not offered, pool within the maximum",
    "not offered, pool at the maximum",
    "not offered, pool above the maximum",
    "offered, pool within the maximum",
    "offered, pool at the maximum",
    "offered, pool above the maximum",
    "a win at odds above 50, pool empty",
    "a win at odds above 50, pool not empty",
];
const ALL_SIX_SEATS: [&str; 9] = [
    "wager won, folded on street one",
    "wager won, folded on street two",
    "wager won, folded on street three",
    "wager lost, folded on street one",
    "wager lost, folded on street two",
    "wager lost, folded on street three",
    "wager won, base lost, not folded",
    "wager won, base not lost",
    "wager lost, base not lost",
];
const POOL_LEVELS: [&str; 4] = [
    "empty",
    "within the maximum",
    "exactly at the maximum",
    "above the maximum",
];
/// A round has two wins in the pool at most. Equal ones leave no dollar: a
/// maximum is even.
const SHARES: [&str; 9] = [
    "one win alone",
    "no dollar left",
    "a dollar to the lower seat, the larger win",
    "a dollar to the lower seat, the smaller win",
    "a dollar to the higher seat, the larger win",
    "a dollar to the higher seat, the smaller win",
    "equal fractions, a dollar to the lower seat, the larger win",
    "equal fractions, a dollar to the lower seat, the smaller win",
    "a dollar left, fractions apart by less than a hundredth",
];
const OTHERS: [&str; 4] = [
    "a pooled hand of a folded seat",
    "an amount with half a dollar",
    "card 0 in the last deck part",
    "all fold on street one and a side wager wins",
];
const WAGERS: [&str; 14] = [
    "ante the smallest",
    "ante between",
    "ante the largest",
    "side wager 0",
    "side wager 1",
    "side wager between",
    "side wager the largest",
    "raises of 3 antes in all",
    "raises of 4 to 8 antes in all",
    "raises of 9 antes in all",
    "All-Six wager 0, offered",
    "All-Six wager 1",
    "All-Six wager between",
    "All-Six wager the largest",
];
const WRITTEN: [&str; 9] = [
    "written",
    "written in another order than it came",
    "written unfinished",
    "written unfinished, in another order than it came",
    "written unfinished, with a fold",
    "written with a fold on street one",
    "written with a fold on street two",
    "written with a fold on street three",
    "refused 16",
];
pub(crate) const STAGES: [&str; 11] = [
    "the table",
    "seats",
    "one deck part",
    "two deck parts",
    "three deck parts",
    "the whole deck",
    "on street one",
    "street one is over",
    "on street two",
    "street two is over",
    "on street three",
];

/// The counts of one kind of thing.
pub struct Section {
    pub title: &'static str,
    pub rows: Vec<(String, u64)>,
}

impl Section {
    pub(crate) fn new<T: ToString>(
        title: &'static str,
        labels: impl IntoIterator<Item = T>,
    ) -> Section {
        let rows = labels.into_iter().map(|label| (label.to_string(), 0));
        Section {
            title,
            rows: rows.collect(),
        }
    }

    /// A row for each name with each pay table.
    fn of_tables(title: &'static str, names: &[&str], tables: usize) -> Section {
        let with_table = |name: &&str| -> Vec<String> {
            (1..=tables).map(|t| format!("{name}, table {t}")).collect()
        };
        Section::new(title, names.iter().flat_map(with_table))
    }

    /// A row for each name with each place of an All-Six hand.
    fn of_places(title: &'static str, names: &[FiveName]) -> Section {
        let with_place = |name: &FiveName| -> Vec<String> {
            let name = FIVE_NAMES[*name as usize];
            let label = |place: &&str| format!("{name}, without {place}");
            SIX_PLACES.iter().map(label).collect()
        };
        Section::new(title, names.iter().flat_map(with_place))
    }

    pub(crate) fn count(&mut self, row: usize) {
        if let Some((_, count)) = self.rows.get_mut(row) {
            *count += 1;
        }
    }
}

pub struct Tally {
    pub files: u64,
    pub bytes: u64,
    /// For each way: how often accepted, then how often refused by number.
    pub way_answers: Vec<[u64; 17]>,
    pub answers: Section,
    pub ways: Section,
    pub stacks: Section,
    pub aims: Section,
    pub folds: Section,
    pub pools: Section,
    pub pooled: Section,
    pub shares: Section,
    pub seats: Section,
    pub patterns: Section,
    pub smallest: Section,
    pub largest: Section,
    pub wagers: Section,
    pub others: Section,
    pub base: Section,
    pub board: Section,
    pub pocket: Section,
    pub lo_ball: Section,
    pub all_six: Section,
    pub all_six_tables: Section,
    pub all_six_rounds: Section,
    pub all_six_seats: Section,
    pub six_card_royals: Section,
    /// The names that a hand keeps without the card at a place.
    pub kept: Section,
    /// Those that it keeps without that card alone.
    pub kept_alone: Section,
    pub taken: Section,
    pub written: Section,
    pub stages: Section,
}

/// The tally of the first files of a seed, as a readable table.
pub fn table(count: u64, seed: u64) -> String {
    Tally::of(count, seed).printed()
}

impl Tally {
    pub fn of(count: u64, seed: u64) -> Tally {
        let generator = Generator::new(seed);
        let mut tally = Tally::empty(&generator);
        for place in 0..count {
            tally.file(&generator.make(place));
        }
        tally
    }

    fn empty(generator: &Generator) -> Tally {
        let refused = (2..=16).map(|number| format!("refused {number}"));
        let answers = std::iter::once("accepted".to_string()).chain(refused);
        let patterns = (1..128).map(|mask: u32| pattern_label(mask));
        let refused = (2..=15)
            .chain([17])
            .map(|number| format!("refused {number}"));
        let taken = ["next", "finished"].map(String::from).into_iter();
        let way_names = generator.ways.iter().map(|way| &way.name);
        Tally {
            files: 0,
            bytes: 0,
            way_answers: vec![[0; 17]; generator.ways.len()],
            answers: Section::new("answers", answers),
            ways: Section::new("ways of damage", way_names),
            stacks: Section::new("decks of accepted rounds", STACKS.iter().map(|s| s.name)),
            aims: Section::new("aims at the pool of accepted rounds", POOLS),
            folds: Section::new("folds", FOLDS),
            pools: Section::new("pools", POOL_LEVELS),
            pooled: Section::new("pooled seats", 0..3),
            shares: Section::new("pools above the maximum", SHARES),
            seats: Section::new("playing seats", 1..8),
            patterns: Section::new("patterns of playing seats", patterns),
            smallest: Section::new("smallest antes", 5..16),
            largest: Section::new("largest antes", ["25", "26 to 99", "100"]),
            wagers: Section::new("wagers", WAGERS),
            others: Section::new("others", OTHERS),
            base: Section::of_tables("five-card names, seat not folded", &FIVE_NAMES, 5),
            board: Section::of_tables("board names, wager placed", &BOARD_NAMES, 4),
            pocket: Section::of_tables("pocket names, wager placed", &POCKET_NAMES, 3),
            lo_ball: Section::of_tables("Lo Ball names, wager placed", &LO_BALL_NAMES, 2),
            all_six: Section::of_tables("All-Six names, wager placed", &SIX_NAMES, 5),
            all_six_tables: Section::new("All-Six tables, 0 not offered", 0..6),
            all_six_rounds: Section::new("All-Six by rounds", ALL_SIX_ROUNDS),
            all_six_seats: Section::new("All-Six by seats, wager placed", ALL_SIX_SEATS),
            six_card_royals: Section::new("six-card royals, wager placed", SUIT_NAMES),
            kept: Section::of_places(
                "All-Six names kept without a card, wager placed",
                &WON_BY_FIVE,
            ),
            kept_alone: Section::of_places(
                "All-Six names kept without that card alone, wager placed",
                &WHOLE_FIVE,
            ),
            taken: Section::new(
                "answers of the held file to the last record",
                taken.chain(refused),
            ),
            written: Section::new("held files", WRITTEN),
            stages: Section::new("how far unfinished rounds have come", STAGES),
        }
    }

    pub fn sections(&self) -> [&Section; 28] {
        [
            &self.answers,
            &self.taken,
            &self.written,
            &self.stages,
            &self.stacks,
            &self.aims,
            &self.folds,
            &self.pools,
            &self.pooled,
            &self.shares,
            &self.seats,
            &self.smallest,
            &self.largest,
            &self.wagers,
            &self.others,
            &self.base,
            &self.board,
            &self.pocket,
            &self.lo_ball,
            &self.all_six,
            &self.all_six_tables,
            &self.all_six_rounds,
            &self.all_six_seats,
            &self.six_card_royals,
            &self.kept,
            &self.kept_alone,
            &self.patterns,
            &self.ways,
        ]
    }

    fn file(&mut self, made: &Made) {
        self.files += 1;
        self.bytes += made.file.len() as u64;
        let found = read(&made.file);
        let number = found.as_ref().map_or_else(|refusal| refusal.number, |_| 0);
        self.answers.count(usize::from(number.max(1)) - 1);
        if let Some((way, _)) = made.damage {
            self.ways.count(way);
            self.way_answers[way][usize::from(number)] += 1;
        } else {
            self.stacks.count(made.draft.stack);
            self.aims.count(made.draft.pool);
        }
        self.held_file(&made.file);
        if let Ok(round) = found {
            self.round(&round);
        }
    }

    fn held_file(&mut self, file: &[u8]) {
        let (before, record) = held_file::split(file);
        self.taken.count(match held_file::take(before, record) {
            Step::Next(_) => 0,
            Step::Finished(_) => 1,
            // 16 is no answer to a record: 17 has its row.
            Step::Refused(number) => usize::from(number.min(16)),
        });
        match (Held::led_to(file), held_file::file_of(file)) {
            (Ok(held), Ok(written)) => self.written(&held, written != file),
            (_, Err(16)) => self.written.count(8),
            _ => (),
        }
    }

    fn written(&mut self, held: &Held, moved: bool) {
        let unfinished = held.settle().is_err();
        let folds = |street: u8| held.folds.contains(&street);
        let marks = [
            true,
            moved,
            unfinished,
            unfinished && moved,
            unfinished && held.folds != [0; 7],
            folds(1),
            folds(2),
            folds(3),
        ];
        for (row, _) in marks.iter().enumerate().filter(|(_, mark)| **mark) {
            self.written.count(row);
        }
        if unfinished {
            self.stages.count(stage(held));
        }
    }

    fn round(&mut self, round: &Finished) {
        let Paid { amounts, full, .. } = settle_round(round);
        let most = maximum(round.table.smallest);
        self.pools.count(pool_level(full, most));
        self.seats.count(round.seats.len() - 1);
        self.patterns.count(pattern(&round.seats) as usize - 1);
        self.smallest.count(usize::from(round.table.smallest) - 5);
        self.largest
            .count(place_between(25, round.table.largest.into(), 100));
        self.folds.count(fold_pattern(&round.seats));
        if full > most {
            self.round_shares(&pooled_wins(round, &amounts), most);
        }
        let folded_pooled = self.round_seats(round);
        self.all_six_round(round, &amounts, pool_level(full, most));
        let all_at_once = round
            .seats
            .iter()
            .all(|seat| seat.folded && seat.chosen == 1);
        let marks = [
            folded_pooled,
            amounts.iter().any(|amount| amount % 100 == 50),
            round.deck[39..].contains(&0),
            all_at_once && amounts.iter().any(|&amount| amount > 0),
        ];
        for (row, _) in marks.iter().enumerate().filter(|(_, mark)| **mark) {
            self.others.count(row);
        }
    }

    /// Counts how wins above the maximum are shared.
    fn round_shares(&mut self, pooled: &[PooledWin], most: u64) {
        let [lower, higher] = pooled else {
            self.shares.count(0);
            return;
        };
        let total = lower.win + higher.win;
        let has_dollar = |of: &PooledWin| of.share > most * of.win / total;
        let [one, other] = [lower, higher].map(|of| most * of.win % total);
        let apart = one.abs_diff(other);
        let lower_is_smaller = usize::from(lower.win < higher.win);
        self.shares.count(match (has_dollar(lower), apart) {
            _ if !has_dollar(lower) && !has_dollar(higher) => 1,
            (true, 0) => 6 + lower_is_smaller,
            (true, _) => 2 + lower_is_smaller,
            (false, _) => 5 - lower_is_smaller,
        });
        if apart > 0 && apart < total / 100 {
            self.shares.count(8);
        }
    }

    /// Counts by seat; tells whether a folded seat holds a pooled hand.
    fn round_seats(&mut self, round: &Finished) -> bool {
        let mut pooled = 0;
        let mut folded_pooled = false;
        for (order, seat) in round.seats.iter().enumerate() {
            let names = names_of_seat(round, order);
            let is_pooled = names.five as usize <= FiveName::StraightFlush as usize;
            pooled += usize::from(is_pooled && !seat.folded);
            folded_pooled |= is_pooled && seat.folded;
            self.names(round, seat, &names);
            self.seat_wagers(round, seat);
        }
        self.pooled.count(pooled);
        folded_pooled
    }

    fn all_six_round(&mut self, round: &Finished, amounts: &[u64], level: usize) {
        let offered = round.table.offers_all_six();
        self.all_six_tables.count(round.table.all_six.into());
        let wagers = round.seats.iter().filter(|seat| seat.all_six > 0);
        self.all_six_rounds.count(match wagers.count() {
            _ if !offered => 0,
            0 => 1,
            count if count < round.seats.len() => 2,
            _ => 3,
        });
        if level > 0 {
            let first = if offered { 7 } else { 4 };
            self.all_six_rounds.count(first + level - 1);
        }
        let mut above_50 = false;
        let seats = round.seats.iter().enumerate();
        for (order, seat) in seats.filter(|(_, seat)| seat.all_six > 0) {
            let results = &amounts[first_result(seat)..];
            above_50 |= results[4] > 100 * 51 * u64::from(seat.all_six);
            self.all_six_seat(seat, results);
            if let Some(cards) = six_cards(round, order) {
                self.six_hand(cards);
            }
        }
        if above_50 {
            self.all_six_rounds.count(10 + usize::from(level > 0));
        }
    }

    fn all_six_seat(&mut self, seat: &Seat, results: &[u64]) {
        let won = results[4] > 0;
        let street = usize::from(seat.chosen) - 1;
        match (won, seat.folded, results[0] > 0) {
            (true, true, _) => self.all_six_seats.count(street),
            (false, true, _) => self.all_six_seats.count(3 + street),
            (true, false, false) => self.all_six_seats.count(6),
            (true, false, true) => self.all_six_seats.count(7),
            (false, false, true) => self.all_six_seats.count(8),
            (false, false, false) => (),
        }
    }

    fn six_hand(&mut self, cards: [u8; 6]) {
        let SixName::Five(name) = six_name(cards) else {
            self.six_card_royals.count(suit(cards[0]).into());
            return;
        };
        let keeps = |&place: &usize| five_name(five_of_six(cards, place)) == name;
        let kept: Vec<usize> = (0..6).filter(keeps).collect();
        let row = |names: &[FiveName]| names.iter().position(|&other| other == name);
        if let Some(row) = row(&WON_BY_FIVE) {
            kept.iter()
                .for_each(|place| self.kept.count(6 * row + place));
        }
        if let (Some(row), [place]) = (row(&WHOLE_FIVE), kept.as_slice()) {
            self.kept_alone.count(6 * row + place);
        }
    }

    fn names(&mut self, round: &Finished, seat: &Seat, names: &SeatNames) {
        let row = |name: usize, tables: usize, table: u8| name * tables + usize::from(table) - 1;
        let table = &round.table;
        if !seat.folded {
            self.base.count(row(names.five as usize, 5, table.base));
        }
        if seat.board > 0 {
            self.board.count(row(names.board as usize, 4, table.board));
        }
        if seat.pocket > 0 {
            self.pocket
                .count(row(names.pocket as usize, 3, table.pocket));
        }
        if seat.lo_ball > 0 {
            self.lo_ball
                .count(row(names.lo_ball as usize, 2, table.lo_ball));
        }
        if let Some(six) = names.six.filter(|_| seat.all_six > 0) {
            self.all_six.count(row(six.place(), 5, table.all_six));
        }
    }

    fn seat_wagers(&mut self, round: &Finished, seat: &Seat) {
        let smallest = u16::from(round.table.smallest);
        let largest = u16::from(round.table.largest);
        self.wagers
            .count(place_between(smallest, seat.ante, largest));
        for side in [seat.board, seat.pocket, seat.lo_ball] {
            self.wagers.count(match side {
                0 => 3,
                1 => 4,
                _ if side == largest => 6,
                _ => 5,
            });
        }
        if !seat.folded {
            self.wagers.count(7 + place_between(3, seat.raised(), 9));
        }
        if round.table.offers_all_six() {
            self.wagers.count(match seat.all_six {
                0 => 10,
                1 => 11,
                wager if wager == largest => 13,
                _ => 12,
            });
        }
    }

    pub fn printed(&self) -> String {
        let mut text = format!("files {}, bytes {}", self.files, self.bytes);
        let average = self.bytes as f64 / self.files.max(1) as f64;
        let _ = writeln!(text, ", bytes a file {average:.1}");
        for section in &self.sections()[..27] {
            print_section(&mut text, section);
        }
        let _ = writeln!(text, "\n{}", self.ways.title);
        for ((name, count), answers) in self.ways.rows.iter().zip(&self.way_answers) {
            let _ = writeln!(text, "{count:>9}  {name:<46} {}", answers_of_way(answers));
        }
        text
    }
}

pub(crate) fn print_section(text: &mut String, section: &Section) {
    let _ = writeln!(text, "\n{}", section.title);
    for (label, count) in &section.rows {
        let _ = writeln!(text, "{count:>9}  {label}");
    }
}

fn answers_of_way(answers: &[u64; 17]) -> String {
    let mut parts = Vec::new();
    for (number, count) in answers.iter().enumerate().filter(|(_, count)| **count > 0) {
        parts.push(match number {
            0 => format!("accepted: {count}"),
            _ => format!("refused {number}: {count}"),
        });
    }
    parts.join(", ")
}

/// A win in the pool and what is paid of it, in dollars.
struct PooledWin {
    win: u64,
    share: u64,
}

/// The wins in the pool, by rising seat.
fn pooled_wins(round: &Finished, amounts: &[u64]) -> Vec<PooledWin> {
    let mut pooled = Vec::new();
    let seats = round.seats.iter().enumerate();
    for (order, seat) in seats.filter(|(_, seat)| !seat.folded) {
        let pays = paytables::base(round.table.base, names_of_seat(round, order).five);
        if let Some(odds) = pays.pooled_odds() {
            pooled.push(PooledWin {
                win: odds * seat.base_wager(),
                share: amounts[first_result(seat)] / 100 - seat.base_wager(),
            });
        }
    }
    pooled
}

fn pool_level(full: u64, most: u64) -> usize {
    match full {
        0 => 0,
        _ if full < most => 1,
        _ if full == most => 2,
        _ => 3,
    }
}

/// The place in `STAGES` of a round with a table.
pub(crate) fn stage(held: &Held) -> usize {
    let playing = || (0..7).filter(|&seat| held.wagers[0][seat] > 0);
    match usize::from(held.parts) {
        0 if playing().count() == 0 => return 0,
        parts @ 0..4 => return 1 + parts,
        _ => (),
    }
    let raised = |seat: usize, street: u8| held.raises[usize::from(street) - 1][seat] > 0;
    let folded = |seat: usize, street: u8| held.folds[seat] == street;
    let chose = |&street: &u8| playing().any(|seat| folded(seat, street) || raised(seat, street));
    let Some(street) = (1..=STREETS).rev().find(chose) else {
        return 5;
    };
    let over = playing().all(|seat| held.folds[seat] > 0 || raised(seat, street));
    4 + 2 * usize::from(street) + usize::from(over)
}

/// 0 at the lower end, 1 between, 2 at the upper end.
fn place_between(least: u16, number: u16, most: u16) -> usize {
    match number {
        _ if number == least => 0,
        _ if number == most => 2,
        _ => 1,
    }
}

/// The playing seats as a number: seat 1 counts 1, seat 2 counts 2, seat 3
/// counts 4 and so on.
fn pattern(seats: &[Seat]) -> u32 {
    seats.iter().map(|seat| 1 << (seat.number - 1)).sum()
}

fn pattern_label(mask: u32) -> String {
    let playing = (0..7).filter(|seat| mask >> seat & 1 == 1);
    let numbers: Vec<String> = playing.map(|seat| (seat + 1).to_string()).collect();
    format!("seats {}", numbers.join(" "))
}

/// The place in `FOLDS` of what the seats did.
fn fold_pattern(seats: &[Seat]) -> usize {
    let folded = || seats.iter().filter(|seat| seat.folded);
    let Some(first) = folded().next() else {
        return 0;
    };
    let one_street = folded().all(|seat| seat.chosen == first.chosen);
    let everyone = seats.iter().all(|seat| seat.folded);
    let sides = |seat: &Seat| seat.board > 0 && seat.pocket > 0 && seat.lo_ball > 0;
    match (everyone, one_street, first.chosen) {
        (true, true, 1) if seats.iter().all(sides) => 6,
        (true, true, 1) => 5,
        (true, true, street) => 5 + usize::from(street),
        (true, false, _) => 9,
        (false, true, street) => usize::from(street),
        (false, false, _) => 4,
    }
}
