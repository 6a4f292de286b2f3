//! Held rounds that records lead to, and rounds of chance: every round that
//! accepted records lead to is held, and no other.

use oracle::generate::prng::Prng;
use oracle::generate::Generator;
use oracle::handmade::bases;
use oracle::held::{Held, Step};
use oracle::settle::{settle, Answer};

/// The rounds that lead from the fresh one to the last, and what stopped the
/// feeding: the refusal with its place.
fn fed(records: &[&[u8]]) -> (Vec<Held>, Option<(u8, usize)>) {
    let mut rounds = vec![Held::fresh()];
    for (place, record) in records.iter().enumerate() {
        match rounds[place].take(record) {
            Step::Next(round) => {
                assert!(matches!(round.settle(), Err(16)));
                rounds.push(round);
            }
            Step::Finished(round) => {
                assert!(round.settle().is_ok());
                rounds.push(round);
            }
            Step::Refused(number) => return (rounds, Some((number, place))),
        }
    }
    (rounds, None)
}

#[test]
fn every_round_of_generated_files_is_held() {
    let generator = Generator::new(21);
    for place in 0..300 {
        let made = generator.make(place);
        if made.damage.is_some() {
            continue;
        }
        let records: Vec<&[u8]> = made.file.chunks(16).collect();
        let (rounds, refused) = fed(&records);
        assert_eq!(refused, None);
        for (count, round) in rounds.iter().enumerate() {
            assert!(round.is_held(), "{place} {count}");
            assert_eq!(Held::from_bytes(&round.bytes()), *round);
            let own = round.own_records();
            let own: Vec<&[u8]> = own.iter().map(|record| &record[..]).collect();
            assert_eq!(fed(&own).0.last(), Some(round), "{place} {count}");
            let (mut own, mut taken) = (own, records[..count].to_vec());
            own.sort_unstable();
            taken.sort_unstable();
            assert_eq!(own, taken, "the same records in some order");
        }
    }
}

/// "Where neither 1 nor 2 applies, settling a file agrees with feeding its
/// records one at a time from the fresh round, stopping at the first refusal,
/// and else settling the held round."
#[test]
fn settling_a_file_agrees_with_feeding_its_records() {
    let generator = Generator::new(22);
    for place in 0..2_000 {
        let file = generator.make(place).file;
        if !file.chunks_exact(16).remainder().is_empty() {
            continue;
        }
        let records: Vec<&[u8]> = file.chunks(16).collect();
        let (rounds, refused) = fed(&records);
        let answer = match (refused, rounds.last().map(Held::settle)) {
            (Some((number, place)), _) => Answer::Refused { number, place },
            (None, Some(Ok(paid))) => Answer::Paid(paid),
            (None, settled) => {
                assert_eq!(settled, Some(Err(16)));
                Answer::Refused {
                    number: 16,
                    place: records.len(),
                }
            }
        };
        assert_eq!(settle(&file), answer, "{place}");
    }
}

/// What 17 comes to, as conditions on the numbers: a second opinion, since the
/// settler asks its own reading of records.
fn may_be_held(held: &Held) -> bool {
    let zero = |bytes: &[u8]| bytes.iter().all(|&byte| byte == 0);
    let bytes = held.bytes();
    if zero(&bytes[..7]) {
        return zero(&bytes);
    }
    let [smallest, largest, base, lo_ball, board, pocket, all_six] = held.table;
    let limits = (5..=15).contains(&smallest) && (25..=100).contains(&largest);
    let tables = [(base, 5), (lo_ball, 2), (board, 4), (pocket, 3)];
    if !limits
        || tables
            .iter()
            .any(|&(number, last)| number < 1 || number > last)
        || all_six > 5
    {
        return false;
    }
    let ante_of = |seat: usize| held.wagers[0][seat];
    let seat_stands = |seat: usize| {
        let sides = [1, 2, 3].map(|list: usize| held.wagers[list][seat]);
        let most = if ante_of(seat) == 0 {
            0
        } else {
            u16::from(largest)
        };
        let most_all_six = if all_six == 0 { 0 } else { most };
        let within = (u16::from(smallest)..=u16::from(largest)).contains(&ante_of(seat));
        (ante_of(seat) == 0 || within)
            && sides.iter().all(|&side| side <= most)
            && held.wagers[4][seat] <= most_all_six
    };
    let playing: Vec<usize> = (0..7).filter(|&seat| ante_of(seat) > 0).collect();
    if !(0..7).all(seat_stands) || (playing.is_empty() && !zero(&bytes[77..])) || held.parts > 4 {
        return false;
    }
    let (read, unread) = held.cards.split_at(13 * usize::from(held.parts));
    let is_new = |(place, card): (usize, &u8)| *card < 52 && !read[..place].contains(card);
    if !read.iter().enumerate().all(is_new) || !zero(unread) {
        return false;
    }
    if held.parts < 4 {
        return zero(&bytes[130..]);
    }
    choices_stand(held, &playing)
}

fn choices_stand(held: &Held, playing: &[usize]) -> bool {
    let mut chosen = Vec::new();
    for seat in 0..7 {
        let raises = held.raises.map(|street| street[seat]);
        let raised = raises.iter().take_while(|&&raise| raise > 0).count();
        let fold = usize::from(held.folds[seat]);
        let stands = raises.iter().all(|&raise| raise <= 3)
            && raises[raised..].iter().all(|&raise| raise == 0)
            && (fold == 0 || (fold == raised + 1 && fold <= 3))
            && (playing.contains(&seat) || raised + fold == 0);
        if !stands {
            return false;
        }
        if playing.contains(&seat) {
            chosen.push((raised.max(fold), fold > 0));
        }
    }
    // On the street of the latest choice every seat still in has chosen on all
    // streets before.
    let latest = chosen.iter().map(|&(count, _)| count).max().unwrap_or(0);
    (chosen.iter()).all(|&(count, folded)| folded || count + 1 >= latest)
}

#[test]
fn the_second_opinion_agrees_on_rounds_changed_by_chance() {
    let generator = Generator::new(23);
    let mut rng = Prng::new(23, 0);
    let mut found = [0, 0];
    for place in 0..400 {
        let made = generator.make(place);
        if made.damage.is_some() {
            continue;
        }
        let records: Vec<&[u8]> = made.file.chunks(16).collect();
        let rounds = fed(&records).0;
        for _ in 0..300 {
            let unchanged = rounds[rng.below(rounds.len())].bytes();
            let bytes = some_changed(&mut rng, unchanged);
            let held = Held::from_bytes(&bytes);
            assert_eq!(held.is_held(), may_be_held(&held), "{held:?}");
            if bytes != unchanged {
                found[usize::from(held.is_held())] += 1;
            }
        }
    }
    assert!(found[0] > 10_000 && found[1] > 1_000, "{found:?}");
}

/// One to three bytes changed, most of them to small numbers.
fn some_changed(rng: &mut Prng, mut bytes: [u8; 158]) -> [u8; 158] {
    for _ in 0..rng.between(1, 3) {
        let at = match rng.below(4) {
            0 => rng.below(77),
            1 => rng.between(77, 129),
            _ => rng.between(130, 157),
        };
        bytes[at] = match rng.below(8) {
            0 => rng.byte(),
            _ => rng.below(5) as u8,
        };
    }
    bytes
}

/// Bytes by chance, and base rounds with many bytes by chance, so that their
/// records lead far into the round.
#[test]
fn any_bytes_are_answered() {
    let mut rng = Prng::new(24, 0);
    let bases = bases::all();
    for turn in 0..20_000 {
        let mut bytes = bases[turn % bases.len()].held.bytes();
        let record: Vec<u8> = (0..16).map(|_| rng.below(6) as u8).collect();
        let count = rng.below(10);
        for byte in &mut bytes {
            if turn % 4 == 0 {
                *byte = rng.byte();
            } else if rng.below(100) < count {
                *byte = rng.below(7) as u8;
            }
        }
        let held = Held::from_bytes(&bytes);
        assert_eq!(held.bytes(), bytes);
        assert_eq!(held.is_held(), may_be_held(&held));
        let not_held = !held.is_held();
        assert_eq!(held.take(&record) == Step::Refused(17), not_held);
        assert_eq!(held.settle() == Err(17), not_held);
    }
}
