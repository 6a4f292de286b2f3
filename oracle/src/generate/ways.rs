//! The ways in which a valid file is damaged. Each names the refusal that it
//! must lead to; those that begin with "any" lead where chance takes them.

use std::ops::Range;
use std::rc::Rc;

use super::draft::{seat_record, Draft, DraftSeat};
use super::prng::Prng;
use crate::reading::{CHOICE, DECK_PART, RECORD, SEAT, TABLE};
use crate::records::record;

/// What a damaged file must be answered with.
#[derive(Clone, Copy, Debug, PartialEq, Eq)]
pub enum Expected {
    Refusal(u8, usize),
    Anything,
}

use Expected::{Anything, Refusal};

/// Damages the file of a draft; none where this draft does not allow the way.
type Damage = Rc<dyn Fn(&mut Prng, &Draft, &mut Vec<u8>) -> Option<Expected>>;

pub struct Way {
    pub name: String,
    pub(crate) damage: Damage,
}

pub fn all() -> Vec<Way> {
    let mut ways = Ways(Vec::new());
    ways.odd_bytes();
    ways.kinds();
    ways.second_tables();
    ways.wrong_order();
    ways.after_the_finish();
    ways.zero_bytes();
    ways.table_numbers();
    ways.seat_numbers();
    ways.seats_after_the_last();
    ways.wagers();
    ways.all_six_wagers();
    ways.parts();
    ways.cards();
    ways.repeats();
    ways.choices();
    ways.choices_again();
    ways.unfinished();
    ways.faults_in_the_last_record();
    ways.several_faults();
    ways.faults_in_several_records();
    ways.moved_records();
    ways.changed_choices();
    ways.changed_all_six();
    ways.choices_by_chance();
    ways.some_bytes();
    ways.random_bytes();
    ways.0
}

struct Ways(Vec<Way>);

impl Ways {
    fn add<D>(&mut self, name: impl Into<String>, damage: D)
    where
        D: Fn(&mut Prng, &Draft, &mut Vec<u8>) -> Option<Expected> + 'static,
    {
        self.0.push(Way {
            name: name.into(),
            damage: Rc::new(damage),
        });
    }

    /// One byte of a record of the kind takes a wrong value.
    fn add_byte(&mut self, refusal: u8, name: &str, kind: u8, at: usize, value: u8) {
        self.add(format!("{refusal} {name}"), move |rng, draft, file| {
            let place = some_place(rng, draft, kind)?;
            file[place * RECORD + at] = value;
            Some(Refusal(refusal, place))
        });
    }

    /// A record comes before a place of the range, where it cannot come.
    fn add_out_of_place(&mut self, name: &str, kind: u8, stage: fn(&Draft) -> Range<usize>) {
        self.add(format!("3 {name}"), move |rng, draft, file| {
            let place = pick_of(rng, stage(draft))?;
            let copied = some_place(rng, draft, kind)?;
            let copy = copy_of(file, copied);
            insert(file, place, &copy);
            Some(Refusal(3, place))
        });
    }

    fn odd_bytes(&mut self) {
        self.add("2 odd bytes at the end", |rng, _, file| {
            Some(add_odd_bytes(rng, file))
        });
        self.add("2 odd bytes after a faulty record", |rng, draft, file| {
            sure_faults(rng, draft, file, 1)?;
            Some(add_odd_bytes(rng, file))
        });
        self.add("2 file of 1 to 15 bytes", |rng, _, file| {
            file.truncate(rng.between(1, 15));
            Some(Refusal(2, 0))
        });
        self.add("2 odd bytes beyond 34 records", |rng, _, file| {
            add_records(rng, file, 34);
            Some(add_odd_bytes(rng, file))
        });
        self.add("2 cut inside a record", |rng, _, file| {
            let place = rng.below(file.len() / RECORD);
            file.truncate(place * RECORD + rng.between(1, 15));
            Some(Refusal(2, place))
        });
    }

    fn kinds(&mut self) {
        for kind in [0, 5, 255] {
            for (name, of) in [("table", TABLE), ("seat", SEAT), ("deck part", DECK_PART)] {
                self.add_byte(3, &format!("kind {kind} for a {name}"), of, 0, kind);
            }
            self.add_byte(3, &format!("kind {kind} for a choice"), CHOICE, 0, kind);
        }
        self.add("3 unknown kind and every byte wrong", |rng, _, file| {
            let place = rng.below(file.len() / RECORD);
            let begin = place * RECORD;
            file[begin..begin + RECORD].fill(rng.between(5, 255) as u8);
            Some(Refusal(3, place))
        });
        self.add("3 first a seat", |rng, draft, file| {
            if rng.one_in(2) {
                file.drain(..RECORD);
            } else {
                put(file, 0, &seat_record(&draft.seats[0]));
            }
            Some(Refusal(3, 0))
        });
        self.add("3 first a deck part", |_, draft, file| {
            file.drain(..decks(draft).start * RECORD);
            Some(Refusal(3, 0))
        });
        self.add("3 first a choice", |_, draft, file| {
            file.drain(..choices(draft).start * RECORD);
            Some(Refusal(3, 0))
        });
    }

    fn second_tables(&mut self) {
        self.add_out_of_place("second table after the table", TABLE, |_| 1..2);
        self.add_out_of_place("second table among the seats", TABLE, |draft| {
            2..decks(draft).start
        });
        self.add_out_of_place("second table before the deck", TABLE, |draft| {
            let first = decks(draft).start;
            first..first + 1
        });
        self.add_out_of_place("second table in the deck", TABLE, |draft| {
            decks(draft).start + 1..decks(draft).end
        });
        self.add_out_of_place("second table before the choices", TABLE, |draft| {
            decks(draft).end..decks(draft).end + 1
        });
        self.add_out_of_place("second table among the choices", TABLE, |draft| {
            choices(draft).start + 1..choices(draft).end
        });
    }

    fn wrong_order(&mut self) {
        self.add_out_of_place("deck part after the table", DECK_PART, |_| 1..2);
        self.add("3 no seat at all", |_, draft, file| {
            file.drain(RECORD..decks(draft).start * RECORD);
            Some(Refusal(3, 1))
        });
        self.add_out_of_place("seat in the deck", SEAT, |draft| {
            decks(draft).start + 1..decks(draft).end
        });
        self.add_out_of_place("seat before the choices", SEAT, |draft| {
            decks(draft).end..decks(draft).end + 1
        });
        self.add_out_of_place("seat among the choices", SEAT, |draft| {
            choices(draft).start + 1..choices(draft).end
        });
        self.add_out_of_place("fifth deck part", DECK_PART, |draft| {
            decks(draft).end..decks(draft).end + 1
        });
        self.add_out_of_place("deck part among the choices", DECK_PART, |draft| {
            choices(draft).start + 1..choices(draft).end
        });
        self.add_out_of_place("choice after the table", CHOICE, |_| 1..2);
        self.add_out_of_place("choice before the deck", CHOICE, |draft| {
            2..decks(draft).start + 1
        });
        self.add_out_of_place("choice in the deck", CHOICE, |draft| {
            decks(draft).start + 1..decks(draft).end
        });
    }

    fn after_the_finish(&mut self) {
        let end: fn(&Draft) -> Range<usize> = |draft| choices(draft).end..choices(draft).end + 1;
        self.add_out_of_place("table after the finish", TABLE, end);
        self.add_out_of_place("seat after the finish", SEAT, end);
        self.add_out_of_place("deck part after the finish", DECK_PART, end);
        self.add_out_of_place("choice after the finish", CHOICE, end);
        self.add("3 zeros after the finish", |_, draft, file| {
            file.extend_from_slice(&[0; RECORD]);
            Some(Refusal(3, choices(draft).end))
        });
        self.add("3 more than 34 records", |rng, draft, file| {
            add_records(rng, file, 34);
            Some(Refusal(3, choices(draft).end))
        });
        self.add("3 the round twice", |_, draft, file| {
            file.extend_from_within(..);
            Some(Refusal(3, choices(draft).end))
        });
    }

    /// "Bytes that must be zero: .. deck 15, choice 3 to 15 (with 02 b: table 8
    /// to 15, seat 12 to 15)."
    fn zero_bytes(&mut self) {
        let kinds = [
            ("table", TABLE, 8),
            ("seat", SEAT, 12),
            ("deck part", DECK_PART, 15),
            ("choice", CHOICE, 3),
        ];
        for (name, kind, from) in kinds {
            for at in from..RECORD {
                self.add(format!("4 {name} byte {at}"), move |rng, draft, file| {
                    let place = some_place(rng, draft, kind)?;
                    file[place * RECORD + at] = rng.between(1, 255) as u8;
                    Some(Refusal(4, place))
                });
            }
            self.add(format!("4 {name}, all of them"), move |rng, draft, file| {
                let place = some_place(rng, draft, kind)?;
                file[place * RECORD + from..(place + 1) * RECORD].fill(255);
                Some(Refusal(4, place))
            });
        }
    }

    fn table_numbers(&mut self) {
        for value in [0, 4, 16, 255] {
            self.add_byte(5, &format!("smallest ante {value}"), TABLE, 1, value);
        }
        for value in [0, 24, 101, 255] {
            self.add_byte(5, &format!("largest ante {value}"), TABLE, 2, value);
        }
        let tables = [
            ("base", 3, 5),
            ("Lo Ball", 4, 2),
            ("Board", 5, 4),
            ("Pocket", 6, 3),
        ];
        for (name, at, count) in tables {
            for value in [0, count + 1, 255] {
                self.add_byte(6, &format!("{name} table {value}"), TABLE, at, value);
            }
        }
        for value in [6, 255] {
            self.add_byte(6, &format!("All-Six table {value}"), TABLE, 7, value);
        }
    }

    fn seat_numbers(&mut self) {
        for value in [0, 8, 255] {
            self.add_byte(7, &format!("seat {value}"), SEAT, 1, value);
            self.add_byte(7, &format!("choice by seat {value}"), CHOICE, 1, value);
        }
        self.add("7 seat equal to the one before", |rng, draft, file| {
            let order = pick_of(rng, 1..draft.seats.len())?;
            file[(order + 1) * RECORD + 1] = draft.seats[order - 1].number;
            Some(Refusal(7, order + 1))
        });
        self.add("7 seat below the one before", |rng, draft, file| {
            let order = pick_of(rng, 1..draft.seats.len())?;
            let before = usize::from(draft.seats[order - 1].number);
            let below = pick_of(rng, 1..before)?;
            file[(order + 1) * RECORD + 1] = below as u8;
            Some(Refusal(7, order + 1))
        });
    }

    fn seats_after_the_last(&mut self) {
        for number in [0, 1, 7, 8, 255] {
            self.add(
                format!("7 an eighth seat, number {number}"),
                move |_, draft, file| add_eighth(draft, file, number, |_| ()),
            );
        }
        self.add("7 an eighth seat with other faults", |_, draft, file| {
            add_eighth(draft, file, 8, |seat| {
                seat.ante = 0;
                seat.sides = [65_535; 4];
            })
        });
        self.add("4 an eighth seat, a byte not zero", |rng, draft, file| {
            add_eighth(draft, file, 8, |_| ())?;
            file[8 * RECORD + rng.between(12, 15)] = 1;
            Some(Refusal(4, 8))
        });
        self.add("7 a seat after seat 7", |rng, draft, file| {
            let last = draft.seats.last().filter(|seat| seat.number == 7)?;
            let mut seat = last.clone();
            seat.number = rng.between(1, 7) as u8;
            let place = decks(draft).start;
            insert(file, place, &seat_record(&seat));
            Some(Refusal(7, place))
        });
    }

    fn add_wager(&mut self, name: &str, at: usize, value: fn(&Draft, usize) -> Option<usize>) {
        let refusal = if at == 2 { 8 } else { 9 };
        self.add(format!("{refusal} {name}"), move |rng, draft, file| {
            let place = some_place(rng, draft, SEAT)?;
            let begin = place * RECORD + at;
            let wager = usize::from(file[begin]);
            let wrong = value(draft, wager)? as u16;
            file[begin..begin + 2].copy_from_slice(&wrong.to_le_bytes());
            Some(Refusal(refusal, place))
        });
    }

    fn wagers(&mut self) {
        self.add_wager("ante one below", 2, |draft, _| Some(draft.smallest - 1));
        self.add_wager("ante one above", 2, |draft, _| Some(draft.largest + 1));
        self.add_wager("ante 0", 2, |_, _| Some(0));
        self.add_wager("ante 256 + a fitting one", 2, |_, wager| Some(256 + wager));
        self.add_wager("ante 65535", 2, |_, _| Some(65_535));
        for (name, at) in [("Board", 4), ("Pocket", 6), ("Lo Ball", 8)] {
            self.add_wager(&format!("{name} one above"), at, |draft, _| {
                Some(draft.largest + 1)
            });
            self.add_wager(&format!("{name} 256"), at, |_, _| Some(256));
            self.add_wager(&format!("{name} 256 + a fitting one"), at, |_, wager| {
                Some(256 + wager)
            });
            self.add_wager(&format!("{name} 65535"), at, |_, _| Some(65_535));
        }
    }

    fn all_six_wagers(&mut self) {
        let mut add = |name: &str, value| self.add_wager(name, 10, value);
        add("All-Six one above", |draft, _| {
            offered(draft, draft.largest + 1)
        });
        add("All-Six 256", |draft, _| offered(draft, 256));
        add("All-Six 256 + a fitting one", |draft, wager| {
            offered(draft, 256 + wager)
        });
        add("All-Six 65535", |draft, _| offered(draft, 65_535));
        add("All-Six 1, not offered", |draft, _| not_offered(draft, 1));
        add("All-Six the largest ante, not offered", |draft, _| {
            not_offered(draft, draft.largest)
        });
        add("All-Six one above, not offered", |draft, _| {
            not_offered(draft, draft.largest + 1)
        });
        add("All-Six 256, not offered", |draft, _| {
            not_offered(draft, 256)
        });
        add("All-Six 65535, not offered", |draft, _| {
            not_offered(draft, 65_535)
        });
        self.add("9 All-Six, a high byte", |rng, draft, file| {
            let place = some_place(rng, draft, SEAT)?;
            file[place * RECORD + 11] = rng.between(1, 255) as u8;
            Some(Refusal(9, place))
        });
        self.add("9 All-Six wagers, table byte 7 made 0", |_, draft, file| {
            let wagers = |seat: &DraftSeat| seat.sides[3] > 0;
            let order = draft.seats.iter().position(wagers)?;
            file[7] = 0;
            Some(Refusal(9, 1 + order))
        });
    }

    fn parts(&mut self) {
        for value in [4, 255] {
            self.add_byte(10, &format!("part {value}"), DECK_PART, 1, value);
        }
        for part in 0..4_u8 {
            for wrong in (0..4).filter(|&wrong| wrong != part) {
                let name = format!("10 part {wrong} for {part}");
                self.add(name, move |_, draft, file| {
                    let place = decks(draft).start + usize::from(part);
                    file[place * RECORD + 1] = wrong;
                    Some(Refusal(10, place))
                });
            }
        }
        self.add("10 part doubled", |rng, draft, file| {
            let place = decks(draft).start + rng.below(3);
            let copy = copy_of(file, place);
            insert(file, place + 1, &copy);
            Some(Refusal(10, place + 1))
        });
        self.add("10 part left out", |rng, draft, file| {
            let place = decks(draft).start + rng.below(3);
            remove(file, place);
            Some(Refusal(10, place))
        });
        self.add("10 wrong part with a wrong card", |rng, draft, file| {
            let place = some_place(rng, draft, DECK_PART)?;
            file[place * RECORD + 1] = rng.between(4, 255) as u8;
            file[place * RECORD + rng.between(2, 14)] = 52;
            Some(Refusal(10, place))
        });
    }

    fn cards(&mut self) {
        for at in 2..15 {
            self.add_byte(11, &format!("card 52 at byte {at}"), DECK_PART, at, 52);
        }
        self.add("11 card 255", |rng, draft, file| {
            let place = some_place(rng, draft, DECK_PART)?;
            file[place * RECORD + rng.between(2, 14)] = 255;
            Some(Refusal(11, place))
        });
        self.add("11 card 53 to 254", |rng, draft, file| {
            let place = some_place(rng, draft, DECK_PART)?;
            file[place * RECORD + rng.between(2, 14)] = rng.between(53, 254) as u8;
            Some(Refusal(11, place))
        });
    }

    fn repeats(&mut self) {
        for later in 0..4 {
            for earlier in 0..=later {
                let name = format!("11 card of part {earlier} again in part {later}");
                self.add(name, move |rng, draft, file| {
                    let from = 13 * earlier + rng.below(13);
                    let to = 13 * later + rng.below(13);
                    repeat_card(draft, file, draft.deck[from], to)
                });
            }
        }
        self.add("11 card 0 twice", |rng, draft, file| {
            let to = rng.below(52);
            repeat_card(draft, file, 0, to)
        });
        self.add("11 a whole part of card 0", |rng, draft, file| {
            let place = some_place(rng, draft, DECK_PART)?;
            let begin = place * RECORD;
            file[begin + 2..begin + 15].fill(0);
            Some(Refusal(11, place))
        });
    }

    fn choices(&mut self) {
        for value in [4, 255] {
            self.add_byte(12, &format!("choice {value}"), CHOICE, 2, value);
        }
        self.add("12 choice above 3 by an absent seat", |rng, draft, file| {
            let place = some_place(rng, draft, CHOICE)?;
            let wrong = record(&[CHOICE, absent(rng, draft)?, rng.between(4, 255) as u8]);
            put(file, place, &wrong);
            Some(Refusal(12, place))
        });
        self.add("12 choice above 3 by a folded seat", |rng, draft, file| {
            let choice = rng.between(4, 255) as u8;
            let place = fold_again(rng, draft, file, choice, this_or_later_street)?;
            Some(Refusal(12, place))
        });
        self.add(
            "12 choice above 3 by one that has chosen",
            |rng, draft, file| {
                let choice = rng.between(4, 255) as u8;
                Some(Refusal(12, choose_twice(rng, draft, file, choice)?))
            },
        );
        for choice in 0..4 {
            let name = format!("13 absent seat chooses {choice}");
            self.add(name, move |rng, draft, file| {
                let place = some_place(rng, draft, CHOICE)?;
                put(file, place, &record(&[CHOICE, absent(rng, draft)?, choice]));
                Some(Refusal(13, place))
            });
        }
    }

    fn choices_again(&mut self) {
        for choice in 0..4 {
            let name = format!("14 folded on an earlier street, chooses {choice}");
            self.add(name, move |rng, draft, file| {
                let place = fold_again(rng, draft, file, choice, later_street)?;
                Some(Refusal(14, place))
            });
            let name = format!("14 folded on this very street, chooses {choice}");
            self.add(name, move |rng, draft, file| {
                let place = fold_again(rng, draft, file, choice, same_street)?;
                Some(Refusal(14, place))
            });
            let name = format!("15 has already chosen, chooses {choice}");
            self.add(name, move |rng, draft, file| {
                Some(Refusal(15, choose_twice(rng, draft, file, choice)?))
            });
        }
    }

    fn unfinished(&mut self) {
        self.add("16 empty file", |_, _, file| cut(file, Some(0)));
        self.add("16 the table alone", |_, _, file| cut(file, Some(1)));
        self.add("16 cut among the seats", |rng, draft, file| {
            cut(file, pick_of(rng, 2..decks(draft).start))
        });
        for part in 0..4 {
            self.add(
                format!("16 cut before part {part}"),
                move |_, draft, file| cut(file, Some(decks(draft).start + part)),
            );
        }
        self.add("16 no choices", |_, draft, file| {
            cut(file, Some(choices(draft).start))
        });
        for (number, name) in ["one", "two", "three"].into_iter().enumerate() {
            self.add(format!("16 no street {name}"), move |_, draft, file| {
                let street = street(draft, number);
                cut(file, Some(street.start).filter(|_| !street.is_empty()))
            });
            self.add(
                format!("16 cut on street {name}"),
                move |rng, draft, file| {
                    let street = street(draft, number);
                    cut(file, pick_of(rng, street.start + 1..street.end))
                },
            );
            self.add(
                format!("16 cut after a fold on street {name}"),
                move |rng, draft, file| {
                    let first = choices(draft).start;
                    let is_fold = |place: &usize| draft.choices[place - first][1] == 0;
                    let fold = street(draft, number).find(is_fold)?;
                    cut(file, pick_of(rng, fold + 1..choices(draft).end))
                },
            );
        }
        self.add("16 the last choice missing", |_, draft, file| {
            cut(file, Some(choices(draft).end - 1))
        });
    }

    /// A fault of each number in one of its ways, and the file ends with the
    /// refused record: all before it are accepted.
    fn faults_in_the_last_record(&mut self) {
        for number in 3..=15 {
            let ways = self.0.iter();
            let its = ways.filter(|way| way.name.starts_with(&format!("{number} ")));
            let damages: Vec<Damage> = its.map(|way| Rc::clone(&way.damage)).collect();
            let name = format!("{number} in the last record");
            self.add(name, move |rng, draft, file| {
                let damage = &damages[rng.below(damages.len())];
                let expected = damage(rng, draft, file)?;
                if let Refusal(_, place) = expected {
                    file.truncate((place + 1) * RECORD);
                }
                Some(expected)
            });
        }
    }

    fn several_faults(&mut self) {
        for kind in [TABLE, SEAT, DECK_PART, CHOICE] {
            let name = format!("several faults in one record of kind {kind}");
            self.add(name, move |rng, draft, file| {
                let place = some_place(rng, draft, kind)?;
                let count = rng.between(2, 4);
                let numbers = (0..count).filter_map(|_| sure_fault(rng, file, place));
                Some(Refusal(numbers.min()?, place))
            });
        }
        self.add(
            "4 a byte not zero, by an absent seat",
            |rng, draft, file| {
                let place = some_place(rng, draft, CHOICE)?;
                put(file, place, &record(&[CHOICE, absent(rng, draft)?]));
                file[place * RECORD + rng.between(3, 15)] = 1;
                Some(Refusal(4, place))
            },
        );
        self.add("7 seat not above, wagers wrong too", |rng, draft, file| {
            let order = pick_of(rng, 1..draft.seats.len())?;
            let mut seat = draft.seats[order - 1].clone();
            seat.ante = rng.pick(&[0, 4, 101, 256])?;
            seat.sides[rng.below(4)] = 101;
            put(file, order + 1, &seat_record(&seat));
            Some(Refusal(7, order + 1))
        });
    }

    fn faults_in_several_records(&mut self) {
        self.add("several faults in several records", |rng, draft, file| {
            let count = rng.between(2, 5);
            sure_faults(rng, draft, file, count)
        });
        self.add("several faults and odd bytes", |rng, draft, file| {
            sure_faults(rng, draft, file, 3)?;
            Some(add_odd_bytes(rng, file))
        });
        self.add("a fault and the end missing", |rng, draft, file| {
            let expected = sure_faults(rng, draft, file, 1)?;
            if let Refusal(_, place) = expected {
                file.truncate((place + 1 + rng.below(3)) * RECORD);
            }
            Some(expected)
        });
        self.add("a fault and more than 34 records", |rng, draft, file| {
            let expected = sure_faults(rng, draft, file, 1);
            add_records(rng, file, 34);
            expected
        });
    }

    fn moved_records(&mut self) {
        self.add("any record left out", |rng, _, file| {
            let place = rng.below(file.len() / RECORD);
            remove(file, place);
            Some(Anything)
        });
        self.add("any record doubled", |rng, _, file| {
            let place = rng.below(file.len() / RECORD);
            let copy = copy_of(file, place);
            insert(file, place + rng.below(2), &copy);
            Some(Anything)
        });
        self.add("any record moved", |rng, _, file| {
            let from = rng.below(file.len() / RECORD);
            let copy = copy_of(file, from);
            remove(file, from);
            let to = rng.below(file.len() / RECORD + 1);
            insert(file, to, &copy);
            Some(Anything)
        });
        self.add("any two records swapped", |rng, _, file| {
            let first = rng.below(file.len() / RECORD);
            let second = rng.below(file.len() / RECORD);
            swap(file, first, second);
            Some(Anything)
        });
        self.add("any few records moved", |rng, _, file| {
            for _ in 0..rng.between(2, 4) {
                let from = rng.below(file.len() / RECORD);
                let copy = copy_of(file, from);
                remove(file, from);
                let to = rng.below(file.len() / RECORD + 1);
                insert(file, to, &copy);
            }
            Some(Anything)
        });
    }

    fn changed_choices(&mut self) {
        self.add("any two choices swapped", |rng, draft, file| {
            let first = pick_of(rng, choices(draft))?;
            let second = pick_of(rng, choices(draft))?;
            swap(file, first, second);
            Some(Anything)
        });
        self.add("any choice by another playing seat", |rng, draft, file| {
            let place = some_place(rng, draft, CHOICE)?;
            let order = rng.below(draft.seats.len());
            file[place * RECORD + 1] = draft.seats[order].number;
            Some(Anything)
        });
        self.add("any choice changed", |rng, draft, file| {
            let place = some_place(rng, draft, CHOICE)?;
            file[place * RECORD + 2] = rng.below(4) as u8;
            Some(Anything)
        });
    }

    fn changed_all_six(&mut self) {
        self.add("any All-Six table", |rng, _, file| {
            file[7] = rng.below(7) as u8;
            Some(Anything)
        });
        self.add("any All-Six wager", |rng, draft, file| {
            let place = some_place(rng, draft, SEAT)?;
            file[place * RECORD + 10] = rng.between(0, draft.largest + 1) as u8;
            Some(Anything)
        });
        self.add("any All-Six table, no wagers", |rng, draft, file| {
            file[7] = rng.below(6) as u8;
            for place in 1..decks(draft).start {
                file[place * RECORD + 10] = 0;
            }
            Some(Anything)
        });
    }

    fn choices_by_chance(&mut self) {
        self.add("any choices by playing seats", |rng, draft, file| {
            let playing: Vec<u8> = draft.seats.iter().map(|seat| seat.number).collect();
            choose_by_chance(rng, draft, file, &playing);
            Some(Anything)
        });
        self.add("any choices by any seats", |rng, draft, file| {
            choose_by_chance(rng, draft, file, &[1, 2, 3, 4, 5, 6, 7]);
            Some(Anything)
        });
        self.add(
            "any order of the choices of a street",
            |rng, draft, file| {
                let number = rng.below(3);
                let places = street(draft, number);
                for place in places.clone() {
                    let other = pick_of(rng, places.clone())?;
                    swap(file, place, other);
                }
                Some(Anything)
            },
        );
    }

    fn some_bytes(&mut self) {
        self.add("any one bit", |rng, _, file| {
            let at = rng.below(file.len());
            file[at] ^= 1 << rng.below(8);
            Some(Anything)
        });
        self.add("any few bytes", |rng, _, file| {
            for _ in 0..rng.between(1, 3) {
                let at = rng.below(file.len());
                file[at] = rng.byte();
            }
            Some(Anything)
        });
        self.add("any few bytes, small", |rng, _, file| {
            for _ in 0..rng.between(1, 3) {
                let at = rng.below(file.len());
                file[at] = rng.below(10) as u8;
            }
            Some(Anything)
        });
    }

    fn random_bytes(&mut self) {
        self.add("any random bytes", |rng, _, file| {
            let length = some_length(rng, 0, 600);
            *file = (0..length).map(|_| rng.byte()).collect();
            Some(Anything)
        });
        self.add("any random bytes, long", |rng, _, file| {
            let length = some_length(rng, 600, 4000);
            *file = (0..length).map(|_| rng.byte()).collect();
            Some(Anything)
        });
        self.add("any random records of known kinds", |rng, _, file| {
            file.clear();
            for _ in 0..rng.between(1, 40) {
                let kind = rng.between(1, 4) as u8;
                file.extend_from_slice(&record(&[kind, rng.below(8) as u8, rng.byte()]));
            }
            Some(Anything)
        });
        self.add("any random end, long", |rng, _, file| {
            let kept = some_length(rng, 0, file.len());
            file.truncate(kept);
            let more = some_length(rng, 500, 3000);
            file.extend((0..more).map(|_| rng.below(6) as u8));
            Some(Anything)
        });
    }
}

/// The wager, where All-Six is offered.
fn offered(draft: &Draft, wager: usize) -> Option<usize> {
    Some(wager).filter(|_| draft.offers_all_six())
}

fn not_offered(draft: &Draft, wager: usize) -> Option<usize> {
    Some(wager).filter(|_| !draft.offers_all_six())
}

/// The places of the deck parts in the draft's own file.
fn decks(draft: &Draft) -> Range<usize> {
    let first = 1 + draft.seats.len();
    first..first + 4
}

fn choices(draft: &Draft) -> Range<usize> {
    let first = decks(draft).end;
    first..first + draft.choices.len()
}

/// The places of the choices of a street, from 0.
fn street(draft: &Draft, number: usize) -> Range<usize> {
    let count = |street| {
        let seats = draft.seats.iter();
        seats.filter(|seat| seat.chooses_on(street)).count()
    };
    let first = choices(draft).start + (0..number).map(count).sum::<usize>();
    first..first + count(number)
}

fn pick_of(rng: &mut Prng, places: Range<usize>) -> Option<usize> {
    let chosen = places.start + rng.below(places.len());
    places.contains(&chosen).then_some(chosen)
}

/// A place of a record of the kind.
fn some_place(rng: &mut Prng, draft: &Draft, kind: u8) -> Option<usize> {
    match kind {
        TABLE => Some(0),
        SEAT => pick_of(rng, 1..decks(draft).start),
        DECK_PART => pick_of(rng, decks(draft)),
        _ => pick_of(rng, choices(draft)),
    }
}

fn put(file: &mut [u8], place: usize, whole: &[u8; RECORD]) {
    file[place * RECORD..(place + 1) * RECORD].copy_from_slice(whole);
}

fn copy_of(file: &[u8], place: usize) -> [u8; RECORD] {
    record(&file[place * RECORD..(place + 1) * RECORD])
}

fn insert(file: &mut Vec<u8>, place: usize, whole: &[u8; RECORD]) {
    let at = place * RECORD;
    file.splice(at..at, whole.iter().copied());
}

fn remove(file: &mut Vec<u8>, place: usize) {
    file.drain(place * RECORD..(place + 1) * RECORD);
}

fn swap(file: &mut [u8], first: usize, second: usize) {
    let (one, other) = (copy_of(file, first), copy_of(file, second));
    put(file, first, &other);
    put(file, second, &one);
}

fn cut(file: &mut Vec<u8>, count: Option<usize>) -> Option<Expected> {
    let count = count?;
    file.truncate(count * RECORD);
    Some(Refusal(16, count))
}

/// A length, half the time that of whole records.
fn some_length(rng: &mut Prng, least: usize, most: usize) -> usize {
    let length = rng.between(least, most);
    if rng.one_in(2) {
        length
    } else {
        length / RECORD * RECORD
    }
}

/// A few choices more or fewer than the round needs, by these seats.
fn choose_by_chance(rng: &mut Prng, draft: &Draft, file: &mut Vec<u8>, seats: &[u8]) {
    file.truncate(choices(draft).start * RECORD);
    let folding = rng.between(2, 12);
    for _ in 0..rng.between(1, 3 * draft.seats.len() + 1) {
        let seat = rng.pick(seats).unwrap_or(1);
        let choice = if rng.one_in(folding) {
            0
        } else {
            rng.between(1, 3) as u8
        };
        file.extend_from_slice(&record(&[CHOICE, seat, choice]));
    }
}

fn add_odd_bytes(rng: &mut Prng, file: &mut Vec<u8>) -> Expected {
    let whole = file.len() / RECORD;
    for _ in 0..rng.between(1, 15) {
        file.push(rng.byte());
    }
    Refusal(2, whole)
}

/// Adds records until the file has more than so many.
fn add_records(rng: &mut Prng, file: &mut Vec<u8>, count: usize) {
    let more = (count + 1).saturating_sub(file.len() / RECORD).max(1) + rng.below(30);
    for _ in 0..more {
        let bytes = [rng.below(6) as u8, rng.below(9) as u8, rng.below(5) as u8];
        file.extend_from_slice(&record(&bytes));
    }
}

fn add_eighth(
    draft: &Draft,
    file: &mut Vec<u8>,
    number: u8,
    change: fn(&mut DraftSeat),
) -> Option<Expected> {
    let mut seat = draft.seats.get(6)?.clone();
    seat.number = number;
    change(&mut seat);
    insert(file, 8, &seat_record(&seat));
    Some(Refusal(7, 8))
}

fn absent(rng: &mut Prng, draft: &Draft) -> Option<u8> {
    let playing = |number: &u8| draft.seats.iter().any(|seat| seat.number == *number);
    let others: Vec<u8> = (1..8).filter(|number| !playing(number)).collect();
    rng.pick(&others)
}

/// Puts the card at a place of the deck where it does not lie yet. The later
/// of its two places is refused.
fn repeat_card(draft: &Draft, file: &mut [u8], card: u8, to: usize) -> Option<Expected> {
    let from = draft.deck.iter().position(|&other| other == card)?;
    if from == to {
        return None;
    }
    let first = decks(draft).start;
    file[(first + to / 13) * RECORD + 2 + to % 13] = card;
    Some(Refusal(11, first + from.max(to) / 13))
}

/// The street on which a seat that folded on one chooses again.
type Again = fn(&mut Prng, usize) -> Option<usize>;

fn same_street(_: &mut Prng, folded: usize) -> Option<usize> {
    Some(folded)
}

fn later_street(rng: &mut Prng, folded: usize) -> Option<usize> {
    pick_of(rng, folded + 1..3)
}

fn this_or_later_street(rng: &mut Prng, folded: usize) -> Option<usize> {
    pick_of(rng, folded..3)
}

/// A folded seat chooses again while the street is open; tells where.
fn fold_again(
    rng: &mut Prng,
    draft: &Draft,
    file: &mut Vec<u8>,
    choice: u8,
    again: Again,
) -> Option<usize> {
    let folded = draft.seats.iter().filter(|seat| seat.folds.is_some());
    let seats: Vec<&DraftSeat> = folded.collect();
    let seat = rng.pick(&seats)?;
    let folds = seat.folds?;
    let open = street(draft, again(rng, folds)?);
    let after = place_of_choice(draft, seat.number, folds)? + 1;
    let place = pick_of(rng, open.start.max(after)..open.end)?;
    insert(file, place, &record(&[CHOICE, seat.number, choice]));
    Some(place)
}

/// A seat that has raised chooses again on the same street; tells where.
fn choose_twice(rng: &mut Prng, draft: &Draft, file: &mut Vec<u8>, choice: u8) -> Option<usize> {
    let number = rng.below(3);
    let open = street(draft, number);
    let raised = draft.seats.iter().filter(|seat| seat.chooses_on(number));
    let seats: Vec<&DraftSeat> = raised.filter(|seat| seat.folds != Some(number)).collect();
    let seat = rng.pick(&seats)?;
    let after = place_of_choice(draft, seat.number, number)? + 1;
    let place = pick_of(rng, after..open.end)?;
    insert(file, place, &record(&[CHOICE, seat.number, choice]));
    Some(place)
}

fn place_of_choice(draft: &Draft, seat: u8, number: usize) -> Option<usize> {
    let first = choices(draft).start;
    street(draft, number).find(|place| draft.choices[place - first][0] == seat)
}

/// Faults that are refused wherever the record stands, by kind: the byte, its
/// value, the refusal.
const SURE: [&[(usize, u8, u8)]; 4] = [
    &[
        (0, 0, 3),
        (9, 1, 4),
        (1, 4, 5),
        (2, 101, 5),
        (3, 6, 6),
        (6, 0, 6),
        (7, 6, 6),
    ],
    &[
        (0, 5, 3),
        (15, 255, 4),
        (1, 8, 7),
        (3, 1, 8),
        (5, 1, 9),
        (9, 255, 9),
        (11, 1, 9),
    ],
    &[(0, 9, 3), (15, 1, 4), (1, 7, 10), (2, 52, 11), (14, 99, 11)],
    &[(0, 0, 3), (3, 1, 4), (15, 128, 4), (1, 0, 7), (2, 4, 12)],
];

/// Puts one of the sure faults into a record, whose kind may already be one.
fn sure_fault(rng: &mut Prng, file: &mut [u8], place: usize) -> Option<u8> {
    let kind = usize::from(file[place * RECORD]);
    let faults = SURE.get(kind.wrapping_sub(1))?;
    let (at, value, number) = rng.pick(faults)?;
    file[place * RECORD + at] = value;
    Some(number)
}

/// Puts sure faults into records by chance. The first of these is refused, by
/// its lowest number.
fn sure_faults(rng: &mut Prng, draft: &Draft, file: &mut [u8], count: usize) -> Option<Expected> {
    let mut first = None;
    for _ in 0..count {
        let kind = rng.between(1, 4) as u8;
        let place = some_place(rng, draft, kind)?;
        let Some(number) = sure_fault(rng, file, place) else {
            continue;
        };
        let fault = (place, number);
        first = Some(first.map_or(fault, |other: (usize, u8)| other.min(fault)));
    }
    first.map(|(place, number)| Refusal(number, place))
}
