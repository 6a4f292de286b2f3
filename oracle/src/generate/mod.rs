//! Makes round files to be settled, valid finished rounds and damaged ones, and
//! shifts of them.

pub mod draft;
pub mod prng;
pub mod shifts;
pub mod stacks;
pub mod ways;

use draft::Draft;
use prng::Prng;
use ways::{Expected, Way};

pub struct Generator {
    seed: u64,
    pub ways: Vec<Way>,
    /// From here on stand the ways of unfinished rounds and of a faulty last
    /// record.
    first_held: usize,
    /// From here on stand the ways of several faults and of chance.
    first_several: usize,
}

pub struct Made {
    pub file: Vec<u8>,
    pub draft: Draft,
    /// The place in the list of ways, and what must be answered; none for a
    /// valid round.
    pub damage: Option<(usize, Expected)>,
}

/// Of so many files in a row so many are damaged.
const ROW: u64 = 20;
const DAMAGED: u64 = 9;

/// Drafts tried for a way before it is given up.
const TRIES: usize = 1_000;

impl Generator {
    pub fn new(seed: u64) -> Generator {
        let ways = ways::all();
        let first = |name| {
            let found = ways.iter().position(|way| way.name.starts_with(name));
            found.unwrap_or(0)
        };
        Generator {
            seed,
            first_held: first("16"),
            first_several: first("several"),
            ways,
        }
    }

    /// The file at a place of the stream; it depends on the seed and the place
    /// alone.
    pub fn make(&self, place: u64) -> Made {
        let mut rng = Prng::new(self.seed, place);
        let step = place % ROW * DAMAGED;
        if step % ROW < DAMAGED {
            let turn = place / ROW * DAMAGED + step / ROW;
            let way = self.way_in_turn(turn);
            for _ in 0..TRIES {
                if let Some(made) = self.damaged(&mut rng, way) {
                    return made;
                }
            }
        }
        // All weights together have no divisor in common with the row, so that
        // valid files alone get each stack by its weight too.
        let stack = stacks::in_turn(place.wrapping_add(self.seed));
        let draft = Draft::new(&mut rng, stack);
        Made {
            file: draft.file(),
            draft,
            damage: None,
        }
    }

    /// The way for a turn. Of eight in a row two go to the unfinished rounds and
    /// faulty last records, one to several faults and chance, five to all ways;
    /// each group comes in its order.
    fn way_in_turn(&self, turn: u64) -> usize {
        let count = self.ways.len();
        let (group, nth) = match turn % 8 {
            step @ (0 | 1) => (self.first_held..self.first_several, turn / 8 * 2 + step),
            2 => (self.first_several..count, turn / 8),
            step => (0..count, turn / 8 * 5 + step - 3),
        };
        let length = group.len() as u64;
        group.start + ((self.seed % length + nth % length) % length) as usize
    }

    fn damaged(&self, rng: &mut Prng, way: usize) -> Option<Made> {
        let stack = stacks::pick(rng);
        let draft = Draft::new(rng, stack);
        let mut file = draft.file();
        let expected = (self.ways[way].damage)(rng, &draft, &mut file)?;
        Some(Made {
            file,
            draft,
            damage: Some((way, expected)),
        })
    }
}
