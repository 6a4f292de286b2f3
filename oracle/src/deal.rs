//! Where in the deck the cards of a round lie.

/// The places of the cards, from 0 at the top of the deck.
#[derive(Clone, Copy, Debug, PartialEq, Eq)]
pub struct Deal {
    /// The first of the three community cards, which lie together.
    community: usize,
    /// The first card of the lowest playing seat.
    pockets: usize,
    /// The All-Six card, where the wager is offered.
    all_six: Option<usize>,
}

impl Deal {
    /// The deal to so many playing seats. "From the top of the deck each
    /// playing seat, lowest first, takes two cards together; the next three are
    /// the community cards." Where All-Six is offered, wagered on or not, "the
    /// first four cards go to the dealer: three community cards, then the
    /// All-Six card, then the seats".
    pub fn new(seats: usize, all_six_offered: bool) -> Deal {
        if all_six_offered {
            Deal {
                community: 0,
                all_six: Some(3),
                pockets: 4,
            }
        } else {
            Deal {
                pockets: 0,
                community: 2 * seats,
                all_six: None,
            }
        }
    }

    pub fn community(&self) -> [usize; 3] {
        [self.community, self.community + 1, self.community + 2]
    }

    pub fn all_six(&self) -> Option<usize> {
        self.all_six
    }

    /// The two cards of the seat that is the so-manyth, from 0, of those
    /// playing.
    pub fn pocket(&self, order: usize) -> [usize; 2] {
        let first = self.pockets + 2 * order;
        [first, first + 1]
    }
}
