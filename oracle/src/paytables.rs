//! The pay tables of source document 002, Appendices A to E, as printed: a
//! row for each outcome, a column for each table. All odds are "to 1".

use crate::names::{BoardName, FiveName, LoBallName, PocketName, SixName};

#[derive(Clone, Copy, Debug, PartialEq, Eq)]
pub enum Pays {
    /// So many to 1.
    To(u64),
    /// 3/2 to 1.
    ThreeHalves,
    Push,
    Loss,
}

use Pays::{Loss, Push, ThreeHalves, To};

pub const BASE_TABLES: usize = 5;
pub const LO_BALL_TABLES: usize = 2;
pub const BOARD_TABLES: usize = 4;
pub const POCKET_TABLES: usize = 3;
pub const ALL_SIX_TABLES: usize = 5;

/// Appendix A, in the order of `FiveName`.
#[rustfmt::skip]
pub const BASE: [[Pays; BASE_TABLES]; 11] = [
    /* royal flush     */ [To(500),     To(500), To(500),     To(500),     To(500)],
    /* straight flush  */ [To(100),     To(100), To(100),     To(100),     To(100)],
    /* four of a kind  */ [To(40),      To(40),  To(40),      To(40),      To(40)],
    /* full house      */ [To(10),      To(10),  To(11),      To(11),      To(10)],
    /* flush           */ [To(6),       To(6),   To(7),       To(7),       To(8)],
    /* straight        */ [To(4),       To(4),   To(4),       To(5),       To(4)],
    /* three of a kind */ [To(3),       To(3),   To(3),       To(3),       To(3)],
    /* two pair        */ [ThreeHalves, To(2),   ThreeHalves, ThreeHalves, ThreeHalves],
    /* jacks to aces   */ [To(1),       To(1),   To(1),       To(1),       To(1)],
    /* sixes to tens   */ [Push,        Push,    Push,        Push,        Push],
    /* other           */ [Loss,        Loss,    Loss,        Loss,        Loss],
];

/// Appendix B, in the order of `LoBallName`.
#[rustfmt::skip]
pub const LO_BALL: [[Pays; LO_BALL_TABLES]; 9] = [
    /* 7 high     */ [To(100), To(100)],
    /* 8 high     */ [To(50),  To(50)],
    /* 9 high     */ [To(15),  To(10)],
    /* 10 high    */ [To(5),   To(5)],
    /* jack high  */ [To(1),   To(1)],
    /* queen high */ [Loss,    Push],
    /* king high  */ [Loss,    Loss],
    /* ace high   */ [Loss,    Loss],
    /* nothing    */ [Loss,    Loss],
];

/// Appendix C, in the order of `BoardName`.
#[rustfmt::skip]
pub const BOARD: [[Pays; BOARD_TABLES]; 7] = [
    /* royal           */ [To(50), To(50), To(40), To(50)],
    /* straight flush  */ [To(40), To(40), To(40), To(40)],
    /* three of a kind */ [To(30), To(30), To(30), To(30)],
    /* straight        */ [To(6),  To(5),  To(5),  To(6)],
    /* flush           */ [To(3),  To(4),  To(4),  To(4)],
    /* pair            */ [To(1),  To(1),  To(1),  To(1)],
    /* other           */ [Loss,   Loss,   Loss,   Loss],
];

/// Appendix D, in the order of `PocketName`.
#[rustfmt::skip]
pub const POCKET: [[Pays; POCKET_TABLES]; 5] = [
    /* pair of aces       */ [To(25), To(30), To(30)],
    /* ace face, suited   */ [To(20), To(20), To(20)],
    /* ace face, unsuited */ [To(10), To(10), To(10)],
    /* other pair         */ [To(5),  To(5),  To(4)],
    /* nothing            */ [Loss,   Loss,   Loss],
];

/// Appendix E, in the order of `SixName`. Two pair and below are its "Other".
#[rustfmt::skip]
pub const ALL_SIX: [[Pays; ALL_SIX_TABLES]; 13] = [
    /* six-card royal, diamonds */ [To(1_000), To(1_000), To(1_000), To(1_000), To(200_000)],
    /* six-card royal, other    */ [To(1_000), To(1_000), To(1_000), To(1_000), To(20_000)],
    /* five-card royal          */ [To(1_000), To(1_000), To(1_000), To(1_000), To(1_000)],
    /* straight flush           */ [To(200),   To(200),   To(200),   To(200),   To(200)],
    /* four of a kind           */ [To(50),    To(50),    To(100),   To(100),   To(50)],
    /* full house               */ [To(25),    To(25),    To(20),    To(20),    To(20)],
    /* flush                    */ [To(20),    To(15),    To(15),    To(15),    To(15)],
    /* straight                 */ [To(10),    To(10),    To(9),     To(10),    To(10)],
    /* three of a kind          */ [To(5),     To(5),     To(8),     To(7),     To(5)],
    /* two pair                 */ [Loss,      Loss,      Loss,      Loss,      Loss],
    /* jacks to aces            */ [Loss,      Loss,      Loss,      Loss,      Loss],
    /* sixes to tens            */ [Loss,      Loss,      Loss,      Loss,      Loss],
    /* other                    */ [Loss,      Loss,      Loss,      Loss,      Loss],
];

pub fn base(table: u8, name: FiveName) -> Pays {
    column(&BASE[name as usize], table)
}

pub fn lo_ball(table: u8, name: LoBallName) -> Pays {
    column(&LO_BALL[name as usize], table)
}

pub fn board(table: u8, name: BoardName) -> Pays {
    column(&BOARD[name as usize], table)
}

pub fn pocket(table: u8, name: PocketName) -> Pays {
    column(&POCKET[name as usize], table)
}

pub fn all_six(table: u8, name: SixName) -> Pays {
    column(&ALL_SIX[name.place()], table)
}

/// Tables are numbered from 1. A table that isn't there lists nothing, and
/// "what a pay table doesn't list loses".
fn column(row: &[Pays], table: u8) -> Pays {
    let place = usize::from(table).wrapping_sub(1);
    row.get(place).copied().unwrap_or(Loss)
}

impl Pays {
    /// The cents handed back for a wager of whole dollars: "A win hands back
    /// the wager and odds × wager; a push the wager; a loss nothing."
    pub(crate) fn handed_back(self, wager: u64) -> u64 {
        match self {
            To(odds) => 100 * wager + 100 * odds * wager,
            ThreeHalves => 100 * wager + 150 * wager,
            Push => 100 * wager,
            Loss => 0,
        }
    }

    /// The odds if they are above 50, where a base win goes into the pool.
    pub fn pooled_odds(self) -> Option<u64> {
        match self {
            To(odds) if odds > 50 => Some(odds),
            _ => None,
        }
    }
}
