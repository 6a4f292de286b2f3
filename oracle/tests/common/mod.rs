//! A round written by hand.

/// The places stand before the records. Street one is records 8 to 10, street
/// two 11 and 12, street three 13.
pub const ROUND: [&str; 14] = [
    /*  0 */ "table 10 50 base 1 lo 1 board 1 pocket 1",
    /*  1 */ "seat 2 ante 10 board 0 pocket 50 lo 1",
    /*  2 */ "seat 4 ante 50 board 50 pocket 0 lo 0",
    /*  3 */ "seat 5 ante 20 board 0 pocket 0 lo 50",
    /*  4 */ "deck 0: 2d 2h 2s 3c 3d 3h 3s 4c 4d 4h 4s 5c 5d",
    /*  5 */ "deck 1: 5h 5s 6c 6d 6h 6s 7c 7d 7h 7s 8c 8d 8h",
    /*  6 */ "deck 2: 8s 9c 9d 9h 9s Tc Td Th Ts Jc Jd Jh Js",
    /*  7 */ "deck 3: Qc Qd Qh Qs Kc Kd Kh Ks Ac Ad Ah As 2c",
    /*  8 */ "choice 5 fold",
    /*  9 */ "choice 2 raise 1",
    /* 10 */ "choice 4 raise 3",
    /* 11 */ "choice 4 raise 1",
    /* 12 */ "choice 2 fold",
    /* 13 */ "choice 4 raise 2",
];
