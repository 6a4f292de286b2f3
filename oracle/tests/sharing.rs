//! The sharing rule, request c of document 02: "After rounding down, the dollars
//! left go one each to the largest fractions, ties to the earlier place."

use oracle::generate::Generator;
use oracle::pool::share;
use oracle::settle::{settle, Answer};

/// The shares, over a list in which nothing is left as it was.
fn shared(wins: &[u64], maximum: u64) -> Vec<u64> {
    let mut shares = vec![u64::MAX; wins.len()];
    assert_eq!(
        share(wins, maximum, &mut shares),
        Ok(()),
        "{wins:?} {maximum}"
    );
    shares
}

#[test]
fn equal_wins() {
    // 6 1/2 each.
    assert_eq!(shared(&[7, 7], 13), [7, 6]);
    // 8,333 1/3 each, then 6,666 2/3 each.
    assert_eq!(shared(&[10_000; 3], 25_000), [8_334, 8_333, 8_333]);
    assert_eq!(shared(&[10_000; 3], 20_000), [6_667, 6_667, 6_666]);
    assert_eq!(shared(&[500_000; 2], 75_000), [37_500, 37_500]);
    assert_eq!(shared(&[500_000; 2], 74_999), [37_500, 37_499]);
}

/// Of 42 dollars and `left` more each gets 6, and so many get one more.
#[test]
fn seven_equal_wins() {
    for left in 0..7 {
        let mut expected = [6; 7];
        for share in &mut expected[..left] {
            *share = 7;
        }
        assert_eq!(shared(&[9; 7], 42 + left as u64), expected);
    }
    assert_eq!(shared(&[1; 7], 6), [1, 1, 1, 1, 1, 1, 0]);
    // 74,997 is 7 × 10,713 and 6.
    assert_eq!(
        shared(&[500_000; 7], 74_997),
        [10_714, 10_714, 10_714, 10_714, 10_714, 10_714, 10_713]
    );
}

#[test]
fn equal_fractions_of_different_wins() {
    // 10,937 1/2 and 14,062 1/2.
    assert_eq!(shared(&[17_500, 22_500], 25_000), [10_938, 14_062]);
    assert_eq!(shared(&[22_500, 17_500], 25_000), [14_063, 10_937]);
    // 15 of 20: 6 3/4, 3/4, 3 3/4 and 3 3/4, three dollars left.
    assert_eq!(shared(&[9, 1, 5, 5], 15), [7, 1, 4, 3]);
    assert_eq!(shared(&[5, 1, 9, 5], 15), [4, 1, 7, 3]);
    assert_eq!(shared(&[1, 5, 5, 9], 15), [1, 4, 4, 6]);
    // 4 1/2, 1 1/2, 5 1/4 and 3 3/4, two dollars left: the last has the first of
    // them, and the earlier of the halves the second.
    assert_eq!(shared(&[6, 2, 7, 5], 15), [5, 1, 5, 4]);
    assert_eq!(shared(&[2, 6, 7, 5], 15), [2, 4, 5, 4]);
    assert_eq!(shared(&[5, 7, 2, 6], 15), [4, 5, 2, 4]);
}

#[test]
fn fractions_one_part_in_the_total_apart() {
    // Of 999,999 parts the first is over by 499,999, the second by 500,000.
    assert_eq!(shared(&[499_999, 500_000], 1), [0, 1]);
    assert_eq!(shared(&[500_000, 499_999], 1), [1, 0]);
    // 75,000 × 412,505 is 37,500 × 824,999 and 412,500;
    // 75,000 × 412,494 is 37,499 × 824,999 and 412,499.
    assert_eq!(shared(&[412_505, 412_494], 75_000), [37_501, 37_499]);
    assert_eq!(shared(&[412_494, 412_505], 75_000), [37_499, 37_501]);
    // 75,000 × 412,506 is 37,500 × 825,001 and 412,500;
    // 75,000 × 412,495 is 37,499 × 825,001 and 412,501.
    assert_eq!(shared(&[412_506, 412_495], 75_000), [37_500, 37_500]);
    assert_eq!(shared(&[412_495, 412_506], 75_000), [37_500, 37_500]);
    // 75,000 × 200,014 is 20,001 × 750,001 and 279,999;
    // 75,000 × 200,004 is 20,000 × 750,001 and 280,000;
    // 75,000 × 349,983 is 34,998 × 750,001 and 190,002.
    assert_eq!(
        shared(&[200_014, 200_004, 349_983], 75_000),
        [20_001, 20_001, 34_998]
    );
    assert_eq!(
        shared(&[349_983, 200_014, 200_004], 75_000),
        [34_998, 20_001, 20_001]
    );
}

#[test]
fn one_win() {
    assert_eq!(shared(&[25_001], 25_000), [25_000]);
    assert_eq!(shared(&[500_000], 75_000), [75_000]);
    assert_eq!(shared(&[499_999], 74_999), [74_999]);
    assert_eq!(shared(&[500_000], 1), [1]);
    assert_eq!(shared(&[1], 0), [0]);
}

#[test]
fn a_maximum_of_0() {
    assert_eq!(shared(&[5, 0, 7], 0), [0; 3]);
    assert_eq!(shared(&[500_000; 7], 0), [0; 7]);
    assert_eq!(shared(&[0; 7], 0), [0; 7]);
    assert_eq!(shared(&[], 0), []);
}

/// Each is rounded down to a dollar less than its win, and a dollar for all
/// places but one is left. The largest win has the smallest fraction: it alone,
/// of equal ones the last, isn't paid in full.
#[test]
fn a_pool_one_dollar_above_the_maximum() {
    assert_eq!(shared(&[12_500, 12_501], 25_000), [12_500, 12_500]);
    assert_eq!(shared(&[12_501, 12_500], 25_000), [12_500, 12_500]);
    assert_eq!(shared(&[3, 9, 9, 2], 22), [3, 9, 8, 2]);
    assert_eq!(shared(&[7; 7], 48), [7, 7, 7, 7, 7, 7, 6]);
    assert_eq!(shared(&[1, 2, 3, 4, 5, 6, 7], 27), [1, 2, 3, 4, 5, 6, 6]);
    assert_eq!(shared(&[7, 6, 5, 4, 3, 2, 1], 27), [6, 6, 5, 4, 3, 2, 1]);
    assert_eq!(shared(&[1, 75_000], 75_000), [1, 74_999]);
}

/// "If the pool's total is at most the maximum, all are paid in full": no dollar
/// is given out besides.
#[test]
fn a_pool_at_and_within_the_maximum() {
    let pools: [&[u64]; 6] = [
        &[20_000, 4_500, 500],
        &[25_000],
        &[0, 25_000, 0],
        &[3, 9, 9, 2],
        &[7; 7],
        &[0; 7],
    ];
    for wins in pools {
        let total = wins.iter().sum();
        for maximum in [total, total + 1, total + 6, 75_000] {
            assert_eq!(shared(wins, maximum), wins, "{maximum}");
        }
    }
    assert_eq!(shared(&[], 75_000), []);
}

#[test]
fn a_win_of_0_gets_no_dollar() {
    assert_eq!(shared(&[0, 7, 0, 7, 0], 13), [0, 7, 0, 6, 0]);
    assert_eq!(shared(&[0, 0, 1, 1, 1, 0, 1], 3), [0, 0, 1, 1, 1, 0, 0]);
    assert_eq!(shared(&[0, 0, 0, 0, 0, 0, 9], 8), [0, 0, 0, 0, 0, 0, 8]);
    assert_eq!(shared(&[0, 500_000, 0, 500_000], 1), [0, 1, 0, 0]);
    let mut numbers = Numbers(1);
    for _ in 0..20_000 {
        let (mut wins, maximum) = numbers.pool(6, 75_000);
        let mut expected = shared(&wins, maximum);
        let place = numbers.below(wins.len() as u64 + 1) as usize;
        wins.insert(place, 0);
        expected.insert(place, 0);
        assert_eq!(shared(&wins, maximum), expected, "{wins:?} {maximum}");
    }
}

/// A small source of numbers, the same on every machine.
struct Numbers(u64);

impl Numbers {
    fn below(&mut self, count: u64) -> u64 {
        self.0 = self.0.wrapping_mul(6_364_136_223_846_793_005);
        self.0 = self.0.wrapping_add(1_442_695_040_888_963_407);
        (self.0 >> 33) % count
    }

    fn pick<T: Copy>(&mut self, from: &[T]) -> T {
        from[self.below(from.len() as u64) as usize]
    }

    /// Up to so many wins, small and large, some of them equal, and a maximum:
    /// by chance, near the wins' total, or that of a table.
    fn pool(&mut self, most_wins: u64, largest_maximum: u64) -> (Vec<u64>, u64) {
        let limit = self.pick(&[2, 4, 10, 100, 5_000, 500_001]);
        let unit = if limit <= 5_000 {
            self.pick(&[1, 1, 100])
        } else {
            1
        };
        let count = self.below(most_wins + 1).max(self.below(most_wins + 1));
        let mut wins = Vec::new();
        for _ in 0..count {
            let again = !wins.is_empty() && self.below(4) == 0;
            wins.push(if again {
                self.pick(&wins)
            } else {
                unit * self.below(limit)
            });
        }
        let total: u64 = wins.iter().sum();
        let by_chance = self.below(total + 1);
        let of_table = 5_000 * (5 + self.below(11));
        let near = (total + self.below(9)).saturating_sub(7);
        let maximum = self.pick(&[by_chance, by_chance, near, of_table]);
        (wins, maximum.min(largest_maximum))
    }
}

/// For each place the share rounded down and the remainder, in parts of the
/// total.
fn rounded_down(wins: &[u64], maximum: u64) -> Vec<(u64, u64)> {
    let total: u64 = wins.iter().sum();
    let exact = wins.iter().map(|win| maximum * win);
    exact.map(|parts| (parts / total, parts % total)).collect()
}

/// What the request says of shares above the maximum; tells how many dollars
/// were left after rounding down, and whether of two equal fractions one has a
/// dollar.
fn check_shares(wins: &[u64], maximum: u64, shares: &[u64]) -> (usize, bool) {
    let pool = format!("{wins:?} {maximum}: {shares:?}");
    assert_eq!(shares.iter().sum::<u64>(), maximum, "{pool}");
    let exact = rounded_down(wins, maximum);
    let mut with = Vec::new();
    let mut without = Vec::new();
    for (place, &(down, remainder)) in exact.iter().enumerate() {
        assert!(shares[place] <= wins[place], "{pool}");
        match shares[place].checked_sub(down) {
            Some(0) => without.push((remainder, place)),
            Some(1) => with.push((remainder, place)),
            _ => panic!("{pool}"),
        }
    }
    let mut tied = false;
    for &(remainder, place) in &with {
        for &(other, other_place) in &without {
            assert!(remainder >= other, "{pool}");
            assert!(remainder > other || place < other_place, "{pool}");
            tied |= remainder == other;
        }
    }
    (with.len(), tied)
}

/// "Whenever the pool exceeds the maximum, exactly the maximum is paid."
#[test]
fn many_pools() {
    let mut numbers = Numbers(2);
    let mut within = 0;
    let mut left = [0; 7];
    let mut tied = [0; 7];
    for _ in 0..100_000 {
        let (wins, maximum) = numbers.pool(7, 75_000);
        let shares = shared(&wins, maximum);
        if wins.iter().sum::<u64>() <= maximum {
            assert_eq!(shares, wins, "{maximum}");
            within += 1;
            continue;
        }
        let (dollars, is_tied) = check_shares(&wins, maximum, &shares);
        left[dollars] += 1;
        tied[dollars] += u32::from(is_tied);
    }
    assert!(within > 1_000, "{within}");
    assert!(left.iter().all(|&count| count > 300), "{left:?}");
    assert!(tied[1..].iter().all(|&count| count > 100), "{tied:?}");
}

/// The sharing said in another way. Each place is owed maximum × win parts, of
/// which the total makes a dollar. One dollar at a time goes to the place that
/// is owed most, the earlier of equals: to those owed a whole dollar as long as
/// there are any, then to the largest fractions, which are overpaid by it.
fn dollar_by_dollar(wins: &[u64], maximum: u64) -> Vec<u64> {
    let total: u64 = wins.iter().sum();
    if total <= maximum {
        return wins.to_vec();
    }
    let mut owed: Vec<i64> = wins.iter().map(|win| (maximum * win) as i64).collect();
    let mut paid = vec![0; wins.len()];
    for _ in 0..maximum {
        let mut most = 0;
        for place in 1..owed.len() {
            if owed[place] > owed[most] {
                most = place;
            }
        }
        owed[most] -= total as i64;
        paid[most] += 1;
    }
    paid
}

#[test]
fn as_dollar_by_dollar() {
    let mut numbers = Numbers(3);
    for (count, largest_maximum) in [(20_000, 60), (5_000, 1_000), (100, 75_000)] {
        for _ in 0..count {
            let (wins, maximum) = numbers.pool(7, largest_maximum);
            let expected = dollar_by_dollar(&wins, maximum);
            assert_eq!(shared(&wins, maximum), expected, "{wins:?} {maximum}");
        }
    }
}

/// All pools of up to three wins below 6 and of four below 4, with each maximum
/// up to a dollar above their total.
#[test]
fn all_small_pools() {
    for (places, limit) in [(1, 6), (2, 6), (3, 6), (4, 4_u64)] {
        for number in 0..limit.pow(places) {
            let digit = |place| number / limit.pow(place) % limit;
            let wins: Vec<u64> = (0..places).map(digit).collect();
            for maximum in 0..=wins.iter().sum::<u64>() + 1 {
                let expected = dollar_by_dollar(&wins, maximum);
                assert_eq!(shared(&wins, maximum), expected, "{wins:?} {maximum}");
            }
        }
    }
}

/// "Whenever the pool exceeds the maximum, exactly the maximum is paid", and
/// otherwise all of it.
#[test]
fn pools_of_generated_rounds() {
    let generator = Generator::new(51);
    let mut found = [0; 2];
    for place in 0..10_000 {
        let file = generator.make(place).file;
        if let Answer::Paid(paid) = settle(&file) {
            let maximum = 5_000 * u64::from(file[1]);
            assert_eq!(paid.paid, paid.full.min(maximum), "{place}");
            found[usize::from(paid.full > maximum)] += 1;
        }
    }
    assert!(found.iter().all(|&count| count > 200), "{found:?}");
}
