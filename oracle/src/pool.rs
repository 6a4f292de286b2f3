//! The round maximum and the sharing rule.

use std::cmp::Reverse;

pub const MOST_WINS: usize = 7;
pub const LARGEST_WIN: u64 = 500_000;
pub const LARGEST_MAXIMUM: u64 = 75_000;

/// "The round maximum is 5,000 × the smallest ante."
pub fn maximum(smallest_ante: u8) -> u64 {
    5_000 * u64::from(smallest_ante)
}

/// Shares the wins under the maximum, all in dollars. "If the pool's total is at
/// most the maximum, all are paid in full. Otherwise each gets maximum × its win
/// ÷ total, rounded down to a dollar"; "after rounding down, the dollars left go
/// one each to the largest fractions, ties to the earlier place".
///
/// Refuses with 19, then 20; a refusal leaves the shares as they were.
pub fn share(wins: &[u64], maximum: u64, shares: &mut [u64]) -> Result<(), u8> {
    if wins.len() != shares.len() || wins.len() > MOST_WINS {
        return Err(19);
    }
    if maximum > LARGEST_MAXIMUM || wins.iter().any(|&win| win > LARGEST_WIN) {
        return Err(20);
    }
    let total: u64 = wins.iter().sum();
    if total <= maximum {
        shares.copy_from_slice(wins);
        return Ok(());
    }
    for (share, &win) in shares.iter_mut().zip(wins) {
        *share = maximum * win / total;
    }
    let rounded_down: u64 = shares.iter().sum();
    let left = (maximum - rounded_down) as usize;
    for &place in by_fraction(wins, maximum, total).iter().take(left) {
        shares[place] += 1;
    }
    Ok(())
}

/// The places of the wins, that of the largest fraction first, of equal ones the
/// earlier first. "Fractions are compared exactly": each is its remainder ÷
/// total, so the remainders are compared.
fn by_fraction(wins: &[u64], maximum: u64, total: u64) -> Vec<usize> {
    let mut places: Vec<usize> = (0..wins.len()).collect();
    // The sort is stable: places of equal remainders keep their order.
    places.sort_by_key(|&place| Reverse(maximum * wins[place] % total));
    places
}
