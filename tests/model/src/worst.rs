//! The pairs of which Λ is farthest from the true logarithm, in its whole range.
//!
//! For p up to 3q, Λ(p, q) depends on z = ⌊(p − q) × 2^30 / (p + q)⌋ alone, above that on the z of p and 3q, and it is never above
//! the true logarithm: the printed logarithm of 3 is not, and every step of the series rounds down. The true logarithm rises with
//! p/q. So of all pairs of a range that have a z the one with the largest p/q is the farthest off, and it is enough to try every z.

use crate::geometry::{series, LOGARITHM_OF_3, SERIES_RATIO};
use crate::logarithm::{true_logarithm, Range, LARGEST};
use std::ops::RangeInclusive;

const ONE: u64 = 1 << 30;

/// Every z of q < p ≤ 3q.
pub const RATIOS: RangeInclusive<u64> = 1..=LAST;
/// The z of p = 3q, and of no other pair.
const LAST: u64 = ONE * (SERIES_RATIO - 1) / (SERIES_RATIO + 1);

impl Range {
    /// The series of a pair is that of p and this many times q.
    fn times(self) -> u64 {
        match self {
            Range::UpTo3 => 1,
            Range::Above3 => SERIES_RATIO,
        }
    }

    /// Λ of the range's pairs that have a z.
    fn lambda(self, z: u64) -> u64 {
        match self {
            Range::UpTo3 => series(z),
            Range::Above3 => LOGARITHM_OF_3 + series(z),
        }
    }
}

/// A pair in lowest terms, and how far its Λ is from the true logarithm.
#[derive(Clone, Copy, PartialEq, Debug)]
pub struct Pair {
    pub p: u64,
    pub q: u64,
    pub difference: f64,
}

/// Of a range of p/q the farthest pair of each of the `count` z, among some, whose farthest pairs are the farthest, the farthest first.
pub fn worst(range: Range, ratios: RangeInclusive<u64>, count: usize) -> Vec<Pair> {
    let mut worst: Vec<Pair> = Vec::new();
    let mut least = 0.0;
    for z in ratios {
        // No pair that has this z reaches the next one's ratio.
        let (above, below) = (range.times() * (ONE + z + 1), ONE - z - 1);
        if true_logarithm(above, below) - range.lambda(z) as f64 <= least {
            continue;
        }
        let Some(pair) = farthest(range, z).filter(|pair| pair.difference > least) else { continue };
        let place = worst.partition_point(|other| other.difference >= pair.difference);
        worst.insert(place, pair);
        worst.truncate(count);
        if worst.len() == count {
            least = worst.last().map_or(f64::INFINITY, |pair| pair.difference);
        }
    }
    worst
}

/// The pair with the largest p/q of a range's that have a z, if there is one.
pub fn farthest(range: Range, z: u64) -> Option<Pair> {
    let times = range.times();
    let (p, q) = if z == LAST { (times * SERIES_RATIO, 1) } else { largest_below(times * (ONE + z + 1), ONE - z - 1) };
    let has_z = p * (ONE - z) >= times * q * (ONE + z);
    has_z.then(|| Pair { p, q, difference: true_logarithm(p, q) - range.lambda(z) as f64 })
}

/// The largest p/q below a ratio over 1 with p within its limit. Between two neighbours, p/q below the ratio and r/s not below it,
/// the next fraction is (p + r)/(q + s).
fn largest_below(above: u64, below: u64) -> (u64, u64) {
    let (mut p, mut q, mut r, mut s) = (1, 1, 1, 0);
    while p + r <= LARGEST {
        let (short, over) = (above * q - below * p, below * r - above * s);
        let most = (LARGEST - p) / r;
        let steps = if over == 0 { most } else { most.min((short - 1) / over) };
        (p, q) = (p + steps * r, q + steps * s);
        let short = short - steps * over;
        let steps = ((LARGEST - r) / p).min(over / short);
        (r, s) = (r + steps * p, s + steps * q);
    }
    (p, q)
}
