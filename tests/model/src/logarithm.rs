//! Λ held against the true logarithm, worked in floats.

use crate::geometry::{lambda, SERIES_RATIO};
use crate::limits::{COLUMN_RADIUS, WIDEST_RATIO};

/// A range of p/q.
#[derive(Clone, Copy, PartialEq, Eq, Debug)]
pub enum Range {
    /// q < p ≤ 3q.
    UpTo3,
    /// 3q < p ≤ 9q.
    Above3,
}

impl Range {
    pub const BOTH: [Range; 2] = [Range::UpTo3, Range::Above3];

    /// The range of a pair.
    pub fn of(p: u64, q: u64) -> Range {
        if p > SERIES_RATIO * q {
            Range::Above3
        } else {
            Range::UpTo3
        }
    }

    pub fn name(self) -> &'static str {
        match self {
            Range::UpTo3 => "up to 3q",
            Range::Above3 => "above 3q",
        }
    }

    /// How far Λ may be from ln(p/q) × 2^30.
    pub fn tolerance(self) -> f64 {
        match self {
            Range::UpTo3 => 64.0,
            Range::Above3 => 128.0,
        }
    }
}

/// The largest doubled midsection radius, mm.
pub const LARGEST: u64 = 2 * *COLUMN_RADIUS.end();

/// ln(p/q) × 2^30; the error is far below 1.
pub fn true_logarithm(p: u64, q: u64) -> f64 {
    ((p - q) as f64 / q as f64).ln_1p() * (1u64 << 30) as f64
}

/// Whether Λ(p, q) is defined.
pub fn in_range(p: u64, q: u64) -> bool {
    q < p && p <= LARGEST && p <= WIDEST_RATIO * q
}

/// The worst of the lines of a range held so far.
#[derive(Clone, Copy, Default)]
pub struct Worst {
    pub lines: u64,
    pub difference: f64,
    pub p: u64,
    pub q: u64,
}

/// What was held so far, range by range.
#[derive(Default)]
pub struct Held([Worst; 2]);

impl Held {
    pub fn in_range(&self, range: Range) -> Worst {
        self.0[range as usize]
    }

    pub fn lines(&self) -> u64 {
        self.0.iter().map(|worst| worst.lines).sum()
    }

    /// Holds a value against the true logarithm.
    pub fn hold(&mut self, p: u64, q: u64, value: u64) -> Result<(), String> {
        let range = Range::of(p, q);
        let difference = (value as f64 - true_logarithm(p, q)).abs();
        if difference > range.tolerance() {
            return Err(format!("{difference:.1} from the true logarithm"));
        }
        let worst = &mut self.0[range as usize];
        worst.lines += 1;
        if difference > worst.difference {
            (worst.difference, worst.p, worst.q) = (difference, p, q);
        }
        Ok(())
    }
}

/// Works on lines `p q` (answered with Λ added) and `p q Λ` (held against the rule and the true logarithm).
/// Gives the answers and what was held, or what is wrong.
pub fn check(input: &str) -> Result<(Vec<String>, Held), String> {
    let mut answers = Vec::new();
    let mut held = Held::default();
    for (above, line) in input.lines().enumerate() {
        let wrong = |what: &str| format!("logarithm, line {}: {what}: {line}", above + 1);
        let numbers: Option<Vec<u64>> = line.split_whitespace().map(|word| word.parse().ok()).collect();
        let numbers = numbers.filter(|n| n.len() == 2 || n.len() == 3).ok_or_else(|| wrong("not p q or p q value"))?;
        let (p, q) = (numbers[0], numbers[1]);
        if !in_range(p, q) {
            return Err(wrong("p and q out of range"));
        }
        let rule = lambda(p, q) as u64;
        match numbers.get(2) {
            None => answers.push(format!("{p} {q} {rule}")),
            Some(&value) => {
                held.hold(p, q, value).map_err(|what| wrong(&what))?;
                if value != rule {
                    return Err(wrong(&format!("the rule gives {rule}")));
                }
            }
        }
    }
    if answers.is_empty() && held.lines() == 0 {
        return Err("logarithm: no lines".to_string());
    }
    Ok((answers, held))
}
