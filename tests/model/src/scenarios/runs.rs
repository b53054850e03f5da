//! Scenarios whose runs meet a given refusal of a step (8, 9, 10 or 11) or flow out of the well.

use super::accepted::{grid, pumping_rate};
use super::draft::{Draft, HORIZONTAL, INTAKE};
use crate::grid::{cell, Place};
use crate::listing;
use crate::random::Random;
use crate::readings;
use crate::text::Entry;

/// Draws until the listing has an entry refused with a number.
fn until_refused(random: &mut Random, number: u64, draw: impl Fn(&mut Random) -> Draft) -> Draft {
    loop {
        let draft = draw(random);
        let ends = |line: &str| line.starts_with("refused ") && line.ends_with(&format!(" {number}"));
        if draft.start().is_some() && listing::listing(&draft.text()).lines().any(ends) {
            return draft;
        }
    }
}

/// Steps at the longest length that 8 allows, and one µs above it.
pub fn stability(random: &mut Random) -> Draft {
    until_refused(random, 8, |random| {
        let (layers, columns) = (random.between(2, 8) as usize, random.between(2, 12) as usize);
        let mut draft = grid(random, layers, columns);
        let longest = draft.longest_step();
        let rate = pumping_rate(random, &draft, longest, 40);
        draft.pumping = vec![[rate, longest, 20], [rate, longest + 1, 1], [0, longest, 5], [rate, longest, 20]];
        draft
    })
}

/// Pumping until the well's drawdown would pass the intake, a rest, and pumping again.
pub fn intake(random: &mut Random) -> Draft {
    until_refused(random, 10, |random| {
        let (layers, columns) = (random.between(2, 6) as usize, random.between(2, 10) as usize);
        let mut draft = grid(random, layers, columns);
        for layer in &mut draft.layers {
            layer[HORIZONTAL] = layer[HORIZONTAL].min(random.spread(1, 100_000));
        }
        let length = draft.longest_step().max(1);
        let rate = pumping_rate(random, &draft, length, 30);
        let some = random.between(20, 200);
        draft.pumping = vec![[rate, length, some], [0, length, 20], [rate / 2, length, some], [rate, length, 10]];
        draft
    })
}

/// A thin top layer of low yield above a strongly pumped layer: its water table would pass its bottom.
pub fn water_table(random: &mut Random) -> Draft {
    until_refused(random, 11, |random| {
        let (top, between, screened) = (random.between(1, 60), random.between(500, 4000), random.between(500, 4000));
        let horizontal = random.spread(10_000, 1_000_000);
        let vertical = random.spread(100_000, 10_000_000);
        let radius = random.between(50, 300);
        let mut radii = vec![radius * 5];
        for _ in 0..random.between(1, 3) {
            radii.push(radii[radii.len() - 1] * random.between(12, 20) / 10);
        }
        let mut draft = Draft {
            layers: vec![
                [top, 0, random.one_of(&[0, horizontal / 10, horizontal]), vertical, random.spread(1, 4000)],
                [between, 0, horizontal, vertical, random.spread(10_000, 1_000_000)],
                [screened, 1, horizontal, vertical, random.spread(10_000, 1_000_000)],
            ],
            radii,
            well: vec![radius, random.spread(500, 20_000), top + between - 1, random.between(0, 60_000)],
            screen_losses: vec![random.spread(1, 1_000_000)],
            pumping: Vec::new(),
        };
        if draft.start().is_none() {
            return draft;
        }
        let length = draft.longest_step().max(1);
        let rate = pumping_rate(random, &draft, length, 100);
        draft.pumping = vec![[rate, length, 300], [0, length, 50], [rate, length, 400], [rate / 3, length, 20]];
        draft
    })
}

/// Two screened layers, one fast and one slow: at rest the well takes water from one and gives some to the other.
pub fn cross_flow(random: &mut Random) -> Draft {
    loop {
        let radius = random.between(50, 300);
        let fast = random.spread(300_000, 3_000_000);
        let slow = random.spread(10_000, 100_000);
        let storage = random.between(20_000, 200_000);
        let (upper, lower) = random.one_of(&[(fast, slow), (slow, fast)]);
        let mut draft = Draft {
            layers: vec![
                [random.between(2000, 9000), 0, slow, random.between(0, 1000), 100_000],
                [random.between(500, 3000), 1, upper, random.between(0, 1000), storage],
                [random.between(500, 3000), 0, slow, random.between(0, 1000), storage],
                [random.between(500, 3000), 1, lower, random.between(0, 1000), storage],
            ],
            radii: vec![radius * 4, radius * 9, radius * 20],
            well: vec![radius, random.spread(2000, 100_000), random.between(1000, 1999), random.between(0, 60_000)],
            screen_losses: vec![random.spread(1, 5_000_000); random.between(0, 2) as usize],
            pumping: Vec::new(),
        };
        let length = draft.longest_step().max(1);
        let rate = pumping_rate(random, &draft, length, 100);
        draft.pumping = vec![[rate, length, 200], [0, length, 10], [0, length, 40]];
        if gives_water(&draft) {
            return draft;
        }
    }
}

/// Whether after the entries the well gives some layer a thousand nl or more in a step of the last length.
fn gives_water(draft: &Draft) -> bool {
    let Some(mut record) = draft.start() else { return false };
    for &[rate, length, repeats] in &draft.pumping {
        if listing::run_entry(&mut record, Entry { rate, length, repeats }).is_err() {
            return false;
        }
    }
    let length = draft.pumping[draft.pumping.len() - 1][1];
    let inward = |layer| readings::flow(&record, cell(layer, 1), Place::Well, length);
    record.site().screened_layers().into_iter().any(|layer| inward(layer).is_ok_and(|water| water <= -1000))
}

/// The fastest pumping for the longest steps from a very large aquifer, until the pumped total would pass its limit.
pub fn pumped_total(random: &mut Random) -> Draft {
    until_refused(random, 9, |random| {
        let mut layers = vec![
            [1_000_000, 0, 0, random.between(0, 1000), 1_000_000],
            [1_000_000, 1, random.between(20_000, 60_000), random.between(0, 1000), 1_000_000],
        ];
        for _ in 0..random.between(0, 2) {
            layers.push([random.between(1, 1000), 0, random.between(0, 100), 0, 1_000_000]);
        }
        let mut radii = vec![25_000, 60_000];
        for _ in 0..random.between(0, 3) {
            radii.push(radii[radii.len() - 1] * random.between(15, 20) / 10);
        }
        let longest = random.one_of(&[[10_000_000, 1_000_000_000, 401], [9_999_999, 999_999_999, 401]]);
        let mut draft = Draft {
            layers,
            radii,
            well: vec![5000, 1_000_000_000, 999_999, 20_000],
            screen_losses: vec![1000, 1000],
            pumping: vec![longest, [10_000_000, 1_000_000_000, 1], [0, 1_000_000_000, 2], [1, 1, 3]],
        };
        draft.well[INTAKE] -= random.between(0, 1000);
        draft
    })
}

/// Places of the grids on which runs are long.
pub const FEW_PLACES: usize = 5;

/// Tens of thousands of equal steps on the smallest grids, pumping and at rest.
pub fn long(random: &mut Random) -> Draft {
    let (layers, columns) = random.one_of(&[(2, 2), (2, 3), (3, 2), (4, 2)]);
    let mut draft = grid(random, layers, columns);
    let length = draft.longest_step().max(1);
    let (pumped, rest) = (random.between(10_000, 40_000), random.between(1, 10_000));
    let rate = pumping_rate(random, &draft, length, pumped);
    draft.pumping = vec![[rate, length, pumped], [0, length, rest]];
    draft
}
