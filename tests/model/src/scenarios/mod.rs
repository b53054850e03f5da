//! Scenario texts for comparisons: every other one from the catalogue of edges, the rest drawn at random.
//! A text depends on the seed and its number alone, and its listing takes well below a second.

mod accepted;
mod damage;
mod draft;
mod edges;
pub mod lists;
mod runs;

use crate::random::Random;
use crate::text;
use draft::Draft;
use std::collections::HashSet;
use std::path::Path;
use std::{fs, io};

/// Kinds of random texts that take turns, and how many of them are grids: those with an even number under 10.
const KINDS: u64 = 14;
const GRIDS: u64 = 5;

/// A scenario text, or a choice text (`lists`), with a name for what it tries, and what start must say of it: 0 accepted, else the refusal.
/// What start says of a randomly damaged text is not foretold.
#[derive(Clone, PartialEq, Eq, Debug)]
pub struct Case {
    pub name: String,
    pub text: Vec<u8>,
    pub start: Option<u64>,
}

impl Case {
    fn accepted(name: &str, draft: &Draft) -> Case {
        Case { name: name.to_string(), text: draft.text(), start: Some(0) }
    }
}

/// Makes the texts of a seed.
pub struct Scenarios {
    seed: u64,
    edges: Vec<Case>,
}

impl Scenarios {
    pub fn new(seed: u64) -> Scenarios {
        Scenarios { seed, edges: edges::catalogue() }
    }

    /// How many texts it takes until every edge has been written.
    pub fn whole(&self) -> u64 {
        2 * self.edges.len() as u64
    }

    /// The text of a number from 0.
    pub fn case(&self, number: u64) -> Case {
        let round = number / 2;
        if number % 2 == 1 {
            drawn(self.seed, round)
        } else {
            self.edges[(round % self.edges.len() as u64) as usize].clone()
        }
    }

    /// The texts in the order of their numbers, without those that are byte for byte an earlier one.
    pub fn different(&self) -> impl Iterator<Item = Case> + '_ {
        let mut texts = HashSet::new();
        (0..).map(|number| self.case(number)).filter(move |case| texts.insert(case.text.clone()))
    }
}

/// The random texts: grids of every size in turn between the runs and refusals that are aimed at.
fn drawn(seed: u64, round: u64) -> Case {
    let mut random = Random::new(seed ^ (round + 1).wrapping_mul(0xD6E8_FEB8_6659_FD93));
    let (turn, kind) = (round / KINDS, round % KINDS);
    loop {
        let case = draw(&mut random, seed, turn, kind);
        if work_is_bounded(&case.text) {
            return case;
        }
    }
}

fn draw(random: &mut Random, seed: u64, turn: u64, kind: u64) -> Case {
    match kind {
        1 => Case::accepted("stability", &runs::stability(random)),
        3 => damage::one(random, turn),
        5 => Case::accepted("ends-in-10", &runs::intake(random)),
        7 => Case::accepted("ends-in-11", &runs::water_table(random)),
        9 => Case::accepted("ends-in-9", &runs::pumped_total(random)),
        10 if turn % 4 == 3 => damage::too_wide(random),
        10 => Case::accepted("wide", &accepted::wide(random)),
        11 => damage::several(random),
        12 => Case::accepted("cross-flow", &runs::cross_flow(random)),
        13 if turn % 4 == 0 => Case::accepted("long", &runs::long(random)),
        13 => damage::one(random, turn + 9),
        _ => {
            let (layers, columns) = grid_size(seed, GRIDS * turn + kind / 2);
            Case::accepted(&format!("grid-{layers}x{columns}"), &accepted::scenario(random, layers, columns))
        }
    }
}

/// Whether the steps of a text, if start accepts it, are few enough for a comparison.
fn work_is_bounded(text: &[u8]) -> bool {
    match text::read(text) {
        Err(_) => true,
        Ok(scenario) => {
            let steps: u64 = scenario.pumping.iter().map(|entry| entry.repeats).sum();
            let places = 1 + scenario.site.layers.len() * (scenario.site.columns() - 1);
            steps * places as u64 <= 300_000 && (steps <= 3000 || places <= runs::FEW_PLACES)
        }
    }
}

/// Sizes of the grids in a scattered order that takes all 19 × 49 before it repeats.
pub fn grid_size(seed: u64, turn: u64) -> (usize, usize) {
    const SIZES: u64 = 19 * 49;
    let number = (seed % SIZES + turn * 331) % SIZES;
    (2 + (number / 49) as usize, 2 + (number % 49) as usize)
}

/// Writes the first `count` different texts of a seed into a directory, which is made if need be.
pub fn write_all(seed: u64, count: u64, directory: &str) -> io::Result<()> {
    write_cases(Scenarios::new(seed).different(), count, directory)
}

/// Writes the first `count` of some texts, each under its number and name.
fn write_cases(cases: impl Iterator<Item = Case>, count: u64, directory: &str) -> io::Result<()> {
    fs::create_dir_all(directory)?;
    for (number, case) in (1..=count).zip(cases) {
        fs::write(Path::new(directory).join(format!("{number:05}-{}.txt", case.name)), case.text)?;
    }
    Ok(())
}
