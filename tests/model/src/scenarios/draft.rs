//! A scenario in the making: sections whose counts follow their lengths.

use crate::limiting::longest_passing;
use crate::record::{self, Record};
use crate::step;

/// The five sections.
#[derive(Clone, Debug)]
pub struct Draft {
    /// b, screened, Kh, Kv, storage.
    pub layers: Vec<[u64; 5]>,
    pub radii: Vec<u64>,
    /// R_0, W, p, friction.
    pub well: Vec<u64>,
    pub screen_losses: Vec<u64>,
    /// Rate, length, repeats.
    pub pumping: Vec<[u64; 3]>,
}

/// Names of the numbers within a layer, the well and an entry.
pub const THICKNESS: usize = 0;
pub const SCREENED: usize = 1;
pub const HORIZONTAL: usize = 2;
pub const VERTICAL: usize = 3;
pub const STORAGE: usize = 4;
pub const RADIUS: usize = 0;
pub const WATER_AREA: usize = 1;
pub const INTAKE: usize = 2;
pub const FRICTION: usize = 3;
pub const LENGTH: usize = 1;
pub const REPEATS: usize = 2;

impl Draft {
    /// The text's numbers in order, counts included.
    pub fn numbers(&self) -> Vec<u64> {
        let mut numbers = vec![self.layers.len() as u64];
        numbers.extend(self.layers.iter().flatten());
        numbers.push(self.radii.len() as u64);
        numbers.extend(&self.radii);
        numbers.push(self.well.len() as u64);
        numbers.extend(&self.well);
        numbers.push(self.screen_losses.len() as u64);
        numbers.extend(&self.screen_losses);
        numbers.push(self.pumping.len() as u64);
        numbers.extend(self.pumping.iter().flatten());
        numbers
    }

    pub fn text(&self) -> Vec<u8> {
        text_of(&self.numbers())
    }

    /// The start record, if start accepts.
    pub fn start(&self) -> Option<Record> {
        let (outcome, record) = record::start(&self.text());
        outcome.ok().map(|()| record)
    }

    /// Depth of the top of the screen, mm.
    pub fn screen_top(&self) -> u64 {
        self.layers.iter().take_while(|layer| layer[SCREENED] == 0).map(|layer| layer[THICKNESS]).sum()
    }

    /// The longest step (µs) that 7 and 8 allow; 0 if none.
    pub fn longest_step(&self) -> u64 {
        let record = self.start().expect("the draft is accepted");
        longest_passing(|length| step::judge_stability(&record, length, None).is_ok())
    }
}

/// Numbers as lines.
pub fn text_of(numbers: &[u64]) -> Vec<u8> {
    numbers.iter().flat_map(|number| format!("{number}\n").into_bytes()).collect()
}
