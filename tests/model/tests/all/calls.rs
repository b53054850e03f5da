//! Random lists of calls, and what the ledger says that each must answer.

use crate::head_losses;
use reference_model::grid::{cell, slot, Place};
use reference_model::head_loss::{head_loss, HeadLoss};
use reference_model::ledger::{Face, Ledger};
use reference_model::limiting::{self, Limiting};
use reference_model::limits;
use reference_model::mistake::Mistake;
use reference_model::random::Random;
use reference_model::readings;
use reference_model::record::Record;
use reference_model::refusal::Refusal;
use reference_model::site::Site;
use reference_model::step::step_with;
use reference_model::text::Scenario;
use std::cmp::Reverse;
use std::collections::{BTreeMap, BTreeSet};

use crate::bore_k::equal;

/// A call on the list's record, with its arguments beside the record.
pub enum Call {
    Step { rate: u64, length: u64 },
    Drawdown(Place),
    Budget,
    StorageLoss(Vec<u8>),
    Flow { from: Place, to: Place, length: u64 },
    DeepCells { threshold: u64, list: Vec<u64> },
    Same { other: Box<Record>, other_first: bool },
    HeadLoss { layer: u64, length: u64 },
    Limiting { rate: u64, length: u64 },
}

/// Draws calls that fit a scenario, and some that do not.
pub struct Drawer<'a> {
    pub random: Random,
    pub scenario: &'a Scenario,
    /// The longest step that 8 allows, µs.
    pub longest: u64,
}

impl Drawer<'_> {
    pub fn call(&mut self, record: &Record, start: &Record) -> Call {
        match self.random.between(0, 16) {
            0 => Call::Drawdown(self.place()),
            1 => Call::Budget,
            2 => Call::StorageLoss(self.set()),
            3 => {
                let (from, to) = self.ends();
                Call::Flow { from, to, length: self.length() }
            }
            4 => Call::DeepCells { threshold: self.threshold(record), list: self.list() },
            5 => Call::Same { other: Box::new(self.other(record, start)), other_first: self.random.once_in(2) },
            6 => {
                let layers = self.scenario.site.layers.len() as u64;
                let layer = self.random.between(0, layers + 1);
                Call::HeadLoss { layer, length: self.length() }
            }
            7 => {
                let (rate, length) = self.step_not_taken();
                Call::Limiting { rate, length }
            }
            _ => Call::Step { rate: self.rate(), length: self.length() },
        }
    }

    fn rate(&mut self) -> u64 {
        let listed: Vec<u64> = self.scenario.pumping.iter().map(|entry| entry.rate).chain([0]).collect();
        let rate = self.random.one_of(&listed);
        let any = self.random.word();
        match self.random.between(0, 19) {
            0 => any,
            1 => limits::RATE + 1,
            2..=4 => 0,
            _ => rate,
        }
    }

    fn length(&mut self) -> u64 {
        let longest = self.longest;
        let shorter = self.random.between(1, longest.max(1));
        let any = self.random.word();
        match self.random.between(0, 19) {
            0 => longest + 1,
            1 => self.random.one_of(&[0, 1_000_000_000, 1_000_000_001, any]),
            2..=6 => shorter,
            _ => longest,
        }
    }

    /// Rate and length of a step, more of them too long or past the intake than among those that are taken.
    pub fn step_not_taken(&mut self) -> (u64, u64) {
        let (rate, length) = (self.rate(), self.length());
        let (more, longer) = (self.random.spread(0, limits::RATE), self.longest + self.random.spread(1, 1_000_000));
        (self.random.one_of(&[rate, rate, more]), self.random.one_of(&[length, length, longer]))
    }

    fn place(&mut self) -> Place {
        if self.random.once_in(6) {
            return Place::Well;
        }
        let layers = self.scenario.site.layers.len() as u64;
        let columns = self.scenario.site.columns() as u64;
        let any = self.random.word();
        let layer = self.random.between(0, layers + 1);
        let column = self.random.between(0, columns + 1);
        Place::Cell { layer: if self.random.once_in(30) { any } else { layer }, column }
    }

    /// Two ends, most of them neighbours.
    fn ends(&mut self) -> (Place, Place) {
        let from = self.place();
        if let (Place::Cell { layer, column }, false) = (from, self.random.once_in(8)) {
            let to = match self.random.between(0, 4) {
                0 => Place::Cell { layer: layer.wrapping_add(1), column },
                1 => Place::Cell { layer: layer.wrapping_sub(1), column },
                2 => Place::Cell { layer, column: column.wrapping_add(1) },
                3 => Place::Cell { layer, column: column.wrapping_sub(1) },
                _ => Place::Well,
            };
            return if self.random.once_in(2) { (from, to) } else { (to, from) };
        }
        (from, self.place())
    }

    fn places(&self) -> usize {
        1 + self.scenario.site.layers.len() * (self.scenario.site.columns() - 1)
    }

    pub fn set(&mut self) -> Vec<u8> {
        let length = match self.random.between(0, 9) {
            0 => self.random.between(0, 1200) as usize,
            1 => self.places() - 1,
            2 => self.places() + 1,
            _ => self.places(),
        };
        self.bytes(length)
    }

    pub fn bytes(&mut self, length: usize) -> Vec<u8> {
        (0..length).map(|_| if self.random.once_in(2) { 0 } else { self.random.word() as u8 }).collect()
    }

    fn threshold(&mut self, record: &Record) -> u64 {
        let any = self.random.word();
        let depth = self.random.between(0, record.well_drawdown());
        self.random.one_of(&[0, depth, depth / 10, depth / 100, any])
    }

    fn list(&mut self) -> Vec<u64> {
        let length = self.random.between(0, 2 * self.places() as u64);
        (0..length).map(|_| self.random.word()).collect()
    }

    /// Another record: the list's own or the start's, as it is, with a nl moved, or with another total, time, mark, C, S, friction or coefficient
    /// count; or the all-zero one.
    pub fn other(&mut self, record: &Record, start: &Record) -> Record {
        let mut other = if self.random.once_in(2) { record.clone() } else { start.clone() };
        let intake = 1000 * other.intake_depth as i64;
        let cells: Vec<_> = other.stored_cells().map(|(layer, column)| slot(layer, column)).collect();
        let at = self.random.one_of(&cells);
        let last = slot(other.layers as usize - 1, 1);
        match self.random.between(0, 17) {
            0 => {
                other.inflow += 1;
                other.pumped += 1;
            }
            1 => other.time = self.random.word(),
            2 => other = Record::zero(),
            3 => other.mark = self.random.one_of(&[other.mark - 1, intake, intake + 1, -1, i64::MIN, i64::MAX]),
            4 => (other.well_loss, other.cell_loss[at]) = (other.well_loss - 1, other.cell_loss[at] + 1),
            5 => (other.inflow, other.cell_loss[at]) = (other.inflow + 1, other.cell_loss[at] - 1),
            6 => other.time += 1,
            7 => other.across_c[at] += 1,
            8 => other.cell_s[at] += 1,
            9 => other.friction ^= 1,
            10 => other.screen_loss_count += 1,
            11 => other.down_c[last] ^= 1,
            12 => other.well_c[other.layers as usize - 1] ^= 1,
            _ => (),
        }
        other
    }
}

/// Makes a call on the record and in the ledger; says where the answers part.
pub fn make(
    call: Call,
    record: &mut Record,
    ledger: &mut Ledger,
    site: &Site,
    mistake: Option<Mistake>,
) -> Result<(), String> {
    match call {
        Call::Step { rate, length } => {
            let before = record.clone();
            let outcome = step_with(record, rate, length, mistake);
            equal(&format!("step {rate} {length}"), outcome, ledger.step(rate, length))?;
            equal("record after a refused step", outcome.is_ok() || *record == before, true)
        }
        Call::Drawdown(place) => {
            let wanted = ledger.places.contains_key(&place).then(|| ledger.drawdown(place) as u64);
            equal("drawdown", readings::drawdown(record, place), wanted.ok_or(Refusal::Absent))
        }
        Call::Budget => equal("budget", readings::budget(record), Ok(ledger.budget())),
        Call::StorageLoss(set) => equal("set", readings::storage_loss(record, &set), set_loss(ledger, site, &set)),
        Call::Flow { from, to, length } => equal(
            &format!("flow {from:?} {to:?}"),
            readings::flow(record, from, to, length),
            flow(ledger, from, to, length),
        ),
        Call::DeepCells { threshold, list } => deep_cells(record, ledger, threshold, list),
        Call::Same { other, other_first } => {
            let answer = if other_first { readings::same(&other, record) } else { readings::same(record, &other) };
            equal("same", answer, same(ledger, site, &other))
        }
        Call::HeadLoss { layer, length } => {
            let bits = |loss: HeadLoss| [loss.inflow.to_bits(), loss.screen.to_bits(), loss.pipe.to_bits()];
            let answer = head_loss(record, layer, length).map(bits);
            equal("head loss", answer, head_losses::expected(ledger, site, layer, length).map(bits))
        }
        Call::Limiting { rate, length } => {
            let wanted = Ok(limiting(ledger, rate, length));
            equal(&format!("limiting {rate} {length}"), limiting::limiting(record, rate, length), wanted)
        }
    }
}

/// 7 (length) and 8 on the ledger.
pub fn judge_length(ledger: &Ledger, length: u64) -> Result<(), Refusal> {
    if length == 0 || length > 1_000_000_000 {
        Err(Refusal::Call)
    } else if !ledger.stable(length) {
        Err(Refusal::Stability)
    } else {
        Ok(())
    }
}

/// What would hold a step back (document 02, N12) by the ledger: of 8 the least of the quotients 10^6 × S by sum of C, and the first place that
/// has it; of 11 the first cell of layer 1 that is deepest after the step worked.
pub fn limiting(ledger: &Ledger, rate: u64, length: u64) -> Limiting {
    match ledger.clone().step(rate, length) {
        Err(Refusal::Stability) => {
            let sums = ledger.conductance_sums();
            let limited = ledger.places.iter().filter(|(place, _)| sums[place] > 0);
            let quotients = limited.map(|(&place, stored)| (1_000_000 * stored.storage / sums[&place], place));
            let (longest, place) = quotients.min().expect("some place has a face");
            Limiting::Stability(place, longest as u64)
        }
        Err(Refusal::Intake) => Limiting::Intake(Place::Well),
        Err(Refusal::WaterTable) => {
            let after = ledger.worked(rate, length);
            let tables = ledger.places.keys().filter(|place| matches!(place, Place::Cell { layer: 1, .. }));
            let deepest = tables.min_by_key(|&&place| (Reverse(after.drawdown(place)), place));
            Limiting::WaterTable(*deepest.expect("there is a stored column"))
        }
        _ => Limiting::Nothing,
    }
}

/// The storage loss of a set by the water over its border.
pub fn set_loss(ledger: &Ledger, site: &Site, set: &[u8]) -> Result<i64, Refusal> {
    if set.len() != ledger.places.len() {
        return Err(Refusal::Buffer);
    }
    let across = site.columns() as u64 - 1;
    let index = |place| match place {
        Place::Well => Some(0),
        Place::Cell { column, .. } if column > across => None,
        Place::Cell { layer, column } => Some(1 + (layer - 1) * across + (column - 1)),
    };
    let inside = |place| index(place).is_some_and(|index| set[index as usize] != 0);
    Ok(ledger.loss_by_border(inside) as i64)
}

fn flow(ledger: &Ledger, from: Place, to: Place, length: u64) -> Result<i64, Refusal> {
    let (face, sign) = ledger.face(from, to).ok_or(Refusal::Absent)?;
    judge_length(ledger, length)?;
    Ok((sign * ledger.flow(face, length)) as i64)
}

/// The list of deep cells as the ledger has it, the rest of the lent list untouched; with 13 all of it is.
pub fn deep_cells(record: &Record, ledger: &Ledger, threshold: u64, list: Vec<u64>) -> Result<(), String> {
    let mut wanted = deep_codes(ledger, threshold);
    let mut written = list.clone();
    let answer = readings::deep_cells(record, threshold, &mut written);
    if wanted.len() > list.len() {
        equal("deep list too short", answer, Err(Refusal::Buffer))?;
        return equal("list left", written, list);
    }
    equal("deep count", answer, Ok(wanted.len()))?;
    wanted.extend(&list[wanted.len()..]);
    equal("deep list", written, wanted)
}

/// The codes of the cells that are deeper than a threshold by the ledger: those of the largest drawdown first, of one drawdown in the order
/// of the codes, which is that of layers and then of columns.
fn deep_codes(ledger: &Ledger, threshold: u64) -> Vec<u64> {
    let mut by_depth: BTreeMap<i128, BTreeSet<u64>> = BTreeMap::new();
    for &place in ledger.places.keys() {
        if let Place::Cell { layer, column } = place {
            by_depth.entry(ledger.drawdown(place)).or_default().insert(layer * 100 + column);
        }
    }
    let deeper = by_depth.split_off(&(i128::from(threshold) + 1));
    deeper.into_values().rev().flatten().collect()
}

/// Whether another record holds what the ledger has and no other number (document 02, N10): the scenario's numbers, C of each face, S and V of
/// each place, totals and time, and as its mark the greatest D that the ledger's well has had.
pub fn same(ledger: &Ledger, site: &Site, other: &Record) -> Result<bool, Refusal> {
    if other.fault().is_some() {
        return Err(Refusal::Record);
    }
    let totals: [i128; 4] = [other.pumped.into(), other.inflow.into(), other.time.into(), other.mark.into()];
    Ok(other.site() == *site
        && totals == [ledger.pumped, ledger.inflow, ledger.time, ledger.deepest_well]
        && ledger.places.iter().all(|(&place, stored)| water_at(other, place) == (stored.loss, stored.storage))
        && ledger.faces.iter().all(|face| kept_at(other, face) == face.conductance))
}

/// V and S of a place.
fn water_at(record: &Record, place: Place) -> (i128, i128) {
    match place {
        Place::Well => (record.well_loss.into(), record.well_s.into()),
        Place::Cell { layer, column } => {
            let at = slot(layer as usize, column as usize);
            (record.cell_loss[at].into(), record.cell_s[at].into())
        }
    }
}

/// The C that a record keeps of one of the ledger's faces, whose first end is the inner or the upper one.
fn kept_at(record: &Record, face: &Face) -> i128 {
    let conductance = match (face.from, face.to) {
        (Place::Cell { layer, column }, Place::Cell { layer: below, .. }) => {
            let slots = if below == layer { &record.across_c } else { &record.down_c };
            slots[slot(layer as usize, column as usize)]
        }
        (_, Place::Cell { layer, .. }) => record.well_c[layer as usize - 1],
        (_, Place::Well) => unreachable!("the well is a first end"),
    };
    conductance.into()
}

/// The record's losses, totals and time are the ledger's, its mark is the greatest D that the ledger's well has had, 14 lets it pass, and
/// the drawdowns that are read keep their bounds: none is over the mark.
pub fn check_state(record: &Record, ledger: &Ledger) -> Result<(), String> {
    equal("14", record.fault(), None)?;
    equal("budget", readings::budget(record), Ok(ledger.budget()))?;
    equal(
        "totals",
        (record.pumped.into(), record.inflow.into(), record.time.into()),
        (ledger.pumped, ledger.inflow, ledger.time),
    )?;
    equal("mark", i128::from(record.mark), ledger.deepest_well)?;
    equal("well's loss", i128::from(record.well_loss), ledger.places[&Place::Well].loss)?;
    for (layer, column) in record.stored_cells() {
        let (place, at) = (cell(layer, column), slot(layer, column));
        equal("cell's loss", i128::from(record.cell_loss[at]), ledger.places[&place].loss)?;
    }
    for &place in ledger.places.keys() {
        let depth = readings::drawdown(record, place).map(i128::from);
        equal("drawdown", depth, Ok(ledger.drawdown(place)))?;
        let bounded = depth.is_ok_and(|depth| (0..=i128::from(record.mark)).contains(&depth));
        equal("drawdown between 0 and the mark", bounded, true)?;
    }
    Ok(())
}
