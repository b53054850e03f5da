//! A step on a record: refusals 14, then 7 to 11, and the water across every face from the drawdowns at its start.

use crate::coefficients;
use crate::geometry;
use crate::grid::{cell, slot, Place};
use crate::limits::{self, CELLS};
use crate::mistake::Mistake;
use crate::record::Record;
use crate::refusal::Refusal;
use crate::site::Site;
use std::iter;

/// What C (10^-12 m²/s) × D (µm) × Δt (µs) is divided by to give nl.
const FLOW_DIVISOR: i128 = 1_000_000_000_000;

/// The well's slot in the working arrays, after those of the cells.
const WELL: usize = CELLS;

/// Takes a step of a rate (ml/s) and a length (µs), or refuses it and leaves the record as it was.
pub fn step(record: &mut Record, rate: u64, length: u64) -> Result<(), Refusal> {
    step_with(record, rate, length, None)
}

/// The step, made with a mistake where a test asks for one.
pub fn step_with(record: &mut Record, rate: u64, length: u64, mistake: Option<Mistake>) -> Result<(), Refusal> {
    record.judge()?;
    if rate > limits::RATE {
        return Err(Refusal::Call);
    }
    judge_length(length)?;
    judge_stability(record, length, mistake)?;
    let volume = rate * length;
    if record.pumped + volume > limits::TOTAL || record.time + length > limits::TOTAL {
        return Err(Refusal::Total);
    }
    let sweep = Sweep::worked(record, rate, length, mistake);
    let (outcome, mark) = (sweep.judge(), sweep.mark());
    let (loss, inflow) = (sweep.loss, sweep.inflow());
    if mistake == Some(Mistake::MarkOfRefused) {
        record.mark = word(mark);
    }
    outcome?;
    keep(record, &loss, inflow, mistake);
    record.pumped += volume;
    record.time += length;
    record.mark = word(mark);
    Ok(())
}

/// The length part of 7.
pub fn judge_length(length: u64) -> Result<(), Refusal> {
    if limits::STEP_LENGTH.contains(&length) {
        Ok(())
    } else {
        Err(Refusal::Call)
    }
}

/// Refusal 8: a length (µs) that some place does not bear.
pub fn judge_stability(record: &Record, length: u64, mistake: Option<Mistake>) -> Result<(), Refusal> {
    if places(record).all(|place| bears(record, place, length, mistake)) {
        Ok(())
    } else {
        Err(Refusal::Stability)
    }
}

/// The places of a record: the well, then the stored cells by layer and column.
pub fn places(record: &Record) -> impl Iterator<Item = Place> {
    iter::once(Place::Well).chain(record.stored_cells().map(|(layer, column)| cell(layer, column)))
}

/// What 8 asks of one place: Δt × (sum of C of its faces) at most 10^6 × S.
pub fn bears(record: &Record, place: Place, length: u64, mistake: Option<Mistake>) -> bool {
    let (sum, storage) = match place {
        Place::Well => (record.well_c.iter().map(|&c| u128::from(c)).sum(), record.well_s),
        Place::Cell { layer, column } => {
            let (layer, column) = (layer as usize, column as usize);
            let vertical = mistake != Some(Mistake::NoVerticalStability);
            (conductance_sum(record, layer, column, vertical), record.cell_s[slot(layer, column)])
        }
    };
    u128::from(length) * sum <= 1_000_000 * u128::from(storage)
}

/// D of the stored cells of layer 1, µm, from column 1 on, after a step that 14, 7, 8 and 9 let pass, whatever 10 and 11 say of it.
pub fn table_after(record: &Record, rate: u64, length: u64) -> Vec<i128> {
    let sweep = Sweep::worked(record, rate, length, None);
    (1..record.columns as usize).map(|column| sweep.cell_after(slot(1, column))).collect()
}

/// Sum of the C of a stored cell's faces as the record keeps them: inward, outward, above, below.
fn conductance_sum(record: &Record, layer: usize, column: usize, vertical: bool) -> u128 {
    let at = slot(layer, column);
    let inward = if column == 1 { record.well_c[layer - 1] } else { record.across_c[slot(layer, column - 1)] };
    let above = if layer == 1 { 0 } else { record.down_c[slot(layer - 1, column)] };
    let horizontal = u128::from(inward) + u128::from(record.across_c[at]);
    if vertical {
        horizontal + u128::from(above) + u128::from(record.down_c[at])
    } else {
        horizontal
    }
}

/// C in use of a horizontal face of layer 1: the mean saturated thickness s = 1000×b_1 − D over the full one.
pub fn water_table_conductance(conductance: u64, thickness: u64, from: i128, to: i128) -> i128 {
    let full = 1000 * i128::from(thickness);
    (i128::from(conductance) * ((full - from) + (full - to))).div_euclid(2 * full)
}

/// C in use between layers 1 and 2 in a column whose cell of layer 1 has a drawdown (µm): that at s = 1000×b_1 − D. Past the bottom of
/// layer 1, where only a mistake leads, it is 0.
pub fn top_vertical_in_use(site: &Site, column: usize, top_drawdown: i128) -> i128 {
    let saturated = 1000 * i128::from(site.layers[0].thickness) - top_drawdown;
    u128::try_from(saturated).map_or(0, |saturated| coefficients::top_vertical(site, column, saturated) as i128)
}

/// Water from one end of a face to the other, nl: size C × |difference of D| × Δt / 10^12 rounded down,
/// positive toward the deeper end.
pub fn face_flow(conductance: i128, from: i128, to: i128, length: u64) -> i128 {
    let size = conductance * (to - from).abs() * i128::from(length) / FLOW_DIVISOR;
    if to < from {
        -size
    } else {
        size
    }
}

/// The same water rounded down also below zero: a mistake.
fn face_flow_rounded_down(conductance: i128, from: i128, to: i128, length: u64) -> i128 {
    (conductance * (to - from) * i128::from(length)).div_euclid(FLOW_DIVISOR)
}

/// D, µm, of a loss that a mistake may have made negative.
fn drawdown(loss: i128, storage: i128) -> i128 {
    (loss * 1_000_000).div_euclid(storage)
}

/// A step in work. Losses of the last column's slots stand for the water that came from there.
struct Sweep<'a> {
    record: &'a Record,
    site: Site,
    length: u64,
    mistake: Option<Mistake>,
    /// D at the start of the step, µm.
    drawdown: [i128; CELLS + 1],
    /// V, nl.
    loss: [i128; CELLS + 1],
}

impl Sweep<'_> {
    /// The step of a rate and a length worked whole.
    fn worked(record: &Record, rate: u64, length: u64, mistake: Option<Mistake>) -> Sweep<'_> {
        let mut sweep = Sweep::new(record, length, mistake);
        sweep.all_faces();
        sweep.loss[WELL] += i128::from(rate) * i128::from(length);
        sweep
    }

    fn new(record: &Record, length: u64, mistake: Option<Mistake>) -> Sweep<'_> {
        let site = record.site();
        let mut sweep = Sweep { record, site, length, mistake, drawdown: [0; CELLS + 1], loss: [0; CELLS + 1] };
        sweep.loss[WELL] = i128::from(record.well_loss);
        sweep.drawdown[WELL] = drawdown(sweep.loss[WELL], i128::from(record.well_s));
        for (layer, column) in record.stored_cells() {
            let at = slot(layer, column);
            sweep.loss[at] = i128::from(record.cell_loss[at]);
            sweep.drawdown[at] = drawdown(sweep.loss[at], i128::from(record.cell_s[at]));
        }
        if mistake == Some(Mistake::LastColumnStored) {
            sweep.load_last_column();
        }
        sweep
    }

    /// A mistake: the last column's losses and drawdowns.
    fn load_last_column(&mut self) {
        for layer in 1..=self.record.layers as usize {
            let at = slot(layer, self.record.columns as usize);
            self.loss[at] = i128::from(self.record.cell_loss[at]);
            self.drawdown[at] = drawdown(self.loss[at], self.last_column_storage(layer));
        }
    }

    /// The S that a cell of the last column would have if it stored water.
    fn last_column_storage(&self, layer: usize) -> i128 {
        let columns = self.site.columns();
        let area = geometry::area(self.site.radius(columns - 1), self.site.radius(columns));
        let numbers = &self.site.layers[layer - 1];
        let storage = if layer == 1 {
            geometry::water_table_storage(area, numbers.storage)
        } else {
            geometry::confined_storage(area, numbers.thickness, numbers.storage)
        };
        storage.max(1) as i128
    }

    /// Every face once.
    fn all_faces(&mut self) {
        let (layers, columns) = (self.record.layers as usize, self.record.columns as usize);
        for layer in 1..=layers {
            if self.record.screened[layer - 1] == 1 {
                self.face(WELL, slot(layer, 1), i128::from(self.record.well_c[layer - 1]));
            }
            for column in 1..columns {
                let at = slot(layer, column);
                self.face(at, slot(layer, column + 1), self.across(layer, column));
                if layer < layers {
                    self.face(at, slot(layer + 1, column), self.down(layer, column));
                }
            }
        }
    }

    /// C in use between columns j and j+1 of a layer.
    fn across(&self, layer: usize, column: usize) -> i128 {
        let (from, to) = (slot(layer, column), slot(layer, column + 1));
        let c = self.record.across_c[from];
        if layer == 1 {
            water_table_conductance(c, self.record.thickness[0], self.drawdown_at(from), self.drawdown_at(to))
        } else {
            i128::from(c)
        }
    }

    /// C in use between a layer and the next one below, in a column.
    fn down(&self, layer: usize, column: usize) -> i128 {
        let at = slot(layer, column);
        if layer == 1 && self.mistake != Some(Mistake::TableAtBottom) {
            top_vertical_in_use(&self.site, column, self.drawdown_at(at))
        } else {
            i128::from(self.record.down_c[at])
        }
    }

    /// Water across one face by its C in use: one number, added at one end and subtracted at the other.
    fn face(&mut self, from: usize, to: usize, c: i128) {
        let (d_from, d_to) = (self.drawdown_at(from), self.drawdown_at(to));
        let (out, into) = match self.mistake {
            Some(Mistake::RoundedDown) => {
                let flow = face_flow_rounded_down(c, d_from, d_to, self.length);
                (flow, -flow)
            }
            Some(Mistake::SidesRoundedApart) => (
                face_flow_rounded_down(c, d_from, d_to, self.length),
                face_flow_rounded_down(c, d_to, d_from, self.length),
            ),
            _ => {
                let flow = face_flow(c, d_from, d_to, self.length);
                (flow, -flow)
            }
        };
        self.loss[from] += out;
        self.loss[to] += into;
    }

    /// D at the start of the step; with a mistake the D of the sweep so far.
    fn drawdown_at(&self, at: usize) -> i128 {
        let storage = if at == WELL { self.record.well_s } else { self.record.cell_s[at] };
        if self.mistake == Some(Mistake::UpdatedInSweep) && storage > 0 {
            drawdown(self.loss[at], i128::from(storage))
        } else {
            self.drawdown[at]
        }
    }

    /// D of the well after the step, µm.
    fn well_after(&self) -> i128 {
        drawdown(self.loss[WELL], i128::from(self.record.well_s))
    }

    /// D after the step of the cell in a slot, µm.
    fn cell_after(&self, at: usize) -> i128 {
        drawdown(self.loss[at], i128::from(self.record.cell_s[at]))
    }

    /// Refusals 10 and 11 on the drawdowns after the step.
    fn judge(&self) -> Result<(), Refusal> {
        if self.well_after() > 1000 * i128::from(self.record.intake_depth) {
            return Err(Refusal::Intake);
        }
        let bound = 1000 * i128::from(self.record.thickness[0]);
        if (1..self.record.columns as usize).any(|column| self.cell_after(slot(1, column)) > bound) {
            return Err(Refusal::WaterTable);
        }
        Ok(())
    }

    /// The mark after the step, µm: the larger of what it was and the well's D after the step (document 02, N1).
    fn mark(&self) -> i128 {
        let before = i128::from(self.record.mark);
        match self.mistake {
            Some(Mistake::MarkBehind) => before.max(self.drawdown[WELL]),
            Some(Mistake::MarkFalls) => self.well_after(),
            _ => before.max(self.well_after()),
        }
    }

    /// Inflow total after the step, nl: with the water from the last column.
    fn inflow(&self) -> i128 {
        let last = |layer| slot(layer, self.record.columns as usize);
        let gained: i128 = (1..=self.record.layers as usize).map(|layer| self.loss[last(layer)]).sum();
        i128::from(self.record.inflow) + gained
    }
}

/// A loss (nl), inflow (nl) or mark (µm) that a step leaves.
fn word(number: i128) -> i64 {
    i64::try_from(number).expect("what an accepted step leaves fits a word")
}

/// Puts losses and inflow into the record.
fn keep(record: &mut Record, loss: &[i128; CELLS + 1], inflow: i128, mistake: Option<Mistake>) {
    record.well_loss = word(loss[WELL]);
    for (layer, column) in record.stored_cells() {
        let at = slot(layer, column);
        record.cell_loss[at] = word(loss[at]);
    }
    if mistake == Some(Mistake::LastColumnStored) {
        for layer in 1..=record.layers as usize {
            let at = slot(layer, record.columns as usize);
            record.cell_loss[at] = word(loss[at]);
        }
    } else {
        record.inflow = word(inflow);
    }
}
