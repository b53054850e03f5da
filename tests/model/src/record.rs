//! The record: what it keeps, the start from a text, and refusal 14.

use crate::coefficients;
use crate::grid::slot;
use crate::limits::{self, CELLS, COLUMNS, LAYERS, SCREEN_LOSSES};
use crate::refusal::Refusal;
use crate::site::{Layer, Site, Well};
use crate::text::{self, Scenario};

/// State of a model, by value. Arrays by layer have 20 slots, by column 50, by cell 1,000 at `grid::slot`.
/// A slot that no layer, column, coefficient, face or place uses holds 0.
#[derive(Clone, PartialEq, Eq, Debug)]
pub struct Record {
    pub layers: u64,
    /// m, the last column included.
    pub columns: u64,
    pub screen_loss_count: u64,
    /// b, mm.
    pub thickness: [u64; LAYERS],
    pub screened: [u64; LAYERS],
    /// Kh and Kv, nm/s.
    pub horizontal: [u64; LAYERS],
    pub vertical: [u64; LAYERS],
    /// Specific yield (layer 1, millionths) or specific storage (10^-9 per m).
    pub storage: [u64; LAYERS],
    /// R_1 to R_m, mm.
    pub radii: [u64; COLUMNS],
    /// R_0, mm.
    pub well_radius: u64,
    /// W, mm².
    pub water_area: u64,
    /// p, mm.
    pub intake_depth: u64,
    /// Millionths.
    pub friction: u64,
    /// Millionths.
    pub screen_losses: [u64; SCREEN_LOSSES],
    /// C of the well and column 1 of a screened layer, 10^-12 m²/s.
    pub well_c: [u64; LAYERS],
    /// C of a cell and the next outward, columns 1 to m−1.
    pub across_c: [u64; CELLS],
    /// C of a cell and the one below it, columns 1 to m−1, all layers but the deepest; between layers 1 and 2 the C at s = 0.
    pub down_c: [u64; CELLS],
    /// S of the well, nl per m.
    pub well_s: u64,
    /// S of the stored cells, columns 1 to m−1, nl per m.
    pub cell_s: [u64; CELLS],
    /// V of the well, nl.
    pub well_loss: i64,
    /// V of the stored cells, nl.
    pub cell_loss: [i64; CELLS],
    /// nl.
    pub pumped: u64,
    /// nl.
    pub inflow: i64,
    /// µs.
    pub time: u64,
    /// The deepest mark, µm: the largest D of the well since the start (document 02, N1).
    pub mark: i64,
}

/// Starts a model from a text: taken or refused, with the start record or the all-zero one.
pub fn start(text: &[u8]) -> (Result<(), Refusal>, Record) {
    match text::read(text) {
        Ok(scenario) => (Ok(()), Record::of(&scenario)),
        Err(refusal) => (Err(refusal), Record::zero()),
    }
}

/// A coefficient that condition 6 has let pass.
fn word(coefficient: u128) -> u64 {
    u64::try_from(coefficient).expect("a coefficient within its limits fits a word")
}

impl Record {
    /// The all-zero record.
    pub fn zero() -> Record {
        Record {
            layers: 0,
            columns: 0,
            screen_loss_count: 0,
            thickness: [0; LAYERS],
            screened: [0; LAYERS],
            horizontal: [0; LAYERS],
            vertical: [0; LAYERS],
            storage: [0; LAYERS],
            radii: [0; COLUMNS],
            well_radius: 0,
            water_area: 0,
            intake_depth: 0,
            friction: 0,
            screen_losses: [0; SCREEN_LOSSES],
            well_c: [0; LAYERS],
            across_c: [0; CELLS],
            down_c: [0; CELLS],
            well_s: 0,
            cell_s: [0; CELLS],
            well_loss: 0,
            cell_loss: [0; CELLS],
            pumped: 0,
            inflow: 0,
            time: 0,
            mark: 0,
        }
    }

    /// The start record of an accepted scenario.
    fn of(scenario: &Scenario) -> Record {
        let mut record = Record::zero();
        record.fill_site(&scenario.site);
        let coefficients = &scenario.coefficients;
        for (row, c) in coefficients.well_faces.iter().enumerate() {
            record.well_c[row] = word(c.unwrap_or(0));
        }
        fill_cells(&mut record.across_c, &coefficients.across);
        fill_cells(&mut record.down_c, &coefficients.down);
        fill_cells(&mut record.cell_s, &coefficients.storage);
        record.well_s = word(coefficients.well_storage);
        record
    }

    /// Writes the numbers of the first four sections.
    fn fill_site(&mut self, site: &Site) {
        self.layers = site.layers.len() as u64;
        self.columns = site.columns() as u64;
        self.screen_loss_count = site.screen_losses.len() as u64;
        for (row, layer) in site.layers.iter().enumerate() {
            self.thickness[row] = layer.thickness;
            self.screened[row] = layer.screened;
            self.horizontal[row] = layer.horizontal;
            self.vertical[row] = layer.vertical;
            self.storage[row] = layer.storage;
        }
        self.radii[..site.radii.len()].copy_from_slice(&site.radii);
        self.well_radius = site.well.radius;
        self.water_area = site.well.water_area;
        self.intake_depth = site.well.intake_depth;
        self.friction = site.well.friction;
        self.screen_losses[..site.screen_losses.len()].copy_from_slice(&site.screen_losses);
    }

    /// The numbers of the first four sections, of a record whose counts are within their limits.
    pub fn site(&self) -> Site {
        let layer = |row: usize| Layer {
            thickness: self.thickness[row],
            screened: self.screened[row],
            horizontal: self.horizontal[row],
            vertical: self.vertical[row],
            storage: self.storage[row],
        };
        Site {
            layers: (0..self.layers as usize).map(layer).collect(),
            radii: self.radii[..self.columns as usize].to_vec(),
            well: Well {
                radius: self.well_radius,
                water_area: self.water_area,
                intake_depth: self.intake_depth,
                friction: self.friction,
            },
            screen_losses: self.screen_losses[..self.screen_loss_count as usize].to_vec(),
        }
    }

    /// The stored cells (layer, column) by layer, then column.
    pub fn stored_cells(&self) -> impl Iterator<Item = (usize, usize)> {
        let columns = self.columns as usize;
        (1..=self.layers as usize).flat_map(move |layer| (1..columns).map(move |column| (layer, column)))
    }

    /// D of the well, µm, of a record that 14 lets pass.
    pub fn well_drawdown(&self) -> u64 {
        drawdown(self.well_loss, self.well_s) as u64
    }

    /// D of a cell, µm, of a record that 14 lets pass; 0 in the last column.
    pub fn cell_drawdown(&self, layer: usize, column: usize) -> u64 {
        if column as u64 == self.columns {
            return 0;
        }
        let at = slot(layer, column);
        drawdown(self.cell_loss[at], self.cell_s[at]) as u64
    }

    /// V of all cells together, nl.
    pub fn all_cells_loss(&self) -> i64 {
        self.cell_loss.iter().sum()
    }

    /// Refusal 14 where the record is none.
    pub fn judge(&self) -> Result<(), Refusal> {
        match self.fault() {
            None => Ok(()),
            Some(_) => Err(Refusal::Record),
        }
    }

    /// The first condition of 14 that the record breaks, in words.
    pub fn fault(&self) -> Option<&'static str> {
        if !limits::LAYER_COUNT.contains(&self.layers) {
            return Some("layer count");
        }
        if !limits::COLUMN_COUNT.contains(&self.columns) {
            return Some("column count");
        }
        if !limits::SCREEN_LOSS_COUNT.contains(&self.screen_loss_count) {
            return Some("coefficient count");
        }
        self.site_fault()
            .or_else(|| self.number_slot_fault())
            .or_else(|| self.coefficient_fault())
            .or_else(|| self.total_fault())
            .or_else(|| self.drawdown_fault())
            .or_else(|| self.mark_fault())
    }

    /// Scenario numbers, rules 4 and 5.
    fn site_fault(&self) -> Option<&'static str> {
        let site = self.site();
        if !site.numbers_in_limits() {
            Some("scenario number")
        } else if !site.radii_allowed() {
            Some("radii")
        } else if !site.screen_allowed() {
            Some("screen")
        } else if self.well_s != self.water_area * 1_000_000 {
            Some("well's S")
        } else {
            None
        }
    }

    /// 0 in every slot of a scenario number that no layer, column or coefficient uses.
    fn number_slot_fault(&self) -> Option<&'static str> {
        let by_layer = [&self.thickness, &self.screened, &self.horizontal, &self.vertical, &self.storage];
        let rest_is_zero = |slots: &[u64], count: u64| slots[count as usize..].iter().all(|&number| number == 0);
        if !by_layer.iter().all(|&slots| rest_is_zero(slots, self.layers)) {
            Some("unused layer slot")
        } else if !rest_is_zero(&self.radii, self.columns) {
            Some("unused column slot")
        } else if !rest_is_zero(&self.screen_losses, self.screen_loss_count) {
            Some("unused coefficient slot")
        } else {
            None
        }
    }

    /// C and S within their limits, 0 in every slot of a face or place that there is not, and between layers 1 and 2 the C at s = 0 that
    /// the record's own numbers give (document 02, N6).
    fn coefficient_fault(&self) -> Option<&'static str> {
        // The screened slots past the layers are 0 by now.
        if (0..LAYERS).any(|row| !conductance_fits(self.screened[row] == 1, self.well_c[row])) {
            return Some("well face's C");
        }
        for at in 0..CELLS {
            let (layer, column) = ((at / COLUMNS + 1) as u64, (at % COLUMNS + 1) as u64);
            let stored = layer <= self.layers && column < self.columns;
            if !conductance_fits(stored, self.across_c[at]) {
                return Some("horizontal C");
            }
            if !conductance_fits(stored && layer < self.layers, self.down_c[at]) {
                return Some("vertical C");
            }
            if stored && !limits::CELL_STORAGE.contains(&self.cell_s[at]) {
                return Some("cell's S");
            }
            if !stored && self.cell_s[at] != 0 {
                return Some("unused S slot");
            }
            if !stored && self.cell_loss[at] != 0 {
                return Some("unused loss slot");
            }
        }
        let site = self.site();
        let kept = |column: usize| u128::from(self.down_c[slot(1, column)]);
        if (1..self.columns as usize).any(|column| kept(column) != coefficients::top_vertical(&site, column, 0)) {
            return Some("C below layer 1");
        }
        None
    }

    /// Losses and inflow not negative and adding up to the pumped total; that and the time within their limit.
    fn total_fault(&self) -> Option<&'static str> {
        if self.well_loss < 0 || self.inflow < 0 || self.cell_loss.iter().any(|&loss| loss < 0) {
            return Some("negative loss");
        }
        let cells: i128 = self.cell_loss.iter().map(|&loss| i128::from(loss)).sum();
        if i128::from(self.well_loss) + cells + i128::from(self.inflow) != i128::from(self.pumped) {
            return Some("sum of losses");
        }
        if self.pumped > limits::TOTAL {
            return Some("pumped total");
        }
        if self.time > limits::TOTAL {
            return Some("time");
        }
        None
    }

    /// The bounds of 10 and 11, and 10^9 everywhere.
    fn drawdown_fault(&self) -> Option<&'static str> {
        if drawdown(self.well_loss, self.well_s) > 1000 * u128::from(self.intake_depth) {
            return Some("well's drawdown");
        }
        let water_table = 1000 * u128::from(self.thickness[0]);
        for (layer, column) in self.stored_cells() {
            let at = slot(layer, column);
            let depth = drawdown(self.cell_loss[at], self.cell_s[at]);
            if layer == 1 && depth > water_table {
                return Some("layer 1's drawdown");
            }
            if depth > limits::DRAWDOWN {
                return Some("cell's drawdown");
            }
        }
        None
    }

    /// The mark no less than the well's drawdown and every stored cell's, and at most 1000×p (document 02, N1).
    fn mark_fault(&self) -> Option<&'static str> {
        // A drawdown has 83 binary digits at most.
        let under = |depth: u128| i128::from(self.mark) < depth as i128;
        if under(drawdown(self.well_loss, self.well_s)) {
            return Some("mark under the well's drawdown");
        }
        let mut slots = self.stored_cells().map(|(layer, column)| slot(layer, column));
        if slots.any(|at| under(drawdown(self.cell_loss[at], self.cell_s[at]))) {
            return Some("mark under a cell's drawdown");
        }
        if i128::from(self.mark) > 1000 * i128::from(self.intake_depth) {
            return Some("mark over the intake");
        }
        None
    }
}

/// Writes rows of coefficients into the slots of their cells.
fn fill_cells(slots: &mut [u64; CELLS], rows: &[Vec<u128>]) {
    for (above, row) in rows.iter().enumerate() {
        for (left, &coefficient) in row.iter().enumerate() {
            slots[slot(above + 1, left + 1)] = word(coefficient);
        }
    }
}

/// C of a face at most 10^15; 0 where there is no face.
fn conductance_fits(face: bool, conductance: u64) -> bool {
    conductance <= if face { limits::CONDUCTANCE } else { 0 }
}

/// D = V × 10^6 / S, µm, for a loss that is not negative.
fn drawdown(loss: i64, storage: u64) -> u128 {
    u128::from(loss.unsigned_abs()) * 1_000_000 / u128::from(storage)
}
