//! The ledger of a run, kept from what start and the calls are handed and from no record.
//! Its road is its own: places in a map, faces in a list, and signed quotients.

use crate::geometry;
use crate::grid::{cell, Place};
use crate::limits;
use crate::readings::Budget;
use crate::refusal::Refusal;
use crate::site::Site;
use crate::text;
use std::collections::BTreeMap;

/// What the ledger holds of a place: V (nl) and S (nl per m).
#[derive(Clone, Debug)]
pub struct Stored {
    pub loss: i128,
    pub storage: i128,
}

/// A face: two ends, C (10^-12 m²/s) as 6 and 8 use it, what a step uses in its place, and the water (nl) that accepted steps have sent
/// from the first end to the second.
#[derive(Clone, Debug)]
pub struct Face {
    pub from: Place,
    pub to: Place,
    pub conductance: i128,
    pub in_use: InUse,
    pub crossed: i128,
}

/// The C that a step uses at a face.
#[derive(Clone, Copy, Debug)]
pub enum InUse {
    /// C itself.
    Whole,
    /// Horizontally in layer 1: C by the mean saturated thickness of the two ends.
    WaterTable,
    /// Between layers 1 and 2, the first end being the upper one (document 02, N6): by the saturated thickness there, A_j (mm²), Kv_1
    /// (nm/s), and b_2 (mm) and Kv_2 of layer 2.
    TopVertical { area: u128, k_above: u64, below: (u64, u64) },
}

/// V of each place, totals and time; C, S and the other numbers are the scenario's.
#[derive(Clone, Debug)]
pub struct Ledger {
    /// Places; what is not in the map is the last column, at constant head.
    pub places: BTreeMap<Place, Stored>,
    pub faces: Vec<Face>,
    /// b_1 and p, mm.
    pub top_thickness: i128,
    pub intake_depth: i128,
    /// nl, nl and µs.
    pub pumped: i128,
    pub inflow: i128,
    pub time: i128,
    /// Greatest D of the well at the start and after each accepted step, µm.
    pub deepest_well: i128,
}

impl Ledger {
    /// The ledger at the start of an accepted text.
    pub fn start(text: &[u8]) -> Result<Ledger, Refusal> {
        let site = text::read(text)?.site;
        Ok(Ledger {
            places: places(&site),
            faces: faces(&site),
            top_thickness: i128::from(site.layers[0].thickness),
            intake_depth: i128::from(site.well.intake_depth),
            pumped: 0,
            inflow: 0,
            time: 0,
            deepest_well: 0,
        })
    }

    /// D of a place, µm; 0 in the last column.
    pub fn drawdown(&self, place: Place) -> i128 {
        self.places.get(&place).map_or(0, |stored| (stored.loss * 1_000_000).div_euclid(stored.storage))
    }

    /// Water across a face from its first end to its second, nl, for a step of a length (µs).
    pub fn flow(&self, face: &Face, length: u64) -> i128 {
        let (from, to) = (self.drawdown(face.from), self.drawdown(face.to));
        let full = 1000 * self.top_thickness;
        let conductance = match face.in_use {
            InUse::Whole => face.conductance,
            InUse::WaterTable => face.conductance * (full - from + full - to) / (2 * full),
            InUse::TopVertical { area, k_above, below } => {
                let saturated = (full - from) as u128;
                geometry::top_vertical_conductance(area, k_above, below, saturated) as i128
            }
        };
        // A quotient of signed numbers is rounded toward zero.
        conductance * (to - from) * i128::from(length) / 1_000_000_000_000
    }

    /// A step of a rate (ml/s) and a length (µs): every condition but 14, judged on the ledger.
    pub fn step(&mut self, rate: u64, length: u64) -> Result<(), Refusal> {
        if rate > limits::RATE || !limits::STEP_LENGTH.contains(&length) {
            return Err(Refusal::Call);
        }
        if !self.stable(length) {
            return Err(Refusal::Stability);
        }
        let next = self.worked(rate, length);
        let most = i128::from(limits::TOTAL);
        if next.pumped > most || next.time > most {
            return Err(Refusal::Total);
        }
        next.judge_drawdowns()?;
        *self = next;
        Ok(())
    }

    /// The ledger after a step, no condition judged but 7 and 8, which allow it.
    pub fn worked(&self, rate: u64, length: u64) -> Ledger {
        let volume = i128::from(rate) * i128::from(length);
        let mut next = self.clone();
        next.pumped += volume;
        next.time += i128::from(length);
        for index in 0..self.faces.len() {
            let flow = self.flow(&self.faces[index], length);
            next.cross(index, flow);
        }
        next.well().loss += volume;
        next.deepest_well = next.deepest_well.max(next.drawdown(Place::Well));
        next
    }

    /// Whether 8 allows a length: Δt × (sum of C of a place's faces) at most 10^6 × S, at every place.
    pub fn stable(&self, length: u64) -> bool {
        let sums = self.conductance_sums();
        self.places.iter().all(|(place, stored)| i128::from(length) * sums[place] <= 1_000_000 * stored.storage)
    }

    /// Sum of the C of each end's faces.
    pub fn conductance_sums(&self) -> BTreeMap<Place, i128> {
        let mut sums: BTreeMap<Place, i128> = self.places.keys().map(|&place| (place, 0)).collect();
        for face in &self.faces {
            *sums.entry(face.from).or_default() += face.conductance;
            *sums.entry(face.to).or_default() += face.conductance;
        }
        sums
    }

    /// Moves water across a face; what leaves the last column is inflow.
    fn cross(&mut self, index: usize, flow: i128) {
        self.faces[index].crossed += flow;
        for (end, water) in [(self.faces[index].from, flow), (self.faces[index].to, -flow)] {
            match self.places.get_mut(&end) {
                Some(stored) => stored.loss += water,
                None => self.inflow += water,
            }
        }
    }

    fn well(&mut self) -> &mut Stored {
        self.places.get_mut(&Place::Well).expect("the well is a place")
    }

    /// Refusals 10 and 11 on the ledger's drawdowns.
    fn judge_drawdowns(&self) -> Result<(), Refusal> {
        if self.drawdown(Place::Well) > 1000 * self.intake_depth {
            return Err(Refusal::Intake);
        }
        let top = |place: &&Place| matches!(place, Place::Cell { layer: 1, .. });
        if self.places.keys().filter(top).any(|&place| self.drawdown(place) > 1000 * self.top_thickness) {
            return Err(Refusal::WaterTable);
        }
        Ok(())
    }

    /// The figures of the budget: four totals, nl, and the greatest D that the well has had, µm.
    pub fn budget(&self) -> Budget {
        let loss = |place: &Place| self.places[place].loss as i64;
        Budget {
            pumped: self.pumped as u64,
            well_loss: loss(&Place::Well),
            cell_loss: self.places.keys().filter(|&&place| place != Place::Well).map(loss).sum(),
            inflow: self.inflow as i64,
            mark: self.deepest_well as i64,
        }
    }

    /// Storage loss of a set by the water over its border: pumped, if the well is in, less the net water in.
    pub fn loss_by_border(&self, inside: impl Fn(Place) -> bool) -> i128 {
        let pumped = if inside(Place::Well) { self.pumped } else { 0 };
        let net_in: i128 = self
            .faces
            .iter()
            .map(|face| match (inside(face.from), inside(face.to)) {
                (false, true) => face.crossed,
                (true, false) => -face.crossed,
                _ => 0,
            })
            .sum();
        pumped - net_in
    }

    /// The face between two ends, with the sign of the way they are named.
    pub fn face(&self, from: Place, to: Place) -> Option<(&Face, i128)> {
        self.faces.iter().find_map(|face| match (face.from, face.to) {
            named if named == (from, to) => Some((face, 1)),
            named if named == (to, from) => Some((face, -1)),
            _ => None,
        })
    }
}

/// Every place with its S, V being 0.
fn places(site: &Site) -> BTreeMap<Place, Stored> {
    let mut places = BTreeMap::new();
    let mut add = |place, storage: u128| places.insert(place, Stored { loss: 0, storage: storage as i128 });
    add(Place::Well, geometry::well_storage(site.well.water_area));
    for column in 1..site.columns() {
        let area = geometry::area(site.radius(column - 1), site.radius(column));
        add(cell(1, column), geometry::water_table_storage(area, site.layers[0].storage));
        for (above, layer) in site.layers.iter().enumerate().skip(1) {
            add(cell(above + 1, column), geometry::confined_storage(area, layer.thickness, layer.storage));
        }
    }
    places
}

/// Every face: horizontal ones column by column from the well, then vertical ones.
fn faces(site: &Site) -> Vec<Face> {
    let mut faces = Vec::new();
    let mut add = |from, to, conductance: u128, in_use| {
        faces.push(Face { from, to, conductance: conductance as i128, in_use, crossed: 0 })
    };
    for column in 0..site.columns() {
        let (inner, outer) = (site.doubled_midsection(column), site.doubled_midsection(column + 1));
        for (above, layer) in site.layers.iter().enumerate() {
            if column > 0 || layer.screened == 1 {
                let from = if column == 0 { Place::Well } else { cell(above + 1, column) };
                let c = geometry::horizontal_conductance(layer.thickness, layer.horizontal, inner, outer);
                add(from, cell(above + 1, column + 1), c, if above == 0 { InUse::WaterTable } else { InUse::Whole });
            }
        }
    }
    for column in 1..site.columns() {
        let area = geometry::area(site.radius(column - 1), site.radius(column));
        for (above, pair) in site.layers.windows(2).enumerate() {
            let side = |layer: usize| (pair[layer].thickness, pair[layer].vertical);
            let (c, in_use) = if above == 0 {
                let (k_above, below) = (pair[0].vertical, side(1));
                let at_bottom = geometry::top_vertical_conductance(area, k_above, below, 0);
                (at_bottom, InUse::TopVertical { area, k_above, below })
            } else {
                (geometry::vertical_conductance(area, side(0), side(1)), InUse::Whole)
            };
            add(cell(above + 1, column), cell(above + 2, column), c, in_use);
        }
    }
    faces
}
