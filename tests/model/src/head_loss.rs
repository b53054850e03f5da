//! Head loss of one screened layer, in binary64, each operation rounded once in the order of document 01.

use crate::geometry;
use crate::grid::{cell, Place};
use crate::readings;
use crate::record::Record;
use crate::refusal::Refusal;

/// What the reading gives for a layer.
#[derive(Clone, Copy, PartialEq, Debug)]
pub struct HeadLoss {
    /// e, the layer's inflow into the well.
    pub inflow: f64,
    pub screen: f64,
    pub pipe: f64,
}

/// The screen law (report's equation 13) by its count of coefficients.
#[derive(Clone, Copy, PartialEq, Debug)]
enum ScreenLaw {
    None,
    Linear(f64),
    Square(f64, f64),
}

/// Head loss of a screened layer for a step of a length (µs) not taken: 14, 12, 7, 8, else the three figures.
pub fn head_loss(record: &Record, layer: u64, length: u64) -> Result<HeadLoss, Refusal> {
    record.judge()?;
    let site = record.site();
    let screened = site.screened_layers();
    let position = screened.iter().position(|&named| named as u64 == layer).ok_or(Refusal::Absent)?;
    readings::judge_step(record, length)?;
    let inflow = layer_inflow(record, screened[position], length);
    let wall = (record.thickness[screened[position] - 1] * record.well_radius) as f64;
    Ok(HeadLoss {
        inflow,
        screen: screen_law(record).loss((inflow * 1000.0) / wall),
        pipe: pipe_loss(record, &screened, position, length),
    })
}

/// e: the water F from a layer into the well, in whole thousands of nl toward zero, over Δt.
fn layer_inflow(record: &Record, layer: usize, length: u64) -> f64 {
    let (from, to) = (cell(layer, 1), Place::Well);
    let face = readings::face(record, from, to).expect("a screened layer has a face at the well");
    let water = readings::face_flow(record, face, from, to, length);
    ((water / 1000) as f64) / (length as f64)
}

/// The law that the record's coefficients make, each its number / 1000000.
fn screen_law(record: &Record) -> ScreenLaw {
    let coefficient = |index: usize| (record.screen_losses[index] as f64) / 1_000_000.0;
    match record.screen_loss_count {
        0 => ScreenLaw::None,
        1 => ScreenLaw::Linear(coefficient(0)),
        _ => ScreenLaw::Square(coefficient(0), coefficient(1)),
    }
}

impl ScreenLaw {
    /// Screen loss at a wall velocity y.
    fn loss(self, y: f64) -> f64 {
        match self {
            ScreenLaw::None => 0.0,
            ScreenLaw::Linear(c1) => c1 * y,
            ScreenLaw::Square(c1, c2) => c1 * y + (c2 * y) * absolute(y),
        }
    }
}

/// v of a screened layer by its position from the topmost: E added from the deepest one upward, over A_0.
fn pipe_velocity(record: &Record, screened: &[usize], position: usize, length: u64) -> f64 {
    let mut inflows = screened[position..].iter().rev().map(|&layer| layer_inflow(record, layer, length));
    let deepest = inflows.next().expect("a screened layer is at or below itself");
    let sum = inflows.fold(deepest, |sum, inflow| sum + inflow);
    (sum * 1000.0) / (geometry::area(0, record.well_radius) as f64)
}

/// Pipe loss from a screened layer to the next one above, or above the topmost one to the intake.
fn pipe_loss(record: &Record, screened: &[usize], position: usize, length: u64) -> f64 {
    let v = pipe_velocity(record, screened, position, length);
    let centre = doubled_centre(record, screened[position]);
    let (distance, above) = if position == 0 {
        (centre - 2 * record.intake_depth, v)
    } else {
        let next = pipe_velocity(record, screened, position - 1, length);
        (centre - doubled_centre(record, screened[position - 1]), next)
    };
    let friction = (record.friction as f64) / 1_000_000.0;
    let diameters = (distance as f64) / ((4 * record.well_radius) as f64);
    (friction * diameters) * (v * absolute(v)) / 19.6133 + (above * above - v * v) / 9.80665
}

/// Twice the depth of a layer's centre, mm.
fn doubled_centre(record: &Record, layer: usize) -> u64 {
    let above: u64 = record.thickness[..layer - 1].iter().sum();
    2 * above + record.thickness[layer - 1]
}

/// Absolute value by comparison and negation.
fn absolute(x: f64) -> f64 {
    if x < 0.0 {
        -x
    } else {
        x
    }
}
