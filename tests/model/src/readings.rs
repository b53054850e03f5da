//! The readings of a record in whole numbers, each judged in the order 14, 12, 13, 7 (length), 8.

use crate::grid::{slot, Place};
use crate::record::Record;
use crate::refusal::Refusal;
use crate::step;
use std::cmp::Reverse;

/// Totals of a record, nl, and its deepest mark, µm.
#[derive(Clone, Copy, PartialEq, Eq, Debug)]
pub struct Budget {
    pub pumped: u64,
    pub well_loss: i64,
    pub cell_loss: i64,
    pub inflow: i64,
    pub mark: i64,
}

/// Drawdown at a place, µm.
pub fn drawdown(record: &Record, place: Place) -> Result<u64, Refusal> {
    record.judge()?;
    match place {
        Place::Well => Ok(record.well_drawdown()),
        Place::Cell { layer, column } if in_grid(record, layer, column) && column < record.columns => {
            Ok(record.cell_drawdown(layer as usize, column as usize))
        }
        _ => Err(Refusal::Absent),
    }
}

/// Pumped total, well's loss, all cells' loss, inflow total and the deepest mark.
pub fn budget(record: &Record) -> Result<Budget, Refusal> {
    record.judge()?;
    Ok(Budget {
        pumped: record.pumped,
        well_loss: record.well_loss,
        cell_loss: record.all_cells_loss(),
        inflow: record.inflow,
        mark: record.mark,
    })
}

/// Length of a set's bytes: the well first, then the stored cells by layer and column.
pub fn set_length(record: &Record) -> usize {
    1 + record.layers as usize * (record.columns as usize - 1)
}

/// Storage loss of a set, nl; a byte that is not 0 means in.
pub fn storage_loss(record: &Record, set: &[u8]) -> Result<i64, Refusal> {
    record.judge()?;
    if set.len() != set_length(record) {
        return Err(Refusal::Buffer);
    }
    let cells = record.stored_cells().map(|(layer, column)| record.cell_loss[slot(layer, column)]);
    let losses = std::iter::once(record.well_loss).chain(cells);
    Ok(losses.zip(set).filter(|(_, &byte)| byte != 0).map(|(loss, _)| loss).sum())
}

/// Water from the first end of a face to the second, nl, for a step of a length (µs) not taken.
pub fn flow(record: &Record, from: Place, to: Place, length: u64) -> Result<i64, Refusal> {
    record.judge()?;
    let face = face(record, from, to).ok_or(Refusal::Absent)?;
    judge_step(record, length)?;
    Ok(face_flow(record, face, from, to, length))
}

/// The length part of 7, then 8, for a step not taken.
pub fn judge_step(record: &Record, length: u64) -> Result<(), Refusal> {
    step::judge_length(length)?;
    step::judge_stability(record, length, None)
}

/// Cells deeper than a threshold (µm), as layer × 100 + column at the front of a lent list; their number. The deepest come first, and of
/// those with equal drawdown the topmost, then the innermost (document 02, N3). Drawdown is whole µm here: what is left over in nl decides
/// nothing.
pub fn deep_cells(record: &Record, threshold: u64, list: &mut [u64]) -> Result<usize, Refusal> {
    record.judge()?;
    let with_depth = |(layer, column)| (Reverse(record.cell_drawdown(layer, column)), layer, column);
    let mut cells: Vec<_> = record.stored_cells().map(with_depth).filter(|(depth, ..)| depth.0 > threshold).collect();
    cells.sort_unstable();
    let front = list.get_mut(..cells.len()).ok_or(Refusal::Buffer)?;
    for (code, &(_, layer, column)) in front.iter_mut().zip(&cells) {
        *code = (layer * 100 + column) as u64;
    }
    Ok(cells.len())
}

/// Whether two records are the same: all that they hold agrees (document 02, N10).
pub fn same(one: &Record, other: &Record) -> Result<bool, Refusal> {
    one.judge()?;
    other.judge()?;
    Ok(one == other)
}

/// A face of a record, by what its C in use is worked from.
#[derive(Clone, Copy)]
pub enum Face {
    /// C as the record keeps it.
    Kept(u64),
    /// Horizontal in layer 1: that C and the saturated thickness at both ends.
    WaterTable(u64),
    /// Between layers 1 and 2 of a column: the saturated thickness above it.
    TopVertical(usize),
}

/// Whether there is such a cell, the last column's among them.
fn in_grid(record: &Record, layer: u64, column: u64) -> bool {
    (1..=record.layers).contains(&layer) && (1..=record.columns).contains(&column)
}

/// The face that joins two ends, whichever is named first; the record is one that 14 lets pass.
pub fn face(record: &Record, one: Place, other: Place) -> Option<Face> {
    match (one, other) {
        (Place::Well, Place::Cell { layer, column }) | (Place::Cell { layer, column }, Place::Well) => {
            well_face(record, layer, column)
        }
        (Place::Cell { layer, column }, Place::Cell { layer: layer2, column: column2 }) => {
            if !in_grid(record, layer, column) || !in_grid(record, layer2, column2) {
                return None;
            }
            let (upper, inner) = (layer.min(layer2) as usize, column.min(column2) as usize);
            let at = slot(upper, inner);
            match (layer.abs_diff(layer2), column.abs_diff(column2)) {
                (0, 1) if upper == 1 => Some(Face::WaterTable(record.across_c[at])),
                (0, 1) => Some(Face::Kept(record.across_c[at])),
                (1, 0) if column == record.columns => None,
                (1, 0) if upper == 1 => Some(Face::TopVertical(inner)),
                (1, 0) => Some(Face::Kept(record.down_c[at])),
                _ => None,
            }
        }
        (Place::Well, Place::Well) => None,
    }
}

/// The well's face in a screened layer, which leads to column 1.
fn well_face(record: &Record, layer: u64, column: u64) -> Option<Face> {
    let screened = in_grid(record, layer, column) && record.screened[layer as usize - 1] == 1;
    (screened && column == 1).then(|| Face::Kept(record.well_c[layer as usize - 1]))
}

/// Water across a face, nl, when 14, 7 and 8 forbid nothing.
pub fn face_flow(record: &Record, face: Face, from: Place, to: Place, length: u64) -> i64 {
    let (d_from, d_to) = (end_drawdown(record, from), end_drawdown(record, to));
    let conductance = match face {
        Face::Kept(c) => i128::from(c),
        Face::WaterTable(c) => step::water_table_conductance(c, record.thickness[0], d_from, d_to),
        // Whichever end is named first, s is that of the cell in layer 1.
        Face::TopVertical(column) => {
            step::top_vertical_in_use(&record.site(), column, record.cell_drawdown(1, column).into())
        }
    };
    let flow = step::face_flow(conductance, d_from, d_to, length);
    i64::try_from(flow).expect("the water of an allowed step fits a word")
}

/// D at an end of a face, µm.
fn end_drawdown(record: &Record, end: Place) -> i128 {
    i128::from(match end {
        Place::Well => record.well_drawdown(),
        Place::Cell { layer, column } => record.cell_drawdown(layer as usize, column as usize),
    })
}
