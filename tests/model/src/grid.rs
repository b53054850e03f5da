//! Names of places and ends of faces, and the slots of cells in a record.

use crate::limits::COLUMNS;

/// The well, or a cell by its layer and column, both from 1. The last column's cells may be ends of faces only.
#[derive(Clone, Copy, PartialEq, Eq, PartialOrd, Ord, Debug)]
pub enum Place {
    Well,
    Cell { layer: u64, column: u64 },
}

/// Short form of a cell's name.
pub fn cell(layer: usize, column: usize) -> Place {
    Place::Cell { layer: layer as u64, column: column as u64 }
}

/// Slot of a cell in the record's arrays of 1,000; layer and column from 1.
pub fn slot(layer: usize, column: usize) -> usize {
    (layer - 1) * COLUMNS + (column - 1)
}
