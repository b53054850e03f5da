//! The limits of document 01, as document 02 changes and adds to them, each under one name.

use std::ops::RangeInclusive;

/// Longest scenario text, bytes.
pub const TEXT_BYTES: usize = 65_536;
/// Most digits on a line.
pub const LINE_DIGITS: usize = 18;

/// Records in each section of the text.
pub const LAYER_COUNT: RangeInclusive<u64> = 2..=20;
pub const COLUMN_COUNT: RangeInclusive<u64> = 2..=50;
pub const WELL_COUNT: RangeInclusive<u64> = 4..=4;
pub const SCREEN_LOSS_COUNT: RangeInclusive<u64> = 0..=2;
pub const PUMPING_COUNT: RangeInclusive<u64> = 0..=500;

/// Thickness b of a layer, mm.
pub const THICKNESS: RangeInclusive<u64> = 1..=1_000_000;
/// Whether a layer is screened.
pub const SCREENED: RangeInclusive<u64> = 0..=1;
/// Conductivities Kh and Kv, nm/s.
pub const CONDUCTIVITY: RangeInclusive<u64> = 0..=100_000_000;
/// Specific yield of layer 1, millionths.
pub const SPECIFIC_YIELD: RangeInclusive<u64> = 1..=100_000_000;
/// Specific storage of the layers below, 10^-9 per m.
pub const SPECIFIC_STORAGE: RangeInclusive<u64> = 1..=1_000_000;
/// Outer radius R_j of a column, mm; that it rises is rule 4's matter.
pub const COLUMN_RADIUS: RangeInclusive<u64> = 0..=2_000_000;
/// Well radius R_0, mm.
pub const WELL_RADIUS: RangeInclusive<u64> = 10..=5_000;
/// Free water area W, mm².
pub const WATER_AREA: RangeInclusive<u64> = 1..=1_000_000_000;
/// Intake depth p, mm.
pub const INTAKE_DEPTH: RangeInclusive<u64> = 1..=1_000_000;
/// Friction factor, millionths.
pub const FRICTION: RangeInclusive<u64> = 0..=1_000_000;
/// Screen loss coefficient, millionths.
pub const SCREEN_LOSS: RangeInclusive<u64> = 0..=1_000_000_000_000;
/// Repeats of a pumping entry.
pub const REPEATS: RangeInclusive<u64> = 1..=1_000_000;

/// Rule 4: u_(j+1) is at most this many times u_j (document 02, N4).
pub const WIDEST_RATIO: u64 = 9;

/// Largest conductance C, 10^-12 m²/s.
pub const CONDUCTANCE: u64 = 1_000_000_000_000_000;
/// Storage S of a stored cell, nl per m of drawdown.
pub const CELL_STORAGE: RangeInclusive<u64> = 1..=1_000_000_000_000_000_000;

/// Largest pumping rate of a step, ml/s.
pub const RATE: u64 = 10_000_000;
/// Length of a step, µs.
pub const STEP_LENGTH: RangeInclusive<u64> = 1..=1_000_000_000;
/// Largest pumped total (nl) and time (µs).
pub const TOTAL: u64 = 4_000_000_000_000_000_000;
/// Largest drawdown of any place in a record, µm.
pub const DRAWDOWN: u128 = 1_000_000_000;

/// Rates to choose from, and steps that each is tried with (document 02, N13).
pub const RATE_COUNT: RangeInclusive<usize> = 1..=16;
pub const STEP_COUNT: RangeInclusive<u64> = 1..=1_000_000;

/// Most layers and columns, for the slots of a record.
pub const LAYERS: usize = 20;
pub const COLUMNS: usize = 50;
pub const CELLS: usize = LAYERS * COLUMNS;
pub const SCREEN_LOSSES: usize = 2;
