//! The report's figure 5: steady drawdown by the Thiem equation.

use crate::bore_k::text_of;
use reference_model::grid::{cell, Place};
use reference_model::readings::drawdown;
use reference_model::record::start;
use reference_model::step::step;

/// The figure's confined aquifer on a grid that rule 4 allows, with an intake depth (mm).
fn figure_5(intake: u64) -> Vec<u8> {
    let layers = [2, 10_000, 0, 0, 0, 200_000, 10_000, 1, 743_224, 0, 1_000_000];
    let radii = [8, 1524, 3962, 10_363, 20_726, 71_323, 81_686, 132_283, 142_646];
    text_of(&[&layers[..], &radii, &[4, 305, 1_000_000, intake, 0, 0, 0]].concat())
}

/// Drawdown in feet to three places, as the report prints it.
fn feet(micrometres: u64) -> String {
    format!("{:.3}", micrometres as f64 / 304_800.0)
}

#[test]
fn figure_5_after_a_hundred_thousand_steps() {
    let (outcome, mut record) = start(&figure_5(3707));
    assert_eq!(outcome, Ok(()));
    for taken in 0..100_000 {
        assert_eq!(step(&mut record, 28_317, 823_641), Ok(()), "step {taken}");
    }
    let columns: Vec<String> = (4..=7).map(|column| feet(drawdown(&record, cell(2, column)).unwrap())).collect();
    assert_eq!(columns, ["4.336", "2.177", "1.166", "0.499"]);
    let well = drawdown(&record, Place::Well).unwrap();
    assert!(well <= 3_706_000, "{well}");
}
