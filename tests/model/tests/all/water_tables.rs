//! The edges of the catalogue for the C between layers 1 and 2 (document 02, N6): that they are what they are there for, and random call
//! lists where they have brought the water table.

use crate::deep_cells::edge;
use crate::runs::check_list;
use reference_model::coefficients::top_vertical;
use reference_model::geometry::{area, top_vertical_conductance, vertical_conductance};
use reference_model::grid::{cell, slot};
use reference_model::ledger::Ledger;
use reference_model::listing::run_entry;
use reference_model::readings::flow;
use reference_model::record::{start, Record};
use reference_model::refusal::Refusal;
use reference_model::text::{numbers, read};

const MOST_C: u64 = 1_000_000_000_000_000;

/// What became of each entry of an edge, and the record after it.
pub fn run(name: &str) -> Vec<(Result<(), Refusal>, Record)> {
    let text = edge(name);
    let (outcome, mut record) = start(&text);
    assert_eq!(outcome, Ok(()), "{name}");
    let run = |entry| (run_entry(&mut record, entry), record.clone());
    read(&text).unwrap().pumping.into_iter().map(run).collect()
}

/// The records after the entries of an edge whose steps are all taken.
fn run_whole(name: &str) -> Vec<Record> {
    run(name).into_iter().map(|(outcome, record)| outcome.map(|()| record).expect(name)).collect()
}

/// s of the cell of layer 1 in a column, µm.
fn saturated(record: &Record, column: usize) -> u64 {
    1000 * record.thickness[0] - record.cell_drawdown(1, column)
}

/// C between layers 1 and 2 in use in a column.
fn in_use(record: &Record, column: usize) -> u128 {
    top_vertical(&record.site(), column, saturated(record, column).into())
}

/// Water from layer 1 to layer 2 in a column, in a step of 1000 µs.
fn down(record: &Record, column: usize) -> i64 {
    flow(record, cell(1, column), cell(2, column), 1000).unwrap()
}

#[test]
fn c_at_the_limit_and_over_it() {
    let start_of = |name: &str| start(&edge(name));
    assert_eq!(start_of("c-below-last").1.down_c[slot(1, 1)], MOST_C);
    assert_eq!(start_of("c-below-over").0, Err(Refusal::Coefficient));
    assert_eq!(start_of("c-below-over-a-word").0, Err(Refusal::Coefficient));
    let (outcome, without) = start_of("c-below-kv-0");
    assert_eq!((outcome, without.down_c[slot(1, 1)]), (Ok(()), 0));
    // Between midsections the one that is over would have been under, so that 6 refuses it for nothing else.
    let last = start_of("c-below-last").1.site();
    let ring = area(last.radius(0), last.radius(1));
    let (b_1, b_2) = (last.layers[0].thickness, last.layers[1].thickness - 1);
    let k = last.layers[1].vertical;
    assert!(top_vertical_conductance(ring, k, (b_2, k), 0) > MOST_C.into());
    assert!(vertical_conductance(ring, (b_1, k), (b_2, k)) < MOST_C.into());
    // With three layers the count of columns is number 16, from 0, and the radii follow; the last but one is the last stored column's.
    let numbers = numbers(&edge("c-below-over-a-word")).unwrap();
    let (k_1, below, last) = (numbers[4], (numbers[6], numbers[9]), 16 + numbers[16] as usize - 1);
    let ring = area(numbers[last - 1], numbers[last]);
    assert!(top_vertical_conductance(ring, k_1, below, 0) > u64::MAX.into());
}

#[test]
fn c_that_limits_the_step() {
    for (name, layer) in [("c-below-last", 2), ("step-longest-top", 1), ("step-longest-second", 2)] {
        let text = edge(name);
        let length = i128::from(read(&text).unwrap().pumping[0].length);
        let outcomes: Vec<_> = run(name).into_iter().map(|(outcome, _)| outcome).collect();
        assert_eq!(outcomes, [Ok(()), Err(Refusal::Stability), Ok(())], "{name}");
        let (ledger, record) = (Ledger::start(&text).unwrap(), start(&text).1);
        let (place, most) = (cell(layer, 1), 1_000_000 * ledger.places[&cell(layer, 1)].storage);
        let (sum, kept) = (ledger.conductance_sums()[&place], i128::from(record.down_c[slot(1, 1)]));
        assert!(length * sum <= most && (length + 1) * sum > most, "{name}");
        assert!(100 * kept > 99 * sum, "{name}");
        // By the C in use the longer step would have passed.
        assert!((length + 1) * (sum - kept + in_use(&record, 1) as i128) <= most, "{name}");
    }
}

#[test]
fn tables_at_the_bottom() {
    let records = run_whole("table-at-bottom");
    let heights: Vec<u64> = records.iter().map(|record| saturated(record, 1)).collect();
    assert!(heights.windows(2).all(|pair| pair[1] <= pair[0]), "{heights:?}");
    assert!(heights[0] > 100 && heights.iter().any(|height| (1..100).contains(height)), "{heights:?}");
    let last = &records[records.len() - 1];
    assert_eq!((saturated(last, 1), in_use(last, 1)), (0, last.down_c[slot(1, 1)].into()));
    // A full layer 1 lets through a ninth of that.
    let full = top_vertical(&last.site(), 1, 4000);
    assert_eq!(in_use(last, 1) / full, 9);
    // One step more is past it.
    let past = run("table-past-bottom");
    let outcomes: Vec<_> = past.iter().map(|(outcome, _)| *outcome).collect();
    assert_eq!(outcomes, [Ok(()), Ok(()), Ok(()), Ok(()), Err(Refusal::WaterTable)]);
    assert_eq!(past[4].1, *last);
}

#[test]
fn tables_of_several_columns() {
    let records = run_whole("table-columns");
    let last = &records[records.len() - 1];
    let heights: Vec<u64> = (1..=7).map(|column| saturated(last, column)).collect();
    assert!(heights[0] == 0 && heights.is_sorted() && heights[6] > 5900, "{heights:?}");
    assert!((1..=7).all(|column| down(last, column) > 0));
}

#[test]
fn tables_of_two_layers_and_of_a_thick_one() {
    let two = run_whole("table-two-layers");
    assert_eq!((two[0].layers, two[0].intake_depth), (2, two[0].thickness[0] - 1));
    assert!(saturated(&two[0], 1) < 8000, "{}", saturated(&two[0], 1));
    let thick = run_whole("table-thick");
    assert_eq!(thick[1].thickness[0], 30_000);
    assert!(saturated(&thick[1], 1) < 15_000_000, "{}", saturated(&thick[1], 1));
    // While the well rests the water runs up.
    for records in [two, thick] {
        assert!(down(&records[0], 1) > 0 && down(&records[2], 1) < 0);
    }
}

#[test]
fn tables_that_fall_and_rise_at_rest() {
    let rises = run_whole("table-rises");
    let heights: Vec<u64> = rises.iter().map(|record| saturated(record, 1)).collect();
    assert!(heights[1] < heights[0] && heights[1] < 6000 && heights[1] < heights[2], "{heights:?}");
    for column in [1, 2] {
        assert!(down(&rises[1], column) > 0 && down(&rises[2], column) < 0, "column {column}");
    }
    let outcomes: Vec<_> = run("table-past-bottom-at-rest").into_iter().map(|(outcome, _)| outcome).collect();
    assert_eq!(outcomes, [Ok(()), Err(Refusal::WaterTable), Err(Refusal::WaterTable)]);
}

#[test]
fn call_lists_at_low_tables_agree_with_the_ledger() {
    let names = ["table-at-bottom", "table-columns", "table-two-layers", "table-thick", "table-rises"];
    for (name, entries) in names.into_iter().flat_map(|name| [(name, 1), (name, 2), (name, 3)]) {
        for seed in 0..8 {
            assert_eq!(check_list(&edge(name), entries, seed, None), Ok(()), "{name} after {entries}, list {seed}");
        }
    }
}
