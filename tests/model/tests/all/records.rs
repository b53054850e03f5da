//! Refusal 14: each condition broken once, beside its nearest allowed neighbour; refusals 9 to 11 at their edges.

use crate::bore_k::text_of;
use reference_model::coefficients::top_vertical;
use reference_model::grid::slot;
use reference_model::limits::{CELLS, COLUMNS, LAYERS};
use reference_model::record::{start, Record};
use reference_model::refusal::Refusal;
use reference_model::step::step;

const MOST_C: u64 = 1_000_000_000_000_000;

/// Four layers, the lower two screened, five columns, one coefficient, at its start.
pub fn sample() -> Record {
    let layers = [
        4, 9000, 0, 500, 30, 200_000, 4000, 0, 700, 20, 50_000, 2000, 1, 90_000, 10, 50_000, 3000, 1, 70_000, 10,
        40_000,
    ];
    let others = [5, 300, 700, 1600, 3000, 5000, 4, 100, 30_000, 8000, 20_000, 1, 7000, 0];
    let (outcome, record) = start(&text_of(&[&layers[..], &others].concat()));
    assert_eq!(outcome, Ok(()));
    record
}

/// An edited copy of the sample has this fault or none.
fn expect(fault: Option<&str>, edit: impl Fn(&mut Record)) {
    expect_fault(fault, &edit);
}

/// The same of a copy in which the C below layer 1 goes with the edit.
fn expect_carried(fault: Option<&str>, edit: impl Fn(&mut Record)) {
    expect(fault, |record| {
        edit(record);
        carry(record);
    });
}

/// Puts into the slots of the C below layer 1 what the record's numbers give, at most 10^15, where they are numbers of a scenario.
fn carry(record: &mut Record) {
    let site = record.site();
    if site.numbers_in_limits() && site.radii_allowed() {
        for column in 1..site.columns() {
            record.down_c[slot(1, column)] = top_vertical(&site, column, 0).min(MOST_C.into()) as u64;
        }
    }
}

fn expect_fault(fault: Option<&str>, edit: &dyn Fn(&mut Record)) {
    let mut record = sample();
    edit(&mut record);
    assert_eq!(record.fault(), fault);
    assert_eq!(record.judge(), fault.map_or(Ok(()), |_| Err(Refusal::Record)));
}

#[test]
fn counts() {
    expect(None, |_| ());
    for count in [0, 1, 21, u64::MAX] {
        expect(Some("layer count"), |record| record.layers = count);
    }
    for count in [0, 1, 51, u64::MAX] {
        expect(Some("column count"), |record| record.columns = count);
    }
    for count in [3, u64::MAX] {
        expect(Some("coefficient count"), |record| record.screen_loss_count = count);
    }
    expect(None, |record| record.screen_loss_count = 2);
    expect(Some("unused coefficient slot"), |record| record.screen_loss_count = 0);
    expect(Some("scenario number"), |record| record.layers = 5);
    expect(Some("unused layer slot"), |record| record.layers = 3);
    expect(Some("radii"), |record| record.columns = 6);
    expect(Some("unused column slot"), |record| record.columns = 4);
    assert_eq!((Record::zero().fault(), Record::zero().mark), (Some("layer count"), 0));
}

#[test]
fn scenario_numbers() {
    let number = Some("scenario number");
    for (value, fault) in [(0, number), (1, None), (1_000_000, None), (1_000_001, number), (u64::MAX, number)] {
        expect_carried(fault, |record| record.thickness[1] = value);
    }
    expect(number, |record| record.screened[1] = 2);
    expect(None, |record| record.screened[1] = 1);
    for (value, fault) in [(0, None), (100_000_000, None), (100_000_001, number)] {
        expect(fault, |record| record.horizontal[2] = value);
        expect_carried(fault, |record| record.vertical[0] = value);
        expect_carried(fault, |record| record.vertical[1] = value);
        expect(fault, |record| record.vertical[3] = value);
    }
    for (value, fault) in [(0, number), (1, None), (100_000_000, None), (100_000_001, number)] {
        expect(fault, |record| record.storage[0] = value);
    }
    for (value, fault) in [(0, number), (1, None), (1_000_000, None), (1_000_001, number)] {
        expect(fault, |record| record.storage[1] = value);
    }
    for (value, fault) in [(0, number), (1, None), (1_000_000_000, None), (1_000_000_001, number)] {
        expect(fault, |record| {
            record.water_area = value;
            record.well_s = value * 1_000_000;
        });
    }
    for (value, fault) in [(0, number), (1, None), (1_000_001, number), (u64::MAX, number)] {
        expect(fault, |record| record.intake_depth = value);
    }
    for (value, fault) in [(0, None), (1_000_000, None), (1_000_001, number)] {
        expect(fault, |record| record.friction = value);
    }
    for (value, fault) in [(0, None), (1_000_000_000_000, None), (1_000_000_000_001, number)] {
        expect(fault, |record| record.screen_losses[0] = value);
    }
    for value in [9, 5001, 0, u64::MAX] {
        expect(number, |record| record.well_radius = value);
    }
    for value in [2_000_001, u64::MAX] {
        expect(number, |record| record.radii[4] = value);
    }
}

#[test]
fn rules_4_and_5() {
    // u_3 is 700 + R_3, at most nine times u_2 = 300 + 700 = 1000, and R_4 is above R_3.
    for (value, fault) in [(700, Some("radii")), (701, None), (8300, None), (8301, Some("radii"))] {
        expect_carried(fault, |record| (record.radii[2], record.radii[3], record.radii[4]) = (value, 8400, 8500));
    }
    // At the last column u_5 is 3000 + R_5 and u_4 is 1600 + 3000.
    expect(None, |record| record.radii[4] = 9 * (1600 + 3000) - 3000);
    expect(Some("radii"), |record| record.radii[4] = 9 * (1600 + 3000) - 3000 + 1);
    expect(Some("radii"), |record| record.radii[4] = 3000);
    // At the well u_1 is R_0 + 300 and u_0 is 2 R_0.
    expect_carried(None, |record| record.well_radius = 18);
    expect_carried(Some("radii"), |record| record.well_radius = 17);
    expect_carried(Some("radii"), |record| record.well_radius = 300);
    expect_carried(None, |record| record.well_radius = 299);
    expect(None, |record| record.intake_depth = 12_999);
    expect(Some("screen"), |record| record.intake_depth = 13_000);
    expect(Some("screen"), |record| record.screened[0] = 1);
    expect(Some("screen"), |record| record.screened = [0; LAYERS]);
    expect(Some("screen"), |record| {
        record.screened[1] = 1;
        record.intake_depth = 9000;
    });
}

#[test]
fn coefficients() {
    const MOST_S: u64 = 1_000_000_000_000_000_000;
    expect(Some("well's S"), |record| record.well_s += 1);
    expect(Some("well's S"), |record| record.well_s = 0);
    for (value, over) in [(0, false), (MOST_C, false), (MOST_C + 1, true), (u64::MAX, true)] {
        expect(over.then_some("well face's C"), |record| record.well_c[2] = value);
        expect(over.then_some("horizontal C"), |record| record.across_c[slot(1, 4)] = value);
        expect(over.then_some("vertical C"), |record| record.down_c[slot(3, 4)] = value);
    }
    for (value, outside) in [(0, true), (1, false), (MOST_S, false), (MOST_S + 1, true), (u64::MAX, true)] {
        expect(outside.then_some("cell's S"), |record| record.cell_s[slot(2, 4)] = value);
    }
}

#[test]
fn c_below_layer_1() {
    let other = Some("C below layer 1");
    // In every stored column it is the value at s = 0, and no other.
    for column in 1..=4 {
        let at = slot(1, column);
        let kept = sample().down_c[at];
        assert_eq!(u128::from(kept), top_vertical(&sample().site(), column, 0));
        for (value, fault) in [(kept, None), (kept - 1, other), (kept + 1, other), (0, other)] {
            expect(fault, |record| record.down_c[at] = value);
        }
        expect(other, |record| record.down_c[at] = MOST_C);
        expect(Some("vertical C"), |record| record.down_c[at] = MOST_C + 1);
    }
    // What it is worked from, alone: A_j, b_2 and Kv_2, and a Kv of 0.
    expect(other, |record| record.well_radius = 101);
    for column in 0..4 {
        expect(other, |record| record.radii[column] += 1);
    }
    expect(other, |record| record.thickness[1] += 1);
    expect(other, |record| record.vertical[1] += 1);
    expect(other, |record| record.vertical[0] = 0);
    expect(other, |record| record.vertical[1] = 0);
    // The last radius, and at s = 0 also b_1 and a Kv_1 above 0, have no part in it.
    expect(None, |record| record.radii[4] += 1);
    expect(None, |record| record.thickness[0] += 1);
    expect(None, |record| record.vertical[0] = 1);
    expect(None, |record| record.vertical[0] = 100_000_000);
    // Numbers whose C is over 10^15, or over a word, are no record's, whatever the slot holds.
    for (b, k, fault) in [(20_000, 10_000_000, None), (20_000, 100_000_000, other), (1, 100_000_000, other)] {
        expect_carried(fault, |record| {
            record.radii[..5].copy_from_slice(&[900, 7000, 60_000, 500_000, 600_000]);
            (record.thickness[1], record.vertical[1]) = (b, k);
        });
    }
}

#[test]
fn unused_slots() {
    for row in 4..LAYERS {
        expect(Some("unused layer slot"), |record| record.thickness[row] = 1);
        expect(Some("unused layer slot"), |record| record.screened[row] = 1);
        expect(Some("unused layer slot"), |record| record.horizontal[row] = 1);
        expect(Some("unused layer slot"), |record| record.vertical[row] = 1);
        expect(Some("unused layer slot"), |record| record.storage[row] = 1);
    }
    for column in 5..COLUMNS {
        expect(Some("unused column slot"), |record| record.radii[column] = 1);
    }
    expect(Some("unused coefficient slot"), |record| record.screen_losses[1] = 1);
    for row in (0..LAYERS).filter(|row| ![2, 3].contains(row)) {
        expect(Some("well face's C"), |record| record.well_c[row] = 1);
    }
    for at in 0..CELLS {
        let (layer, column) = (at / COLUMNS + 1, at % COLUMNS + 1);
        let stored = layer <= 4 && column <= 4;
        if !stored {
            expect(Some("horizontal C"), |record| record.across_c[at] = 1);
            expect(Some("unused S slot"), |record| record.cell_s[at] = 1);
            for loss in [1, -1] {
                expect(Some("unused loss slot"), |record| record.cell_loss[at] = loss);
            }
        }
        if !stored || layer == 4 {
            expect(Some("vertical C"), |record| record.down_c[at] = 1);
        }
    }
}

#[test]
fn totals() {
    const MOST: u64 = 4_000_000_000_000_000_000;
    expect(None, |record| record.time = MOST);
    expect(Some("time"), |record| record.time = MOST + 1);
    for (more, fault) in [(0, None), (1, Some("pumped total"))] {
        expect(fault, |record| {
            record.pumped = MOST + more;
            record.inflow = (MOST + more) as i64;
        });
    }
    expect(Some("sum of losses"), |record| record.pumped = 1);
    expect(Some("sum of losses"), |record| record.inflow = 1);
    expect(Some("sum of losses"), |record| record.well_loss = 1);
    expect(Some("sum of losses"), |record| record.cell_loss[slot(4, 4)] = 1);
    let negative = Some("negative loss");
    expect(negative, |record| (record.well_loss, record.inflow) = (-1, 1));
    expect(negative, |record| (record.well_loss, record.inflow) = (1, -1));
    expect(negative, |record| (record.well_loss, record.cell_loss[0]) = (1, -1));
    expect(negative, |record| record.inflow = i64::MIN);
    // These add up to 2^64.
    expect(Some("sum of losses"), |record| {
        (record.well_loss, record.inflow, record.cell_loss[0]) = (i64::MAX, i64::MAX, 2);
    });
}

/// Puts a loss (nl) at the well, whose S is 30,000 nl per µm, and a mark (µm).
fn set_well(record: &mut Record, loss: i64, mark: i64) {
    (record.well_loss, record.pumped, record.mark) = (loss, loss as u64, mark);
}

/// Puts a loss (nl) into a cell, and a mark (µm).
fn set_cell(record: &mut Record, at: usize, loss: i64, mark: i64) {
    (record.cell_loss[at], record.pumped, record.mark) = (loss, loss as u64, mark);
}

#[test]
fn drawdowns() {
    // p is 8000 mm. The mark is what the drawdown is; over 1000×p there is none that goes with it.
    let most = 8_000_000 * 30_000;
    for (loss, fault) in [(most, None), (most + 29_999, None), (most + 30_000, Some("well's drawdown"))] {
        expect(fault, |record| set_well(record, loss, loss / 30_000));
    }
    // With an S of 10^6 a nl is a µm. The intake is deeper than the cell can be: below the bottom of layer 1, and as deep as it may be.
    let cell = |layer, top, intake, loss: i64| {
        move |record: &mut Record| {
            (record.thickness[0], record.intake_depth) = (top, intake);
            record.cell_s[slot(layer, 2)] = 1_000_000;
            set_cell(record, slot(layer, 2), loss, loss);
        }
    };
    expect(None, cell(1, 9000, 12_999, 9_000_000));
    expect(Some("layer 1's drawdown"), cell(1, 9000, 12_999, 9_000_001));
    expect(None, cell(2, 1_000_000, 1_000_000, 1_000_000_000));
    expect(Some("cell's drawdown"), cell(2, 1_000_000, 1_000_000, 1_000_000_001));
    // One that no word holds, and one that would be 0 if it were held in a word.
    for (loss, mark) in [(4_000_000_000_000_000_000, i64::MAX), (1 << 58, 0)] {
        expect(Some("cell's drawdown"), |record| {
            record.cell_s[slot(4, 2)] = 1;
            set_cell(record, slot(4, 2), loss, mark);
        });
    }
}

#[test]
fn marks() {
    let (well, cell) = (Some("mark under the well's drawdown"), Some("mark under a cell's drawdown"));
    let intake = Some("mark over the intake");
    // Every drawdown is 0, and 1000×p is 8,000,000.
    for (mark, fault) in [(-1, well), (0, None), (1, None), (8_000_000, None), (8_000_001, intake)] {
        expect(fault, |record| record.mark = mark);
    }
    for (mark, fault) in [(i64::MIN, well), (i64::MIN + 1, well), (i64::MAX - 1, intake), (i64::MAX, intake)] {
        expect(fault, |record| record.mark = mark);
    }
    // The well at 0, 1, 7 and 8,000,000 µm, where only one mark is allowed.
    for (loss, depth) in [(0, 0), (29_999, 0), (30_000, 1), (239_999, 7), (240_000_000_000, 8_000_000)] {
        let marks = [(depth - 1, well), (depth, None), (8_000_000, None), (8_000_001, intake), (i64::MIN, well)];
        for (mark, fault) in marks {
            expect(fault, |record| set_well(record, loss, mark));
        }
    }
    // Every stored cell, those of the last stored column among them, at 5 and 8,000,000 µm while the well is at 0.
    for at in sample().stored_cells().map(|(layer, column)| slot(layer, column)) {
        for depth in [5, 8_000_000] {
            let deep = |mark| {
                move |record: &mut Record| {
                    record.cell_s[at] = 1_000_000;
                    set_cell(record, at, depth, mark);
                }
            };
            for (mark, fault) in [(depth, None), (depth - 1, cell), (0, cell), (8_000_000, None), (8_000_001, intake)] {
                expect(fault, deep(mark));
            }
            for (mark, fault) in [(-1, well), (i64::MIN, well), (i64::MAX, intake)] {
                expect(fault, deep(mark));
            }
        }
    }
    // A cell over 1000×p has no mark that goes with it.
    for (mark, fault) in [(8_000_000, cell), (8_000_001, intake), (i64::MAX, intake)] {
        expect(fault, |record| {
            record.cell_s[slot(3, 4)] = 1_000_000;
            set_cell(record, slot(3, 4), 8_000_001, mark);
        });
    }
    // The bound follows p.
    for (intake_depth, mark, fault) in [(1, 1000, None), (1, 1001, intake), (12_999, 12_999_000, None)] {
        expect(fault, |record| (record.intake_depth, record.mark) = (intake_depth, mark));
    }
}

#[test]
fn totals_of_a_step() {
    let most = 4_000_000_000_000_000_000;
    let near = |pumped: u64, time| {
        let mut record = sample();
        (record.pumped, record.inflow, record.time) = (pumped, pumped as i64, time);
        record
    };
    assert_eq!(step(&mut near(most - 70, 0), 7, 10), Ok(()));
    assert_eq!(step(&mut near(most - 69, 0), 7, 10), Err(Refusal::Total));
    assert_eq!(step(&mut near(0, most - 10), 7, 10), Ok(()));
    assert_eq!(step(&mut near(0, most - 9), 7, 10), Err(Refusal::Total));
    assert_eq!(step(&mut near(most, most), 0, 1), Err(Refusal::Total));
    assert_eq!(step(&mut near(most, most - 1), 0, 1), Ok(()));
}

/// The sample with no water moving between its places.
fn still() -> Record {
    let mut record = sample();
    record.well_c = [0; LAYERS];
    record.across_c = [0; CELLS];
    record.down_c = [0; CELLS];
    record.vertical = [0; LAYERS];
    record
}

#[test]
fn well_drawdown_of_a_step() {
    // The intake is passed at 30,000 nl over 8000 mm × 30,000 mm².
    let bound = 8_000_000 * 30_000;
    for (volume, outcome) in [(29_999, Ok(())), (30_000, Err(Refusal::Intake))] {
        let mut record = still();
        set_well(&mut record, bound, 8_000_000);
        assert_eq!(step(&mut record, volume, 1), outcome);
        assert_eq!(record.mark, 8_000_000);
    }
}

#[test]
fn mark_of_a_step() {
    // The well goes from 3 to 5 µm; the mark is raised to that, or stays where it is no less.
    for (mark, after) in [(3, 5), (4, 5), (5, 5), (6, 6), (8_000_000, 8_000_000)] {
        let mut record = still();
        set_well(&mut record, 3 * 30_000, mark);
        assert_eq!(step(&mut record, 60_000, 1), Ok(()));
        assert_eq!((record.well_drawdown(), record.mark), (5, after));
    }
    // A refused step leaves it: one of a mark that 14 refuses, one of no length, and one that would pass the intake.
    let refused = [(2, 60_000, 1, Refusal::Record), (3, 0, 0, Refusal::Call), (4, 10_000_000, 24_001, Refusal::Intake)];
    for (mark, rate, length, refusal) in refused {
        let mut record = still();
        set_well(&mut record, 3 * 30_000, mark);
        assert_eq!(step(&mut record, rate, length), Err(refusal));
        assert_eq!(record.mark, mark);
    }
}

#[test]
fn water_table_of_a_step() {
    // The water table is 1 µm above the bottom of layer 1, where the C in use is 628004 and a nl is a µm: it loses 1 nl, or 2 where the
    // cell below is a µm deeper. By the C that is kept, 628318, it would lose 2 both times.
    let (at, below) = (slot(1, 2), slot(2, 2));
    for (difference, outcome) in [(3_184_693, Ok(())), (3_184_694, Err(Refusal::WaterTable))] {
        let mut record = still();
        (record.vertical[0], record.vertical[1]) = (1, 1000);
        carry(&mut record);
        assert_eq!(record.down_c[at], 628_318);
        (record.cell_s[at], record.cell_s[below]) = (1_000_000, 1_000_000);
        (record.cell_loss[at], record.cell_loss[below]) = (8_999_999, 8_999_999 + difference);
        record.pumped = (2 * 8_999_999 + difference) as u64;
        (record.intake_depth, record.mark) = (12_999, 8_999_999 + difference);
        let before = record.clone();
        assert_eq!(step(&mut record, 0, 1), outcome);
        assert_eq!(record.cell_loss[at], if outcome.is_ok() { 9_000_000 } else { 8_999_999 });
        assert_eq!(outcome.is_err(), record == before);
    }
}
