//! A step of records in which one number, or the few that go with it, is changed: every condition of 14 broken just barely beside its
//! nearest allowed neighbour, and 9 by the pumped total and by the time. The changes are chosen for bore K. Where a change of R_0, R_1,
//! b_2 or Kv_2 would else be refused for the C between layers 1 and 2 (document 02, N6), it has the C with it that bore K then keeps,
//! 2×A_1×Kv_2/b_2, rounded down; that of R_0 to 5001 has the largest grid's.
//! Changed losses have a mark with them (document 02, N1) that is no less than the drawdowns that bore K then has, so that a change is
//! refused for what it is there for; one that is less is in the group `marks`, and where no word holds the drawdown.
//! Of each record it is said what holds the step back, and one of the greatest length (document 02, N12), and each changed one is compared with
//! the unchanged one and with the one before it in its group (N10).

use crate::checksum::record_checksum;
use crate::grid::{cell, slot, Place};
use crate::limits;
use crate::listing;
use crate::readings;
use crate::record::{self, Record};
use crate::refusal::Refusal;
use crate::report;
use crate::step;
use crate::text;
use std::io::{self, Write};

/// The step that is tried: ml/s and µs.
const RATE: u64 = 1000;
const LENGTH: u64 = 500_000;

type Change = fn(&mut Record);

/// Of a text the outcome of the step, unchanged and with each change, from the record that its first entry leaves.
pub fn write(text: &[u8], out: &mut impl Write) -> io::Result<()> {
    let (outcome, mut record) = record::start(text);
    if let Err(refusal) = outcome {
        return writeln!(out, "scenario {refusal}");
    }
    if let Ok(entry) = text::pumping_entry(text, 1) {
        // What a refused step leaves is the record to change.
        let _ = listing::run_entry(&mut record, entry);
    }
    write_step("unchanged", &record, out)?;
    for (name, changes) in GROUPS {
        let mut last = record.clone();
        for (above, change) in changes.iter().enumerate() {
            let mut changed = record.clone();
            change(&mut changed);
            write_step(&format!("{name} {}", above + 1), &changed, out)?;
            writeln!(out, "same {} {}", report::both_ways(&record, &changed), report::both_ways(&last, &changed))?;
            if name == "waters" {
                let equal = |other| report::value(same_drawdowns(other, &changed).map(u8::from));
                writeln!(out, "drawdowns {} {}", equal(&record), equal(&last))?;
            }
            last = changed;
        }
    }
    Ok(())
}

/// Whether two records have equal layer and column counts and equal drawdowns at the well and in column 1 of layers 1 and 2. Bore K has no other
/// places: of it that is what document 01 called the same.
fn same_drawdowns(one: &Record, other: &Record) -> Result<bool, Refusal> {
    one.judge()?;
    other.judge()?;
    let counts = |record: &Record| (record.layers, record.columns);
    let equal = |place| readings::drawdown(one, place) == readings::drawdown(other, place);
    Ok(counts(one) == counts(other) && [Place::Well, cell(1, 1), cell(2, 1)].into_iter().all(equal))
}

/// `NAME taken CHECKSUM`, or `NAME refused NUMBER` with the record's checksum unless the number is 14; then what holds that step back, and one of
/// the greatest length (document 02, N12).
fn write_step(name: &str, record: &Record, out: &mut impl Write) -> io::Result<()> {
    let mut after = record.clone();
    match step::step(&mut after, RATE, LENGTH) {
        Ok(()) => writeln!(out, "{name} taken {}", record_checksum(&after)),
        Err(Refusal::Record) => writeln!(out, "{name} refused {}", Refusal::Record),
        Err(refusal) => writeln!(out, "{name} refused {refusal} {}", record_checksum(&after)),
    }?;
    report::write_limiting(record, RATE, LENGTH, out)?;
    report::write_limiting(record, RATE, *limits::STEP_LENGTH.end(), out)
}

const GROUPS: [(&str, &[Change]); 15] = [
    ("counts", &COUNTS),
    ("layers", &LAYER_NUMBERS),
    ("numbers", &NUMBERS),
    ("unused", &UNUSED),
    ("well", &WELL),
    ("conductances", &CONDUCTANCES),
    ("storages", &STORAGES),
    ("sums", &SUMS),
    ("totals", &TOTALS),
    ("depths", &DEPTHS),
    ("below", &BELOW),
    ("alone", &ALONE),
    ("tables", &TABLES),
    ("marks", &MARKS),
    ("waters", &WATERS),
];

const COUNTS: [Change; 16] = [
    |record| record.layers = 1,
    |record| record.layers = 2,
    |record| record.layers = 3,
    |record| record.layers = 20,
    |record| record.layers = 21,
    |record| record.layers = u64::MAX,
    |record| record.columns = 1,
    |record| record.columns = 2,
    |record| record.columns = 3,
    |record| record.columns = 50,
    |record| record.columns = 51,
    |record| record.columns = u64::MAX,
    |record| record.screen_loss_count = 1,
    |record| record.screen_loss_count = 2,
    |record| record.screen_loss_count = 3,
    |record| record.screen_loss_count = u64::MAX,
];

/// Limits of the layers' numbers.
const LAYER_NUMBERS: [Change; 21] = [
    |record| record.thickness[0] = 1_000_000,
    |record| record.thickness[0] = 1_000_001,
    |record| record.thickness[1] = 0,
    |record| (record.thickness[1], record.down_c[slot(1, 1)]) = (1, 15_079_640_000),
    |record| (record.thickness[1], record.down_c[slot(1, 1)]) = (1_000_000, 15_079),
    |record| (record.thickness[1], record.down_c[slot(1, 1)]) = (1_000_001, 15_079),
    |record| record.screened[1] = 2,
    |record| record.horizontal[0] = 0,
    |record| record.horizontal[0] = 100_000_000,
    |record| record.horizontal[0] = 100_000_001,
    |record| (record.vertical[1], record.down_c[slot(1, 1)]) = (0, 0),
    |record| (record.vertical[1], record.down_c[slot(1, 1)]) = (100_000_000, 75_398_200_000),
    |record| (record.vertical[1], record.down_c[slot(1, 1)]) = (100_000_001, 75_398_200_753),
    |record| record.storage[0] = 0,
    |record| record.storage[0] = 1,
    |record| record.storage[0] = 100_000_000,
    |record| record.storage[0] = 100_000_001,
    |record| record.storage[1] = 0,
    |record| record.storage[1] = 1,
    |record| record.storage[1] = 1_000_000,
    |record| record.storage[1] = 1_000_001,
];

/// R_1 and R_2.
fn set_radii(record: &mut Record, first: u64, second: u64) {
    record.radii[0] = first;
    record.radii[1] = second;
}

/// R_1 and R_2 with the C between layers 1 and 2 that goes with them.
fn set_column(record: &mut Record, first: u64, second: u64, below: u64) {
    set_radii(record, first, second);
    record.down_c[slot(1, 1)] = below;
}

/// Limits of the radii and of the well's numbers; rules 4 and 5.
const NUMBERS: [Change; 27] = [
    |record| record.radii[49] = 2_000_000,
    |record| record.radii[49] = 2_000_001,
    |record| record.well_radius = 9,
    |record| record.well_radius = 10,
    |record| record.well_radius = 5000,
    // With the largest grid's C, since no other text has so wide a well.
    |record| (record.well_radius, record.down_c[slot(1, 1)]) = (5001, 4251),
    |record| record.intake_depth = 0,
    |record| record.intake_depth = 1,
    |record| record.intake_depth = 1_000_000,
    |record| record.intake_depth = 1_000_001,
    |record| record.friction = 0,
    |record| record.friction = 1_000_000,
    |record| record.friction = 1_000_001,
    // u_1 against u_0 from below and from above, and u_2 against u_1.
    |record| (record.well_radius, record.down_c[slot(1, 1)]) = (29, 7_827_560),
    |record| (record.well_radius, record.down_c[slot(1, 1)]) = (30, 7_825_700),
    |record| set_column(record, 1700, 2600, 90_477_860),
    |record| set_column(record, 1701, 2600, 90_584_710),
    |record| record.radii[1] = 500,
    |record| record.radii[1] = 501,
    |record| record.radii[1] = 4900,
    |record| record.radii[1] = 4901,
    |record| record.intake_depth = 9999,
    |record| record.intake_depth = 10_000,
    |record| record.screened[0] = 1,
    |record| record.screened[1] = 0,
    |record| set_column(record, 499, 4900, 7_508_430),
    |record| set_column(record, 500, 1301, 7_539_820),
];

/// Slots of the scenario's numbers that no layer, column or coefficient uses.
const UNUSED: [Change; 14] = [
    |record| record.thickness[2] = 1,
    |record| record.thickness[19] = 1,
    |record| record.screened[2] = 1,
    |record| record.screened[19] = 1,
    |record| record.horizontal[2] = 1,
    |record| record.horizontal[19] = 1,
    |record| record.vertical[2] = 1,
    |record| record.vertical[19] = 1,
    |record| record.storage[2] = 1,
    |record| record.storage[19] = 1,
    |record| record.radii[2] = 1,
    |record| record.radii[49] = 1,
    |record| record.screen_losses[0] = 1,
    |record| record.screen_losses[1] = 1,
];

/// The free water area with the S that goes with it, that S alone; no screened layer and so no C at the well; a second coefficient.
const WELL: [Change; 10] = [
    |record| (record.water_area, record.well_s) = (0, 0),
    |record| (record.water_area, record.well_s) = (1, 1_000_000),
    |record| (record.water_area, record.well_s) = (1_000_000_000, 1_000_000_000_000_000),
    |record| (record.water_area, record.well_s) = (1_000_000_001, 1_000_000_001_000_000),
    |record| (record.water_area, record.well_s) = (30_000, 29_999_999_999),
    |record| (record.water_area, record.well_s) = (30_000, 30_000_000_000),
    |record| (record.water_area, record.well_s) = (30_000, 30_000_000_001),
    |record| (record.screened[1], record.well_c[1]) = (0, 0),
    |record| (record.screen_loss_count, record.screen_losses[1]) = (2, 1_000_000_000_000),
    |record| (record.screen_loss_count, record.screen_losses[1]) = (2, 1_000_000_000_001),
];

/// C in its limits, below layer 2 also where there is no layer 3; then in slots of layers without screen, of the last column, of no layer,
/// and below the deepest one.
const CONDUCTANCES: [Change; 22] = [
    |record| record.well_c[1] = 0,
    |record| record.well_c[1] = 1_000_000_000_000_000,
    |record| record.well_c[1] = 1_000_000_000_000_001,
    |record| record.well_c[1] = u64::MAX,
    |record| record.across_c[slot(1, 1)] = 0,
    |record| record.across_c[slot(1, 1)] = 1_000_000_000_000_000,
    |record| record.across_c[slot(1, 1)] = 1_000_000_000_000_001,
    |record| record.across_c[slot(2, 1)] = u64::MAX,
    |record| record.down_c[slot(2, 1)] = 0,
    |record| record.down_c[slot(2, 1)] = 1_000_000_000_000_000,
    |record| record.down_c[slot(2, 1)] = 1_000_000_000_000_001,
    |record| record.down_c[slot(2, 1)] = u64::MAX,
    |record| record.well_c[0] = 1,
    |record| record.well_c[2] = 1,
    |record| record.well_c[19] = 1,
    |record| record.across_c[slot(1, 2)] = 1,
    |record| record.across_c[slot(3, 1)] = 1,
    |record| record.across_c[slot(20, 50)] = 1,
    |record| record.down_c[slot(1, 2)] = 1,
    |record| record.down_c[slot(2, 1)] = 1,
    |record| record.down_c[slot(3, 1)] = 1,
    |record| record.down_c[slot(20, 50)] = 1,
];

/// S in its limits, then in slots of the last column and of no layer.
const STORAGES: [Change; 11] = [
    |record| record.cell_s[slot(1, 1)] = 0,
    |record| record.cell_s[slot(1, 1)] = 1,
    |record| record.cell_s[slot(1, 1)] = 1_000_000_000_000_000_000,
    |record| record.cell_s[slot(1, 1)] = 1_000_000_000_000_000_001,
    |record| record.cell_s[slot(2, 1)] = 0,
    |record| record.cell_s[slot(2, 1)] = 1,
    |record| record.cell_s[slot(2, 1)] = 1_000_000_000_000_000_000,
    |record| record.cell_s[slot(2, 1)] = 1_000_000_000_000_000_001,
    |record| record.cell_s[slot(1, 2)] = 1,
    |record| record.cell_s[slot(3, 1)] = 1,
    |record| record.cell_s[slot(20, 50)] = 1,
];

/// V of the well and of column 1 of layers 1 and 2, inflow and pumped total, and the mark; no time.
fn set_losses(record: &mut Record, well: i64, upper: i64, lower: i64, inflow: i64, pumped: u64, mark: i64) {
    record.well_loss = well;
    record.cell_loss[slot(1, 1)] = upper;
    record.cell_loss[slot(2, 1)] = lower;
    record.inflow = inflow;
    record.pumped = pumped;
    record.time = 0;
    record.mark = mark;
}

/// V in a slot that no cell of bore K uses, with the totals and the mark that go with it.
fn set_loss(record: &mut Record, at: usize, loss: i64, inflow: i64, pumped: u64, mark: i64) {
    set_losses(record, 0, 0, 0, inflow, pumped, mark);
    record.cell_loss[at] = loss;
}

/// Losses and inflow that do not add up, are negative, or stand in a slot that no cell uses. The narrow well's layer 2 is 3 µm deep in the
/// first seven.
const SUMS: [Change; 18] = [
    |record| set_losses(record, 10, 20, 30, 40, 100, 3),
    |record| set_losses(record, 10, 20, 30, 40, 99, 3),
    |record| set_losses(record, 10, 20, 30, 40, 101, 3),
    |record| set_losses(record, 11, 20, 30, 40, 100, 3),
    |record| set_losses(record, 10, 21, 30, 40, 100, 3),
    |record| set_losses(record, 10, 20, 31, 40, 100, 3),
    |record| set_losses(record, 10, 20, 30, 41, 100, 3),
    |record| set_losses(record, 0, 0, 0, 0, 0, 0),
    |record| set_losses(record, -1, 0, 0, 1, 0, 0),
    |record| set_losses(record, 1, -1, 0, 0, 0, 0),
    |record| set_losses(record, 1, 0, -1, 0, 0, 0),
    |record| set_losses(record, 1, 0, 0, -1, 0, 0),
    |record| set_losses(record, 0, 0, 0, i64::MIN, 0, 0),
    // These add up to 2^64.
    |record| set_losses(record, i64::MAX, 2, 0, i64::MAX, 0, 307_445_734_561_825),
    |record| set_loss(record, slot(1, 2), 1, 0, 1, 0),
    |record| set_loss(record, slot(1, 2), -1, 1, 0, 0),
    |record| set_loss(record, slot(3, 1), 1, 0, 1, 0),
    |record| set_loss(record, slot(20, 50), 1, 0, 1, 0),
];

/// All that was pumped came from the last column.
fn set_totals(record: &mut Record, pumped: u64, time: u64) {
    set_losses(record, 0, 0, 0, pumped as i64, pumped, 0);
    record.time = time;
}

/// Pumped total and time at their limit, and where the step that is tried brings them there.
const TOTALS: [Change; 8] = [
    |record| set_totals(record, 4_000_000_000_000_000_000, 0),
    |record| set_totals(record, 4_000_000_000_000_000_001, 0),
    |record| set_totals(record, 3_999_999_999_500_000_000, 0),
    |record| set_totals(record, 3_999_999_999_500_000_001, 0),
    |record| set_totals(record, 0, 4_000_000_000_000_000_000),
    |record| set_totals(record, 0, 4_000_000_000_000_000_001),
    |record| set_totals(record, 0, 3_999_999_999_999_500_000),
    |record| set_totals(record, 0, 3_999_999_999_999_500_001),
];

/// V of the well alone, and the mark.
fn set_well_loss(record: &mut Record, loss: i64, mark: i64) {
    set_losses(record, loss, 0, 0, 0, loss as u64, mark);
}

/// V of column 1 of layers 1 and 2 alone, and the mark.
fn set_cell_losses(record: &mut Record, upper: i64, lower: i64, mark: i64) {
    set_losses(record, 0, upper, lower, 0, (upper + lower) as u64, mark);
}

/// S of column 1 of layers 1 and 2.
fn set_storages(record: &mut Record, upper: u64, lower: u64) {
    record.cell_s[slot(1, 1)] = upper;
    record.cell_s[slot(2, 1)] = lower;
}

/// The same with 1 nl to a µm.
fn set_thin(record: &mut Record, upper: i64, lower: i64, mark: i64) {
    set_storages(record, 1_000_000, 1_000_000);
    set_cell_losses(record, upper, lower, mark);
}

/// The same with an S of 1 in layer 2.
fn set_empty(record: &mut Record, lower: i64, mark: i64) {
    set_storages(record, 1_000_000, 1);
    set_cell_losses(record, 0, lower, mark);
}

/// D at its bounds, the mark as deep: of bore K's well at 1000×p; of a layer 1 like bore K's at its bottom, and of layer 2 at 10^9; one that no
/// word holds, and one that would be 0 in a word; of bore K's cells at 1000×p; of the deep intake's well at 10^9. Since a cell deeper than
/// 1000×p is refused whatever the mark is, bore K itself shows neither that bottom nor 10^9: the deep intake does, and the largest grid 10^9.
const DEPTHS: [Change; 14] = [
    |record| set_well_loss(record, 299_970_029_999, 9_999_000),
    |record| set_well_loss(record, 299_970_030_000, 9_999_001),
    |record| set_thin(record, 10_000_000, 0, 10_000_000),
    |record| set_thin(record, 10_000_001, 0, 10_000_001),
    |record| set_thin(record, 0, 1_000_000_000, 1_000_000_000),
    |record| set_thin(record, 0, 1_000_000_001, 1_000_000_001),
    |record| set_empty(record, 4_000_000_000_000_000_000, i64::MAX),
    |record| set_empty(record, 288_230_376_151_711_744, 0),
    |record| set_thin(record, 9_999_000, 0, 9_999_000),
    |record| set_thin(record, 9_999_001, 0, 9_999_001),
    |record| set_thin(record, 0, 9_999_000, 9_999_000),
    |record| set_thin(record, 0, 9_999_001, 9_999_001),
    |record| set_well_loss(record, 30_000_000_029_999, 1_000_000_000),
    |record| set_well_loss(record, 30_000_000_030_000, 1_000_000_001),
];

/// The slot of the C between layers 1 and 2 at its value for bore K and beside it, at document 01's value, at the C in use while layer 1 is
/// full, and at the limits of C; then that of the largest grid's last stored column, at its value and beside it.
const BELOW: [Change; 12] = [
    |record| record.down_c[slot(1, 1)] = 7_539_820,
    |record| record.down_c[slot(1, 1)] = 7_539_819,
    |record| record.down_c[slot(1, 1)] = 7_539_821,
    |record| record.down_c[slot(1, 1)] = 1_256_636,
    |record| record.down_c[slot(1, 1)] = 685_438,
    |record| record.down_c[slot(1, 1)] = 0,
    |record| record.down_c[slot(1, 1)] = 1_000_000_000_000_000,
    |record| record.down_c[slot(1, 1)] = 1_000_000_000_000_001,
    |record| record.down_c[slot(1, 1)] = u64::MAX,
    |record| record.down_c[slot(1, 49)] = 421_452_524,
    |record| record.down_c[slot(1, 49)] = 421_452_523,
    |record| record.down_c[slot(1, 49)] = 421_452_525,
];

/// Numbers that this C is worked from, changed without it: b_2, Kv_2, radii (R_49 is the largest grid's) and Kv_1 to 0. Then numbers that
/// have no part in it: Kv_1 above 0, within its limit and over it, b_1, and the last radius.
const ALONE: [Change; 14] = [
    |record| record.thickness[1] = 1,
    |record| record.thickness[1] = 1_000_000,
    |record| record.vertical[1] = 0,
    |record| record.vertical[1] = 100_000_000,
    |record| record.well_radius = 30,
    |record| set_radii(record, 1700, 2600),
    |record| set_radii(record, 499, 1300),
    |record| record.radii[48] = 1_774_145,
    |record| record.vertical[0] = 0,
    |record| record.vertical[0] = 1,
    |record| record.vertical[0] = 100_000_000,
    |record| record.vertical[0] = 100_000_001,
    |record| record.thickness[0] = 10_001,
    |record| record.radii[49] = 1_999_999,
];

/// Kv_1 and Kv_2 with the C between layers 1 and 2 that goes with them.
fn set_verticals(record: &mut Record, upper: u64, lower: u64, below: u64) {
    record.vertical[0] = upper;
    record.vertical[1] = lower;
    record.down_c[slot(1, 1)] = below;
}

/// The water table at the bottom of a layer 1 like bore K's.
fn set_table_at_bottom(record: &mut Record) {
    set_cell_losses(record, 1_507_964_000_000, 0, 10_000_000);
}

/// Bore K's water table as deep as its intake, 1 mm above the bottom of layer 1.
fn set_table_at_intake(record: &mut Record) {
    set_cell_losses(record, 1_507_813_203_600, 0, 9_999_000);
}

/// Halfway between.
fn set_table_halfway(record: &mut Record) {
    set_cell_losses(record, 753_982_000_000, 0, 5_000_000);
}

/// The water table at the bottom of layer 1, above a layer 2 that is full and above one that is deeper, 1 µm above the bottom, and halfway;
/// another Kv_1; then a Kv of 0, with the table at the bottom and as it was. Bore K's table cannot be at the bottom, since its intake is
/// above it; that of the deep intake can, whose layers 1 and 2 have the S of bore K's and the same C between them. Then bore K's table as
/// deep as its intake, one 1 mm above that over a layer 2 that is as deep as the intake, another Kv_1, and a Kv_1 of 0.
const TABLES: [Change; 14] = [
    set_table_at_bottom,
    |record| set_cell_losses(record, 1_507_964_000_000, 18_095_568_000, 12_000_000),
    |record| set_cell_losses(record, 1_507_963_849_204, 0, 9_999_999),
    set_table_halfway,
    |record| {
        set_table_at_bottom(record);
        set_verticals(record, 1, 5_000_000, 7_539_820);
    },
    |record| {
        set_table_halfway(record);
        set_verticals(record, 1, 10_000, 7_539_820);
    },
    |record| {
        set_table_at_bottom(record);
        set_verticals(record, 0, 10_000, 0);
    },
    |record| {
        set_table_at_bottom(record);
        set_verticals(record, 10_000, 0, 0);
    },
    |record| {
        set_table_at_bottom(record);
        set_verticals(record, 0, 0, 0);
    },
    |record| set_verticals(record, 0, 10_000, 0),
    set_table_at_intake,
    |record| set_cell_losses(record, 1_507_662_407_200, 15_078_132_036, 9_999_000),
    |record| {
        set_table_at_intake(record);
        set_verticals(record, 1, 10_000, 7_539_820);
    },
    |record| {
        set_table_at_intake(record);
        set_verticals(record, 0, 10_000, 0);
    },
];

/// The mark alone: at bore K's D of the well and under it, at what the step that is tried brings that to and over it; at 1000×p and over it,
/// for bore K, for an intake of 16, of 17 and of 1,000,000 mm; 0, negative, and at the ends of a word. Then with losses: the well just under
/// and at 1 µm; a cell of layer 1, one of layer 2, and that with a deeper well; a cell at 1000×p and over it; a cell of the largest grid's
/// last stored column, in its topmost and in its deepest layer.
const MARKS: [Change; 32] = [
    |record| record.mark = 33_015,
    |record| record.mark = 33_014,
    |record| record.mark = 49_173,
    |record| record.mark = 49_174,
    |record| record.mark = 9_999_000,
    |record| record.mark = 9_999_001,
    |record| record.mark = 16_000,
    |record| record.mark = 16_001,
    |record| record.mark = 17_000,
    |record| record.mark = 17_001,
    |record| record.mark = 1_000_000_000,
    |record| record.mark = 1_000_000_001,
    |record| record.mark = 0,
    |record| record.mark = -1,
    |record| record.mark = i64::MIN,
    |record| record.mark = i64::MAX,
    |record| set_well_loss(record, 29_999, 0),
    |record| set_well_loss(record, 30_000, 0),
    |record| set_well_loss(record, 30_000, 1),
    |record| set_cell_losses(record, 1_507_964_000, 0, 10_000),
    |record| set_cell_losses(record, 1_507_964_000, 0, 9999),
    |record| set_cell_losses(record, 0, 15_079_640, 10_000),
    |record| set_cell_losses(record, 0, 15_079_640, 9999),
    |record| set_losses(record, 600_000_000, 0, 15_079_640, 0, 615_079_640, 20_000),
    |record| set_losses(record, 600_000_000, 0, 15_079_640, 0, 615_079_640, 19_999),
    |record| set_cell_losses(record, 0, 15_078_132_036, 9_999_000),
    |record| set_cell_losses(record, 0, 15_078_133_544, 9_999_001),
    |record| set_cell_losses(record, 0, 15_078_133_544, 9_999_000),
    |record| set_loss(record, slot(1, 49), 421_452_524_710, 0, 421_452_524_710, 1),
    |record| set_loss(record, slot(1, 49), 421_452_524_710, 0, 421_452_524_710, 0),
    |record| set_loss(record, slot(20, 49), 210_726_263, 0, 210_726_263, 1),
    |record| set_loss(record, slot(20, 49), 210_726_263, 0, 210_726_263, 0),
];

/// V of bore K's places, inflow and pumped total, time and mark.
fn set_state(record: &mut Record, losses: [i64; 3], inflow: i64, pumped: u64, time: u64, mark: i64) {
    set_losses(record, losses[0], losses[1], losses[2], inflow, pumped, mark);
    record.time = time;
}

/// So many screen loss coefficients, and the first of them.
fn set_coefficients(record: &mut Record, count: u64, first: u64) {
    (record.screen_loss_count, record.screen_losses[0]) = (count, first);
}

/// For same (document 02, N10): bore K as its first entry leaves it; 1 nl from one place to another, or between a place and the last column; 1 nl
/// more of pumped and inflow total; the time; the mark; a well that has recovered, and the same that was never so deep. Then C and S; friction,
/// coefficients, intake, and other numbers of the scenario that have no part in the C between layers 1 and 2. All are allowed of bore K. But for
/// the recovered well no drawdown is another, and each differs from bore K or from the change before it in one number, or in two that keep the sum.
const WATERS: [Change; 27] = [
    |record| set_state(record, [990_468_379, 0, 9_531_621], 0, 1_000_000_000, 1_000_000, 33_015),
    |record| set_state(record, [990_468_378, 1, 9_531_621], 0, 1_000_000_000, 1_000_000, 33_015),
    |record| set_state(record, [990_468_380, 0, 9_531_620], 0, 1_000_000_000, 1_000_000, 33_015),
    |record| set_state(record, [990_468_379, 0, 9_531_620], 1, 1_000_000_000, 1_000_000, 33_015),
    |record| set_state(record, [990_468_378, 0, 9_531_621], 1, 1_000_000_000, 1_000_000, 33_015),
    |record| set_state(record, [990_468_379, 0, 9_531_621], 1, 1_000_000_001, 1_000_000, 33_015),
    |record| set_state(record, [990_468_379, 0, 9_531_621], 0, 1_000_000_000, 1_000_001, 33_015),
    |record| set_state(record, [990_468_379, 0, 9_531_621], 0, 1_000_000_000, 999_999, 33_015),
    |record| set_state(record, [990_468_379, 0, 9_531_621], 0, 1_000_000_000, 1_000_000, 33_016),
    |record| set_state(record, [0, 0, 0], 1_000_000_000, 1_000_000_000, 1_000_000, 33_015),
    |record| set_state(record, [0, 0, 0], 1_000_000_000, 1_000_000_000, 1_000_000, 0),
    |record| record.well_c[1] = 1_143_840_362,
    |record| record.across_c[slot(1, 1)] = 5_719_201_804,
    |record| record.across_c[slot(2, 1)] = 1_143_840_362,
    |record| record.cell_s[slot(1, 1)] = 150_796_400_001,
    |record| record.cell_s[slot(2, 1)] = 1_507_964_001,
    |record| record.friction = 50_001,
    |record| set_coefficients(record, 1, 0),
    |record| set_coefficients(record, 1, 1),
    |record| set_coefficients(record, 2, 1),
    |record| record.intake_depth = 9998,
    |record| record.thickness[0] = 10_001,
    |record| record.horizontal[1] = 100_001,
    |record| record.vertical[0] = 10_001,
    |record| record.storage[0] = 200_001,
    |record| record.storage[1] = 999_999,
    |record| record.radii[1] = 1301,
];
