//! Any record whatever: calls end without fault of arithmetic, refuse what 14 refuses and leave it alone,
//! and a step on any allowed record is that of a ledger with the record's own coefficients.

use crate::bore_k;
use crate::calls::{self, check_state};
use crate::records::sample;
use crate::runs::longest_step;
use reference_model::choice::choose;
use reference_model::geometry;
use reference_model::grid::{cell, slot, Place};
use reference_model::head_loss::head_loss;
use reference_model::ledger::{Face, InUse, Ledger, Stored};
use reference_model::limiting::limiting;
use reference_model::random::Random;
use reference_model::readings;
use reference_model::record::{start, Record};
use reference_model::refusal::Refusal;
use reference_model::scenarios::Scenarios;
use reference_model::step::step;
use std::collections::BTreeMap;
use std::slice::from_mut;

/// The ledger that has an allowed record's coefficients and losses, its well having been as deep as the record's mark.
pub fn ledger_of(record: &Record) -> Ledger {
    let stored = |loss: i64, storage: u64| Stored { loss: loss.into(), storage: storage.into() };
    let mut places = BTreeMap::from([(Place::Well, stored(record.well_loss, record.well_s))]);
    let mut faces = Vec::new();
    let mut join = |from, to, conductance: u64, in_use| {
        faces.push(Face { from, to, conductance: conductance.into(), in_use, crossed: 0 });
    };
    let site = record.site();
    for (layer, column) in record.stored_cells() {
        let at = slot(layer, column);
        places.insert(cell(layer, column), stored(record.cell_loss[at], record.cell_s[at]));
        let (across, down) = if layer == 1 {
            let area = geometry::area(site.radius(column - 1), site.radius(column));
            let below = (record.thickness[1], record.vertical[1]);
            (InUse::WaterTable, InUse::TopVertical { area, k_above: record.vertical[0], below })
        } else {
            (InUse::Whole, InUse::Whole)
        };
        join(cell(layer, column), cell(layer, column + 1), record.across_c[at], across);
        join(cell(layer, column), cell(layer + 1, column), record.down_c[at], down);
    }
    for layer in 1..=record.layers as usize {
        join(Place::Well, cell(layer, 1), record.well_c[layer - 1], InUse::Whole);
    }
    Ledger {
        places,
        faces,
        top_thickness: record.thickness[0].into(),
        intake_depth: record.intake_depth.into(),
        pumped: record.pumped.into(),
        inflow: record.inflow.into(),
        time: record.time.into(),
        deepest_well: record.mark.into(),
    }
}

/// Every slot of a record that holds a number without sign, and every one with.
pub fn slots(record: &mut Record) -> (Vec<&mut [u64]>, Vec<&mut [i64]>) {
    let whole: Vec<&mut [u64]> = vec![
        from_mut(&mut record.layers),
        from_mut(&mut record.columns),
        from_mut(&mut record.screen_loss_count),
        &mut record.thickness,
        &mut record.screened,
        &mut record.horizontal,
        &mut record.vertical,
        &mut record.storage,
        &mut record.radii,
        from_mut(&mut record.well_radius),
        from_mut(&mut record.water_area),
        from_mut(&mut record.intake_depth),
        from_mut(&mut record.friction),
        &mut record.screen_losses,
        &mut record.well_c,
        &mut record.across_c,
        &mut record.down_c,
        from_mut(&mut record.well_s),
        &mut record.cell_s,
        from_mut(&mut record.pumped),
        from_mut(&mut record.time),
    ];
    let signed: Vec<&mut [i64]> = vec![
        from_mut(&mut record.well_loss),
        &mut record.cell_loss,
        from_mut(&mut record.inflow),
        from_mut(&mut record.mark),
    ];
    (whole, signed)
}

/// Puts any word into any slot.
fn spoil(random: &mut Random, record: &mut Record) {
    let any = random.word();
    let limits = [0, 1, 2, 20, 21, 50, 51, 1_000_000, 1_000_000_000_000_000, u64::MAX, u64::MAX >> 1, 1 << 63];
    let edge = if random.once_in(7) { random.one_of(&[any, any >> 20]) } else { random.one_of(&limits) };
    let (mut whole, mut signed) = slots(record);
    let field = random.between(0, (whole.len() + signed.len()) as u64 - 1) as usize;
    if field < whole.len() {
        let at = random.between(0, whole[field].len() as u64 - 1) as usize;
        whole[field][if random.once_in(2) { 0 } else { at }] = edge;
    } else {
        let slots = &mut signed[field - whole.len()];
        let at = random.between(0, slots.len() as u64 - 1) as usize;
        slots[if random.once_in(2) { 0 } else { at }] = edge as i64;
    }
}

/// Every call on a record that 14 refuses.
fn assert_refused(record: &Record) {
    let refused = Refusal::Record;
    let mut same = record.clone();
    assert_eq!(step(&mut same, u64::MAX, 0), Err(refused));
    assert!(same == *record);
    let nowhere = Place::Cell { layer: u64::MAX, column: 0 };
    assert_eq!(readings::drawdown(record, nowhere), Err(refused));
    assert_eq!(readings::budget(record), Err(refused));
    assert_eq!(readings::storage_loss(record, &[]), Err(refused));
    assert_eq!(readings::flow(record, nowhere, nowhere, 0), Err(refused));
    let mut list = [5, 6];
    assert_eq!(readings::deep_cells(record, 0, &mut list), Err(refused));
    assert_eq!(list, [5, 6]);
    assert_eq!(readings::same(record, &bore_k::record()), Err(refused));
    assert_eq!(readings::same(&bore_k::record(), record), Err(refused));
    assert_eq!(head_loss(record, u64::MAX, 0), Err(refused));
    assert_eq!(limiting(record, u64::MAX, 0), Err(refused));
    assert_eq!(choose(record, &[], 0, 0), Err(refused));
}

/// A step on an allowed record is the ledger's and leaves an allowed record, and what holds it back is what the ledger says.
fn assert_step(record: &Record, rate: u64, length: u64) -> bool {
    assert_eq!(record.fault(), None);
    let mut next = record.clone();
    let mut ledger = ledger_of(record);
    assert_eq!(limiting(record, rate, length), Ok(calls::limiting(&ledger, rate, length)));
    let outcome = step(&mut next, rate, length);
    assert_eq!(outcome, ledger.step(rate, length));
    assert_eq!(check_state(&next, &ledger), Ok(()));
    outcome.is_ok()
}

#[test]
fn spoilt_records() {
    let mut random = Random::new(21);
    let (mut refused, mut allowed) = (0, 0);
    for _ in 0..6000 {
        let mut record = if random.once_in(2) { sample() } else { bore_k::record() };
        step(&mut record, 1000, 20).unwrap();
        for _ in 0..random.between(1, 3) {
            spoil(&mut random, &mut record);
        }
        if record.fault().is_some() {
            assert_refused(&record);
            refused += 1;
        } else {
            assert_step(&record, random.between(0, 10_000), random.between(1, 100));
            allowed += 1;
        }
    }
    assert!(refused > 3000 && allowed > 300, "{refused} refused, {allowed} allowed");
}

/// Any coefficients and losses within their limits, and a mark that goes with these: as deep as the deepest place, as 1000×p, or between. The
/// C below layer 1 goes with the scenario's numbers, and any Kv_1 above 0 with that C.
pub fn fill_at_random(random: &mut Random, record: &mut Record) {
    let most_c = random.spread(1, 1_000_000_000_000_000);
    let most_s = random.spread(1, 1_000_000_000_000_000_000);
    let (intake, bottom) = (1000 * record.intake_depth, 1000 * record.thickness[0]);
    let depth = random.spread(1, intake);
    let mut left = 4_000_000_000_000_000_000u64;
    let mut loss = |random: &mut Random, storage: u64, bound: u64| {
        let drawdown = random.between(0, depth.min(bound));
        let loss = ((u128::from(drawdown) * u128::from(storage) / 1_000_000) as u64).min(left);
        left -= loss;
        loss as i64
    };
    for layer in 1..=record.layers as usize {
        if record.screened[layer - 1] == 1 {
            record.well_c[layer - 1] = random.spread(0, most_c);
        }
    }
    if record.vertical[0] > 0 {
        record.vertical[0] = random.spread(1, 100_000_000);
    }
    let cells: Vec<_> = record.stored_cells().collect();
    for (layer, column) in cells {
        let at = slot(layer, column);
        record.across_c[at] = random.spread(0, most_c);
        if layer > 1 && (layer as u64) < record.layers {
            record.down_c[at] = random.spread(0, most_c);
        }
        record.cell_s[at] = random.spread(1, most_s);
        record.cell_loss[at] = loss(random, record.cell_s[at], if layer == 1 { bottom } else { depth });
    }
    record.well_loss = loss(random, record.well_s, depth);
    record.pumped = record.cell_loss.iter().sum::<i64>() as u64 + record.well_loss as u64;
    let cells = record.stored_cells().map(|(layer, column)| record.cell_drawdown(layer, column));
    let deepest = cells.chain([record.well_drawdown()]).max().expect("the well is a place");
    record.mark = random.one_of(&[deepest, depth, intake]) as i64;
}

#[test]
fn steps_on_any_allowed_record() {
    let mut random = Random::new(22);
    let scenarios = Scenarios::new(23);
    let mut taken = 0;
    for number in 0..1500 {
        let (outcome, mut record) = start(&scenarios.case(number).text);
        if outcome.is_err() || record.layers * record.columns > 100 {
            continue;
        }
        fill_at_random(&mut random, &mut record);
        let allowed = longest_step(&ledger_of(&record));
        let rate = random.spread(0, 10_000_000);
        taken += u32::from(assert_step(&record, rate, allowed));
        taken += u32::from(assert_step(&record, 0, allowed));
        assert!(!assert_step(&record, 0, allowed + 1));
    }
    assert!(taken > 100, "{taken} taken");
}
