//! Same means same water (document 02, N10): every number of two records counts, and the ledger tells the same.

use crate::bore_k;
use crate::calls::{same, Drawer};
use crate::garbage::slots;
use crate::records::sample;
use crate::runs::longest_step;
use reference_model::grid::{cell, Place};
use reference_model::ledger::Ledger;
use reference_model::random::Random;
use reference_model::readings;
use reference_model::record::{start, Record};
use reference_model::refusal::Refusal;
use reference_model::scenarios::Scenarios;
use reference_model::step::step;
use reference_model::text::read;

/// Bore K as its first entry leaves it.
fn k_pumped() -> Record {
    let mut record = bore_k::record();
    for _ in 0..2 {
        assert_eq!(step(&mut record, 1000, 500_000), Ok(()));
    }
    record
}

/// Both ways the same answer, and of each record and itself yes or 14.
fn answer(one: &Record, other: &Record) -> Result<bool, Refusal> {
    let answer = readings::same(one, other);
    assert_eq!(readings::same(other, one), answer);
    for record in [one, other] {
        assert_eq!(readings::same(record, record), record.judge().map(|()| true));
    }
    answer
}

/// What document 01 called the same, of two records that 14 lets pass: equal layer and column counts, and equal drawdowns everywhere.
fn same_drawdowns(one: &Record, other: &Record) -> bool {
    let counts = |record: &Record| (record.layers, record.columns);
    let equal = |place| readings::drawdown(one, place) == readings::drawdown(other, place);
    let mut cells = one.stored_cells().map(|(layer, column)| cell(layer, column));
    counts(one) == counts(other) && equal(Place::Well) && cells.all(equal)
}

/// How many slots there are, those of lists one by one.
fn slot_count(record: &Record) -> usize {
    let mut record = record.clone();
    let (whole, signed) = slots(&mut record);
    whole.iter().map(|slots| slots.len()).sum::<usize>() + signed.iter().map(|slots| slots.len()).sum::<usize>()
}

/// The record with 1 more, or 1 less, in one slot.
fn with_other_slot(record: &Record, index: usize, more: bool) -> Record {
    let mut other = record.clone();
    let (whole, signed) = slots(&mut other);
    let mut left = index;
    for slots in whole {
        if left < slots.len() {
            slots[left] = if more { slots[left].wrapping_add(1) } else { slots[left].wrapping_sub(1) };
            return other;
        }
        left -= slots.len();
    }
    for slots in signed {
        if left < slots.len() {
            slots[left] += if more { 1 } else { -1 };
            return other;
        }
        left -= slots.len();
    }
    unreachable!("there is no slot {index}");
}

/// Of bore K, and of the sample of 14's tests, which has more numbers that 14 leaves free.
#[test]
fn one_number_makes_another_record() {
    for (record, free) in [(k_pumped(), 29), (sample(), 124)] {
        let mut others = 0;
        for index in 0..slot_count(&record) {
            for more in [true, false] {
                match answer(&record, &with_other_slot(&record, index, more)) {
                    Err(refusal) => assert_eq!(refusal, Refusal::Record),
                    Ok(same) => {
                        assert!(!same, "slot {index}");
                        others += 1;
                    }
                }
            }
        }
        assert_eq!((slot_count(&record), others), (4185, free));
    }
}

/// The planner's complaint: two records that are equal in µm, one nl of the well being layer 1's in one of them, and that part ways.
#[test]
fn equal_drawdowns_part_ways() {
    let mut one = k_pumped();
    let mut other = one.clone();
    (other.well_loss, other.cell_loss[0]) = (other.well_loss - 1, other.cell_loss[0] + 1);
    assert_eq!((same_drawdowns(&one, &other), answer(&one, &other)), (true, Ok(false)));
    let parted = (1..).find(|_| {
        assert_eq!((step(&mut one, 10, 500_000), step(&mut other, 10, 500_000)), (Ok(()), Ok(())));
        !same_drawdowns(&one, &other)
    });
    assert_eq!(parted, Some(2354));
}

/// What same answers of a run's record and another, and what the ledger has for it: yes, no, no although every drawdown is equal, and 14.
#[test]
fn the_ledger_tells_the_same() {
    let scenarios = Scenarios::new(5);
    let (mut yes, mut no, mut no_by_nl, mut refused) = (0, 0, 0, 0);
    let texts = (0..).map(|number| scenarios.case(2 * number + 1).text).filter(|text| read(text).is_ok());
    for (number, text) in texts.take(60).enumerate() {
        let scenario = read(&text).expect("the text is accepted");
        let at_start = start(&text).1;
        let (mut record, mut ledger) = (at_start.clone(), Ledger::start(&text).expect("the text is accepted"));
        let longest = longest_step(&ledger);
        let mut drawer = Drawer { random: Random::new(number as u64), scenario: &scenario, longest };
        let rate = scenario.pumping.first().map_or(1000, |entry| entry.rate);
        for _ in 0..3 {
            assert_eq!(step(&mut record, rate, longest), ledger.step(rate, longest));
            for _ in 0..20 {
                let other = drawer.other(&record, &at_start);
                let found = answer(&record, &other);
                assert_eq!(found, same(&ledger, &scenario.site, &other));
                match found {
                    Ok(true) => yes += 1,
                    Ok(false) if same_drawdowns(&record, &other) => no_by_nl += 1,
                    Ok(false) => no += 1,
                    Err(_) => refused += 1,
                }
            }
        }
    }
    assert!(yes >= 500 && no >= 900 && no_by_nl >= 1000 && refused >= 1000, "{yes} {no} {no_by_nl} {refused}");
}
