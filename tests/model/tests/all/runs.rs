//! Random call lists and whole pumping lists against the ledger.

use crate::bore_k::equal;
use crate::calls::{check_state, deep_cells, make, set_loss, Drawer};
use reference_model::grid::Place;
use reference_model::ledger::Ledger;
use reference_model::listing::run_entry;
use reference_model::mistake::Mistake;
use reference_model::random::Random;
use reference_model::readings;
use reference_model::record::{start, Record};
use reference_model::scenarios::{grid_size, Scenarios};
use reference_model::text::{read, Entry, Scenario};
use std::collections::BTreeSet;

/// The accepted texts among a seed's first ones, every edge among them.
fn accepted_texts(seed: u64) -> Vec<Vec<u8>> {
    let scenarios = Scenarios::new(seed);
    (0..scenarios.whole()).map(|number| scenarios.case(number).text).filter(|text| read(text).is_ok()).collect()
}

/// The longest step that 8 allows by the ledger, µs.
pub fn longest_step(ledger: &Ledger) -> u64 {
    let (mut allowed, mut refused) = (0, 1_000_000_001);
    while refused - allowed > 1 {
        let middle = (allowed + refused) / 2;
        if ledger.stable(middle) {
            allowed = middle;
        } else {
            refused = middle;
        }
    }
    allowed
}

/// An accepted text with not too many places, by its number. 5 and the number of kinds have no common factor, so every kind has its turn.
fn text_for_calls(scenarios: &Scenarios, number: u64) -> Vec<u8> {
    let fits = |scenario: &Scenario| scenario.site.layers.len() * scenario.site.columns() <= 120;
    let mut texts = (0..).map(|next| scenarios.case(2 * (next + 5 * number) + 1).text);
    texts.find(|text| read(text).is_ok_and(|scenario| fits(&scenario))).expect("texts do not end")
}

/// One random list of calls on one random scenario, the steps made with a mistake or none.
pub fn check_calls(scenarios: &Scenarios, number: u64, mistake: Option<Mistake>) -> Result<(), String> {
    check_list(&text_for_calls(scenarios, number), 0, number, mistake)
}

/// A random list of calls on a text, after so many of its entries, the steps made with a mistake or none.
/// After each call the state is the ledger's, and so is the storage loss of a random set.
pub fn check_list(text: &[u8], entries: usize, seed: u64, mistake: Option<Mistake>) -> Result<(), String> {
    let scenario = read(text).expect("the text is accepted");
    let mut ledger = Ledger::start(text).expect("the text is accepted");
    let at_start = start(text).1;
    let mut record = at_start.clone();
    for &entry in &scenario.pumping[..entries] {
        run_both(&mut record, &mut ledger, entry);
    }
    let longest = longest_step(&ledger);
    let mut drawer = Drawer { random: Random::new(seed), scenario: &scenario, longest };
    check_state(&record, &ledger)?;
    for _ in 0..60 {
        let call = drawer.call(&record, &at_start);
        make(call, &mut record, &mut ledger, &scenario.site, mistake)?;
        check_state(&record, &ledger)?;
        let set = drawer.bytes(ledger.places.len());
        equal("set's budget", readings::storage_loss(&record, &set), set_loss(&ledger, &scenario.site, &set))?;
    }
    Ok(())
}

/// Runs an entry on a record and in the ledger, which must agree.
fn run_both(record: &mut Record, ledger: &mut Ledger, entry: Entry) {
    let ledgers = (0..entry.repeats).try_for_each(|_| ledger.step(entry.rate, entry.length));
    assert_eq!(run_entry(record, entry), ledgers);
    assert_eq!(check_state(record, ledger), Ok(()));
}

#[test]
fn call_lists_agree_with_the_ledger() {
    let scenarios = Scenarios::new(3);
    for number in 0..150 {
        assert_eq!(check_calls(&scenarios, number, None), Ok(()), "list {number}");
    }
}

#[test]
fn whole_runs_agree_with_the_ledger() {
    for text in accepted_texts(11) {
        let scenario = read(&text).expect("the text is accepted");
        let places = scenario.site.layers.len() * scenario.site.columns();
        let steps: u64 = scenario.pumping.iter().map(|entry| entry.repeats).sum();
        if places as u64 * steps > 20_000 {
            continue;
        }
        let mut record = start(&text).1;
        let mut ledger = Ledger::start(&text).expect("the text is accepted");
        for entry in scenario.pumping {
            run_both(&mut record, &mut ledger, entry);
            for threshold in [0, record.well_drawdown() / 1000, record.well_drawdown() / 30] {
                assert_eq!(deep_cells(&record, &ledger, threshold, vec![7; places]), Ok(()));
            }
        }
        assert!(ledger.deepest_well >= ledger.drawdown(Place::Well));
    }
}

#[test]
fn scenarios_start_as_foretold() {
    for seed in [1, 2] {
        let scenarios = Scenarios::new(seed);
        for number in 0..scenarios.whole() {
            let case = scenarios.case(number);
            let outcome = start(&case.text).0.map_or_else(|refusal| refusal.number(), |()| 0);
            assert!(case.start.is_none_or(|foretold| foretold == outcome), "{} gives {outcome}", case.name);
            assert_eq!(scenarios.case(number), case);
        }
    }
}

#[test]
fn scenarios_take_every_size() {
    let sizes: BTreeSet<_> = (0..931).map(|turn| grid_size(9, turn)).collect();
    let (least, most) = (sizes.first().copied(), sizes.last().copied());
    assert_eq!((sizes.len(), least, most), (19 * 49, Some((2, 2)), Some((20, 50))));
    let scenarios = Scenarios::new(9);
    let grids: Vec<String> =
        (0..100).map(|number| scenarios.case(number).name).filter(|name| name.starts_with("grid-")).collect();
    for (turn, name) in grids.iter().enumerate() {
        let (layers, columns) = grid_size(9, turn as u64);
        assert_eq!(*name, format!("grid-{layers}x{columns}"));
    }
    assert!(grids.len() > 15);
}
