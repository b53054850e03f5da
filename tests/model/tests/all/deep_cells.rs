//! The list of deep cells: a record made by hand, and the edges of the catalogue whose cells tie.

use crate::calls;
use crate::records::sample;
use reference_model::grid::slot;
use reference_model::ledger::Ledger;
use reference_model::listing::run_entry;
use reference_model::readings::deep_cells;
use reference_model::record::{start, Record};
use reference_model::refusal::Refusal;
use reference_model::scenarios::Scenarios;
use reference_model::text::{read, Entry};

/// Losses of the sample's cells, nl, by layer and column. A µm is 1000 nl, but in layer 4, column 2 a million, so that the drawdowns are
/// 0 5 0 5, 5 5 1 0, 9 0 0 0 and 0 3 9 1.
const LOSSES: [[i64; 4]; 4] =
    [[0, 5000, 0, 5999], [5999, 5001, 1999, 0], [9000, 0, 0, 999], [999, 3_000_000, 9500, 1000]];

/// The sample with these losses, and the mark at the deepest.
fn by_hand() -> Record {
    let mut record = sample();
    for (layer, column) in record.stored_cells() {
        let at = slot(layer, column);
        record.cell_s[at] = if (layer, column) == (4, 2) { 1_000_000_000_000 } else { 1_000_000_000 };
        record.cell_loss[at] = LOSSES[layer - 1][column - 1];
    }
    record.pumped = LOSSES.as_flattened().iter().sum::<i64>() as u64;
    record.mark = 9;
    assert_eq!(record.fault(), None);
    record
}

/// The list for a threshold is this one, in any lent list that is long enough; in one that is a slot too short nothing is written.
fn assert_list(record: &Record, threshold: u64, codes: &[u64]) {
    let count = codes.len();
    for more in [0, 1, 30] {
        let lent: Vec<u64> = (0..count + more).map(|index| 7 + index as u64).collect();
        let mut list = lent.clone();
        assert_eq!(deep_cells(record, threshold, &mut list), Ok(count), "threshold {threshold}");
        assert_eq!((&list[..count], &list[count..]), (codes, &lent[count..]), "threshold {threshold}");
    }
    if count > 0 {
        let mut list = vec![7; count - 1];
        assert_eq!(deep_cells(record, threshold, &mut list), Err(Refusal::Buffer), "threshold {threshold}");
        assert_eq!(list, vec![7; count - 1]);
    }
}

#[test]
fn deepest_first_then_by_layer_and_column() {
    let record = by_hand();
    // 403 has lost more than 301, 104 and 201 more than 102 and 202, and 402 the most of all.
    let codes = [301, 403, 102, 104, 201, 202, 402, 203, 404];
    for (threshold, count) in [(0, 9), (1, 7), (2, 7), (3, 6), (4, 6), (5, 2), (8, 2), (9, 0), (u64::MAX, 0)] {
        assert_list(&record, threshold, &codes[..count]);
    }
    assert_list(&sample(), 0, &[]);
}

#[test]
fn a_record_is_judged_before_the_list() {
    let mut record = by_hand();
    record.pumped += 1;
    let mut list = [7; 8];
    assert_eq!(deep_cells(&record, 0, &mut list), Err(Refusal::Record));
    assert_eq!(list, [7; 8]);
}

/// The edges of the catalogue that are there for this list.
const EDGES: [&str; 4] = ["equal-layers", "equal-layers-coupled", "ties-in-um", "all-deep"];

/// The text of an edge.
pub fn edge(name: &str) -> Vec<u8> {
    let scenarios = Scenarios::new(0);
    let mut edges = (0..scenarios.whole()).step_by(2).map(|number| scenarios.case(number));
    edges.find(|case| case.name == name).expect("an edge of this name").text
}

/// The pumping entries of a text, whose steps are all taken, each with the record after it.
fn run_whole(text: &[u8]) -> Vec<(Entry, Record)> {
    let (outcome, mut record) = start(text);
    assert_eq!(outcome, Ok(()));
    let mut run = |entry| {
        assert_eq!(run_entry(&mut record, entry), Ok(()));
        (entry, record.clone())
    };
    read(text).unwrap().pumping.into_iter().map(&mut run).collect()
}

#[test]
fn lists_of_the_edges_are_the_ledgers() {
    for text in EDGES.map(edge) {
        let mut ledger = Ledger::start(&text).unwrap();
        for (entry, record) in run_whole(&text) {
            (0..entry.repeats).for_each(|_| ledger.step(entry.rate, entry.length).unwrap());
            for threshold in [0, 1, 2, 5, 100, 10_000, 1_000_000] {
                let list = vec![7; ledger.places.len()];
                assert_eq!(calls::deep_cells(&record, &ledger, threshold, list), Ok(()));
            }
        }
    }
}

/// A cell of a list: its code, drawdown (µm), loss (nl) and S (nl per m).
struct Deep {
    code: u64,
    depth: u64,
    loss: i64,
    storage: u64,
}

/// The cells of a record that are deeper than 0, as they are listed.
fn whole_list(record: &Record) -> Vec<Deep> {
    let mut codes = vec![0; 980];
    let count = deep_cells(record, 0, &mut codes).unwrap();
    let deep = |&code: &u64| {
        let (layer, column) = ((code / 100) as usize, (code % 100) as usize);
        let (depth, at) = (record.cell_drawdown(layer, column), slot(layer, column));
        Deep { code, depth, loss: record.cell_loss[at], storage: record.cell_s[at] }
    };
    codes[..count].iter().map(deep).collect()
}

/// The whole list after each entry of an edge.
fn lists_of_edge(name: &str) -> Vec<Vec<Deep>> {
    run_whole(&edge(name)).iter().map(|(_, record)| whole_list(record)).collect()
}

/// The whole list after the last entry of an edge.
fn last_list_of_edge(name: &str) -> Vec<Deep> {
    lists_of_edge(name).pop().expect("the edge has an entry")
}

/// How many cells of a list have the drawdown of the one before them.
fn ties(list: &[Deep]) -> usize {
    list.windows(2).filter(|pair| pair[0].depth == pair[1].depth).count()
}

/// Whether the codes of a list rise, as they would if drawdown did not count.
fn codes_rise(list: &[Deep]) -> bool {
    list.windows(2).all(|pair| pair[0].code < pair[1].code)
}

#[test]
fn equal_layers_tie() {
    let list = last_list_of_edge("equal-layers");
    assert_eq!(list.len(), 19 * 49);
    assert!(ties(&list) >= 18 * 49, "{} ties", ties(&list));
    assert!(!codes_rise(&list));
}

#[test]
fn coupled_layers_and_their_columns_change_places() {
    let lists = lists_of_edge("equal-layers-coupled");
    assert!(lists.iter().all(|list| list.len() == 66 && ties(list) >= 10 && !codes_rise(list)));
    let codes = |list: &[Deep], some: fn(u64) -> bool| -> Vec<u64> {
        list.iter().map(|deep| deep.code).filter(|&code| some(code)).collect()
    };
    for pair in lists.windows(2) {
        assert_ne!(codes(&pair[0], |code| code / 100 == 3), codes(&pair[1], |code| code / 100 == 3), "layer 3");
        assert_ne!(codes(&pair[0], |code| code % 100 == 1), codes(&pair[1], |code| code % 100 == 1), "column 1");
    }
}

#[test]
fn ties_in_um_are_none_in_nl() {
    let list = last_list_of_edge("ties-in-um");
    let tie = |one: &Deep, next: &Deep| one.depth == next.depth && one.storage == next.storage;
    let more_lost =
        |(at, one): (usize, &Deep)| list[at + 1..].iter().filter(|next| tie(one, next) && one.loss < next.loss).count();
    let pairs: usize = list.iter().enumerate().map(more_lost).sum();
    assert!(pairs >= 10, "{pairs} pairs of equal S and drawdown whose second cell has lost more");
    assert!(list[0].depth < 10, "{} µm", list[0].depth);
    assert!(!codes_rise(&list));
}

#[test]
fn all_cells_are_deep() {
    let list = last_list_of_edge("all-deep");
    assert_eq!(list.len(), 980);
    assert!(!codes_rise(&list));
}
