//! The deepest mark (document 02, N1): bore K and the edges of the catalogue that are there for it, step by step, and random call lists on
//! records whose well has risen under its mark.

use crate::bore_k;
use crate::deep_cells::edge;
use crate::runs::check_list;
use crate::water_tables::run;
use reference_model::grid::Place;
use reference_model::listing::repeat;
use reference_model::readings::{budget, drawdown};
use reference_model::record::{start, Record};
use reference_model::refusal::Refusal;
use reference_model::step::step;
use reference_model::text::read;

const EDGES: [&str; 5] = ["k-marks", "mark-rate-drops", "mark-deeper-later", "mark-in-the-middle", "mark-refused-10"];

/// The mark by the budget reading, µm.
fn mark(record: &Record) -> u64 {
    budget(record).unwrap().mark as u64
}

/// D of the well, µm.
fn well(record: &Record) -> u64 {
    drawdown(record, Place::Well).unwrap()
}

/// An entry of an edge: what became of it, D of the well after each step taken, µm, and the mark after the entry.
struct Entry {
    outcome: Result<(), Refusal>,
    wells: Vec<u64>,
    mark: u64,
}

impl Entry {
    fn last(&self) -> u64 {
        self.wells[self.wells.len() - 1]
    }

    /// Whether the well rises in every step, its drawdown falling.
    fn rises(&self) -> bool {
        self.wells.windows(2).all(|pair| pair[1] < pair[0])
    }

    fn deepest(&self) -> u64 {
        self.wells.iter().copied().max().unwrap()
    }
}

/// The entries of an edge, step by step. After every step the mark is the greatest D that the well has had, and after the entry the record
/// is the one that the entry leaves when it is run at once.
fn entries(name: &str) -> Vec<Entry> {
    let text = edge(name);
    let mut record = start(&text).1;
    assert_eq!(mark(&record), 0);
    let mut deepest = 0;
    let mut entries = Vec::new();
    for (entry, at_once) in read(&text).unwrap().pumping.into_iter().zip(run(name)) {
        let mut wells = Vec::new();
        let outcome = (0..entry.repeats).try_for_each(|_| {
            let outcome = step(&mut record, entry.rate, entry.length);
            if outcome.is_ok() {
                wells.push(well(&record));
                deepest = deepest.max(well(&record));
            }
            assert_eq!(mark(&record), deepest, "{name}");
            outcome
        });
        assert_eq!((outcome, &record), (at_once.0, &at_once.1), "{name}");
        entries.push(Entry { outcome, wells, mark: deepest });
    }
    entries
}

/// The marks after the entries of an edge whose steps are all taken.
fn marks(entries: &[Entry]) -> Vec<u64> {
    assert!(entries.iter().all(|entry| entry.outcome.is_ok()));
    entries.iter().map(|entry| entry.mark).collect()
}

#[test]
fn marks_of_k() {
    let entries = entries("k-marks");
    assert_eq!(marks(&entries), [16_666, 33_015, 49_173, 49_173]);
    let wells: Vec<u64> = entries.iter().map(Entry::last).collect();
    assert_eq!(wells, [16_666, 33_015, 49_173, 48_503]);
}

#[test]
fn equal_steps_raise_the_mark_each() {
    for (steps, deepest) in [(0, 0), (1, 16_666), (2, 33_015), (3, 49_173)] {
        let mut k = bore_k::record();
        assert_eq!(repeat(&mut k, 1000, 500_000, steps), (Ok(()), steps));
        assert_eq!(mark(&k), deepest);
        // No step, and steps that are refused, leave it.
        assert_eq!(repeat(&mut k, 1000, 500_000, 0), (Ok(()), 0));
        assert_eq!(repeat(&mut k, 10_000_001, 500_000, 9), (Err(Refusal::Call), 0));
        assert_eq!(repeat(&mut k, 1000, 657_002, 9), (Err(Refusal::Stability), 0));
        assert_eq!(mark(&k), deepest);
    }
    // A mark that 14 refuses is left too, also where no step is asked.
    let mut k = bore_k::record();
    k.mark = -1;
    assert_eq!(repeat(&mut k, 1000, 500_000, 0), (Err(Refusal::Record), 0));
    assert_eq!(k.mark, -1);
}

#[test]
fn a_refused_text_has_no_mark() {
    let (outcome, record) = start(b"");
    assert_eq!((outcome, record.mark), (Err(Refusal::Line), 0));
    assert_eq!(record, Record::zero());
}

#[test]
fn a_well_pumped_less_rises_under_its_mark() {
    let entries = entries("mark-rate-drops");
    let deepest = entries[0].last();
    assert_eq!(marks(&entries), [deepest; 3]);
    assert!(entries[1].wells[0] < deepest && entries[1].rises());
    assert!(entries[2].wells[0] < entries[1].last() && entries[2].rises());
}

#[test]
fn a_well_pumped_more_passes_its_mark() {
    let entries = entries("mark-deeper-later");
    let marks = marks(&entries);
    assert_eq!(marks, [entries[0].last(), entries[0].last(), entries[2].last()]);
    // The last entry begins under the mark and passes it on its way.
    assert!(entries[1].rises() && entries[2].wells[0] < marks[1] && marks[1] < marks[2]);
}

#[test]
fn a_well_that_is_deepest_in_the_middle_of_an_entry() {
    let entries = entries("mark-in-the-middle");
    let marks = marks(&entries);
    let middle = &entries[1];
    assert!(middle.wells[0] < middle.deepest() && middle.last() < middle.deepest());
    assert_eq!(marks, [entries[0].last(), middle.deepest(), middle.deepest()]);
    assert!(marks[0] < marks[1]);
    // A mark of the entries' ends alone would be less, and less than a cell's drawdown.
    let ends = entries[0].last().max(middle.last());
    let record = &run("mark-in-the-middle")[1].1;
    let deepest_cell = record.stored_cells().map(|(layer, column)| record.cell_drawdown(layer, column)).max().unwrap();
    assert!(ends < deepest_cell && deepest_cell < marks[1], "{ends} {deepest_cell}");
}

#[test]
fn a_step_past_the_intake_leaves_the_mark() {
    let entries = entries("mark-refused-10");
    let outcomes: Vec<_> = entries.iter().map(|entry| entry.outcome).collect();
    assert_eq!(outcomes, [Err(Refusal::Intake), Ok(()), Ok(())]);
    let deepest = entries[0].last();
    assert!(entries.iter().all(|entry| entry.mark == deepest));
    // Only the last step of the entry is refused; with a deeper intake it would be taken, and the mark be over 1000×p of this one.
    let first = read(&edge("mark-refused-10")).unwrap().pumping[0];
    assert_eq!(entries[0].wells.len() as u64 + 1, first.repeats);
    let mut record = run("mark-refused-10")[0].1.clone();
    let intake = 1000 * record.intake_depth;
    record.intake_depth *= 2;
    assert_eq!(step(&mut record, first.rate, first.length), Ok(()));
    assert!(deepest <= intake && intake < mark(&record));
}

#[test]
fn call_lists_under_a_mark_agree_with_the_ledger() {
    for name in EDGES {
        for entries in 1..=read(&edge(name)).unwrap().pumping.len() {
            for seed in 0..8 {
                assert_eq!(check_list(&edge(name), entries, seed, None), Ok(()), "{name} after {entries}, list {seed}");
            }
        }
    }
}
