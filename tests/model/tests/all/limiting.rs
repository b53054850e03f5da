//! What holds a step back (document 02, N12): bore K, the edges of the catalogue that show it, what must hold of every answer, and wrong rules,
//! each of which the stored texts find out.

use crate::bore_k;
use crate::calls::{self, Drawer};
use crate::deep_cells::edge;
use crate::garbage::{fill_at_random, ledger_of};
use crate::runs::longest_step;
use crate::stored::stored_cases;
use reference_model::grid::{cell, Place};
use reference_model::ledger::{Face, Ledger, Stored};
use reference_model::limiting::{limiting, longest_passing, Limiting};
use reference_model::limits;
use reference_model::listing::run_entry;
use reference_model::random::Random;
use reference_model::record::{start, Record};
use reference_model::refusal::Refusal;
use reference_model::scenarios::Scenarios;
use reference_model::step::{bears, judge_stability, places, step, table_after, top_vertical_in_use};
use reference_model::text::read;
use std::collections::BTreeMap;

const GREATEST: u64 = *limits::STEP_LENGTH.end();

/// A record of a run, and the rate (ml/s) and length (µs) that it is asked with.
struct State {
    record: Record,
    rate: u64,
    length: u64,
}

/// The states of an accepted text that `model readings` prints: the start, and after each entry.
fn states(text: &[u8]) -> Vec<State> {
    let mut record = start(text).1;
    let mut states = vec![State { record: record.clone(), rate: 0, length: 1 }];
    for entry in read(text).unwrap().pumping {
        let _ = run_entry(&mut record, entry);
        states.push(State { record: record.clone(), rate: entry.rate, length: entry.length });
    }
    states
}

/// The steps that it asks for: of the rate and the length, the greatest length, what 8 allows and 1 µs more, and the greatest rate.
fn asked(state: &State) -> Vec<(u64, u64)> {
    let mut steps = vec![(state.rate, state.length), (state.rate, GREATEST), (limits::RATE, state.length)];
    if let Ok(Limiting::Stability(_, longest)) = limiting(&state.record, state.rate, GREATEST) {
        steps.extend([(state.rate, longest + 1), (state.rate, longest), (limits::RATE, longest)]);
    }
    steps
}

/// The number of the refusal that an answer is for, 0 for nothing of this kind.
fn number(held: Limiting) -> u64 {
    match held {
        Limiting::Stability(..) => 8,
        Limiting::Intake(_) => 10,
        Limiting::WaterTable(_) => 11,
        Limiting::Nothing => 0,
    }
}

/// The answer for a step. It must be what the ledger says and have the number that the step would be refused with, if that is 8, 10 or 11, and
/// the place must be the true reason.
fn checked(record: &Record, rate: u64, length: u64) -> Limiting {
    let held = limiting(record, rate, length).unwrap();
    let ledger = ledger_of(record);
    assert_eq!(held, calls::limiting(&ledger, rate, length), "{rate} {length}");
    let refused = step(&mut record.clone(), rate, length).map_or_else(Refusal::number, |()| 0);
    assert_eq!(number(held), if [8, 10, 11].contains(&refused) { refused } else { 0 }, "{rate} {length}");
    match held {
        Limiting::Stability(place, longest) => {
            assert!(longest < length);
            check_longest(record, &ledger, place, longest);
        }
        Limiting::Intake(place) => {
            assert_eq!(place, Place::Well);
            assert!(ledger.worked(rate, length).drawdown(place) > 1000 * ledger.intake_depth);
        }
        Limiting::WaterTable(place) => check_deepest(&ledger.worked(rate, length), place),
        Limiting::Nothing => (),
    }
    held
}

/// The longest length passes 8 on the record and at the place, and 1 µs more does not; no place bears less, those before this one bear more,
/// and the length is this place's quotient of 10^6 × S by the sum of C.
fn check_longest(record: &Record, ledger: &Ledger, place: Place, longest: u64) {
    let passes = |length| judge_stability(record, length, None).is_ok();
    assert_eq!((passes(longest), passes(longest + 1)), (true, false));
    let bears = |place, length| bears(record, place, length, None);
    assert_eq!((bears(place, longest), bears(place, longest + 1)), (true, false));
    for other in places(record) {
        assert!(bears(other, longest), "{other:?}");
        assert!(other >= place || bears(other, longest + 1), "{other:?}");
    }
    let quotient = 1_000_000 * ledger.places[&place].storage / ledger.conductance_sums()[&place];
    assert_eq!(i128::from(longest), quotient);
}

/// After the step worked the place is past the bottom of layer 1, no column is deeper, and those inside it are less deep.
fn check_deepest(after: &Ledger, place: Place) {
    let depth = after.drawdown(place);
    assert!(depth > 1000 * after.top_thickness);
    for &other in after.places.keys().filter(|place| matches!(place, Place::Cell { layer: 1, .. })) {
        assert!(after.drawdown(other) <= depth && (other >= place || after.drawdown(other) < depth), "{other:?}");
    }
}

/// The answers for the steps of a rate and lengths on a record.
fn answers<const N: usize>(record: &Record, steps: [(u64, u64); N]) -> [Limiting; N] {
    steps.map(|(rate, length)| checked(record, rate, length))
}

#[test]
fn bore_k_is_held_back_in_layer_2() {
    let k = bore_k::record();
    let too_long = Limiting::Stability(cell(2, 1), 657_001);
    assert_eq!(
        answers(&k, [(1000, 657_001), (1000, 657_002), (0, 657_002), (1000, GREATEST)]),
        [Limiting::Nothing, too_long, too_long, too_long]
    );
    // A step that 7 refuses has nothing of this kind, whatever 8 would say of it: 7 comes before.
    let steps = [(10_000_001, 657_002), (u64::MAX, GREATEST), (0, 0), (0, GREATEST + 1), (u64::MAX, u64::MAX)];
    assert_eq!(answers(&k, steps), [Limiting::Nothing; 5]);
    let mut shallow = start(&bore_k::changed(bore_k::INTAKE, 16)).1;
    let past = Limiting::Intake(Place::Well);
    assert_eq!(
        answers(&shallow, [(1000, 500_000), (1000, 657_002), (900, 500_000)]),
        [past, too_long, Limiting::Nothing]
    );
    // What 9 refuses is nothing of this kind, though 10 would refuse it too; 8 comes before 9.
    (shallow.pumped, shallow.inflow) = (limits::TOTAL, limits::TOTAL as i64);
    assert_eq!(step(&mut shallow.clone(), 1000, 500_000), Err(Refusal::Total));
    assert_eq!(answers(&shallow, [(1000, 500_000), (1000, 657_002)]), [Limiting::Nothing, too_long]);
    shallow.pumped += 1;
    assert_eq!(limiting(&shallow, 1000, 500_000), Err(Refusal::Record));
}

/// The answers of an edge, at its start and after its entries, for each state's rate and one length, or its own where that is 0.
fn of_edge(name: &str, length: u64) -> Vec<Limiting> {
    let own = |state: &State| if length == 0 { state.length } else { length };
    states(&edge(name)).iter().map(|state| checked(&state.record, state.rate, own(state))).collect()
}

/// The longest step that 8 allows at each place of an edge at its start, the well first, then by layer and column, by trying lengths.
fn longest_of_edge(name: &str) -> (u64, Vec<Vec<u64>>) {
    let record = states(&edge(name)).swap_remove(0).record;
    let at = |place| longest_passing(|length| bears(&record, place, length, None));
    let row = |layer| (1..record.columns as usize).map(|column| at(cell(layer, column))).collect();
    (at(Place::Well), (1..=record.layers as usize).map(row).collect())
}

#[test]
fn edges_that_tie_in_whole_us() {
    // Layers 2 to 4 allow 3 µs everywhere, and a fraction that is least in layer 3, column 2.
    let (_, rows) = longest_of_edge("limit-ties-row");
    assert!(rows[1..4].iter().flatten().all(|&longest| longest == 3), "{rows:?}");
    let record = states(&edge("limit-ties-row")).swap_remove(0).record;
    let least = WRONG_FOR_8[0].1(&borne(&record));
    assert_eq!((WRONG_FOR_8[0].0, least), ("fractions compared", Some((cell(3, 2), 3))));
    assert_eq!(of_edge("limit-ties-row", GREATEST), [Limiting::Stability(cell(2, 1), 3); 4]);
    // The well allows 3 too, with a larger fraction than any cell's.
    let (well, rows) = longest_of_edge("limit-ties-well");
    assert_eq!((well, rows[2][1]), (3, 3));
    let record = states(&edge("limit-ties-well")).swap_remove(0).record;
    assert_eq!(WRONG_FOR_8[0].1(&borne(&record)), Some((cell(3, 2), 3)));
    assert_eq!(of_edge("limit-ties-well", GREATEST), [Limiting::Stability(Place::Well, 3); 4]);
    let outcomes = [Limiting::Nothing, Limiting::Nothing, Limiting::Stability(Place::Well, 3), Limiting::Nothing];
    assert_eq!(of_edge("limit-ties-well", 0), outcomes);
}

/// One place allows less than every other.
#[test]
fn edges_with_one_shortest_place() {
    for (name, place) in
        [("limit-well", Place::Well), ("limit-in-the-middle", cell(3, 2)), ("limit-last-cell", cell(4, 5))]
    {
        let (well, rows) = longest_of_edge(name);
        let longest: Vec<u64> = rows.into_iter().flatten().chain([well]).collect();
        assert_eq!(longest.iter().filter(|&&longest| longest <= 2).count(), 1, "{name}");
        assert_eq!(of_edge(name, GREATEST), [Limiting::Stability(place, 2); 4], "{name}");
    }
    let last = states(&edge("limit-last-cell")).swap_remove(0).record;
    assert_eq!((last.layers, last.columns), (4, 6));
}

#[test]
fn edges_that_allow_no_step_at_all() {
    for (name, place) in [("limit-longest-0", cell(3, 1)), ("limit-longest-0-well", Place::Well)] {
        for length in [1, 2, GREATEST] {
            assert_eq!(of_edge(name, length), [Limiting::Stability(place, 0); 3], "{name}");
        }
        let record = states(&edge(name)).swap_remove(0).record;
        assert_eq!(answers(&record, [(0, 0), (limits::RATE, 0)]), [Limiting::Nothing; 2]);
    }
}

#[test]
fn edges_without_a_limit_and_with_great_ones() {
    // No C: nothing at rest, whatever the length, and 10 alone when pumped.
    let (nothing, past) = (Limiting::Nothing, Limiting::Intake(Place::Well));
    assert_eq!(of_edge("limit-no-flow", 0), [nothing, nothing, nothing, past]);
    let record = states(&edge("limit-no-flow")).swap_remove(3).record;
    assert!(borne(&record).iter().all(|borne| borne.sum() == 0));
    assert_eq!(answers(&record, [(0, 1), (0, GREATEST)]), [nothing; 2]);
    // The greatest length that 7 allows passes 8, and where the longest is 1 µs less it does not.
    assert_eq!(of_edge("limit-greatest", GREATEST), [nothing; 3]);
    assert_eq!(of_edge("limit-under-greatest", GREATEST), [Limiting::Stability(Place::Well, GREATEST - 1); 3]);
    for (name, least) in [("limit-greatest", GREATEST.into()), ("limit-under-greatest", i128::from(GREATEST) - 1)] {
        let places = borne(&states(&edge(name)).swap_remove(0).record);
        assert_eq!(first_least(places.iter(), Borne::sum), Some((Place::Well, least)));
    }
    // A quotient over a word, whose low word would be the least, and an S with no C beside the place that sets the limit.
    let record = states(&edge("limit-over-a-word")).swap_remove(0).record;
    let places = borne(&record);
    assert_eq!(1_000_000 * places[1].storage / places[1].sum(), (1 << 64) + 21_323_384);
    assert_eq!((places[2].storage, places[2].sum()), (33, 0));
    assert_eq!(of_edge("limit-over-a-word", GREATEST), [Limiting::Stability(cell(3, 1), 495_650_000); 4]);
}

/// The last state of an edge, with the step that it is asked of.
fn last_state(name: &str) -> State {
    states(&edge(name)).pop().expect("there is a start")
}

/// D of the cells of layer 1 at the start of that step and after it, µm, and what holds it back.
fn tables_of(state: &State) -> (Vec<u64>, Vec<i128>, Limiting) {
    let record = &state.record;
    let before = (1..record.columns as usize).map(|column| record.cell_drawdown(1, column)).collect();
    (before, table_after(record, state.rate, state.length), checked(record, state.rate, state.length))
}

#[test]
fn edges_past_the_bottom() {
    let at = |column| Limiting::WaterTable(cell(1, column));
    for (name, rate, before, after, column) in [
        ("limit-outer-table", 6, [0, 987], [0, 1028], 2),
        ("limit-outer-table-at-rest", 0, [2425, 2994], [2470, 3045], 2),
        ("limit-equal-tables", 0, [0, 0], [1327, 1327], 1),
        ("limit-outer-overtakes", 0, [995, 979], [995, 1017], 2),
        ("limit-inner-overtakes", 0, [1327, 1657], [2654, 1808], 1),
        ("limit-both-tables", 0, [0, 985], [1170, 1174], 2),
    ] {
        let state = last_state(name);
        assert_eq!((state.rate, tables_of(&state)), (rate, (before.to_vec(), after.to_vec(), at(column))), "{name}");
    }
    // The longer step of the same record is held back in the other column.
    let record = last_state("limit-outer-overtakes").record;
    assert_eq!(answers(&record, [(0, 15_115), (0, 16_123), (0, 20_154)]), [at(2), at(2), at(1)]);
    assert_eq!(last_state("table-past-bottom-at-rest").rate, 0);
    assert_eq!(tables_of(&last_state("table-past-bottom-at-rest")).2, at(1));
}

#[test]
fn edges_past_the_intake() {
    let past = Limiting::Intake(Place::Well);
    // 10 alone.
    assert_eq!(of_edge("k-intake-16", 500_000)[1], past);
    // Both 10 and 11: the well.
    let state = last_state("limit-intake-and-bottom");
    let (before, after, held) = tables_of(&state);
    assert_eq!((before, held), (vec![4000], past));
    assert!(after[0] > 4000);
    assert_eq!(answers(&state.record, [(1000, state.length)]), [Limiting::WaterTable(cell(1, 1))]);
}

/// The states of the stored texts and the steps that are printed of them; of a text with many entries the first states.
#[test]
fn stored_texts_hold_to_every_answer() {
    let mut seen: BTreeMap<u64, u32> = BTreeMap::new();
    for case in stored_cases().iter().filter(|case| read(&case.text).is_ok()) {
        for state in states(&case.text).iter().take(12) {
            for (rate, length) in asked(state) {
                *seen.entry(number(checked(&state.record, rate, length))).or_default() += 1;
            }
        }
    }
    assert!([0, 8, 10, 11].iter().all(|number| seen[number] >= 50), "{seen:?}");
}

/// Random records, with coefficients and losses of their own, and random steps.
#[test]
fn random_records_hold_to_every_answer() {
    let mut random = Random::new(31);
    let scenarios = Scenarios::new(32);
    let mut seen: BTreeMap<u64, u32> = BTreeMap::new();
    for number in 0..3000 {
        let text = scenarios.case(number).text;
        let (outcome, mut record) = start(&text);
        if outcome.is_err() || record.layers * record.columns > 100 {
            continue;
        }
        fill_at_random(&mut random, &mut record);
        let longest = longest_step(&ledger_of(&record));
        let scenario = read(&text).unwrap();
        let mut drawer = Drawer { random: Random::new(number), scenario: &scenario, longest };
        for _ in 0..8 {
            let (rate, length) = drawer.step_not_taken();
            *seen.entry(self::number(checked(&record, rate, length))).or_default() += 1;
        }
    }
    let least = BTreeMap::from([(0, 5000), (8, 5000), (10, 100), (11, 10)]);
    assert!(least.iter().all(|(number, &least)| seen[number] >= least), "{seen:?}");
}

/// S of a place (nl per m), and the C of its faces (10^-12 m²/s) added up by kind: to the well, to a stored column, to the last column, and above and
/// below, as 8 uses them and as a step uses them.
struct Borne {
    place: Place,
    storage: i128,
    well: i128,
    across: i128,
    last: i128,
    vertical: i128,
    in_use: i128,
}

impl Borne {
    fn sum(&self) -> i128 {
        self.well + self.across + self.last + self.vertical
    }

    /// Adds a face of this place.
    fn add(&mut self, face: &Face, record: &Record) {
        let c = face.conductance;
        match (face.from, face.to) {
            (Place::Well, _) => self.well += c,
            (Place::Cell { layer, .. }, Place::Cell { layer: other, column }) if layer == other => {
                *(if column == record.columns { &mut self.last } else { &mut self.across }) += c;
            }
            (Place::Cell { layer: 1, column }, _) => {
                let column = column as usize;
                self.vertical += c;
                self.in_use += top_vertical_in_use(&record.site(), column, record.cell_drawdown(1, column).into());
            }
            _ => {
                self.vertical += c;
                self.in_use += c;
            }
        }
    }

    fn layer_and_column(&self) -> (u64, u64) {
        match self.place {
            Place::Well => (0, 0),
            Place::Cell { layer, column } => (layer, column),
        }
    }
}

/// What 8 sees of each place of a record, in their order.
fn borne(record: &Record) -> Vec<Borne> {
    let ledger = ledger_of(record);
    let at = |(&place, stored): (&Place, &Stored)| {
        (place, Borne { place, storage: stored.storage, well: 0, across: 0, last: 0, vertical: 0, in_use: 0 })
    };
    let mut places: BTreeMap<Place, Borne> = ledger.places.iter().map(at).collect();
    for face in &ledger.faces {
        for end in [face.from, face.to] {
            if let Some(borne) = places.get_mut(&end) {
                borne.add(face, record);
            }
        }
    }
    places.into_values().collect()
}

/// The first of the places with the least quotient of 10^6 × S by a sum, rounded down, and that; a place whose sum is 0 has none.
fn first_least<'a>(places: impl Iterator<Item = &'a Borne>, sum: impl Fn(&Borne) -> i128) -> Option<(Place, i128)> {
    let limited = places.filter(|borne| sum(borne) > 0);
    limited.map(|borne| (borne.place, 1_000_000 * borne.storage / sum(borne))).min_by_key(|&(_, longest)| longest)
}

/// The same of the places that pass a test.
fn first_least_of(places: &[Borne], test: impl Fn((u64, u64)) -> bool) -> Option<(Place, i128)> {
    first_least(places.iter().filter(|borne| test(borne.layer_and_column())), Borne::sum)
}

/// Place and longest step by a rule for 8.
type StepRule = fn(&[Borne]) -> Option<(Place, i128)>;

/// Rules that are not document 02's.
const WRONG_FOR_8: [(&str, StepRule); 18] = [
    ("fractions compared", |places| {
        let limited = places.iter().filter(|borne| borne.sum() > 0);
        let least = limited.min_by(|one, other| (one.storage * other.sum()).cmp(&(other.storage * one.sum())));
        least.map(|borne| (borne.place, 1_000_000 * borne.storage / borne.sum()))
    }),
    ("the last of equal ones", |places| first_least(places.iter().rev(), Borne::sum)),
    ("columns before layers", |places| {
        let mut by_column: Vec<&Borne> = places.iter().collect();
        by_column.sort_by_key(|borne| (borne.layer_and_column().1, borne.layer_and_column().0));
        first_least(by_column.into_iter(), Borne::sum)
    }),
    ("the well after the cells", |places| first_least(places[1..].iter().chain(&places[..1]), Borne::sum)),
    ("no well", |places| first_least_of(places, |(layer, _)| layer > 0)),
    ("columns from 2", |places| first_least_of(places, |(_, column)| column != 1)),
    ("layers from 2", |places| first_least_of(places, |(layer, _)| layer != 1)),
    ("no last stored column", |places| {
        let last = places[places.len() - 1].layer_and_column().1;
        first_least_of(places, |(_, column)| column < last)
    }),
    ("no last layer", |places| {
        let last = places[places.len() - 1].layer_and_column().0;
        first_least_of(places, |(layer, _)| layer < last)
    }),
    ("no face of the well", |places| first_least(places.iter(), |borne| borne.sum() - borne.well)),
    ("no face of the last column", |places| first_least(places.iter(), |borne| borne.sum() - borne.last)),
    ("no vertical face", |places| first_least(places.iter(), |borne| borne.sum() - borne.vertical)),
    ("the C in use", |places| first_least(places.iter(), |borne| borne.sum() - borne.vertical + borne.in_use)),
    ("0 where there is no C", |places| {
        let longest = |borne: &Borne| (1_000_000 * borne.storage).checked_div(borne.sum()).unwrap_or(0);
        places.iter().map(|borne| (borne.place, longest(borne))).min_by_key(|&(_, longest)| longest)
    }),
    ("the low word of a quotient", |places| {
        let limited = places.iter().filter(|borne| borne.sum() > 0);
        let longest = |borne: &Borne| (1_000_000 * borne.storage / borne.sum()) & i128::from(u64::MAX);
        limited.map(|borne| (borne.place, longest(borne))).min_by_key(|&(_, longest)| longest)
    }),
    ("rounded up", |places| {
        let limited = places.iter().filter(|borne| borne.sum() > 0);
        let longest = |borne: &Borne| (1_000_000 * borne.storage + borne.sum() - 1) / borne.sum();
        limited.map(|borne| (borne.place, longest(borne))).min_by_key(|&(_, longest)| longest)
    }),
    ("the first place that does not bear the length", |places| {
        let limited = places.iter().filter(|borne| borne.sum() > 0);
        let longest = limited.map(|borne| (borne.place, 1_000_000 * borne.storage / borne.sum()));
        longest.into_iter().find(|&(_, longest)| longest < i128::from(GREATEST))
    }),
    ("the least storage", |places| {
        let least = places.iter().filter(|borne| borne.sum() > 0).min_by_key(|borne| borne.storage)?;
        Some((least.place, 1_000_000 * least.storage / least.sum()))
    }),
];

/// For each wrong rule the stored texts that it answers otherwise for, at their start or in the end; the right one answers as the reading does.
#[test]
fn stored_texts_find_wrong_rules_for_8() {
    let mut found = [0; WRONG_FOR_8.len()];
    for case in stored_cases().iter().filter(|case| read(&case.text).is_ok()) {
        let states = states(&case.text);
        let records = [&states[0].record, &states[states.len() - 1].record];
        let differs = |record: &Record| {
            let Ok(Limiting::Stability(place, longest)) = limiting(record, 0, GREATEST) else {
                return [false; WRONG_FOR_8.len()];
            };
            let (places, right) = (borne(record), Some((place, i128::from(longest))));
            assert_eq!(first_least(places.iter(), Borne::sum), right, "{}", case.name);
            WRONG_FOR_8.map(|(_, rule)| rule(&places) != right)
        };
        let differs = records.map(differs);
        for (rule, count) in found.iter_mut().enumerate() {
            *count += u32::from(differs.iter().any(|differs| differs[rule]));
        }
    }
    for ((name, _), count) in WRONG_FOR_8.iter().zip(found) {
        assert!(count > 0, "{name}");
    }
}

/// The place by a rule for 11, from the record at the start of the step and the ledger after it.
type TableRule = fn(&Record, &Ledger) -> Place;

/// D after a step of the cells of layer 1, µm, from column 1 on.
fn tables(record: &Record, after: &Ledger) -> Vec<i128> {
    (1..record.columns as usize).map(|column| after.drawdown(cell(1, column))).collect()
}

/// The cell of layer 1 with the greatest value; the first of equal ones.
fn first_greatest(values: impl DoubleEndedIterator<Item = i128> + ExactSizeIterator) -> Place {
    let (inside, _) = values.enumerate().rev().max_by_key(|&(_, value)| value).expect("there is a stored column");
    cell(1, inside + 1)
}

/// Rules that are not document 02's.
const WRONG_FOR_11: [(&str, TableRule); 7] = [
    ("D at the start of the step", |record, _| {
        let columns: Vec<i128> =
            (1..record.columns as usize).map(|column| record.cell_drawdown(1, column).into()).collect();
        first_greatest(columns.into_iter())
    }),
    ("the last of equal ones", |record, after| {
        let depths = tables(record, after);
        let deepest = depths.iter().max();
        cell(1, depths.iter().rposition(|depth| Some(depth) == deepest).unwrap() + 1)
    }),
    ("the first past the bottom", |record, after| {
        let passes = |&depth: &i128| depth > 1000 * after.top_thickness;
        cell(1, tables(record, after).iter().position(passes).unwrap() + 1)
    }),
    ("column 1", |_, _| cell(1, 1)),
    ("columns from 2", |record, after| {
        let depths = tables(record, after);
        let outer = depths[1..].iter().max().unwrap_or(&-1);
        depths[1..].iter().position(|depth| depth == outer).map_or(Place::Well, |inside| cell(1, inside + 2))
    }),
    ("the most water lost", |record, after| {
        let losses: Vec<i128> =
            (1..record.columns as usize).map(|column| after.places[&cell(1, column)].loss).collect();
        first_greatest(losses.into_iter())
    }),
    ("every layer", |_, after| {
        let cells = after.places.keys().rev().filter(|&&place| place != Place::Well);
        *cells.max_by_key(|&&place| after.drawdown(place)).unwrap()
    }),
];

/// For each wrong rule the stored texts that it answers otherwise for.
#[test]
fn stored_texts_find_wrong_rules_for_11() {
    let (mut found, mut both) = ([0; WRONG_FOR_11.len()], 0);
    for case in stored_cases().iter().filter(|case| read(&case.text).is_ok()) {
        let mut differs = [false; WRONG_FOR_11.len()];
        for state in states(&case.text) {
            for (rate, length) in asked(&state) {
                let held = limiting(&state.record, rate, length).unwrap();
                if !matches!(held, Limiting::Intake(_) | Limiting::WaterTable(_)) {
                    continue;
                }
                let bottom = 1000 * i128::from(state.record.thickness[0]);
                let past_bottom = table_after(&state.record, rate, length).iter().any(|&depth| depth > bottom);
                both += u32::from(past_bottom && held == Limiting::Intake(Place::Well));
                if let Limiting::WaterTable(place) = held {
                    let after = ledger_of(&state.record).worked(rate, length);
                    for (rule, (_, wrong)) in WRONG_FOR_11.iter().enumerate() {
                        differs[rule] |= wrong(&state.record, &after) != place;
                    }
                }
            }
        }
        for (count, differs) in found.iter_mut().zip(differs) {
            *count += u32::from(differs);
        }
    }
    for ((name, _), count) in WRONG_FOR_11.iter().zip(found) {
        assert!(count > 0, "{name}");
    }
    // Steps that 10 and 11 both forbid, of which the well is the answer.
    assert!(both > 0);
}
