//! Levels after the pump stops (document 02, N14): what is read along random rests from random records that 14 lets pass, refused steps
//! among them, along the edges of the catalogue that are there for it, and in the example for support staff.

use crate::bore_k::equal;
use crate::deep_cells::edge;
use crate::garbage::{fill_at_random, ledger_of};
use crate::runs::longest_step;
use crate::stored::repository;
use crate::water_tables::run as entries;
use reference_model::grid::{cell, Place};
use reference_model::limits;
use reference_model::listing::{listing, run_entry};
use reference_model::random::Random;
use reference_model::readings::{budget, drawdown, Budget};
use reference_model::record::{start, Record};
use reference_model::refusal::Refusal;
use reference_model::scenarios::Scenarios;
use reference_model::step::step;
use reference_model::text::read;
use std::collections::BTreeMap;
use std::fs;
use std::iter::{once, repeat_n};

/// What is read of a record: the drawdown of the well and of each cell inside the last column, µm, and the budget.
#[derive(Clone, Debug)]
struct Levels {
    depths: Vec<u64>,
    budget: Budget,
}

/// The well, then the cells inside the last column by layer and column.
fn places(record: &Record) -> impl Iterator<Item = Place> + '_ {
    once(Place::Well).chain(record.stored_cells().map(|(layer, column)| cell(layer, column)))
}

impl Levels {
    fn of(record: &Record) -> Levels {
        let depths = places(record).map(|place| drawdown(record, place).unwrap()).collect();
        Levels { depths, budget: budget(record).unwrap() }
    }

    fn well(&self) -> u64 {
        self.depths[0]
    }

    /// The largest drawdown over the well and all cells.
    fn largest(&self) -> u64 {
        self.depths.iter().copied().max().expect("the well is a place")
    }

    /// The losses of the well and of all cells together, nl.
    fn lost(&self) -> i64 {
        self.budget.well_loss + self.budget.cell_loss
    }

    /// Whether the drawdown of the well, or of some cell, is more than before.
    fn well_deeper(&self, before: &Levels) -> bool {
        self.well() > before.well()
    }

    fn cell_deeper(&self, before: &Levels) -> bool {
        self.depths[1..].iter().zip(&before.depths[1..]).any(|(after, before)| after > before)
    }
}

/// The sentence of document 02, from one moment of a rest to a later one, and that the mark stays.
fn check_rest(before: &Levels, after: &Levels) -> Result<(), String> {
    equal("the largest drawdown rises", after.largest() > before.largest(), false)?;
    equal("the inflow total falls", after.budget.inflow < before.budget.inflow, false)?;
    let gained = after.budget.inflow - before.budget.inflow;
    equal("water that left storage", after.lost() - before.lost(), -gained)?;
    equal("mark", after.budget.mark, before.budget.mark)
}

/// The number of a step's refusal, 0 where it is taken.
fn number(outcome: Result<(), Refusal>) -> u64 {
    outcome.map_or_else(Refusal::number, |()| 0)
}

/// What the steps of rests have come to.
#[derive(Default, Debug)]
struct Seen {
    /// How often each number came.
    outcomes: BTreeMap<u64, u32>,
    /// In how many steps the largest drawdown falls, the inflow rises, the well's drawdown rises, a cell's does.
    largest_falls: u32,
    inflow_rises: u32,
    well_deeper: u32,
    cell_deeper: u32,
}

impl Seen {
    fn note(&mut self, outcome: Result<(), Refusal>, before: &Levels, after: &Levels) {
        *self.outcomes.entry(number(outcome)).or_default() += 1;
        self.largest_falls += u32::from(after.largest() < before.largest());
        self.inflow_rises += u32::from(after.budget.inflow > before.budget.inflow);
        self.well_deeper += u32::from(after.well_deeper(before));
        self.cell_deeper += u32::from(after.cell_deeper(before));
    }
}

/// Steps of a rate on a record, of these lengths, each held to the moment before it and to the first; the rate is 0 but where a test shows
/// that another is noticed.
fn run(record: &mut Record, rate: u64, lengths: impl IntoIterator<Item = u64>, seen: &mut Seen) -> Result<(), String> {
    let first = Levels::of(record);
    let mut before = first.clone();
    for length in lengths {
        let handed = record.clone();
        let outcome = step(record, rate, length);
        equal("record after a refused step", outcome.is_ok() || *record == handed, true)?;
        let after = Levels::of(record);
        check_rest(&before, &after)?;
        check_rest(&first, &after)?;
        seen.note(outcome, &before, &after);
        before = after;
    }
    Ok(())
}

/// A record that 14 lets pass.
struct Begun {
    record: Record,
    /// Whether its coefficients, losses and inflow are made by hand; else a run of random steps has left it.
    by_hand: bool,
    /// The longest step that 8 allows, µs.
    longest: u64,
}

/// Such a record from an accepted text with not too many places, if 8 allows it any step. More are drawn by hand than are left by a run, but 8
/// allows many of those no step. Of the ones made by hand every other has a full well; one of eight is near the end of time.
fn any_record(random: &mut Random, text: &[u8]) -> Option<Begun> {
    let (outcome, mut record) = start(text);
    if outcome.is_err() || record.layers * record.columns > 100 {
        return None;
    }
    let by_hand = !random.once_in(4);
    if by_hand {
        fill_at_random(random, &mut record);
        if random.once_in(2) {
            record.pumped -= record.well_loss as u64;
            record.well_loss = 0;
        }
        let inflow = random.spread(0, limits::TOTAL - record.pumped);
        record.inflow += inflow as i64;
        record.pumped += inflow;
    }
    let longest = longest_step(&ledger_of(&record));
    if longest == 0 {
        return None;
    }
    if !by_hand {
        let rate = random.spread(0, limits::RATE);
        for _ in 0..random.between(1, 40) {
            // A step that is refused leaves the record as it is, which is a record too.
            let _ = step(&mut record, rate, random.between(1, longest));
        }
    }
    if random.once_in(8) {
        record.time = limits::TOTAL - random.between(0, 20 * longest);
    }
    assert_eq!(record.fault(), None);
    Some(Begun { record, by_hand, longest })
}

/// Lengths of steps, most of them as long as 8 allows; some shorter, and some that 7 or 8 refuses.
fn lengths(random: &mut Random, longest: u64) -> Vec<u64> {
    let length = |random: &mut Random| {
        let any = random.word();
        match random.between(0, 15) {
            0 => random.one_of(&[0, 1_000_000_001, u64::MAX, any]),
            1 => longest + 1,
            2..=4 => random.between(1, longest),
            _ => longest,
        }
    };
    (0..30).map(|_| length(random)).collect()
}

#[test]
fn rests_from_any_allowed_record() {
    let mut random = Random::new(31);
    let scenarios = Scenarios::new(32);
    let mut seen = Seen::default();
    let (mut by_hand, mut by_runs, mut drawn_down) = (0, 0, 0);
    for number in 0..1500 {
        let Some(mut begun) = any_record(&mut random, &scenarios.case(number).text) else { continue };
        *(if begun.by_hand { &mut by_hand } else { &mut by_runs }) += 1;
        drawn_down += u32::from(Levels::of(&begun.record).largest() > 0);
        let lengths = lengths(&mut random, begun.longest);
        assert_eq!(run(&mut begun.record, 0, lengths, &mut seen), Ok(()), "record {number}");
    }
    assert!(by_hand >= 200 && by_runs >= 150 && drawn_down >= 300, "{by_hand} {by_runs} {drawn_down}");
    let numbers: Vec<u64> = seen.outcomes.keys().copied().collect();
    assert_eq!(numbers, [0, 7, 8, 9, 11], "{seen:?}");
    assert!(seen.outcomes.values().all(|&count| count >= 50), "{seen:?}");
    assert!(seen.largest_falls >= 1000 && seen.inflow_rises >= 1000, "{seen:?}");
    // The drawdown of a single place may rise.
    assert!(seen.well_deeper >= 50 && seen.cell_deeper >= 1000, "{seen:?}");
}

/// What the check above must notice, each alone: a larger drawdown at the well or in a cell, inflow that falls with the storage that goes
/// with it, a nl of storage or of inflow too many, another mark; and any pumping.
#[test]
fn what_is_no_rest_is_noticed() {
    let mut record = start(&edge("rest-long")).1;
    let pumping = read(&edge("rest-long")).unwrap().pumping;
    for _ in 0..pumping[0].repeats {
        step(&mut record, pumping[0].rate, pumping[0].length).unwrap();
    }
    let before = Levels::of(&record);
    step(&mut record, 0, pumping[0].length).unwrap();
    let after = Levels::of(&record);
    assert_eq!(check_rest(&before, &after), Ok(()));
    let wrong = |edit: &dyn Fn(&mut Levels)| {
        let mut wrong = after.clone();
        edit(&mut wrong);
        check_rest(&before, &wrong).unwrap_err()
    };
    for place in 0..after.depths.len() {
        let message = wrong(&|levels| levels.depths[place] = before.largest() + 1);
        assert!(message.starts_with("the largest drawdown rises"), "{message}");
    }
    let fallen = wrong(&|levels| {
        levels.budget.cell_loss += levels.budget.inflow - before.budget.inflow + 1;
        levels.budget.inflow = before.budget.inflow - 1;
    });
    assert!(fallen.starts_with("the inflow total falls"), "{fallen}");
    let edits: [&dyn Fn(&mut Levels); 4] = [
        &|levels| levels.budget.inflow += 1,
        &|levels| levels.budget.well_loss += 1,
        &|levels| levels.budget.cell_loss -= 1,
        &|levels| levels.budget.cell_loss += 2 * (levels.budget.inflow - before.budget.inflow),
    ];
    for (number, edit) in edits.into_iter().enumerate() {
        let message = wrong(edit);
        assert!(message.starts_with("water that left storage"), "edit {number}: {message}");
    }
    assert!(wrong(&|levels| levels.budget.mark += 1).starts_with("mark"));
    for rate in [1, 1000] {
        let noticed = run(&mut record.clone(), rate, [pumping[0].length], &mut Seen::default());
        assert!(noticed.is_err(), "a rate of {rate} goes unnoticed");
    }
}

/// What is read at the start of an edge and after each of its entries, every step of those at rest being held to the sentence.
fn levels_of(name: &str) -> Vec<Levels> {
    let text = edge(name);
    let mut record = start(&text).1;
    let mut levels = vec![Levels::of(&record)];
    for entry in read(&text).unwrap().pumping {
        if entry.rate == 0 {
            let lengths = repeat_n(entry.length, entry.repeats as usize);
            assert_eq!(run(&mut record, 0, lengths, &mut Seen::default()), Ok(()), "{name}");
        } else {
            run_entry(&mut record, entry).unwrap();
        }
        levels.push(Levels::of(&record));
    }
    levels
}

#[test]
fn edges_with_a_long_rest() {
    // Pumped, then at rest: a cell goes down at first, water comes in all the while, and in the end hardly anything is drawn down.
    let long = levels_of("rest-long");
    assert!(long[2].cell_deeper(&long[1]) && long[2].well() < long[1].well());
    assert!(long.windows(2).all(|pair| pair[1].budget.inflow > pair[0].budget.inflow));
    assert!(long[4].largest() * 1000 < long[1].largest(), "{long:?}");
    // The well goes down in its first step of rest, a cell being deeper, and again in some later ones.
    let swinging = levels_of("rest-well-goes-down");
    assert!(swinging[2].largest() > swinging[2].well());
    let wells: Vec<u64> = swinging.iter().map(Levels::well).collect();
    assert_eq!(wells[2..9], [35_950, 39_703, 33_249, 35_717, 30_658, 32_204, 28_201]);
    // After 2100 steps of rest no face lets a nl pass, and another 2000 change nothing.
    let still = levels_of("rest-stands-still");
    assert_eq!((&still[3].depths, still[3].budget), (&still[4].depths, still[4].budget));
    assert_eq!(still[4].depths, [312, 0, 0, 0, 246, 138, 55]);
}

#[test]
fn edges_with_refused_steps_at_rest() {
    for (name, outcomes) in
        [("rest-refusals", vec![0, 0, 8, 0, 7, 7, 0]), ("table-past-bottom-at-rest", vec![0, 11, 11])]
    {
        levels_of(name);
        let found: Vec<u64> = entries(name).into_iter().map(|(outcome, _)| number(outcome)).collect();
        assert_eq!(found, outcomes, "{name}");
    }
}

#[test]
fn other_edges_at_rest() {
    for name in [
        "k-marks",
        "equal-layers-coupled",
        "ties-in-um",
        "table-two-layers",
        "table-thick",
        "table-rises",
        "mark-rate-drops",
    ] {
        levels_of(name);
    }
}

/// The listing and the table of the example for support staff, as examples/README.md has them.
#[test]
fn the_example_is_as_its_readme_says() {
    let examples = repository().join("examples");
    let text = fs::read(examples.join("recovery.txt")).unwrap();
    let readme = fs::read_to_string(examples.join("README.md")).unwrap();
    let mut record = start(&text).1;
    let mut stop = None;
    for (line, entry) in listing(&text).lines().skip(1).zip(read(&text).unwrap().pumping) {
        assert!(readme.contains(&format!("\n    {line}\n")), "no line {line}");
        run_entry(&mut record, entry).unwrap();
        let levels = Levels::of(&record);
        let (stopped, first) = stop.get_or_insert_with(|| (record.time, levels.clone()));
        assert_eq!(check_rest(first, &levels), Ok(()));
        let places: Vec<Place> = places(&record).collect();
        let at = |place| levels.depths[places.iter().position(|&other| other == place).unwrap()];
        let deepest = match places[levels.depths.iter().position(|&depth| depth == levels.largest()).unwrap()] {
            Place::Well => "well".to_string(),
            Place::Cell { layer, column } => format!("layer {layer}, column {column}"),
        };
        let seconds = (record.time - *stopped) / 1_000_000;
        let cells = [cell(3, 6), cell(4, 1), cell(1, 1)].map(at).map(|depth| depth.to_string()).join(" | ");
        let row = format!("| {seconds} | {} | {}, {deepest} | {cells} |", levels.well(), levels.largest());
        assert!(readme.contains(&format!("\n{row}\n")), "no row {row}");
    }
}
