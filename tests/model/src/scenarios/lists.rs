//! Choice texts for comparisons (document 02, N13): scenarios, each with lists of rates that the controller is asked with. The fixed ones come
//! first, and then ones that are drawn around what their bore bears. A text depends on the seed and its number alone.

use super::draft::{text_of, Draft, INTAKE};
use super::{drawn, edges, write_cases, Case};
use crate::choice::accepts;
use crate::choice_text::{states, List, State};
use crate::limiting::{last_passing, longest_passing};
use crate::limits;
use crate::random::Random;
use crate::record::Record;
use crate::step;
use crate::text;
use std::collections::BTreeSet;
use std::io;

/// Places times steps of a pumping entry, and of one rate of a drawn list; most steps of a drawn list.
const ENTRY_WORK: u64 = 20_000;
const TRIAL_WORK: u64 = 3_000;
const MOST_STEPS: u64 = 300;

/// The longest list of rates that 20 lets pass.
const MOST_RATES: usize = *limits::RATE_COUNT.end();

/// The greatest number that a line can hold.
const LINE: u64 = 999_999_999_999_999_999;

/// The texts of a seed in their order, without end.
pub fn cases(seed: u64) -> impl Iterator<Item = Case> {
    fixed().into_iter().chain((0..).filter_map(move |round| drawn_case(seed, round)))
}

/// Writes the first `count` texts of a seed into a directory, which is made if need be.
pub fn write_all(seed: u64, count: u64, directory: &str) -> io::Result<()> {
    write_cases(cases(seed), count, directory)
}

/// A scenario text, an empty line, and the lists.
fn choice_text(scenario: &[u8], lists: &[List]) -> Vec<u8> {
    let numbers = |list: &List| {
        let mut numbers = vec![list.length, list.steps, list.rates.len() as u64];
        numbers.extend(&list.rates);
        numbers
    };
    let below: Vec<u64> = lists.iter().flat_map(numbers).collect();
    [scenario, b"\n", &text_of(&below)].concat()
}

/// A list by its step length (µs), number of steps and rates (ml/s).
fn list(length: u64, steps: u64, rates: impl IntoIterator<Item = u64>) -> List {
    List { length, steps, rates: rates.into_iter().collect() }
}

/// The fixed texts: bore K at its start, after its entries, with an intake that is soon reached, and refused; and a bore that bears a rate and not a
/// lower one.
fn fixed() -> Vec<Case> {
    let pumped = edges::bore_k();
    let k = Draft { pumping: vec![], ..pumped.clone() };
    let with_intake = |draft: &Draft, depth: u64| {
        let mut draft = draft.clone();
        draft.well[INTAKE] = depth;
        draft
    };
    let case = |name: &str, draft: &Draft, lists: Vec<List>, start: u64| Case {
        name: name.to_string(),
        text: choice_text(&draft.text(), &lists),
        start: Some(start),
    };
    vec![
        case("k-start", &k, start_lists(), 0),
        case("k-turned-away", &k, turned_away(500_000).into_iter().chain(turned_away(0)).collect(), 0),
        case("k-many-steps", &k, [958, 959, 1_000_000].map(|steps| list(500_000, steps, [5720, 5721])).to_vec(), 0),
        case("k-intake-17", &with_intake(&k, 17), shallow_lists(), 0),
        case("not-monotone", &not_monotone(), not_monotone_lists(), 0),
        case("k-entries", &pumped, entry_lists(), 0),
        case("k-intake-17-entries", &with_intake(&pumped, 17), shallow_entry_lists(), 0),
        case("k-intake-10000", &with_intake(&k, 10_000), vec![list(500_000, 1, [1000])], 5),
    ]
}

/// Of bore K at its start: a step past the intake by 1 ml/s, rates and lengths at the limits of 7 and 8, rate 0, one rate and sixteen of them, of
/// which all, the lowest and none is accepted.
fn start_lists() -> Vec<List> {
    vec![
        list(500_000, 1, [1000, 599_940, 599_941]),
        list(500_000, 1, [0, 1000, 10_000_000, 10_000_001]),
        list(657_001, 1, [1000]),
        list(657_002, 1, [1]),
        list(0, 1, [1000]),
        list(1_000_000_001, 1, [0]),
        list(500_000, 1, [10_000_001]),
        list(500_000, 1, [0]),
        list(5, 1, [9_999_999, 10_000_000, 10_000_001, LINE]),
        list(5, 2, 0..16),
        list(500_000, 1, 599_940..599_956),
        list(500_000, 1, 599_941..599_957),
        list(0, 1_000_000, [1000]),
    ]
}

/// Lists that 20 refuses: for the count of rates, for two that do not rise, and for the number of steps.
fn turned_away(length: u64) -> Vec<List> {
    vec![
        list(length, 2, 0..17),
        list(length, 2, 0..64),
        list(length, 1, []),
        list(length, 1, [1000, 1000]),
        list(length, 1, [1000, 999]),
        list(length, 1, [1, 2, 3, 3]),
        list(length, 1, [1, 1, 2, 3]),
        list(length, 1, [1, 2, 2, 3]),
        list(length, 1, (0..15).chain([13])),
        list(length, 0, [1000]),
        list(length, 1_000_001, [1000]),
        list(length, LINE, [1000]),
    ]
}

/// Of bore K with its intake at 17 mm: one step to five.
fn shallow_lists() -> Vec<List> {
    (1..=5).map(|steps| list(500_000, steps, [250, 500, 1000])).collect()
}

/// A bore whose well four steps at 38,321 ml/s draw down less than four at 38,266, since flows are worked from whole µm.
fn not_monotone() -> Draft {
    Draft {
        layers: vec![[2, 0, 0, 0, 1], [100_000, 1, 100_000_000, 0, 50_000]],
        radii: vec![25_000, 65_000],
        well: vec![5000, 5_000_000, 1, 0],
        screen_losses: vec![],
        pumping: vec![],
    }
}

/// Rates that are accepted, 38,265 and 38,321, and refused, 38,266 and 38,322, in several lists.
fn not_monotone_lists() -> Vec<List> {
    let lists: [&[u64]; 7] = [
        &[38_265, 38_266, 38_321, 38_322],
        &[38_265, 38_266],
        &[38_266, 38_322],
        &[38_265, 38_266, 38_321],
        &[38_266, 38_321, 38_322],
        &[38_266, 38_321],
        &[38_265, 38_322],
    ];
    lists.map(|rates| list(82_000, 4, rates.iter().copied())).to_vec()
}

/// Around what bore K bears in one step at its start, after its first entry and after its second.
fn entry_lists() -> Vec<List> {
    vec![
        list(500_000, 1, [1000, 597_029, 597_030, 597_989, 597_990, 599_940, 599_941]),
        list(500_000, 1, [597_030, 599_940]),
        list(500_000, 3, [0, 1, 2]),
        list(657_002, 1, [0]),
        list(500_000, 2, []),
    ]
}

/// The same with the intake at 17 mm, where each entry is refused; at rest any number of steps is accepted.
fn shallow_entry_lists() -> Vec<List> {
    vec![
        list(500_000, 1, [0, 39, 40, 1020, 1021]),
        list(500_000, 1, [40, 1020]),
        list(500_000, 1, [1021, 1022]),
        list(500_000, 1000, [0]),
        list(500_000, 1, [39, 39]),
    ]
}

/// The text of a round of drawing, if its scenario is one that start accepts: it has the first entry or the first two, and 4 to 10 lists.
fn drawn_case(seed: u64, round: u64) -> Option<Case> {
    let case = drawn(seed, round);
    if case.start != Some(0) {
        return None;
    }
    let mut random = Random::new(seed ^ (round + 1).wrapping_mul(0xA24B_AED4_963E_E407));
    let scenario = shortened(&case.text, random.between(1, 2) as usize);
    let states = states(&scenario).expect("the scenario is accepted");
    let lists: Vec<List> = (0..random.between(4, 10)).map(|_| drawn_list(&mut random, &states)).collect();
    Some(Case { text: choice_text(&scenario, &lists), ..case })
}

/// An accepted scenario text with so many of its entries, their repeats such that the work is bounded.
fn shortened(scenario: &[u8], entries: usize) -> Vec<u8> {
    let read = text::read(scenario).expect("the scenario is accepted");
    let places = 1 + read.site.layers.len() * (read.site.columns() - 1);
    let mut numbers = text::numbers(scenario).expect("the scenario is accepted");
    numbers.truncate(numbers.len() - 3 * read.pumping.len() - 1);
    let kept = &read.pumping[..entries.min(read.pumping.len())];
    numbers.push(kept.len() as u64);
    for entry in kept {
        numbers.extend([entry.rate, entry.length, entry.repeats.min(ENTRY_WORK / places as u64)]);
    }
    text_of(&numbers)
}

/// A list around what one of the states bears; one in five is spoilt, so that 20 refuses it.
fn drawn_list(random: &mut Random, states: &[State]) -> List {
    let record = &states[random.between(0, states.len() as u64 - 1) as usize].record;
    let longest = longest_passing(|length| step::judge_stability(record, length, None).is_ok());
    let length = drawn_length(random, longest);
    let steps = drawn_steps(random, record);
    let borne = length.clamp(1, longest.max(1));
    let edge = last_passing(limits::RATE + 1, |rate| accepts(record, rate, borne, steps)) + 1;
    let mut list = list(length, steps, drawn_rates(random, edge));
    if random.once_in(5) {
        spoil(random, &mut list);
    }
    list
}

/// The longest step that 8 allows or a shorter one; now and then one that 8 or 7 refuses.
fn drawn_length(random: &mut Random, longest: u64) -> u64 {
    match random.between(0, 19) {
        0 => longest + 1,
        1 => random.one_of(&[0, 1_000_000_001, LINE]),
        2..=6 => random.between(1, longest.max(1)),
        _ => longest.max(1),
    }
}

/// One step, two, three, or more where the grid is not large.
fn drawn_steps(random: &mut Random, record: &Record) -> u64 {
    let most = (TRIAL_WORK / step::places(record).count() as u64).clamp(4, MOST_STEPS);
    match random.between(1, 6) {
        few @ 1..=3 => few,
        _ => random.spread(4, most),
    }
}

/// One rate to sixteen, rising, around one at which the steps begin to be refused: on both sides of it, or on one.
fn drawn_rates(random: &mut Random, edge: u64) -> BTreeSet<u64> {
    let count = random.between(1, MOST_RATES as u64) as usize;
    let mut rates = BTreeSet::new();
    while rates.len() < count {
        rates.insert(drawn_rate(random, edge));
    }
    let instead = match random.between(0, 5) {
        0 | 1 => {
            rates.retain(|&rate| rate < edge);
            edge - 1
        }
        2 => {
            rates.retain(|&rate| rate >= edge);
            edge
        }
        _ => edge,
    };
    if rates.is_empty() {
        rates.insert(instead);
    }
    rates
}

/// A rate within 3 of the edge, a part or a multiple of it, any other, or one at the limits.
fn drawn_rate(random: &mut Random, edge: u64) -> u64 {
    match random.between(0, 15) {
        0 => 0,
        1 => random.one_of(&[limits::RATE, limits::RATE + 1]),
        2..=4 => edge * random.between(0, 64) / 64,
        5 | 6 => edge * random.between(64, 512) / 64,
        7 => random.spread(0, limits::RATE),
        _ => (edge + random.between(0, 6)).saturating_sub(3),
    }
}

/// Makes 20 due in one way: neighbours that are equal or fall, too many rates, none, or a number of steps outside its limits.
fn spoil(random: &mut Random, list: &mut List) {
    let rates = &mut list.rates;
    match random.between(0, 5) {
        0 | 1 => {
            rates.truncate(MOST_RATES - 1);
            let at = random.between(0, rates.len() as u64 - 1) as usize;
            rates.insert(at, rates[at] + random.one_of(&[0, 0, 1, 1000]));
        }
        2 => {
            let count = random.one_of(&[MOST_RATES + 1, MOST_RATES + 1, MOST_RATES + 2, 33]);
            while rates.len() < count {
                rates.push(rates[rates.len() - 1] + random.between(1, 9));
            }
        }
        3 => rates.clear(),
        4 => list.steps = 0,
        _ => list.steps = random.one_of(&[1_000_001, 1_000_002, 2_000_000, LINE]),
    }
}
