//! The controller's choice (document 02, N13): the fixed lists and their answers, what must hold of every stored list, and wrong rules, each of
//! which the stored lists find out.

use crate::bore_k;
use crate::stored::stored_lists;
use reference_model::choice::choose;
use reference_model::choice_text::{broken, read, states, List};
use reference_model::limits;
use reference_model::listing::repeat;
use reference_model::record::{start, Record};
use reference_model::refusal::Refusal;
use std::collections::{BTreeMap, BTreeSet};
use std::ops::RangeInclusive;
use std::ptr;
use std::sync::OnceLock;

/// A rate (ml/s), none, or the number of a refusal.
type Answer = Result<Option<u64>, u64>;

/// A stored choice text: its records, the last of which 14 refuses, and its lists. A refused scenario has no records.
struct Text {
    name: String,
    records: Vec<Record>,
    lists: Vec<List>,
}

/// What becomes of the steps of one rate: how many are taken, of those asked and one more, and what the next is refused with.
struct Trial {
    rate: u64,
    taken: u64,
    refusal: Option<u64>,
}

/// A list asked of a record.
struct Asked {
    text: &'static Text,
    /// The record's number in the text.
    state: usize,
    list: &'static List,
    answer: Answer,
    trials: Vec<Trial>,
}

fn text(name: String, text: &[u8]) -> Text {
    let asked = read(text).expect("a choice text is stored");
    let mut records: Vec<Record> =
        states(asked.scenario).map_or(vec![], |states| states.into_iter().map(|state| state.record).collect());
    records.extend(records.last().cloned().map(broken));
    Text { name, records, lists: asked.lists }
}

/// The stored choice texts.
fn texts() -> &'static [Text] {
    static TEXTS: OnceLock<Vec<Text>> = OnceLock::new();
    TEXTS.get_or_init(|| stored_lists().into_iter().map(|case| text(case.name, &case.text)).collect())
}

/// Every list of the stored texts asked of each of its records.
fn asked() -> &'static [Asked] {
    static ASKED: OnceLock<Vec<Asked>> = OnceLock::new();
    ASKED.get_or_init(|| {
        let states = texts().iter().flat_map(|text| (0..text.records.len()).map(move |state| (text, state)));
        states.flat_map(|(text, state)| text.lists.iter().map(move |list| Asked::new(text, state, list))).collect()
    })
}

/// What the controller answers to a list; the record is the same afterwards.
fn answer(record: &Record, list: &List) -> Answer {
    let before = record.clone();
    let answer = choose(record, &list.rates, list.length, list.steps);
    assert!(*record == before, "{list:?}");
    answer.map_err(Refusal::number)
}

/// The steps of a rate tried; of a list that 20 refuses for its number of steps none are.
fn trial(record: &Record, list: &List, rate: u64) -> Trial {
    let steps = if stepped(list, STEPS) { list.steps + 1 } else { 0 };
    let (outcome, taken) = repeat(&mut record.clone(), rate, list.length, steps);
    Trial { rate, taken, refusal: outcome.err().map(Refusal::number) }
}

/// The numbers of steps that 20 lets pass.
const STEPS: RangeInclusive<u64> = 1..=1_000_000;

/// Whether the count of rates is one of these.
fn counted(list: &List, counts: RangeInclusive<usize>) -> bool {
    counts.contains(&list.rates.len())
}

/// Whether rates rise strictly: put in order, each once, they are what they were.
fn rising(rates: &[u64]) -> bool {
    let in_order: BTreeSet<u64> = rates.iter().copied().collect();
    in_order.iter().eq(rates)
}

/// Whether the number of steps is one of these.
fn stepped(list: &List, steps: RangeInclusive<u64>) -> bool {
    steps.contains(&list.steps)
}

/// What 20 lets pass.
fn allowed(list: &List) -> bool {
    counted(list, 1..=16) && rising(&list.rates) && stepped(list, STEPS)
}

impl Asked {
    fn new(text: &'static Text, state: usize, list: &'static List) -> Asked {
        let record = &text.records[state];
        let trials = list.rates.iter().map(|&rate| trial(record, list, rate)).collect();
        Asked { text, state, list, answer: answer(record, list), trials }
    }

    fn record(&self) -> &'static Record {
        &self.text.records[self.state]
    }

    fn broken(&self) -> bool {
        self.record().fault().is_some()
    }

    /// The rates at which so many steps are taken, in the list's order, and the highest of them.
    fn taken(&self, steps: u64) -> impl Iterator<Item = u64> + '_ {
        self.trials.iter().filter(move |trial| trial.taken >= steps).map(|trial| trial.rate)
    }

    fn highest(&self, steps: u64) -> Option<u64> {
        self.taken(steps).max()
    }

    /// The answer by some rules: 14, then 20 unless the list is allowed, then a choice.
    fn judged(&self, allowed: impl Fn(&List) -> bool, choice: impl Fn(&Asked) -> Option<u64>) -> Answer {
        if self.broken() {
            Err(14)
        } else if !allowed(self.list) {
            Err(20)
        } else {
            Ok(choice(self))
        }
    }

    /// What must hold of the answer.
    fn check(&self) {
        let place = format!("{}, state {}, {:?}", self.text.name, self.state, self.list);
        assert_eq!(self.answer.is_err(), self.broken() || !allowed(self.list), "{place}");
        match self.answer {
            Err(number) => assert_eq!(number, if self.broken() { 14 } else { 20 }, "{place}"),
            Ok(choice) => {
                let mut chosen = self.trials.iter().filter(|trial| Some(trial.rate) == choice);
                assert_eq!(chosen.clone().count(), usize::from(choice.is_some()), "{place}");
                assert!(chosen.all(|trial| trial.taken >= self.list.steps), "{place}");
                let mut higher = self.trials.iter().filter(|trial| Some(trial.rate) > choice);
                assert!(higher.all(|trial| trial.taken < self.list.steps && trial.refusal.is_some()), "{place}");
            }
        }
    }
}

/// Holds a fixed text to its lists, each with its step length (µs), steps and rates (ml/s), and to the answers to them, of each record in turn.
fn assert_text(name: &str, rows: &[(u64, u64, &[u64], &[Answer])]) {
    let text = texts().iter().find(|text| text.name == name).expect(name);
    let lists: Vec<_> = text.lists.iter().map(|list| (list.length, list.steps, &list.rates[..])).collect();
    assert_eq!(lists, rows.iter().map(|row| (row.0, row.1, row.2)).collect::<Vec<_>>(), "{name}");
    for (list, (_, _, _, answers)) in text.lists.iter().zip(rows) {
        let found = asked().iter().filter(|asked| ptr::eq(asked.list, list));
        let found: Vec<Answer> = found.map(|asked| asked.answer).collect();
        assert_eq!(found, [answers, &[Err(14)][..]].concat(), "{name}: {list:?}");
    }
}

#[test]
fn bore_k_at_its_start() {
    let sixteen: Vec<u64> = (0..16).collect();
    let from = |first: u64| -> Vec<u64> { (first..first + 16).collect() };
    assert_text(
        "k-start",
        &[
            (500_000, 1, &[1000, 599_940, 599_941], &[Ok(Some(599_940))]),
            (500_000, 1, &[0, 1000, 10_000_000, 10_000_001], &[Ok(Some(1000))]),
            (657_001, 1, &[1000], &[Ok(Some(1000))]),
            (657_002, 1, &[1], &[Ok(None)]),
            (0, 1, &[1000], &[Ok(None)]),
            (1_000_000_001, 1, &[0], &[Ok(None)]),
            (500_000, 1, &[10_000_001], &[Ok(None)]),
            (500_000, 1, &[0], &[Ok(Some(0))]),
            (5, 1, &[9_999_999, 10_000_000, 10_000_001, 999_999_999_999_999_999], &[Ok(Some(10_000_000))]),
            (5, 2, &sixteen, &[Ok(Some(15))]),
            (500_000, 1, &from(599_940), &[Ok(Some(599_940))]),
            (500_000, 1, &from(599_941), &[Ok(None)]),
            (0, 1_000_000, &[1000], &[Ok(None)]),
        ],
    );
}

#[test]
fn lists_that_20_refuses() {
    let (many, most): (Vec<u64>, Vec<u64>) = ((0..17).collect(), (0..64).collect());
    let falling = [0, 1, 2, 3, 4, 5, 6, 7, 8, 9, 10, 11, 12, 13, 14, 13];
    let lists = |length: u64| -> [(u64, u64, &[u64], &[Answer]); 12] {
        [
            (length, 2, &many, &[Err(20)]),
            (length, 2, &most, &[Err(20)]),
            (length, 1, &[], &[Err(20)]),
            (length, 1, &[1000, 1000], &[Err(20)]),
            (length, 1, &[1000, 999], &[Err(20)]),
            (length, 1, &[1, 2, 3, 3], &[Err(20)]),
            (length, 1, &[1, 1, 2, 3], &[Err(20)]),
            (length, 1, &[1, 2, 2, 3], &[Err(20)]),
            (length, 1, &falling, &[Err(20)]),
            (length, 0, &[1000], &[Err(20)]),
            (length, 1_000_001, &[1000], &[Err(20)]),
            (length, 999_999_999_999_999_999, &[1000], &[Err(20)]),
        ]
    };
    assert_text("k-turned-away", &[lists(500_000), lists(0)].concat());
}

#[test]
fn bore_k_for_many_steps() {
    let rates = &[5720, 5721];
    assert_text(
        "k-many-steps",
        &[
            (500_000, 958, rates, &[Ok(Some(5721))]),
            (500_000, 959, rates, &[Ok(Some(5720))]),
            (500_000, 1_000_000, rates, &[Ok(Some(5720))]),
        ],
    );
}

#[test]
fn bore_k_with_its_intake_soon_reached() {
    let rates = &[250, 500, 1000];
    assert_text(
        "k-intake-17",
        &[
            (500_000, 1, rates, &[Ok(Some(1000))]),
            (500_000, 2, rates, &[Ok(Some(500))]),
            (500_000, 3, rates, &[Ok(Some(250))]),
            (500_000, 4, rates, &[Ok(Some(250))]),
            (500_000, 5, rates, &[Ok(None)]),
        ],
    );
}

/// A rate is refused, in the fourth step with 10, and a higher one is accepted.
#[test]
fn acceptance_is_not_monotone() {
    assert_text(
        "not-monotone",
        &[
            (82_000, 4, &[38_265, 38_266, 38_321, 38_322], &[Ok(Some(38_321))]),
            (82_000, 4, &[38_265, 38_266], &[Ok(Some(38_265))]),
            (82_000, 4, &[38_266, 38_322], &[Ok(None)]),
            (82_000, 4, &[38_265, 38_266, 38_321], &[Ok(Some(38_321))]),
            (82_000, 4, &[38_266, 38_321, 38_322], &[Ok(Some(38_321))]),
            (82_000, 4, &[38_266, 38_321], &[Ok(Some(38_321))]),
            (82_000, 4, &[38_265, 38_322], &[Ok(Some(38_265))]),
        ],
    );
    let first = asked().iter().find(|asked| asked.text.name == "not-monotone").expect("there is a first list");
    let refused: Vec<_> = first.trials.iter().map(|trial| (trial.taken.min(4), trial.refusal)).collect();
    assert_eq!((refused[1], refused[3]), ((3, Some(10)), (3, Some(10))));
    assert_eq!((refused[0].0, refused[2].0), (4, 4));
}

#[test]
fn records_after_entries() {
    assert_text(
        "k-entries",
        &[
            (
                500_000,
                1,
                &[1000, 597_029, 597_030, 597_989, 597_990, 599_940, 599_941],
                &[Ok(Some(599_940)), Ok(Some(597_989)), Ok(Some(597_029))],
            ),
            (500_000, 1, &[597_030, 599_940], &[Ok(Some(599_940)), Ok(Some(597_030)), Ok(None)]),
            (500_000, 3, &[0, 1, 2], &[Ok(Some(2)); 3]),
            (657_002, 1, &[0], &[Ok(None); 3]),
            (500_000, 2, &[], &[Err(20); 3]),
        ],
    );
    assert_text(
        "k-intake-17-entries",
        &[
            (500_000, 1, &[0, 39, 40, 1020, 1021], &[Ok(Some(1020)), Ok(Some(39)), Ok(Some(39))]),
            (500_000, 1, &[40, 1020], &[Ok(Some(1020)), Ok(None), Ok(None)]),
            (500_000, 1, &[1021, 1022], &[Ok(None); 3]),
            (500_000, 1000, &[0], &[Ok(Some(0)); 3]),
            (500_000, 1, &[39, 39], &[Err(20); 3]),
        ],
    );
    let refused = texts().iter().find(|text| text.name == "k-intake-10000").expect("there is a refused scenario");
    assert!(refused.records.is_empty() && refused.lists.len() == 1);
}

/// Words that no line of a text holds.
#[test]
fn words_past_every_limit() {
    let k = bore_k::record();
    let max = u64::MAX;
    assert_eq!(choose(&k, &[0, max], max, 1), Ok(None));
    assert_eq!(choose(&k, &[1000, max], 500_000, 1), Ok(Some(1000)));
    assert_eq!(choose(&k, &[max - 1, max], 1, max), Err(Refusal::Choice));
    assert_eq!(choose(&k, &vec![7; 100_000], 1, 1), Err(Refusal::Choice));
    assert_eq!(choose(&broken(k.clone()), &[1000], 500_000, 1), Err(Refusal::Record));
    assert_eq!(choose(&start(b"").1, &[], 0, 0), Err(Refusal::Record));
}

/// How often each kind of answer comes, and what the first refused step of a rate is refused with.
#[test]
fn stored_lists_hold_to_every_answer() {
    let mut kinds: BTreeMap<&str, u32> = BTreeMap::new();
    let mut refusals: BTreeMap<u64, u32> = BTreeMap::new();
    for asked in asked() {
        asked.check();
        let kind = match asked.answer {
            Ok(Some(rate)) if Some(&rate) == asked.list.rates.last() => "the highest",
            Ok(Some(_)) => "a lower one",
            Ok(None) => "none",
            Err(14) => "14",
            Err(_) => "20",
        };
        *kinds.entry(kind).or_default() += 1;
        let tried = if asked.answer.is_ok() { &asked.trials[..] } else { &[] };
        for number in tried.iter().filter(|trial| trial.taken < asked.list.steps).flat_map(|trial| trial.refusal) {
            *refusals.entry(number).or_default() += 1;
        }
    }
    assert!(["the highest", "a lower one", "none", "14", "20"].iter().all(|kind| kinds[kind] >= 200), "{kinds:?}");
    assert!([7, 8, 9, 10, 11].iter().all(|number| refusals[number] >= 100), "{refusals:?}");
}

/// The rate that is found when the list is halved until one is left, of two in the middle the upper or the lower being tried.
fn halved(asked: &Asked, lower: bool) -> Option<u64> {
    let (mut from, mut to) = (0, asked.trials.len());
    while from < to {
        let middle = (from + to - usize::from(lower)) / 2;
        if asked.trials[middle].taken >= asked.list.steps {
            from = middle + 1;
        } else {
            to = middle;
        }
    }
    from.checked_sub(1).map(|last| asked.trials[last].rate)
}

/// The highest rate whose steps are all taken when each rate is tried from the record that the trial before has left. Of a list with many steps
/// it is the right one.
fn from_what_is_left<'a>(asked: &Asked, rates: impl Iterator<Item = &'a u64>) -> Option<u64> {
    if asked.list.steps > 100 {
        return asked.highest(asked.list.steps);
    }
    let mut left = asked.record().clone();
    let accepted = |&&rate: &&u64| repeat(&mut left, rate, asked.list.length, asked.list.steps).0.is_ok();
    rates.filter(accepted).max().copied()
}

/// A choice from a list that is allowed, by rules that are not document 02's.
type Choice = fn(&Asked) -> Option<u64>;

const WRONG_CHOICES: [(&str, Choice); 13] = [
    ("the lowest accepted", |asked| asked.taken(asked.list.steps).min()),
    ("from below to the first refused", |asked| {
        let accepted = asked.trials.iter().take_while(|trial| trial.taken >= asked.list.steps);
        accepted.last().map(|trial| trial.rate)
    }),
    ("the list halved", |asked| halved(asked, false)),
    ("the list halved, the lower of two middle ones", |asked| halved(asked, true)),
    ("the lowest never tried", |asked| {
        asked.taken(asked.list.steps).filter(|rate| Some(rate) != asked.list.rates.first()).max()
    }),
    ("the highest never tried", |asked| {
        asked.taken(asked.list.steps).filter(|rate| Some(rate) != asked.list.rates.last()).max()
    }),
    ("rate 0 never tried", |asked| asked.taken(asked.list.steps).filter(|&rate| rate > 0).max()),
    ("0 for none", |asked| Some(asked.highest(asked.list.steps).unwrap_or(0))),
    ("one step fewer", |asked| asked.highest(asked.list.steps - 1)),
    ("one step more", |asked| asked.highest(asked.list.steps + 1)),
    ("one step alone", |asked| asked.highest(1)),
    ("from what the trial before left, the highest first", |asked| {
        from_what_is_left(asked, asked.list.rates.iter().rev())
    }),
    ("from what the trial before left, the lowest first", |asked| from_what_is_left(asked, asked.list.rates.iter())),
];

/// What is let pass before any stepping, by rules that are not document 02's 20.
type Limit = fn(&List) -> bool;

const WRONG_LIMITS: [(&str, Limit); 16] = [
    ("equal rates taken as rising", |list| list.rates.is_sorted() && counted(list, 1..=16) && stepped(list, STEPS)),
    ("rates that fall taken as rising", |list| {
        let unlike = list.rates.windows(2).all(|pair| pair[0] != pair[1]);
        unlike && counted(list, 1..=16) && stepped(list, STEPS)
    }),
    ("the first two compared alone", |list| {
        rising(&list.rates[..list.rates.len().min(2)]) && counted(list, 1..=16) && stepped(list, STEPS)
    }),
    ("the first two not compared", |list| counted(list, 1..=16) && rising(&list.rates[1..]) && stepped(list, STEPS)),
    ("the last two not compared", |list| {
        counted(list, 1..=16) && rising(&list.rates[..list.rates.len() - 1]) && stepped(list, STEPS)
    }),
    ("the first and the last compared alone", |list| {
        let ends = [list.rates.first(), list.rates.last()];
        (list.rates.len() == 1 || ends[0] < ends[1]) && counted(list, 1..=16) && stepped(list, STEPS)
    }),
    ("no rate allowed", |list| counted(list, 0..=16) && rising(&list.rates) && stepped(list, STEPS)),
    ("one rate refused", |list| counted(list, 2..=16) && rising(&list.rates) && stepped(list, STEPS)),
    ("17 rates allowed", |list| counted(list, 1..=17) && rising(&list.rates) && stepped(list, STEPS)),
    ("15 rates only", |list| counted(list, 1..=15) && rising(&list.rates) && stepped(list, STEPS)),
    ("0 steps allowed", |list| counted(list, 1..=16) && rising(&list.rates) && stepped(list, 0..=1_000_000)),
    ("1 step refused", |list| counted(list, 1..=16) && rising(&list.rates) && stepped(list, 2..=1_000_000)),
    ("1000001 steps allowed", |list| counted(list, 1..=16) && rising(&list.rates) && stepped(list, 1..=1_000_001)),
    ("1000000 steps refused", |list| counted(list, 1..=16) && rising(&list.rates) && stepped(list, 1..=999_999)),
    ("20 for a rate that 7 refuses", |list| allowed(list) && list.rates.iter().all(|&rate| rate <= limits::RATE)),
    ("20 for a length that 7 refuses", |list| allowed(list) && limits::STEP_LENGTH.contains(&list.length)),
];

/// Each wrong rule answers otherwise for some stored list; the right one never does. The last is wrong in its order.
#[test]
fn stored_lists_find_wrong_rules() {
    let highest = |asked: &Asked| asked.highest(asked.list.steps);
    let found = |name: &str, rule: &dyn Fn(&Asked) -> Answer| {
        assert!(asked().iter().any(|asked| rule(asked) != asked.answer), "{name}");
    };
    for asked in asked() {
        assert_eq!(asked.judged(allowed, highest), asked.answer, "{}", asked.text.name);
    }
    for (name, choice) in WRONG_CHOICES {
        found(name, &|asked| asked.judged(allowed, choice));
    }
    for (name, limit) in WRONG_LIMITS {
        found(name, &|asked| asked.judged(limit, highest));
    }
    found("20 before 14", &|asked| if allowed(asked.list) { asked.answer } else { Err(20) });
}
