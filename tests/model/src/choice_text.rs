//! The choice text: a scenario text, an empty line, and the lists that the controller is asked with (document 02, N13), in whole numbers one a
//! line as document 01 has them: for each list its step length (µs), number of steps, count of rates, and the rates (ml/s). And what is printed of it.

use crate::checksum::record_checksum;
use crate::choice::choose;
use crate::limits;
use crate::listing;
use crate::record::{self, Record};
use crate::refusal::Refusal;
use crate::report::value;
use crate::text;
use std::io::{self, Write};

/// Most numbers below the empty line, and most rates of a list, many more than 20 lets pass.
const NUMBERS: usize = 1661;
const RATES: u64 = 64;

/// What the controller is asked with beside the record.
#[derive(Clone, PartialEq, Eq, Debug)]
pub struct List {
    /// Step length, µs.
    pub length: u64,
    pub steps: u64,
    /// ml/s.
    pub rates: Vec<u64>,
}

pub struct ChoiceText<'a> {
    pub scenario: &'a [u8],
    pub lists: Vec<List>,
}

/// Reads a choice text, or says what is wrong below its scenario; that is judged by start.
pub fn read(text: &[u8]) -> Result<ChoiceText<'_>, String> {
    if text.len() > limits::TEXT_BYTES {
        return Err(format!("choices: more than {} bytes", limits::TEXT_BYTES));
    }
    let (scenario, below) = parted(text).ok_or("choices: no empty line after the scenario")?;
    let numbers = text::numbers(below).ok_or("choices: a line below the empty one is no number")?;
    if numbers.len() > NUMBERS {
        return Err(format!("choices: more than {NUMBERS} numbers below the empty line"));
    }
    let lists = lists(&numbers).ok_or(format!("choices: a list has numbers missing, or more than {RATES} rates"))?;
    Ok(ChoiceText { scenario, lists })
}

/// What stands before the first empty line and after it.
fn parted(text: &[u8]) -> Option<(&[u8], &[u8])> {
    let mut before = 0;
    for line in text.split_inclusive(|&byte| byte == b'\n') {
        if line == b"\n" {
            return Some((&text[..before], &text[before + 1..]));
        }
        before += line.len();
    }
    None
}

/// All lists of the numbers, none left over.
fn lists(mut numbers: &[u64]) -> Option<Vec<List>> {
    let mut lists = Vec::new();
    while !numbers.is_empty() {
        let (list, rest) = first_list(numbers)?;
        lists.push(list);
        numbers = rest;
    }
    Some(lists)
}

/// The first list of the numbers, and what follows it.
fn first_list(numbers: &[u64]) -> Option<(List, &[u64])> {
    let (&[length, steps, count], rest) = numbers.split_first_chunk()?;
    if count > RATES {
        return None;
    }
    let (rates, rest) = rest.split_at_checked(count as usize)?;
    Some((List { length, steps, rates: rates.to_vec() }, rest))
}

/// A record that the lists are asked of, and what became of the entry that left it.
pub struct State {
    pub outcome: Result<(), Refusal>,
    pub record: Record,
}

/// The start and what each entry leaves, or the refusal of start. What a refused step leaves stays.
pub fn states(scenario: &[u8]) -> Result<Vec<State>, Refusal> {
    let (outcome, mut record) = record::start(scenario);
    outcome?;
    let mut states = vec![State { outcome, record: record.clone() }];
    for entry in text::read(scenario)?.pumping {
        let outcome = listing::run_entry(&mut record, entry);
        states.push(State { outcome, record: record.clone() });
    }
    Ok(states)
}

/// The record with a time that 14 refuses.
pub fn broken(mut record: Record) -> Record {
    record.time = limits::TOTAL + 1;
    record
}

/// For each state what the controller answers to each list, and to two of words that no line can hold; last what it answers to the lists of a
/// record that 14 refuses. Of a refused scenario `scenario NUMBER` alone.
pub fn write(asked: &ChoiceText, out: &mut impl Write) -> io::Result<()> {
    let states = match states(asked.scenario) {
        Ok(states) => states,
        Err(refusal) => return writeln!(out, "scenario {refusal}"),
    };
    for (entry, state) in states.iter().enumerate() {
        writeln!(out, "after {entry} {}", value(state.outcome.map(|()| "taken")))?;
        write_answers("choice", &state.record, &asked.lists, out)?;
        write_answers("words", &state.record, &words(), out)?;
    }
    let last = &states[states.len() - 1].record;
    writeln!(out, "broken")?;
    write_answers("choice", &broken(last.clone()), &asked.lists, out)
}

/// Lists of words that no line can hold: at each rate of the first a step meets 7, and 20 refuses the second.
fn words() -> [List; 2] {
    [
        List { length: u64::MAX, steps: 1, rates: vec![0, u64::MAX] },
        List { length: 1, steps: u64::MAX, rates: vec![u64::MAX - 1, u64::MAX] },
    ]
}

/// For each list `NAME NUMBER rate RATE CHECKSUM`, `NAME NUMBER none CHECKSUM` or `NAME NUMBER refused REFUSAL CHECKSUM`, the checksum being that of
/// the record after the call.
fn write_answers(name: &str, record: &Record, lists: &[List], out: &mut impl Write) -> io::Result<()> {
    for (above, list) in lists.iter().enumerate() {
        let answer = choose(record, &list.rates, list.length, list.steps);
        let figures = answer.map(|choice| choice.map_or("none".to_string(), |rate| format!("rate {rate}")));
        writeln!(out, "{name} {} {} {}", above + 1, value(figures), record_checksum(record))?;
    }
    Ok(())
}
