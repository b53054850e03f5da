//! The listing that the program prints for a scenario.

use crate::readings;
use crate::record::{self, Record};
use crate::refusal::Refusal;
use crate::step;
use crate::text::{self, Entry};
use std::io::{self, Write};

const HEADER: &str = "entry us well pumped wellloss cellloss inflow";

/// Runs an entry; a refused step ends it, and the steps before stay.
pub fn run_entry(record: &mut Record, entry: Entry) -> Result<(), Refusal> {
    repeat(record, entry.rate, entry.length, entry.repeats).0
}

/// Equal steps, one after the other: what became of them, and how many were taken. A refusal ends them, and those
/// before it stay; 14 is judged also where no step is asked.
pub fn repeat(record: &mut Record, rate: u64, length: u64, steps: u64) -> (Result<(), Refusal>, u64) {
    if let Err(refusal) = record.judge() {
        return (Err(refusal), 0);
    }
    for taken in 0..steps {
        if let Err(refusal) = step::step(record, rate, length) {
            return (Err(refusal), taken);
        }
    }
    (Ok(()), steps)
}

/// The listing of a text, line by line as the entries end.
pub fn write(text: &[u8], out: &mut impl Write) -> io::Result<()> {
    let (outcome, mut record) = record::start(text);
    if let Err(refusal) = outcome {
        return writeln!(out, "scenario {refusal}");
    }
    writeln!(out, "{HEADER}")?;
    let pumping = text::read(text).expect("start has accepted this text").pumping;
    for (above, &entry) in pumping.iter().enumerate() {
        match run_entry(&mut record, entry) {
            Ok(()) => writeln!(out, "{}", entry_line(above + 1, &record))?,
            Err(refusal) => writeln!(out, "refused {} {refusal}", above + 1)?,
        }
    }
    Ok(())
}

/// The line of an entry whose steps were all taken.
fn entry_line(number: usize, record: &Record) -> String {
    let budget = readings::budget(record).expect("a run from start keeps an allowed record");
    let well = record.well_drawdown();
    format!(
        "{number} {} {well} {} {} {} {}",
        record.time, budget.pumped, budget.well_loss, budget.cell_loss, budget.inflow
    )
}

/// The whole listing at once.
pub fn listing(text: &[u8]) -> String {
    let mut out = Vec::new();
    write(text, &mut out).expect("memory can be written");
    String::from_utf8(out).expect("a listing is plain text")
}
