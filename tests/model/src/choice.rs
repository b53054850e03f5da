//! The controller's choice (document 02, N13): of a list of rates the highest at which so many steps are all accepted. Every rate is tried.

use crate::limits;
use crate::record::Record;
use crate::refusal::Refusal;
use crate::step;

/// The highest of the rates (ml/s) at which so many steps of a length (µs), one after the other from the record, are all accepted; none where
/// each rate meets a refused step. The record stays as it is. Refused with 14, then with 20; a rate or a length that 7 refuses is only tried.
pub fn choose(record: &Record, rates: &[u64], length: u64, steps: u64) -> Result<Option<u64>, Refusal> {
    record.judge()?;
    judge_list(rates, steps)?;
    Ok(rates.iter().copied().filter(|&rate| accepts(record, rate, length, steps)).max())
}

/// Refusal 20: no rate or too many, rates that do not rise strictly, or a number of steps outside its limits.
fn judge_list(rates: &[u64], steps: u64) -> Result<(), Refusal> {
    let rising = rates.windows(2).all(|pair| pair[0] < pair[1]);
    if limits::RATE_COUNT.contains(&rates.len()) && rising && limits::STEP_COUNT.contains(&steps) {
        Ok(())
    } else {
        Err(Refusal::Choice)
    }
}

/// Whether so many steps of a rate (ml/s) and a length (µs), one after the other from a record, are all accepted.
pub fn accepts(record: &Record, rate: u64, length: u64, steps: u64) -> bool {
    let mut tried = record.clone();
    (0..steps).all(|_| step::step(&mut tried, rate, length).is_ok())
}
