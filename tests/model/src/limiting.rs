//! What would hold a step back (document 02, N12): of a step not taken that would be refused with 8, 10 or 11, the place that brings this
//! about. It is found by trying: lengths by what 8 asks, and drawdowns by the step worked.

use crate::grid::{cell, Place};
use crate::limits;
use crate::record::Record;
use crate::refusal::Refusal;
use crate::step;

#[derive(Clone, Copy, PartialEq, Eq, Debug)]
pub enum Limiting {
    /// 8: the place with the shortest allowed step, and the longest step that 8 allows, µs.
    Stability(Place, u64),
    /// 10: the well.
    Intake(Place),
    /// 11: the cell of layer 1 that would be deepest.
    WaterTable(Place),
    /// Nothing of this kind: the step would be taken, or refused with 7 or 9.
    Nothing,
}

/// The reading: a step of a rate (ml/s) and a length (µs), both any number, is judged as it would be if it were taken. Only 14 refuses it.
pub fn limiting(record: &Record, rate: u64, length: u64) -> Result<Limiting, Refusal> {
    match step::step(&mut record.clone(), rate, length) {
        Err(Refusal::Record) => Err(Refusal::Record),
        Err(Refusal::Stability) => Ok(too_long(record)),
        Err(Refusal::Intake) => Ok(Limiting::Intake(Place::Well)),
        Err(Refusal::WaterTable) => Ok(Limiting::WaterTable(deepest(record, rate, length))),
        _ => Ok(Limiting::Nothing),
    }
}

/// The longest step that every place bears, and the first place that does not bear one µs more. Each of those before it bears that too, and
/// no place has a shorter one.
fn too_long(record: &Record) -> Limiting {
    let longest = longest_passing(|length| step::judge_stability(record, length, None).is_ok());
    let mut places = step::places(record);
    let place = places.find(|&place| !step::bears(record, place, longest + 1, None));
    Limiting::Stability(place.expect("8 refuses one µs more"), longest)
}

/// The longest length (µs) that passes a test, of 0 and those that 7 allows. Where one does not pass, none that is longer does.
pub fn longest_passing(passes: impl Fn(u64) -> bool) -> u64 {
    last_passing(limits::STEP_LENGTH.end() + 1, passes)
}

/// A number under `refused` that passes a test while the next one does not, by halving; `refused` counts as one that does not, and 0 as one that does.
pub fn last_passing(mut refused: u64, passes: impl Fn(u64) -> bool) -> u64 {
    let mut allowed = 0;
    while refused - allowed > 1 {
        let middle = (allowed + refused) / 2;
        if passes(middle) {
            allowed = middle;
        } else {
            refused = middle;
        }
    }
    allowed
}

/// The cell of layer 1 with the largest D after the step worked; the innermost of those with equal D.
fn deepest(record: &Record, rate: u64, length: u64) -> Place {
    let depths = step::table_after(record, rate, length);
    let most = depths.iter().max().expect("there is a stored column");
    let inside = depths.iter().position(|depth| depth == most).expect("some column is the deepest");
    cell(1, inside + 1)
}
