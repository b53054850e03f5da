//! The refusals of document 01, and those of the requests of document 02 that have landed, with their numbers.

use std::fmt;

/// What a call is refused with.
#[derive(Clone, Copy, PartialEq, Eq, Debug)]
pub enum Refusal {
    /// A line that is no number, too long a text, numbers missing or left over.
    Line = 1,
    /// A count outside its limits.
    Count = 2,
    /// A number outside its limits.
    Number = 3,
    /// Radii not rising, or too wide a column.
    Radii = 4,
    /// No layer screened, layer 1 screened, or the intake at or below the screen's top.
    Screen = 5,
    /// A C or an S outside its limits.
    Coefficient = 6,
    /// A rate or a step length outside its limits.
    Call = 7,
    /// A step too long for some place.
    Stability = 8,
    /// The pumped total or the time would pass its limit.
    Total = 9,
    /// The well's drawdown would pass the intake.
    Intake = 10,
    /// A drawdown in layer 1 would pass the layer's bottom.
    WaterTable = 11,
    /// No such place, face or pumping entry, or a layer that is not screened.
    Absent = 12,
    /// A list too short, or a set of the wrong length.
    Buffer = 13,
    /// A record that is none.
    Record = 14,
    /// No rate or too many to choose from, rates that do not rise, or a number of steps outside its limits (document 02, N13).
    Choice = 20,
}

impl Refusal {
    /// The number that the documents have for this refusal.
    pub fn number(self) -> u64 {
        self as u64
    }
}

impl fmt::Display for Refusal {
    fn fmt(&self, out: &mut fmt::Formatter) -> fmt::Result {
        write!(out, "{}", self.number())
    }
}
