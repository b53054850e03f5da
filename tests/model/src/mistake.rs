//! The mistakes that the trade makes, for the tests: a step made with one of them must be noticed.

/// One of document 01's five mistakes, or one that document 02 invites: by its C between layers 1 and 2 (N6), or by the deepest mark (N1).
#[derive(Clone, Copy, PartialEq, Eq, Debug)]
pub enum Mistake {
    /// Cells updated within the sweep, so that a later face sees a new drawdown.
    UpdatedInSweep,
    /// The two sides of one face rounded separately.
    SidesRoundedApart,
    /// Flow rounded down below zero, not toward it.
    RoundedDown,
    /// Stability judged without the vertical faces.
    NoVerticalStability,
    /// The last column's cells counted as storage.
    LastColumnStored,
    /// The C that the record keeps between layers 1 and 2 in use, as if the water table stood at the bottom of layer 1.
    TableAtBottom,
    /// The mark raised with the well's drawdown at the start of the step.
    MarkBehind,
    /// The well's drawdown after the step put in the mark's place, also where it is less.
    MarkFalls,
    /// The mark raised by a step that 10 or 11 refuses.
    MarkOfRefused,
}

pub const ALL: [Mistake; 9] = [
    Mistake::UpdatedInSweep,
    Mistake::SidesRoundedApart,
    Mistake::RoundedDown,
    Mistake::NoVerticalStability,
    Mistake::LastColumnStored,
    Mistake::TableAtBottom,
    Mistake::MarkBehind,
    Mistake::MarkFalls,
    Mistake::MarkOfRefused,
];
