//! Tests of the reference model.

mod bore_k;
mod calls;
mod choices;
mod command;
mod deep_cells;
mod garbage;
mod head_losses;
mod limiting;
mod logarithms;
mod marks;
mod mistakes;
mod records;
mod report_rule;
mod rests;
mod runs;
mod sameness;
mod stored;
mod texts;
mod thiem;
mod water_tables;
