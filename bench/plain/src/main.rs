//! The reference model's arithmetic as a plain loop, for bench/run: a scenario text on standard input to its listing on standard output.
//! 14, 7 and 8 are judged once an entry, 9 to 11 at every step, and losses and mark are updated in place. With the word `numbers` it prints
//! instead what the step in double precision (double.c) reads.

use reference_model::geometry;
use reference_model::limits::{self, CELLS, COLUMNS};
use reference_model::record::{self, Record};
use reference_model::refusal::Refusal;
use reference_model::step;
use reference_model::text::{self, Entry};
use std::io::{self, Read, Write};
use std::ops::Range;

/// D = V × 10^6 / S, µm, of a loss (nl, never negative) and a storage (nl per m).
fn drawdown(loss: i64, storage: u64) -> i64 {
    (loss as u128 * 1_000_000 / u128::from(storage)) as i64
}

/// Water from one end of a face to the other in a step, nl, of C (10^-12 m²/s), D (µm) and Δt (µs).
fn flow(conductance: u64, from: i64, to: i64, length: u64) -> i64 {
    let size = u128::from(conductance) * u128::from(to.abs_diff(from) * length) / 1_000_000_000_000;
    if to < from {
        -(size as i64)
    } else {
        size as i64
    }
}

/// C of a horizontal face of layer 1 by its mean saturated thickness, 10^-12 m²/s; the thickness b_1 in mm.
fn water_table_conductance(conductance: u64, thickness: u64, from: i64, to: i64) -> u64 {
    let full = 2000 * thickness;
    (u128::from(conductance) * u128::from(full - from as u64 - to as u64) / u128::from(full)) as u64
}

/// A_j × 1000 × Kv_1 × Kv_2 of the stored columns, what the C between layers 1 and 2 is a quotient of.
fn top_dividends(record: &Record) -> [u128; COLUMNS] {
    let (site, mut dividends) = (record.site(), [0; COLUMNS]);
    for (at, dividend) in dividends[..site.columns() - 1].iter_mut().enumerate() {
        let area = geometry::area(site.radius(at), site.radius(at + 1));
        *dividend = area * 1000 * u128::from(record.vertical[0]) * u128::from(record.vertical[1]);
    }
    dividends
}

/// C between layers 1 and 2 from the water table to the centre of layer 2, 10^-12 m²/s, of its dividend and D of the cell in layer 1, µm.
fn top_vertical_conductance(dividend: u128, record: &Record, top_drawdown: i64) -> u64 {
    if dividend == 0 {
        return 0;
    }
    let saturated = 1000 * record.thickness[0] - top_drawdown as u64;
    let divisor = saturated * record.vertical[1] + 500 * record.thickness[1] * record.vertical[0];
    (dividend / u128::from(divisor)) as u64
}

/// A model in a run.
struct Run {
    record: Record,
    top_dividends: [u128; COLUMNS],
    /// D of the well, µm: after a step it is the next one's at the start.
    well_drawdown: i64,
    /// D of the cells, one at each slot of the record; 0 in the last column.
    drawdown: [i64; CELLS],
}

impl Run {
    /// Runs an entry; a refused step ends it, and the steps before stay.
    fn entry(&mut self, entry: Entry) -> Result<(), Refusal> {
        self.record.judge()?;
        if entry.rate > limits::RATE {
            return Err(Refusal::Call);
        }
        step::judge_length(entry.length)?;
        step::judge_stability(&self.record, entry.length, None)?;
        (0..entry.repeats).try_for_each(|_| self.step(entry.rate, entry.length))
    }

    /// A step of a rate (ml/s) and a length (µs); a step refused with 10 or 11 is taken back.
    fn step(&mut self, rate: u64, length: u64) -> Result<(), Refusal> {
        let volume = rate * length;
        if self.record.pumped + volume > limits::TOTAL || self.record.time + length > limits::TOTAL {
            return Err(Refusal::Total);
        }
        self.draw_down();
        self.move_water::<1>(volume, length);
        let well = drawdown(self.record.well_loss, self.record.well_s);
        if let Err(refusal) = self.judge(well) {
            self.move_water::<-1>(volume, length);
            return Err(refusal);
        }
        self.record.pumped += volume;
        self.record.time += length;
        self.record.mark = self.record.mark.max(well);
        self.well_drawdown = well;
        Ok(())
    }

    /// The stored cells of a layer, counted from 0: columns 1 to m−1.
    fn slots(&self, row: usize) -> Range<usize> {
        row * COLUMNS..row * COLUMNS + self.record.columns as usize - 1
    }

    /// D of the cells at the start of a step.
    fn draw_down(&mut self) {
        for row in 0..self.record.layers as usize {
            for at in self.slots(row) {
                self.drawdown[at] = drawdown(self.record.cell_loss[at], self.record.cell_s[at]);
            }
        }
    }

    /// Moves the water of a step (SIGN 1) or takes it back (SIGN −1): the volume pumped, nl, and every face once.
    fn move_water<const SIGN: i64>(&mut self, volume: u64, length: u64) {
        self.record.well_loss += SIGN * volume as i64;
        let layers = self.record.layers as usize;
        for row in 0..layers {
            let slots = self.slots(row);
            let Run { record, top_dividends, well_drawdown, drawdown } = self;
            let into_well = SIGN * flow(record.well_c[row], *well_drawdown, drawdown[slots.start], length);
            record.well_loss += into_well;
            record.cell_loss[slots.start] -= into_well;
            for at in slots.clone() {
                let (from, to) = (drawdown[at], drawdown[at + 1]);
                let conductance = if row == 0 {
                    water_table_conductance(record.across_c[at], record.thickness[0], from, to)
                } else {
                    record.across_c[at]
                };
                let outward = SIGN * flow(conductance, from, to, length);
                record.cell_loss[at] += outward;
                if at + 1 < slots.end {
                    record.cell_loss[at + 1] -= outward;
                } else {
                    record.inflow -= outward;
                }
            }
            if row + 1 < layers {
                for at in slots {
                    let below = at + COLUMNS;
                    let conductance = if row == 0 {
                        top_vertical_conductance(top_dividends[at], record, drawdown[at])
                    } else {
                        record.down_c[at]
                    };
                    let downward = SIGN * flow(conductance, drawdown[at], drawdown[below], length);
                    record.cell_loss[at] += downward;
                    record.cell_loss[below] -= downward;
                }
            }
        }
    }

    /// 10 and 11 after a step, on D of the well, µm, and the losses of layer 1.
    fn judge(&self, well: i64) -> Result<(), Refusal> {
        let record = &self.record;
        if well > 1000 * record.intake_depth as i64 {
            return Err(Refusal::Intake);
        }
        let bound = 1000 * record.thickness[0] as i64;
        if self.slots(0).any(|at| drawdown(record.cell_loss[at], record.cell_s[at]) > bound) {
            return Err(Refusal::WaterTable);
        }
        Ok(())
    }

    /// The listing's line of an entry.
    fn line(&self, number: usize) -> String {
        let record = &self.record;
        let well = record.well_drawdown();
        let cell_loss = record.all_cells_loss();
        format!("{number} {} {well} {} {} {cell_loss} {}", record.time, record.pumped, record.well_loss, record.inflow)
    }
}

/// The listing of a run from its start.
fn listing(record: Record, pumping: &[Entry], out: &mut impl Write) -> io::Result<()> {
    writeln!(out, "entry us well pumped wellloss cellloss inflow")?;
    let mut run = Run { top_dividends: top_dividends(&record), record, well_drawdown: 0, drawdown: [0; CELLS] };
    for (above, &entry) in pumping.iter().enumerate() {
        match run.entry(entry) {
            Ok(()) => writeln!(out, "{}", run.line(above + 1))?,
            Err(refusal) => writeln!(out, "refused {} {refusal}", above + 1)?,
        }
    }
    Ok(())
}

/// What double.c reads: counts; b_1 (mm), Kv_1 (nm/s), b_2, Kv_2; S of the well (nl per m); C (10^-12 m²/s) of each layer's face with the
/// well; of each stored cell C outward, C downward and S; the entries.
fn numbers(record: &Record, pumping: &[Entry], out: &mut impl Write) -> io::Result<()> {
    writeln!(out, "{} {}", record.layers, record.columns)?;
    for row in 0..2 {
        writeln!(out, "{} {}", record.thickness[row], record.vertical[row])?;
    }
    writeln!(out, "{}", record.well_s)?;
    for row in 0..record.layers as usize {
        writeln!(out, "{}", record.well_c[row])?;
        for at in row * COLUMNS..row * COLUMNS + record.columns as usize - 1 {
            writeln!(out, "{} {} {}", record.across_c[at], record.down_c[at], record.cell_s[at])?;
        }
    }
    writeln!(out, "{}", pumping.len())?;
    for entry in pumping {
        writeln!(out, "{} {} {}", entry.rate, entry.length, entry.repeats)?;
    }
    Ok(())
}

fn main() -> io::Result<()> {
    let mut text = Vec::new();
    io::stdin().lock().read_to_end(&mut text)?;
    let mut out = io::stdout().lock();
    let pumping = match text::read(&text) {
        Ok(scenario) => scenario.pumping,
        Err(refusal) => return writeln!(out, "scenario {refusal}"),
    };
    let (_, record) = record::start(&text);
    if std::env::args().nth(1).as_deref() == Some("numbers") {
        numbers(&record, &pumping, &mut out)
    } else {
        listing(record, &pumping, &mut out)
    }
}
