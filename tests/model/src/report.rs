//! What the command prints of a record: the start's numbers, and every reading after each entry.

use crate::checksum::{byte_checksum, record_checksum};
use crate::grid::{cell, slot, Place};
use crate::head_loss;
use crate::limiting::{limiting, Limiting};
use crate::limits;
use crate::listing;
use crate::readings;
use crate::record::{self, Record};
use crate::refusal::Refusal;
use crate::text::{self, Entry};
use std::fmt::Display;
use std::io::{self, Write};
use std::iter;

/// Numbers parted by one space, each after a space.
fn row<T: Display>(numbers: impl IntoIterator<Item = T>) -> String {
    numbers.into_iter().map(|number| format!(" {number}")).collect()
}

/// A value, or `refused` and the number.
pub fn value<T: Display>(answer: Result<T, Refusal>) -> String {
    match answer {
        Ok(value) => value.to_string(),
        Err(refusal) => format!("refused {refusal}"),
    }
}

/// Whether two records are the same, 1 or 0, and the other way round.
pub fn both_ways(one: &Record, other: &Record) -> String {
    let answers = [readings::same(one, other), readings::same(other, one)];
    answers.map(|answer| value(answer.map(u8::from))).join(" ")
}

/// The outcome of start in one line: `scenario NUMBER`, or `accepted LAYERS COLUMNS CHECKSUM`.
pub fn write_brief(text: &[u8], out: &mut impl Write) -> io::Result<()> {
    let (outcome, record) = record::start(text);
    match outcome {
        Err(refusal) => writeln!(out, "scenario {refusal}"),
        Ok(()) => writeln!(out, "accepted {} {} {}", record.layers, record.columns, record_checksum(&record)),
    }
}

/// The outcome of start, and of an accepted text each number, each C and each S.
pub fn write_start(text: &[u8], out: &mut impl Write) -> io::Result<()> {
    write_brief(text, out)?;
    let (outcome, record) = record::start(text);
    if outcome.is_ok() {
        write_numbers(&record, out)?;
        write_coefficients(&record, out)?;
    }
    Ok(())
}

/// The numbers of the first four sections.
fn write_numbers(record: &Record, out: &mut impl Write) -> io::Result<()> {
    for (above, layer) in record.site().layers.iter().enumerate() {
        let numbers = [layer.thickness, layer.screened, layer.horizontal, layer.vertical, layer.storage];
        writeln!(out, "layer {}{}", above + 1, row(numbers))?;
    }
    writeln!(out, "radii{}", row(record.site().radii))?;
    let well = [record.well_radius, record.water_area, record.intake_depth, record.friction];
    writeln!(out, "well{}", row(well))?;
    writeln!(out, "screen {}{}", record.screen_loss_count, row(record.site().screen_losses))
}

/// Each C and each S.
fn write_coefficients(record: &Record, out: &mut impl Write) -> io::Result<()> {
    let layers = record.layers as usize;
    let columns = 1..record.columns as usize;
    let stored = |slots: &[u64], layer| row(columns.clone().map(|column| slots[slot(layer, column)]));
    for layer in screened_layers(record) {
        writeln!(out, "wellC {layer} {}", record.well_c[layer - 1])?;
    }
    for layer in 1..=layers {
        writeln!(out, "acrossC {layer}{}", stored(&record.across_c, layer))?;
    }
    for layer in 1..layers {
        writeln!(out, "downC {layer}{}", stored(&record.down_c, layer))?;
    }
    writeln!(out, "wellS {}", record.well_s)?;
    for layer in 1..=layers {
        writeln!(out, "cellS {layer}{}", stored(&record.cell_s, layer))?;
    }
    Ok(())
}

/// A pumping entry of a text: `entry RATE LENGTH REPEATS`, or `refused NUMBER`.
pub fn write_entry(text: &[u8], number: u64, out: &mut impl Write) -> io::Result<()> {
    match text::pumping_entry(text, number) {
        Ok(entry) => writeln!(out, "entry {} {} {}", entry.rate, entry.length, entry.repeats),
        Err(refusal) => writeln!(out, "refused {refusal}"),
    }
}

/// The first entries, the last that a text can have, and numbers that no entry has.
pub fn write_entries(text: &[u8], out: &mut impl Write) -> io::Result<()> {
    for number in [0, 1, 2, 500, 501] {
        write_entry(text, number, out)?;
    }
    Ok(())
}

/// What is read at the start, before any entry: for a rate of 0 and a length of 1 µs.
const AT_START: Entry = Entry { rate: 0, length: 1, repeats: 0 };

/// Runs the entries and writes every reading at the start (as entry 0) and after each entry.
pub fn write_readings(text: &[u8], out: &mut impl Write) -> io::Result<()> {
    for_each_state(text, out, write_refused_readings, write_state, write_whole)
}

/// A state's heading and its lines.
fn write_whole<W: Write>(heading: &str, body: &[u8], out: &mut W) -> io::Result<()> {
    writeln!(out, "{heading}")?;
    out.write_all(body)
}

/// The same states in one line each: the heading and the checksum of the bytes that `write_readings` prints below it.
pub fn write_sums(text: &[u8], out: &mut impl Write) -> io::Result<()> {
    for_each_state(text, out, write_refused_readings, write_state, write_sum)
}

/// A state's heading and the checksum of its lines.
fn write_sum<W: Write>(heading: &str, body: &[u8], out: &mut W) -> io::Result<()> {
    writeln!(out, "{heading} {}", byte_checksum(body))
}

/// Runs no step, as entry 0, and then the entries, and writes after each its outcome, the number of steps taken and
/// the record's checksum.
pub fn write_runs(text: &[u8], out: &mut impl Write) -> io::Result<()> {
    let (outcome, mut record) = record::start(text);
    if outcome.is_err() {
        return Ok(());
    }
    let none = Entry { rate: 0, length: 0, repeats: 0 };
    let pumping = text::read(text).expect("start has accepted this text").pumping;
    for (number, &entry) in iter::once(&none).chain(&pumping).enumerate() {
        let (outcome, taken) = listing::repeat(&mut record, entry.rate, entry.length, entry.repeats);
        let outcome = value(outcome.map(|()| "taken"));
        writeln!(out, "run {number} {outcome} {taken} {}", record_checksum(&record))?;
    }
    Ok(())
}

/// Runs the entries and hands over the heading of each state and its lines: `write_first` makes those that only the
/// start has, `write_state` those of a record, with the one before, the start and the entry.
fn for_each_state<W: Write>(
    text: &[u8],
    out: &mut W,
    write_first: impl Fn(&Record, &mut Vec<u8>) -> io::Result<()>,
    write_state: impl Fn(&Record, &Record, &Record, Entry, &mut Vec<u8>) -> io::Result<()>,
    write: impl Fn(&str, &[u8], &mut W) -> io::Result<()>,
) -> io::Result<()> {
    let (outcome, start) = record::start(text);
    if let Err(refusal) = outcome {
        return writeln!(out, "scenario {refusal}");
    }
    let mut body = Vec::new();
    write_first(&start, &mut body)?;
    write_state(&start, &start, &start, AT_START, &mut body)?;
    write("after 0 taken", &body, out)?;
    let mut record = start.clone();
    let pumping = text::read(text).expect("start has accepted this text").pumping;
    for (above, &entry) in pumping.iter().enumerate() {
        let before = record.clone();
        let outcome = listing::run_entry(&mut record, entry);
        body.clear();
        write_state(&record, &before, &start, entry, &mut body)?;
        write(&format!("after {} {}", above + 1, value(outcome.map(|()| "taken"))), &body, out)?;
    }
    Ok(())
}

/// Every reading of a record in whole numbers; those of a step not taken for the entry's rate and length.
fn write_state(record: &Record, before: &Record, start: &Record, entry: Entry, out: &mut Vec<u8>) -> io::Result<()> {
    writeln!(out, "time {}", record.time)?;
    let budget = readings::budget(record).expect("a run from start keeps an allowed record");
    let figures = [budget.well_loss, budget.cell_loss, budget.inflow, budget.mark];
    writeln!(out, "budget {}{}", budget.pumped, row(figures))?;
    writeln!(out, "checksum {}", record_checksum(record))?;
    write_drawdowns(record, out)?;
    write_sets(record, out)?;
    write_deep_cells(record, out)?;
    for other in [record, before, start] {
        writeln!(out, "same {}", both_ways(record, other))?;
    }
    write_flows(record, entry.length, out)?;
    for length in [0, 1, entry.length, 1_000_000_000, 1_000_000_001] {
        let layer = screened_layers(record)[0];
        let flow = readings::flow(record, cell(layer, 1), Place::Well, length);
        writeln!(out, "length {length} {}", value(flow))?;
    }
    write_limiting_lines(record, entry.rate, entry.length, out)
}

/// What would hold back a step of a rate and a length; of that rate and the greatest length, and where 8 refuses that, of the longest length
/// that 8 allows and 1 µs, of that length, and of it at the greatest rate; and of the greatest rate and the length.
fn write_limiting_lines(record: &Record, rate: u64, length: u64, out: &mut impl Write) -> io::Result<()> {
    let greatest = *limits::STEP_LENGTH.end();
    write_limiting(record, rate, length, out)?;
    write_limiting(record, rate, greatest, out)?;
    if let Ok(Limiting::Stability(_, longest)) = limiting(record, rate, greatest) {
        write_limiting(record, rate, longest + 1, out)?;
        write_limiting(record, rate, longest, out)?;
        write_limiting(record, limits::RATE, longest, out)?;
    }
    write_limiting(record, limits::RATE, length, out)
}

/// `limiting RATE LENGTH`, then `nothing`, `8 LAYER COLUMN LONGEST`, `10 LAYER COLUMN`, `11 LAYER COLUMN` or `refused 14`; the well has layer
/// and column 0.
pub fn write_limiting(record: &Record, rate: u64, length: u64, out: &mut impl Write) -> io::Result<()> {
    let figures = |held: Limiting| match held {
        Limiting::Stability(place, longest) => format!("{} {} {longest}", Refusal::Stability, place_numbers(place)),
        Limiting::Intake(place) => format!("{} {}", Refusal::Intake, place_numbers(place)),
        Limiting::WaterTable(place) => format!("{} {}", Refusal::WaterTable, place_numbers(place)),
        Limiting::Nothing => "nothing".to_string(),
    };
    writeln!(out, "limiting {rate} {length} {}", value(limiting(record, rate, length).map(figures)))
}

/// Layer and column of a place, 0 and 0 for the well.
fn place_numbers(place: Place) -> String {
    match place {
        Place::Well => "0 0".to_string(),
        Place::Cell { layer, column } => format!("{layer} {column}"),
    }
}

/// Runs the entries and writes the head losses of every screened layer at the start, for a length of 1 µs, and after each
/// entry for its length.
pub fn write_heads(text: &[u8], out: &mut impl Write) -> io::Result<()> {
    let write_state = |record: &Record, _: &Record, _: &Record, entry: Entry, body: &mut Vec<u8>| {
        let length = entry.length;
        for layer in screened_layers(record) {
            writeln!(body, "head {length} {layer} {}", head_figures(record, layer as u64, length))?;
        }
        Ok(())
    };
    for_each_state(text, out, write_refused_heads, write_state, write_whole)
}

/// Layers that 12 refuses, before any length is judged.
fn write_refused_heads(record: &Record, out: &mut Vec<u8>) -> io::Result<()> {
    for layer in [0, 1, record.layers + 1, u64::MAX] {
        writeln!(out, "no screen {}", head_figures(record, layer, 0))?;
    }
    Ok(())
}

/// Head loss of a layer: inflow, screen loss and pipe loss, each as its 64 bits in decimal.
fn head_figures(record: &Record, layer: u64, length: u64) -> String {
    let bits = |loss: head_loss::HeadLoss| {
        format!("{} {} {}", loss.inflow.to_bits(), loss.screen.to_bits(), loss.pipe.to_bits())
    };
    value(head_loss::head_loss(record, layer, length).map(bits))
}

/// `well D`, then `layer LAYER D D ..` for the stored columns.
fn write_drawdowns(record: &Record, out: &mut impl Write) -> io::Result<()> {
    writeln!(out, "well {}", value(readings::drawdown(record, Place::Well)))?;
    for layer in 1..=record.layers as usize {
        let columns = 1..record.columns as usize;
        let drawdowns = columns.map(|column| value(readings::drawdown(record, cell(layer, column))));
        writeln!(out, "layer {layer}{}", row(drawdowns))?;
    }
    Ok(())
}

/// Byte `index` of the sets that are read: 0 empty, 1 all, 2 the well, 3 the cells, 4 and 5 mixed ones.
pub fn set_byte(set: usize, index: usize) -> u8 {
    let byte = match set {
        0 => 0,
        1 => 1,
        2 => usize::from(index == 0) * 255,
        3 => usize::from(index > 0) * 128,
        4 => index % 3,
        _ => (index * index + index / 7) % 5,
    };
    byte as u8
}

/// `set NUMBER LOSS` for sets of the right length; sets of other lengths with their refusal.
fn write_sets(record: &Record, out: &mut impl Write) -> io::Result<()> {
    let length = readings::set_length(record);
    for set in 0..6 {
        let bytes: Vec<u8> = (0..length).map(|index| set_byte(set, index)).collect();
        writeln!(out, "set {set} {}", value(readings::storage_loss(record, &bytes)))?;
    }
    for other in [0, length - 1, length + 1] {
        writeln!(out, "set length {other} {}", value(readings::storage_loss(record, &vec![1; other])))?;
    }
    Ok(())
}

/// What every slot of a lent list holds before the call. It is no code.
const UNWRITTEN: u64 = 9;

/// For each threshold a list with a slot for each place, and where some cell is deeper one that is just long enough and one a slot too
/// short: `deep`, `deep exact` and `deep short`.
fn write_deep_cells(record: &Record, out: &mut impl Write) -> io::Result<()> {
    for threshold in deep_thresholds(record) {
        let (answer, list) = deep_list(record, threshold, readings::set_length(record));
        let count = answer.expect("the list holds every cell");
        write_deep_list("deep", threshold, count, &list, out)?;
        if count > 0 {
            let (answer, list) = deep_list(record, threshold, count);
            write_deep_list("deep exact", threshold, answer.expect("the list is long enough"), &list, out)?;
            let (answer, list) = deep_list(record, threshold, count - 1);
            writeln!(out, "deep short {threshold} {} {}", value(answer), unwritten(&list))?;
        }
    }
    Ok(())
}

/// Thresholds around the drawdowns of the deepest cell and of the cell in the middle of the list of all that are deeper than 0.
fn deep_thresholds(record: &Record) -> [u64; 9] {
    let depths = record.stored_cells().map(|(layer, column)| record.cell_drawdown(layer, column));
    let deepest = depths.max().expect("there is a stored cell");
    let (answer, list) = deep_list(record, 0, readings::set_length(record));
    let middle = match answer.expect("the list holds every cell") {
        0 => 0,
        count => depth_of_code(record, list[count / 2]),
    };
    let under = |depth: u64| depth.saturating_sub(1);
    [0, deepest / 4, deepest / 2, under(middle), middle, under(deepest), deepest, 1_000_000_000, u64::MAX]
}

/// D of the cell with a code, µm.
fn depth_of_code(record: &Record, code: u64) -> u64 {
    record.cell_drawdown((code / 100) as usize, (code % 100) as usize)
}

/// The reading on a lent list of a length: its answer, and the list after the call.
fn deep_list(record: &Record, threshold: u64, length: usize) -> (Result<usize, Refusal>, Vec<u64>) {
    let mut list = vec![UNWRITTEN; length];
    (readings::deep_cells(record, threshold, &mut list), list)
}

/// `NAME THRESHOLD COUNT LEFT CODE ..`, the codes as they stand in the list.
fn write_deep_list(name: &str, threshold: u64, count: usize, list: &[u64], out: &mut impl Write) -> io::Result<()> {
    writeln!(out, "{name} {threshold} {count} {}{}", unwritten(list), row(&list[..count]))
}

/// How many slots of a list were not written.
fn unwritten(list: &[u64]) -> usize {
    list.iter().filter(|&&code| code == UNWRITTEN).count()
}

/// Flow of every face for a length, outward or downward; backward must give the same with the other sign.
fn write_flows(record: &Record, length: u64, out: &mut impl Write) -> io::Result<()> {
    let (layers, columns) = (record.layers as usize, record.columns as usize);
    let both_ways = |from, to| {
        let forward = readings::flow(record, from, to, length);
        assert_eq!(readings::flow(record, to, from, length), forward.map(|flow| -flow));
        forward
    };
    let faces = |pairs: Vec<(Place, Place)>| match pairs.iter().map(|&(from, to)| both_ways(from, to)).collect() {
        Ok::<Vec<i64>, _>(flows) => row(flows),
        Err(refusal) => format!(" refused {refusal}"),
    };
    for layer in screened_layers(record) {
        writeln!(out, "inward {length} {layer}{}", faces(vec![(cell(layer, 1), Place::Well)]))?;
    }
    for layer in 1..=layers {
        let pairs = (1..columns).map(|column| (cell(layer, column), cell(layer, column + 1))).collect();
        writeln!(out, "across {length} {layer}{}", faces(pairs))?;
    }
    for layer in 1..layers {
        let pairs = (1..columns).map(|column| (cell(layer, column), cell(layer + 1, column))).collect();
        writeln!(out, "down {length} {layer}{}", faces(pairs))?;
    }
    Ok(())
}

/// Readings that 12 refuses, before any length is judged, and steps that 7 refuses, which nothing of this kind holds back.
fn write_refused_readings(record: &Record, out: &mut Vec<u8>) -> io::Result<()> {
    let (layers, columns) = (record.layers, record.columns);
    let at = |layer, column| Place::Cell { layer, column };
    for place in
        [at(0, 1), at(1, 0), at(1, columns), at(layers, columns + 1), at(layers + 1, 1), at(u64::MAX, u64::MAX)]
    {
        writeln!(out, "no place {}", value(readings::drawdown(record, place)))?;
    }
    let pairs = [
        (Place::Well, Place::Well),
        (Place::Well, at(1, 1)),
        (at(layers, 2), Place::Well),
        (at(1, 1), at(1, 1)),
        (at(1, 1), at(2, 2)),
        (at(1, columns), at(2, columns)),
        (at(1, columns), at(1, columns + 1)),
        (at(layers, 1), at(layers + 1, 1)),
        (at(0, 1), at(1, 1)),
        (at(1, u64::MAX), at(1, 0)),
    ];
    for (from, to) in pairs {
        writeln!(out, "no face {}", value(readings::flow(record, from, to, 0)))?;
    }
    for (rate, length) in [(10_000_001, 1), (0, 0), (0, 1_000_000_001), (u64::MAX, u64::MAX)] {
        write_limiting(record, rate, length, out)?;
    }
    Ok(())
}

/// The screened layers of a record, topmost first.
fn screened_layers(record: &Record) -> Vec<usize> {
    record.site().screened_layers()
}
