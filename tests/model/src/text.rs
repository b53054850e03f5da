//! The scenario text: its line form, its sections, and refusals 1 to 6 in their order.

use crate::coefficients::Coefficients;
use crate::limits;
use crate::refusal::Refusal;
use crate::site::{Layer, Site, Well};
use std::ops::RangeInclusive;

/// A pumping entry.
#[derive(Clone, Copy, PartialEq, Eq, Debug)]
pub struct Entry {
    /// ml/s, judged when stepped.
    pub rate: u64,
    /// Step length, µs, judged when stepped.
    pub length: u64,
    pub repeats: u64,
}

/// What an accepted text says, with the coefficients its geometry gives.
#[derive(Clone, PartialEq, Eq, Debug)]
pub struct Scenario {
    pub site: Site,
    pub pumping: Vec<Entry>,
    pub coefficients: Coefficients,
}

/// Judges a text and reads it: 1 over all lines, 1 and 2 section by section, then 3, 4, 5, 6.
pub fn read(text: &[u8]) -> Result<Scenario, Refusal> {
    let numbers = numbers(text).ok_or(Refusal::Line)?;
    let (site, pumping) = sections(&numbers)?;
    let repeats_in_limits = pumping.iter().all(|entry| limits::REPEATS.contains(&entry.repeats));
    if !site.numbers_in_limits() || !repeats_in_limits {
        return Err(Refusal::Number);
    }
    if !site.radii_allowed() {
        return Err(Refusal::Radii);
    }
    if !site.screen_allowed() {
        return Err(Refusal::Screen);
    }
    let coefficients = Coefficients::of(&site);
    if !coefficients.in_limits() {
        return Err(Refusal::Coefficient);
    }
    Ok(Scenario { site, pumping, coefficients })
}

/// The call on a text that gives one pumping entry by its number, from 1.
pub fn pumping_entry(text: &[u8], number: u64) -> Result<Entry, Refusal> {
    let pumping = read(text)?.pumping;
    let index = number.checked_sub(1).and_then(|above| usize::try_from(above).ok());
    index.and_then(|index| pumping.get(index).copied()).ok_or(Refusal::Absent)
}

/// The numbers of a text of the right form: not too long, and every line a number ended by a line feed.
pub fn numbers(text: &[u8]) -> Option<Vec<u64>> {
    if text.len() > limits::TEXT_BYTES {
        return None;
    }
    text.split_inclusive(|&byte| byte == b'\n').map(|line| line.strip_suffix(b"\n").and_then(decimal)).collect()
}

/// 1 to 18 digits and nothing else, no leading zero except 0 itself.
fn decimal(line: &[u8]) -> Option<u64> {
    let leading_zero = line.len() > 1 && line[0] == b'0';
    if line.is_empty() || line.len() > limits::LINE_DIGITS || leading_zero {
        return None;
    }
    line.iter().try_fold(0, |value, byte| byte.is_ascii_digit().then(|| value * 10 + u64::from(byte - b'0')))
}

/// What is left of the text's numbers while the sections are taken.
struct Rest<'a>(&'a [u64]);

impl<'a> Rest<'a> {
    /// Takes a section: its count, judged, then so many records of `width` numbers.
    fn section(&mut self, counts: RangeInclusive<u64>, width: usize) -> Result<&'a [u64], Refusal> {
        let (&count, after) = self.0.split_first().ok_or(Refusal::Line)?;
        if !counts.contains(&count) {
            return Err(Refusal::Count);
        }
        let length = count as usize * width;
        if after.len() < length {
            return Err(Refusal::Line);
        }
        let (records, rest) = after.split_at(length);
        self.0 = rest;
        Ok(records)
    }
}

/// The five sections in their order; numbers left over are refused last.
fn sections(numbers: &[u64]) -> Result<(Site, Vec<Entry>), Refusal> {
    let mut rest = Rest(numbers);
    let layers = rest.section(limits::LAYER_COUNT, 5)?;
    let radii = rest.section(limits::COLUMN_COUNT, 1)?;
    let well = rest.section(limits::WELL_COUNT, 1)?;
    let screen_losses = rest.section(limits::SCREEN_LOSS_COUNT, 1)?;
    let pumping = rest.section(limits::PUMPING_COUNT, 3)?;
    if !rest.0.is_empty() {
        return Err(Refusal::Line);
    }
    let layer = |n: &[u64]| Layer { thickness: n[0], screened: n[1], horizontal: n[2], vertical: n[3], storage: n[4] };
    let site = Site {
        layers: layers.chunks(5).map(layer).collect(),
        radii: radii.to_vec(),
        well: Well { radius: well[0], water_area: well[1], intake_depth: well[2], friction: well[3] },
        screen_losses: screen_losses.to_vec(),
    };
    let pumping = pumping.chunks(3).map(|n| Entry { rate: n[0], length: n[1], repeats: n[2] }).collect();
    Ok((site, pumping))
}
