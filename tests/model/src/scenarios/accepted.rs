//! Random scenarios that start accepts: thin and thick layers, several screens, zero and huge conductivities.

use super::draft::{Draft, HORIZONTAL, INTAKE, RADIUS, SCREENED, STORAGE, THICKNESS, VERTICAL, WATER_AREA};
use crate::geometry;
use crate::grid::Place;
use crate::ledger::Ledger;
use crate::limits;
use crate::random::Random;

/// Places times steps that a whole run may work.
const WORK: u64 = 150_000;
const MOST_STEPS: u64 = 1_500;

/// How the columns of a grid are drawn: u_(j+1) up to so many times u_j, from some style of `radii` on.
#[derive(Clone, Copy)]
struct Widths {
    times: u64,
    first_style: u64,
}

const COMMON: Widths = Widths { times: 3, first_style: NARROW };
const WIDE: Widths = Widths { times: limits::WIDEST_RATIO, first_style: WIDEST };

/// A scenario of a size with a pumping list.
pub fn scenario(random: &mut Random, layers: usize, columns: usize) -> Draft {
    let mut draft = grid(random, layers, columns);
    add_pumping(random, &mut draft);
    draft
}

/// A scenario of a few columns that are as wide as rule 4 allows, or any width.
pub fn wide(random: &mut Random) -> Draft {
    let (layers, columns) = (random.between(2, 8) as usize, random.between(2, 6) as usize);
    let mut draft = softened_grid(random, layers, columns, WIDE);
    add_pumping(random, &mut draft);
    draft
}

/// A grid of a size, without pumping; most allow steps of some µs to some seconds.
pub fn grid(random: &mut Random, layers: usize, columns: usize) -> Draft {
    softened_grid(random, layers, columns, COMMON)
}

fn softened_grid(random: &mut Random, layers: usize, columns: usize, widths: Widths) -> Draft {
    loop {
        let mut draft = draw_grid(random, layers, columns, widths);
        if !random.once_in(12) {
            soften(&mut draft, random.spread(2, 10_000_000));
        }
        if draft.start().is_some() {
            return draft;
        }
    }
}

/// Raises storage and then lowers conductivities until 8 allows a step of about a length (µs).
fn soften(draft: &mut Draft, length: u64) {
    let bounds = Bounds::of(draft.well[RADIUS], &draft.radii);
    for _ in 0..6 {
        let Ok(ledger) = Ledger::start(&draft.text()) else { return };
        let sums = ledger.conductance_sums();
        // How many times too fast the water of each layer, and of the well at 0, moves.
        let mut excess = vec![1; draft.layers.len() + 1];
        for (place, stored) in &ledger.places {
            let row = match place {
                Place::Well => 0,
                Place::Cell { layer, .. } => *layer as usize,
            };
            let times = (i128::from(length) * sums[place] + 1).unsigned_abs();
            excess[row] = times.div_ceil(1_000_000 * stored.storage.unsigned_abs()).max(excess[row]);
        }
        if excess.iter().all(|&times| times == 1) {
            return;
        }
        let well = raised(&mut draft.well[WATER_AREA], *limits::WATER_AREA.end(), excess[0]);
        for (above, layer) in draft.layers.iter_mut().enumerate() {
            let most = if above == 0 { bounds.specific_yield() } else { bounds.specific_storage(layer[THICKNESS]).1 };
            let left = raised(&mut layer[STORAGE], most, excess[above + 1]);
            let at_well = if layer[SCREENED] == 1 { well } else { 1 };
            layer[HORIZONTAL] = lowered(layer[HORIZONTAL], left.max(at_well));
            layer[VERTICAL] = lowered(layer[VERTICAL], left);
        }
    }
}

/// A number so many times as large, to a limit; what is left of the factor.
fn raised(number: &mut u64, most: u64, times: u128) -> u128 {
    let factor = times.min(u128::from((most / *number).max(1)));
    *number *= factor as u64;
    times.div_ceil(factor)
}

/// A number so many times smaller.
fn lowered(number: u64, times: u128) -> u64 {
    (u128::from(number) / times) as u64
}

fn draw_grid(random: &mut Random, layers: usize, columns: usize, widths: Widths) -> Draft {
    let well_radius = random.spread(10, 5000);
    let radii = radii(random, well_radius, columns, widths);
    let bounds = Bounds::of(well_radius, &radii);
    let mut rows: Vec<[u64; 5]> = (0..layers).map(|above| layer(random, above == 0, &bounds)).collect();
    let screen_share = random.between(1, 6);
    for row in &mut rows[1..] {
        row[SCREENED] = u64::from(random.once_in(screen_share));
    }
    let always = random.between(1, layers as u64 - 1) as usize;
    rows[always][SCREENED] = 1;
    rows[0][THICKNESS] += u64::from(rows[0][THICKNESS] == 1);
    let mut draft = Draft { layers: rows, radii, well: Vec::new(), screen_losses: Vec::new(), pumping: Vec::new() };
    let intake = random.between(1, (draft.screen_top() - 1).min(*limits::INTAKE_DEPTH.end()));
    let friction = random.between(0, 1_000_000);
    draft.well = vec![well_radius, random.spread(1, 1_000_000_000), intake, random.one_of(&[0, friction, 1_000_000])];
    for _ in 0..random.between(0, 2) {
        let loss = random.spread(1, 1_000_000_000_000);
        draft.screen_losses.push(random.one_of(&[0, loss, loss, 1_000_000_000_000]));
    }
    draft
}

/// Styles of `radii`: narrow, growing, as wide as may be, and any width.
const NARROW: u64 = 0;
const GROWING: u64 = 1;
const WIDEST: u64 = 2;
const ANY_WIDTH: u64 = 3;

/// Rising radii that rule 4 allows.
fn radii(random: &mut Random, well_radius: u64, columns: usize, widths: Widths) -> Vec<u64> {
    let style = random.between(widths.first_style, ANY_WIDTH);
    let (mut inner, mut outer) = (well_radius, well_radius);
    let mut radii = Vec::new();
    for column in 0..columns {
        // Room for the columns still to come.
        let room = *limits::COLUMN_RADIUS.end() - (columns - 1 - column) as u64;
        let widest = widest_radius(inner, outer, widths.times).min(room);
        let next = match style {
            NARROW => outer + random.between(1, 5),
            GROWING => outer + 1 + outer * random.between(1, 12) / 10,
            WIDEST => widest,
            _ => random.between(outer + 1, widest),
        };
        inner = outer;
        outer = next.clamp(outer + 1, widest);
        radii.push(outer);
    }
    radii
}

/// The largest R_(j+1) after R_(j-1) and R_j for which u_(j+1) = R_j + R_(j+1) is at most so many times u_j = R_(j-1) + R_j.
pub fn widest_radius(inner: u64, outer: u64, times: u64) -> u64 {
    times * (inner + outer) - outer
}

/// What keeps the coefficients of a grid within refusal 6's limits.
struct Bounds {
    least_area: u64,
    most_area: u64,
    least_logarithm: u64,
}

impl Bounds {
    fn of(well_radius: u64, radii: &[u64]) -> Bounds {
        let mut all = vec![well_radius];
        all.extend(radii);
        let areas = all[..all.len() - 1].windows(2).map(|pair| geometry::area(pair[0], pair[1]) as u64);
        let mut doubled = vec![2 * well_radius];
        doubled.extend(all.windows(2).map(|pair| pair[0] + pair[1]));
        let logarithms = doubled.windows(2).map(|pair| geometry::lambda(pair[1], pair[0]) as u64);
        Bounds {
            least_area: areas.clone().min().expect("there is a stored column"),
            most_area: areas.max().expect("there is a stored column"),
            least_logarithm: logarithms.min().expect("there are two columns"),
        }
    }

    /// Largest Kh at a thickness, nm/s.
    fn horizontal(&self, thickness: u64) -> u64 {
        let most = u128::from(limits::CONDUCTANCE) * u128::from(self.least_logarithm)
            / (u128::from(thickness) * geometry::TWO_PI);
        most.min(u128::from(*limits::CONDUCTIVITY.end())) as u64
    }

    /// A Kv at a thickness that no vertical C can pass its limit with, nm/s.
    fn vertical(&self, thickness: u64) -> u64 {
        let most = u128::from(limits::CONDUCTANCE) * u128::from(thickness) / (2 * u128::from(self.most_area));
        most.min(u128::from(*limits::CONDUCTIVITY.end())) as u64
    }

    /// Least and largest specific storage at a thickness, 10^-9 per m.
    fn specific_storage(&self, thickness: u64) -> (u64, u64) {
        let area_by_thickness = |area: u64| u128::from(area) * u128::from(thickness);
        let least = 1_000_000u128.div_ceil(area_by_thickness(self.least_area)).max(1);
        let most = 1_000_000 * u128::from(*limits::CELL_STORAGE.end()) / area_by_thickness(self.most_area);
        (least as u64, most.min(u128::from(*limits::SPECIFIC_STORAGE.end())) as u64)
    }

    /// Largest specific yield, millionths.
    fn specific_yield(&self) -> u64 {
        (limits::CELL_STORAGE.end() / self.most_area).min(*limits::SPECIFIC_YIELD.end())
    }
}

/// A layer without screen.
fn layer(random: &mut Random, top: bool, bounds: &Bounds) -> [u64; 5] {
    let thickness = match random.between(0, 7) {
        0 | 1 => random.between(1, 9),
        2 => random.between(100_000, 1_000_000),
        _ => random.spread(10, 100_000),
    };
    let (least, most) = if top { (1, bounds.specific_yield()) } else { bounds.specific_storage(thickness) };
    let storage = if random.once_in(4) { most } else { random.spread(least, most) };
    let horizontal = conductivity(random, bounds.horizontal(thickness));
    let vertical = conductivity(random, bounds.vertical(thickness));
    [thickness, 0, horizontal, vertical, storage]
}

/// Zero, as large as may be, or between.
fn conductivity(random: &mut Random, most: u64) -> u64 {
    match random.between(0, 9) {
        0 => 0,
        1 => most,
        _ => random.spread(0, most),
    }
}

/// Entries at, under and one above the longest allowed step, with rest between.
fn add_pumping(random: &mut Random, draft: &mut Draft) {
    let longest = draft.longest_step();
    let entries = if random.once_in(12) { 0 } else { random.between(1, 6) };
    let places = 1 + (draft.layers.len() * (draft.radii.len() - 1)) as u64;
    let most = (WORK / places).clamp(6, MOST_STEPS) / entries.max(1);
    for _ in 0..entries {
        let length = match random.between(0, 9) {
            0 => longest + 1,
            1 => longest / 2,
            2 => longest / 10 + 1,
            3 => random.between(1, longest.max(1)),
            4 => random.spread(1, longest.max(1)),
            _ => longest,
        };
        let repeats = random.between(1, most);
        let rate = if random.once_in(5) { 0 } else { pumping_rate(random, draft, length, repeats) };
        draft.pumping.push([rate, length, repeats]);
    }
}

/// A rate that takes the well some part of the way to its intake, or past it.
pub fn pumping_rate(random: &mut Random, draft: &Draft, length: u64, repeats: u64) -> u64 {
    let to_intake = u128::from(draft.well[INTAKE]) * 1000 * u128::from(draft.well[WATER_AREA]);
    let eighths = random.one_of(&[1u128, 2, 4, 7, 12, 24, 80]);
    let rate = to_intake * eighths / 8 / (u128::from(length.max(1)) * u128::from(repeats));
    rate.clamp(1, u128::from(limits::RATE)) as u64
}
