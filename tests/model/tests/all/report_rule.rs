//! The C in use between layers 1 and 2 is the report's own (document 02, N6): equations 5 and 6 with the second rule of 'Treatment of Cells
//! in Top Layer', by which the path is that from the water table to the centre of layer 2. Its program listing works them as KBAR, GRAD and
//! BELOW of a cell in layer 1; ABOVE of the cell below it is the same with the other sign.

use crate::bore_k;
use reference_model::geometry::{top_vertical_conductance, vertical_conductance};
use reference_model::grid::{cell, slot};
use reference_model::random::Random;
use reference_model::readings::flow;
use reference_model::record::{start, Record};

/// What one face's C is worked from: A_j (mm²), b_1 and b_2 (mm), Kv_1 and Kv_2 (nm/s), and s (µm), at most 1000×b_1.
#[derive(Clone, Copy, Debug)]
struct Point {
    area: u64,
    b: [u64; 2],
    k: [u64; 2],
    saturated: u64,
}

/// BELOW of a cell in layer 1 as the report's listing has it, from DELZ, DD and KV of layers 1 and 2 and from ATOP, in any units that go
/// together. No flow where a KV is zero.
fn below(delz: [f64; 2], dd: [f64; 2], kv: [f64; 2], atop: f64) -> f64 {
    if kv[0] == 0.0 || kv[1] == 0.0 {
        return 0.0;
    }
    let kbar = (delz[0] - dd[0] + delz[1] / 2.0) / (((delz[0] - dd[0]) / kv[0]) + (0.5 * delz[1] / kv[1]));
    let grad = (dd[1] - dd[0]) / (delz[0] - dd[0] + delz[1] / 2.0);
    kbar * atop * grad
}

/// The report's C, 10^-12 m²/s, from the flow that 1 µm of difference makes. Lengths in µm are exact; with nm/s and mm² that flow is in
/// 10^-15 m³/s, and that of a metre a million times as large.
fn of_report(point: &Point) -> f64 {
    let [b_1, b_2] = point.b.map(|b| 1000.0 * b as f64);
    let dd = b_1 - point.saturated as f64;
    1000.0 * below([b_1, b_2], [dd, dd + 1.0], point.k.map(|k| k as f64), point.area as f64)
}

/// Whether a C is the report's. Its quotient is rounded down, by less than one; the report's figure is rounded eight times and the C itself
/// once more, each by 2^-53 of it at most.
fn agrees(conductance: u128, point: &Point) -> bool {
    let report = of_report(point);
    (conductance as f64 - report).abs() <= 1.0 + 1e-15 * report
}

/// The C in use that the model takes.
fn in_use(point: &Point) -> u128 {
    let below = (point.b[1], point.k[1]);
    top_vertical_conductance(point.area.into(), point.k[0], below, point.saturated.into())
}

/// The C of document 01, between midsections.
fn between_midsections(point: &Point) -> u128 {
    vertical_conductance(point.area.into(), (point.b[0], point.k[0]), (point.b[1], point.k[1]))
}

/// No saturated thickness and all of it, one µm from either, half of it, and some part.
fn heights(b_1: u64, random: &mut Random) -> [u64; 6] {
    let full = 1000 * b_1;
    [0, 1, full / 2, random.between(0, full), full - 1, full]
}

/// The limits of all numbers with each other, and numbers between them; each with several s.
fn points() -> Vec<Point> {
    let mut random = Random::new(60);
    let mut points = Vec::new();
    let mut add = |area: u64, b: [u64; 2], k: [u64; 2], random: &mut Random| {
        points.extend(heights(b[0], random).map(|saturated| Point { area, b, k, saturated }));
    };
    // A ring of 1 mm around the smallest well, bore K's, and the largest.
    for area in [65, 753_982, 12_566_000_000_000] {
        for b in [[1, 1], [1, 1_000_000], [1_000_000, 1], [1_000_000, 1_000_000], [10_000, 2000]] {
            for k in [[1, 1], [1, 100_000_000], [100_000_000, 1], [100_000_000; 2], [10_000; 2], [0, 5], [5, 0], [0, 0]]
            {
                add(area, b, k, &mut random);
            }
        }
    }
    for _ in 0..20_000 {
        let area = random.spread(65, 12_566_000_000_000);
        let b = [random.spread(1, 1_000_000), random.spread(1, 1_000_000)];
        let k = [random.spread(1, 100_000_000), random.spread(1, 100_000_000)];
        add(area, b, k, &mut random);
    }
    points
}

#[test]
fn c_in_use_is_the_reports() {
    for point in points() {
        let (c, report) = (in_use(&point), of_report(&point));
        assert!(agrees(c, &point), "{point:?}: {c}, by the report {report}");
    }
}

#[test]
fn other_rules_are_not_the_reports() {
    let points: Vec<Point> = points().into_iter().filter(|point| of_report(point) >= 100.0).collect();
    let found_out = |rule: &dyn Fn(&Point) -> u128| points.iter().filter(|point| !agrees(rule(point), point)).count();
    let of = |change: fn(&mut Point)| {
        move |point: &Point| {
            let mut changed = *point;
            change(&mut changed);
            in_use(&changed)
        }
    };
    let others: [(&str, &dyn Fn(&Point) -> u128); 7] = [
        ("between midsections", &between_midsections),
        ("two units more", &|point| in_use(point) + 2),
        ("to the bottom of layer 2", &of(|point| point.b[1] *= 2)),
        ("the conductivities exchanged", &of(|point| point.k.swap(0, 1))),
        ("from the top of layer 1", &of(|point| point.saturated = 1000 * point.b[0])),
        ("from the bottom of layer 1", &of(|point| point.saturated = 0)),
        ("from the drawdown", &of(|point| point.saturated = 1000 * point.b[0] - point.saturated)),
    ];
    for (name, rule) in others {
        let (found, all) = (found_out(rule), points.len());
        assert!(found > all / 2, "{name}: found out at {found} of {all}");
    }
}

#[test]
fn c_in_use_falls_as_s_rises() {
    for point in points() {
        let at = |saturated| in_use(&Point { saturated, ..point });
        let (bottom, middle, top) = (at(0), at(500 * point.b[0]), at(1000 * point.b[0]));
        // Document 01's C is the one in use where the water table stands halfway.
        assert_eq!(middle, between_midsections(&point), "{point:?}");
        assert!(bottom >= middle && middle >= top, "{point:?}");
        assert!(bottom >= in_use(&point) && in_use(&point) >= top, "{point:?}");
        // At s = 0 neither b_1 counts nor Kv_1, unless that is 0.
        let second_alone = 2 * u128::from(point.area) * u128::from(point.k[1]) / u128::from(point.b[1]);
        assert_eq!(bottom, if point.k[0] == 0 { 0 } else { second_alone }, "{point:?}");
    }
}

/// Bore K with its screen in a layer 3 like its layer 2 and an intake below layer 1, so that the water table may be at the bottom of layer 1.
fn deeper_screen() -> Record {
    let mut layers = bore_k::NUMBERS[..11].to_vec();
    layers.extend(&bore_k::NUMBERS[6..11]);
    (layers[0], layers[7]) = (3, 0);
    let others = [2, 500, 1300, 4, 100, 30_000, 11_999, 50_000, 0, 0];
    let (outcome, record) = start(&bore_k::text_of(&[&layers[..], &others].concat()));
    assert_eq!(outcome, Ok(()));
    record
}

/// That bore with its cells of layers 1 and 2 drawn down, µm, and the mark at the deeper of them.
fn drawn_down(upper: u64, lower: u64) -> Record {
    let mut record = deeper_screen();
    for (layer, depth) in [(1, upper), (2, lower)] {
        let at = slot(layer, 1);
        // The least loss that makes this drawdown.
        record.cell_loss[at] = (depth * record.cell_s[at]).div_ceil(1_000_000) as i64;
    }
    record.pumped = record.cell_loss.iter().sum::<i64>() as u64;
    record.mark = upper.max(lower) as i64;
    assert_eq!((record.fault(), record.cell_drawdown(1, 1), record.cell_drawdown(2, 1)), (None, upper, lower));
    record
}

#[test]
fn flow_of_bore_k_is_the_reports() {
    // In metres and seconds, as a user of the report's program would have it. The water runs down and up.
    let length = 600_000;
    let depths = [0, 1, 4000, 5_000_000, 9_000_000, 9_999_999, 10_000_000];
    for (upper, lower) in depths.into_iter().flat_map(|upper| depths.map(|lower| (upper, lower))) {
        let record = drawn_down(upper, lower);
        let metres = [upper, lower].map(|depth| depth as f64 / 1e6);
        let cubic_metres = below([10.0, 2.0], metres, [1e-5; 2], 0.753982) * 0.6;
        let down = flow(&record, cell(1, 1), cell(2, 1), length).unwrap();
        let up = flow(&record, cell(2, 1), cell(1, 1), length).unwrap();
        // One unit of the flow and one of C, and the floats' rounding.
        let rounding = 1.001 * (1.0 + upper.abs_diff(lower) as f64 * length as f64 / 1e12);
        assert!(
            (down as f64 - cubic_metres * 1e12).abs() <= rounding,
            "{upper} {lower}: {down}, not {cubic_metres} m³"
        );
        assert_eq!(up, -down);
    }
}
