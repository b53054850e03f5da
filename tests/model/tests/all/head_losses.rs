//! Head loss worked from the ledger for all screened layers at once, and cases of signs and zeros.

use crate::bore_k::{record, text_of};
use crate::calls::judge_length;
use reference_model::grid::{cell, slot, Place};
use reference_model::head_loss::{head_loss, HeadLoss};
use reference_model::ledger::Ledger;
use reference_model::record::{start, Record};
use reference_model::refusal::Refusal;
use reference_model::site::Site;

/// The reading as the ledger's flows give it.
pub fn expected(ledger: &Ledger, site: &Site, layer: u64, length: u64) -> Result<HeadLoss, Refusal> {
    let (face, sign) = ledger.face(Place::Cell { layer, column: 1 }, Place::Well).ok_or(Refusal::Absent)?;
    judge_length(ledger, length)?;
    assert_eq!(sign, -1, "the ledger's faces lead away from the well");
    let inflow = |face| ((-ledger.flow(face, length) / 1000) as f64) / (length as f64);
    let area = (3_373_259_426 * u128::from(site.well.radius).pow(2) / (1 << 30)) as f64;
    // From the deepest screened layer upward: number, doubled depth of its centre, v.
    let mut pipe: Vec<(u64, u64, f64)> = Vec::new();
    let mut sum = None;
    let mut bottom: u64 = site.layers.iter().map(|layer| layer.thickness).sum();
    for (above, numbers) in site.layers.iter().enumerate().rev() {
        if let Some((face, _)) = ledger.face(Place::Well, cell(above + 1, 1)) {
            let e = inflow(face);
            let total = sum.map_or(e, |below: f64| below + e);
            pipe.push((above as u64 + 1, 2 * bottom - numbers.thickness, total * 1000.0 / area));
            sum = Some(total);
        }
        bottom -= numbers.thickness;
    }
    let at = pipe.iter().position(|named| named.0 == layer).expect("the layer has a face at the well");
    let (_, centre, v) = pipe[at];
    let (next_centre, next) = pipe.get(at + 1).map_or((2 * site.well.intake_depth, v), |next| (next.1, next.2));
    let d = (centre - next_centre) as f64;
    let friction = site.well.friction as f64 / 1e6 * (d / (4 * site.well.radius) as f64);
    let head = next * next - v * v;
    let e = inflow(face);
    let y = e * 1000.0 / (site.layers[layer as usize - 1].thickness * site.well.radius) as f64;
    let c: Vec<f64> = site.screen_losses.iter().map(|&number| number as f64 / 1e6).collect();
    let screen = match c[..] {
        [] => 0.0,
        [c1] => c1 * y,
        _ => c[0] * y + c[1] * y * if y < 0.0 { -y } else { y },
    };
    let speed = if v < 0.0 { -v } else { v };
    Ok(HeadLoss { inflow: e, screen, pipe: friction * (v * speed) / 19.6133 + head / 9.80665 })
}

/// A site of three layers, the lower two screened, with given friction and coefficients.
fn two_screens(friction: u64, coefficients: &[u64]) -> Record {
    let mut numbers = vec![3, 9000, 0, 100, 10, 200_000, 2000, 1, 90_000, 10, 50_000, 3000, 1, 70_000, 10, 40_000];
    numbers.extend([3, 300, 700, 1600, 4, 100, 30_000, 8000, friction, coefficients.len() as u64]);
    numbers.extend(coefficients);
    numbers.push(0);
    let (outcome, record) = start(&text_of(&numbers));
    assert_eq!(outcome, Ok(()));
    record
}

/// Puts losses (nl) at the well and in column 1 of layers 2 and 3, and the mark (µm) at the deepest of them.
fn with_losses(mut record: Record, well: i64, second: i64, third: i64) -> Record {
    record.well_loss = well;
    record.cell_loss[slot(2, 1)] = second;
    record.cell_loss[slot(3, 1)] = third;
    record.pumped = (well + second + third) as u64;
    let depths = [record.well_drawdown(), record.cell_drawdown(2, 1), record.cell_drawdown(3, 1)];
    record.mark = depths.into_iter().max().unwrap() as i64;
    assert_eq!(record.fault(), None);
    record
}

#[test]
fn no_flow_gives_positive_zeros() {
    for coefficients in [&[][..], &[5], &[5, 7]] {
        let loss = head_loss(&two_screens(0, coefficients), 2, 10).unwrap();
        assert_eq!([loss.inflow.to_bits(), loss.screen.to_bits(), loss.pipe.to_bits()], [0, 0, 0]);
    }
}

#[test]
fn flow_out_of_the_well_keeps_the_signs_of_zero() {
    let outward = with_losses(two_screens(0, &[0]), 0, 20_000_000, 20_000_000);
    let loss = head_loss(&outward, 2, 100).unwrap();
    assert!(loss.inflow < 0.0);
    // c1 × y is −0, and the topmost pipe loss −0 + 0 is +0.
    assert_eq!(loss.screen.to_bits(), (-0.0f64).to_bits());
    assert_eq!(loss.pipe.to_bits(), 0);
    let square = with_losses(two_screens(0, &[0, 0]), 0, 20_000_000, 20_000_000);
    assert_eq!(head_loss(&square, 2, 100).unwrap().screen.to_bits(), (-0.0f64).to_bits());
    let none = with_losses(two_screens(0, &[]), 0, 20_000_000, 20_000_000);
    assert_eq!(head_loss(&none, 2, 100).unwrap().screen.to_bits(), 0);
}

#[test]
fn less_than_a_thousand_out_of_the_well_is_positive_zero() {
    let outward = with_losses(two_screens(1000, &[5, 7]), 0, 20_000, 0);
    let flow = reference_model::readings::flow(&outward, cell(2, 1), Place::Well, 100).unwrap();
    assert!((-999..0).contains(&flow), "{flow}");
    assert_eq!(head_loss(&outward, 2, 100).unwrap().inflow.to_bits(), 0);
}

#[test]
fn figures_worked_by_hand() {
    // Layer 2's C at the well and Δt = 100 µs, D of the well 1,000,000 µm and of both cells 0.
    let inward = with_losses(two_screens(20_000, &[3_000_000, 500_000]), 30_000_000_000, 0, 0);
    let flow = |layer| reference_model::readings::flow(&inward, cell(layer, 1), Place::Well, 100).unwrap();
    let (second, third) = (head_loss(&inward, 2, 100).unwrap(), head_loss(&inward, 3, 100).unwrap());
    let (e2, e3) = ((flow(2) / 1000) as f64 / 100.0, (flow(3) / 1000) as f64 / 100.0);
    assert!(flow(2) > 1000 && flow(3) > 1000);
    assert_eq!((second.inflow, third.inflow), (e2, e3));
    let (y2, y3) = (e2 * 1000.0 / 200_000.0, e3 * 1000.0 / 300_000.0);
    assert_eq!(second.screen, 3.0 * y2 + (0.5 * y2) * y2);
    assert_eq!(third.screen, 3.0 * y3 + (0.5 * y3) * y3);
    // A_0 is 31415; the centres stand at 10,000 and 12,500 mm, the intake at 8000.
    let (v2, v3) = ((e3 + e2) * 1000.0 / 31_415.0, e3 * 1000.0 / 31_415.0);
    assert_eq!(third.pipe, (0.02 * (5000.0 / 400.0)) * (v3 * v3) / 19.6133 + (v2 * v2 - v3 * v3) / 9.80665);
    assert_eq!(second.pipe, (0.02 * (4000.0 / 400.0)) * (v2 * v2) / 19.6133 + 0.0 / 9.80665);
}

#[test]
fn head_loss_is_judged_in_order() {
    let k = record();
    let mut broken = k.clone();
    broken.time = u64::MAX;
    assert_eq!(head_loss(&broken, 9, 0), Err(Refusal::Record));
    for layer in [0, 1, 3, u64::MAX] {
        assert_eq!(head_loss(&k, layer, 0), Err(Refusal::Absent));
    }
    assert_eq!(head_loss(&k, 2, 0), Err(Refusal::Call));
    assert_eq!(head_loss(&k, 2, 1_000_000_001), Err(Refusal::Call));
    assert_eq!(head_loss(&k, 2, 657_002), Err(Refusal::Stability));
    assert!(head_loss(&k, 2, 657_001).is_ok());
}
