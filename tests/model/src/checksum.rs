//! FNV-1a, 64 bits, so that a record or a text can be compared by one figure.
//!
//! From 14695981039346656037, each byte is put in by exclusive or, then a product by 1099511628211 modulo 2^64.
//! A number goes in as 8 bytes, lowest first (a negative one as its two's complement).
//! A record's numbers go in this order, unused slots left out:
//! 1. layer count; for each layer b, screened, Kh, Kv, storage;
//! 2. column count m; R_1 to R_m;
//! 3. R_0, W, p, friction;
//! 4. coefficient count; the coefficients;
//! 5. for each layer: C at the well (only where screened), then horizontal C of columns 1 to m−1;
//! 6. for each layer but the deepest: vertical C of columns 1 to m−1;
//! 7. S of the well; for each layer: S of columns 1 to m−1;
//! 8. V of the well; for each layer: V of columns 1 to m−1;
//! 9. pumped total, inflow total, time;
//! 10. the mark.

use crate::grid::slot;
use crate::record::Record;

const BASIS: u64 = 14_695_981_039_346_656_037;
const PRIME: u64 = 1_099_511_628_211;

/// The checksum of some bytes.
pub fn byte_checksum(bytes: &[u8]) -> u64 {
    bytes.iter().fold(BASIS, |sum, &byte| (sum ^ u64::from(byte)).wrapping_mul(PRIME))
}

/// The checksum of a record that 14 lets pass.
pub fn record_checksum(record: &Record) -> u64 {
    let bytes: Vec<u8> = record_numbers(record).into_iter().flat_map(u64::to_le_bytes).collect();
    byte_checksum(&bytes)
}

/// A record's numbers in the order above.
fn record_numbers(record: &Record) -> Vec<u64> {
    let (layers, columns) = (record.layers as usize, record.columns as usize);
    let mut numbers = vec![record.layers];
    for row in 0..layers {
        numbers.extend([record.thickness[row], record.screened[row], record.horizontal[row]]);
        numbers.extend([record.vertical[row], record.storage[row]]);
    }
    numbers.push(record.columns);
    numbers.extend(&record.radii[..columns]);
    numbers.extend([record.well_radius, record.water_area, record.intake_depth, record.friction]);
    numbers.push(record.screen_loss_count);
    numbers.extend(&record.screen_losses[..record.screen_loss_count as usize]);
    for layer in 1..=layers {
        if record.screened[layer - 1] == 1 {
            numbers.push(record.well_c[layer - 1]);
        }
        numbers.extend((1..columns).map(|column| record.across_c[slot(layer, column)]));
    }
    for layer in 1..layers {
        numbers.extend((1..columns).map(|column| record.down_c[slot(layer, column)]));
    }
    numbers.push(record.well_s);
    numbers.extend(record.stored_cells().map(|(layer, column)| record.cell_s[slot(layer, column)]));
    numbers.push(record.well_loss as u64);
    numbers.extend(record.stored_cells().map(|(layer, column)| record.cell_loss[slot(layer, column)] as u64));
    numbers.extend([record.pumped, record.inflow as u64, record.time, record.mark as u64]);
    numbers
}
