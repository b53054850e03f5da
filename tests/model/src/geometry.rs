//! Geometry to coefficients: one function a rule of document 01, with document 02's wider range of Λ (N4) and its C between layers 1 and 2
//! (N6); every division rounds down.

/// π × 2^30, rounded as document 01 prints it.
const PI: u128 = 3_373_259_426;
/// 2π × 2^30, as document 01 prints it.
pub const TWO_PI: u128 = 6_746_518_852;
/// Terms of the series for Λ.
const TERMS: u64 = 16;
/// The series gives Λ(p, q) for p up to this many times q.
pub const SERIES_RATIO: u64 = 3;
/// ln 3 × 2^30, as document 02 prints it.
pub const LOGARITHM_OF_3: u64 = 1_179_625_948;

/// Λ(p, q): ln(p/q) × 2^30 for q < p ≤ 9q. By the written series for p up to 3q; above that Λ(p, 3q) and the logarithm of 3.
pub fn lambda(p: u64, q: u64) -> u128 {
    if p > SERIES_RATIO * q {
        return u128::from(LOGARITHM_OF_3) + lambda(p, SERIES_RATIO * q);
    }
    let (p, q) = (u128::from(p), u128::from(q));
    u128::from(series((((p - q) << 30) / (p + q)) as u64))
}

/// Λ of every pair with a z, below 2^30, that the series is for. No product passes a word.
pub fn series(z: u64) -> u64 {
    let w = (z * z) >> 30;
    let mut term = z;
    let mut sum = 0;
    for k in 0..TERMS {
        sum += term / (2 * k + 1);
        term = (term * w) >> 30;
    }
    2 * sum
}

/// Area between two radii (mm), mm². A_0 is the area from 0 to R_0.
pub fn area(inner: u64, outer: u64) -> u128 {
    let (inner, outer) = (u128::from(inner), u128::from(outer));
    (PI * (outer * outer - inner * inner)) >> 30
}

/// Horizontal C (10^-12 m²/s) in a layer of thickness b (mm) and conductivity Kh (nm/s),
/// between columns of doubled midsection radii `inner` and `outer` (mm). Report's equation 4.
pub fn horizontal_conductance(thickness: u64, conductivity: u64, inner: u64, outer: u64) -> u128 {
    u128::from(thickness) * u128::from(conductivity) * TWO_PI / lambda(outer, inner)
}

/// C (10^-12 m²/s) between layers 1 and 2, from the water table, which stands `saturated` (s, µm) above the bottom of layer 1, to the
/// centre of layer 2, given by b (mm) and Kv (nm/s): document 02, N6; the report's equations 5 and 6 with its second rule for cells in the
/// top layer.
pub fn top_vertical_conductance(area: u128, k_above: u64, below: (u64, u64), saturated: u128) -> u128 {
    let (k_above, b_below, k_below) = (u128::from(k_above), u128::from(below.0), u128::from(below.1));
    if k_above == 0 || k_below == 0 {
        return 0;
    }
    area * 1000 * k_above * k_below / (saturated * k_below + 500 * b_below * k_above)
}

/// Vertical C (10^-12 m²/s) between the midsections of two layers below layer 1, each given by b (mm) and Kv (nm/s).
pub fn vertical_conductance(area: u128, above: (u64, u64), below: (u64, u64)) -> u128 {
    let (b_above, k_above) = (u128::from(above.0), u128::from(above.1));
    let (b_below, k_below) = (u128::from(below.0), u128::from(below.1));
    if k_above == 0 || k_below == 0 {
        return 0;
    }
    area * 2 * k_above * k_below / (b_above * k_below + b_below * k_above)
}

/// S of a cell of layer 1, nl per m: area (mm²) × specific yield (millionths).
pub fn water_table_storage(area: u128, specific_yield: u64) -> u128 {
    area * u128::from(specific_yield)
}

/// S of a cell below layer 1, nl per m: area (mm²), thickness (mm), specific storage (10^-9 per m).
pub fn confined_storage(area: u128, thickness: u64, specific_storage: u64) -> u128 {
    area * u128::from(thickness) * u128::from(specific_storage) / 1_000_000
}

/// S of the well, nl per m: free water area W (mm²).
pub fn well_storage(water_area: u64) -> u128 {
    u128::from(water_area) * 1_000_000
}
