//! Each C and each S of a site, and refusal 6 on them.

use crate::geometry;
use crate::limits;
use crate::site::Site;

/// C of every face (10^-12 m²/s) and S of every place (nl per m). Rows go by layer, then by column, from 1.
#[derive(Clone, PartialEq, Eq, Debug)]
pub struct Coefficients {
    /// Well and column 1; none where the layer is not screened.
    pub well_faces: Vec<Option<u128>>,
    /// Columns j and j+1, for j from 1 to m−1.
    pub across: Vec<Vec<u128>>,
    /// Layers i and i+1, columns 1 to m−1; between layers 1 and 2 the C at s = 0.
    pub down: Vec<Vec<u128>>,
    pub well_storage: u128,
    /// Columns 1 to m−1.
    pub storage: Vec<Vec<u128>>,
}

impl Coefficients {
    /// The coefficients that the geometry of a site gives.
    pub fn of(site: &Site) -> Coefficients {
        let layers = 1..=site.layers.len();
        let well_face = |layer: usize| (site.layers[layer - 1].screened == 1).then(|| across(site, layer, 0));
        Coefficients {
            well_faces: layers.clone().map(well_face).collect(),
            across: layers.clone().map(|layer| stored_columns(site, |j| across(site, layer, j))).collect(),
            down: (1..site.layers.len()).map(|layer| stored_columns(site, |j| down(site, layer, j))).collect(),
            well_storage: geometry::well_storage(site.well.water_area),
            storage: layers.map(|layer| stored_columns(site, |j| storage(site, layer, j))).collect(),
        }
    }

    /// Condition 6: every C at most 10^15, every S of a stored cell from 1 to 10^18.
    pub fn in_limits(&self) -> bool {
        let conductance = |c: &u128| *c <= u128::from(limits::CONDUCTANCE);
        let least = u128::from(*limits::CELL_STORAGE.start());
        let most = u128::from(*limits::CELL_STORAGE.end());
        self.well_faces.iter().flatten().all(conductance)
            && self.across.iter().flatten().all(conductance)
            && self.down.iter().flatten().all(conductance)
            && self.storage.iter().flatten().all(|s| (least..=most).contains(s))
    }
}

/// A value for each of columns 1 to m−1.
fn stored_columns(site: &Site, value: impl Fn(usize) -> u128) -> Vec<u128> {
    (1..site.columns()).map(value).collect()
}

/// A_j of a column, mm².
fn column_area(site: &Site, j: usize) -> u128 {
    geometry::area(site.radius(j - 1), site.radius(j))
}

/// C between columns j and j+1 of a layer; j = 0 is the well.
fn across(site: &Site, layer: usize, j: usize) -> u128 {
    let numbers = &site.layers[layer - 1];
    let (inner, outer) = (site.doubled_midsection(j), site.doubled_midsection(j + 1));
    geometry::horizontal_conductance(numbers.thickness, numbers.horizontal, inner, outer)
}

/// C between layers 1 and 2 in column j while the water table stands s (µm) above the bottom of layer 1 (document 02, N6).
pub fn top_vertical(site: &Site, j: usize, saturated: u128) -> u128 {
    let (above, below) = (&site.layers[0], &site.layers[1]);
    let below = (below.thickness, below.vertical);
    geometry::top_vertical_conductance(column_area(site, j), above.vertical, below, saturated)
}

/// C between a layer and the next one below, in column j; below layer 1 it is the largest that the water table leads to, at s = 0.
fn down(site: &Site, layer: usize, j: usize) -> u128 {
    if layer == 1 {
        return top_vertical(site, j, 0);
    }
    let (above, below) = (&site.layers[layer - 1], &site.layers[layer]);
    geometry::vertical_conductance(
        column_area(site, j),
        (above.thickness, above.vertical),
        (below.thickness, below.vertical),
    )
}

/// S of a cell.
fn storage(site: &Site, layer: usize, j: usize) -> u128 {
    let numbers = &site.layers[layer - 1];
    if layer == 1 {
        geometry::water_table_storage(column_area(site, j), numbers.storage)
    } else {
        geometry::confined_storage(column_area(site, j), numbers.thickness, numbers.storage)
    }
}
