//! The numbers of the text's first four sections, their limits (3), and rules 4 and 5 on them.

use crate::limits;

/// A horizontal layer.
#[derive(Clone, PartialEq, Eq, Debug)]
pub struct Layer {
    /// b, mm.
    pub thickness: u64,
    /// 0 or 1.
    pub screened: u64,
    /// Kh, nm/s.
    pub horizontal: u64,
    /// Kv, nm/s.
    pub vertical: u64,
    /// Layer 1: specific yield, millionths; below it: specific storage, 10^-9 per m.
    pub storage: u64,
}

/// The pumped well.
#[derive(Clone, PartialEq, Eq, Debug)]
pub struct Well {
    /// R_0, mm.
    pub radius: u64,
    /// W, mm².
    pub water_area: u64,
    /// p, mm.
    pub intake_depth: u64,
    /// Millionths.
    pub friction: u64,
}

/// Layers from the top, outer radii R_1 to R_m (mm), the well, and the screen loss coefficients (millionths).
#[derive(Clone, PartialEq, Eq, Debug)]
pub struct Site {
    pub layers: Vec<Layer>,
    pub radii: Vec<u64>,
    pub well: Well,
    pub screen_losses: Vec<u64>,
}

impl Layer {
    /// Limits of a layer's numbers; layer 1 (`top`) has a yield, the others a specific storage.
    fn in_limits(&self, top: bool) -> bool {
        let storage = if top { limits::SPECIFIC_YIELD } else { limits::SPECIFIC_STORAGE };
        limits::THICKNESS.contains(&self.thickness)
            && limits::SCREENED.contains(&self.screened)
            && limits::CONDUCTIVITY.contains(&self.horizontal)
            && limits::CONDUCTIVITY.contains(&self.vertical)
            && storage.contains(&self.storage)
    }
}

impl Well {
    /// Limits of the well's numbers.
    fn in_limits(&self) -> bool {
        limits::WELL_RADIUS.contains(&self.radius)
            && limits::WATER_AREA.contains(&self.water_area)
            && limits::INTAKE_DEPTH.contains(&self.intake_depth)
            && limits::FRICTION.contains(&self.friction)
    }
}

impl Site {
    /// The column count m; the last column stands at constant head.
    pub fn columns(&self) -> usize {
        self.radii.len()
    }

    /// R_j, mm: the well's radius for j = 0, else the outer radius of column j.
    pub fn radius(&self, j: usize) -> u64 {
        if j == 0 {
            self.well.radius
        } else {
            self.radii[j - 1]
        }
    }

    /// u_j, mm: twice the midsection radius of column j, for j = 0 twice the well's radius.
    pub fn doubled_midsection(&self, j: usize) -> u64 {
        if j == 0 {
            2 * self.radius(0)
        } else {
            self.radius(j - 1) + self.radius(j)
        }
    }

    /// Depth of the top of a layer (from 1), mm.
    pub fn depth_of_top(&self, layer: usize) -> u64 {
        self.layers[..layer - 1].iter().map(|above| above.thickness).sum()
    }

    /// The screened layers (from 1), topmost first.
    pub fn screened_layers(&self) -> Vec<usize> {
        (1..=self.layers.len()).filter(|&layer| self.layers[layer - 1].screened == 1).collect()
    }

    /// Condition 3 for these four sections: every number stands in its limits.
    pub fn numbers_in_limits(&self) -> bool {
        self.layers.iter().enumerate().all(|(above, layer)| layer.in_limits(above == 0))
            && self.radii.iter().all(|radius| limits::COLUMN_RADIUS.contains(radius))
            && self.well.in_limits()
            && self.screen_losses.iter().all(|loss| limits::SCREEN_LOSS.contains(loss))
    }

    /// Rule 4: the radii rise from R_0 on, and no u_(j+1) is over nine times u_j.
    pub fn radii_allowed(&self) -> bool {
        (0..self.columns()).all(|j| {
            self.radius(j) < self.radius(j + 1)
                && self.doubled_midsection(j + 1) <= limits::WIDEST_RATIO * self.doubled_midsection(j)
        })
    }

    /// Rule 5: some layer is screened, layer 1 is not, and the intake stands above the screen's top.
    pub fn screen_allowed(&self) -> bool {
        match self.screened_layers().first() {
            None | Some(1) => false,
            Some(&topmost) => self.well.intake_depth < self.depth_of_top(topmost),
        }
    }
}
