//! The catalogue of edges: every limit of document 01, as document 02 changes it, that a text can reach,
//! at its last accepted and first refused value; grids in which many drawdowns are equal; water tables drawn down far; wells that rise
//! under their deepest mark; long rests; and steps that one place or another holds back.

use super::damage::line_replaced;
use super::draft::{text_of, Draft};
use super::draft::{
    FRICTION, HORIZONTAL, INTAKE, LENGTH, RADIUS, REPEATS, SCREENED, STORAGE, THICKNESS, VERTICAL, WATER_AREA,
};
use super::Case;
use crate::geometry;
use crate::limits;
use crate::listing;
use crate::refusal::Refusal;

/// All edges, in a fixed order.
pub fn catalogue() -> Vec<Case> {
    let mut edges = Edges(Vec::new());
    edges.bore_k();
    edges.lines();
    edges.text_length();
    edges.counts();
    edges.layer_numbers();
    edges.other_numbers();
    edges.radii();
    edges.screen();
    edges.conductances();
    edges.storages();
    edges.steps();
    edges.wide_columns();
    edges.equal_drawdowns();
    edges.below_layer_1();
    edges.water_tables();
    edges.marks();
    edges.rests();
    edges.held_back();
    edges.0
}

/// The bore K of document 01.
pub fn bore_k() -> Draft {
    Draft {
        layers: vec![[10_000, 0, 100_000, 10_000, 200_000], [2000, 1, 100_000, 10_000, 1_000_000]],
        radii: vec![500, 1300],
        well: vec![100, 30_000, 9999, 50_000],
        screen_losses: vec![],
        pumping: vec![[1000, 500_000, 2], [1000, 500_000, 1]],
    }
}

/// A grid whose numbers can each go to their limits without meeting another rule.
fn plain(well_radius: u64) -> Draft {
    Draft {
        layers: vec![
            [20_000, 0, 100_000, 10_000, 200_000],
            [5000, 0, 20_000, 3000, 20_000],
            [2000, 1, 100_000, 10_000, 1000],
        ],
        radii: vec![3 * well_radius, 7 * well_radius, 15 * well_radius],
        well: vec![well_radius, 30_000, 500, 20_000],
        screen_losses: vec![2000, 300],
        pumping: vec![[9000, 100, 3], [0, 90, 2]],
    }
}

/// The plain grid with columns out to a radius near the limit.
fn far_reaching() -> Draft {
    let mut draft = plain(5000);
    draft.radii.extend([155_000, 315_000, 635_000, 1_275_000, 2_000_000]);
    draft
}

/// A copy of a draft after an edit.
fn edited(draft: &Draft, edit: &dyn Fn(&mut Draft)) -> Draft {
    let mut copy = draft.clone();
    edit(&mut copy);
    copy
}

struct Edges(Vec<Case>);

impl Edges {
    fn add(&mut self, name: &str, text: Vec<u8>, start: u64) {
        self.0.push(Case { name: name.to_string(), text, start: Some(start) });
    }

    /// An edited copy of a draft.
    fn edit(&mut self, name: &str, draft: &Draft, start: u64, edit: impl Fn(&mut Draft)) {
        self.add(name, edited(draft, &edit).text(), start);
    }

    /// A number at values that start accepts and at values that it refuses.
    fn number(&mut self, name: &str, draft: &Draft, accepted: &[u64], refused: &[u64], edit: impl Fn(&mut Draft, u64)) {
        for &value in accepted {
            self.edit(&format!("{name}-{value}"), draft, 0, |draft| edit(draft, value));
        }
        for &value in refused {
            self.edit(&format!("{name}-{value}"), draft, 3, |draft| edit(draft, value));
        }
    }

    /// The bore K and its unmarked cases.
    fn bore_k(&mut self) {
        let k = bore_k();
        self.edit("k", &k, 0, |_| ());
        self.edit("k-radius-4901", &k, 4, |draft| draft.radii[1] = 4901);
        self.edit("k-intake-10000", &k, 5, |draft| draft.well[INTAKE] = 10_000);
        self.edit("k-intake-17", &k, 0, |draft| draft.well[INTAKE] = 17);
        self.edit("k-intake-16", &k, 0, |draft| draft.well[INTAKE] = 16);
        self.edit("k-rate", &k, 0, |draft| draft.pumping[0][0] = limits::RATE + 1);
        self.edit("k-length-657001", &k, 0, |draft| draft.pumping[0] = [1000, 657_001, 1]);
        self.edit("k-length-657002", &k, 0, |draft| draft.pumping[0] = [1000, 657_002, 1]);
        self.add("empty", Vec::new(), 1);
    }

    /// Damaged lines, at the first, a middle and the last line.
    fn lines(&mut self) {
        let numbers = bore_k().numbers();
        let lines: [(&str, &[u8]); 15] = [
            ("blank", b""),
            ("space-before", b" 2"),
            ("space-after", b"2 "),
            ("plus", b"+2"),
            ("minus", b"-2"),
            ("point", b"2.0"),
            ("letter", b"2e1"),
            ("tab", b"\t2"),
            ("carriage-return", b"2\r"),
            ("zero-byte", b"2\0"),
            ("high-byte", b"\xB2"),
            ("two-zeros", b"00"),
            ("leading-zero", b"02"),
            ("19-digits", b"1000000000000000000"),
            ("40-digits", b"0000000000000000000000000000000000000002"),
        ];
        for (turn, (name, line)) in lines.into_iter().enumerate() {
            let index = [0, 12, numbers.len() - 1][turn % 3];
            self.add(&format!("line-{name}"), line_replaced(&numbers, index, line), 1);
        }
        self.add("line-18-digits", line_replaced(&numbers, 22, b"999999999999999999"), 0);
        let text = text_of(&numbers);
        self.add("line-without-feed", text[..text.len() - 1].to_vec(), 1);
        self.add("line-feed-more", [text.as_slice(), b"\n"].concat(), 1);
        self.add("line-feed-only", b"\n".to_vec(), 1);
        self.add("zero-only", b"0\n".to_vec(), 2);
        self.add("left-over", [text.as_slice(), b"0\n"].concat(), 1);
        for length in [0, 1, 5, 11, 12, 14, 15, 18, 19, 20, 21, 25, 26] {
            self.add(&format!("numbers-{length}"), text_of(&numbers[..length]), 1);
        }
    }

    /// A text of 65,536 bytes is still judged by its counts; one of 65,537 is too long.
    fn text_length(&mut self) {
        let mut text = b"21\n".to_vec();
        while text.len() < limits::TEXT_BYTES - 3 {
            text.extend(b"1\n");
        }
        text.extend(b"11\n");
        self.add("bytes-65536", text.clone(), 2);
        text.insert(0, b'1');
        self.add("bytes-65537", text, 1);
        let mut text = bore_k().text();
        while text.len() + 2 <= limits::TEXT_BYTES {
            text.extend(b"1\n");
        }
        self.add("bytes-k-left-over", text, 1);
    }

    /// Counts at their limits.
    fn counts(&mut self) {
        let draft = plain(100);
        for (count, start) in [(2, 0), (20, 0), (1, 2), (21, 2)] {
            self.edit(&format!("layers-{count}"), &draft, start, |draft| {
                let screened = draft.layers[2];
                draft.layers.truncate(count.min(2));
                draft.layers.resize(count, screened);
                draft.layers[count - 1][SCREENED] = u64::from(count > 1);
            });
        }
        self.edit("layers-0", &draft, 2, |draft| draft.layers.clear());
        for (count, start) in [(2, 0), (50, 0), (1, 2), (51, 2)] {
            self.edit(&format!("columns-{count}"), &draft, start, |draft| {
                draft.radii = (1..=count).map(|column| 100 + 50 * column).collect();
            });
        }
        self.edit("columns-0", &draft, 2, |draft| draft.radii.clear());
        self.edit("well-3", &draft, 2, |draft| draft.well.truncate(3));
        self.edit("well-5", &draft, 2, |draft| draft.well.push(1));
        for (count, start) in [(0, 0), (1, 0), (2, 0), (3, 2)] {
            self.edit(&format!("coefficients-{count}"), &draft, start, |draft| draft.screen_losses = vec![700; count]);
        }
        for (count, start) in [(0, 0), (1, 0), (500, 0), (501, 2)] {
            self.edit(&format!("entries-{count}"), &draft, start, |draft| draft.pumping = vec![[3000, 50, 1]; count]);
        }
        self.edit("count-before-number", &draft, 2, |draft| {
            draft.layers[0][THICKNESS] = 0;
            draft.pumping = vec![[1, 1, 1]; 501];
        });
    }

    /// Numbers of layers at their limits.
    fn layer_numbers(&mut self) {
        let draft = plain(100);
        for (name, layer) in [("top", 0), ("middle", 1), ("screened", 2)] {
            let at = |field: usize| move |draft: &mut Draft, value| draft.layers[layer][field] = value;
            self.number(&format!("{name}-thickness"), &draft, &[1, 1_000_000], &[0, 1_000_001], at(THICKNESS));
            self.number(&format!("{name}-kh"), &draft, &[0, 100_000_000], &[100_000_001], at(HORIZONTAL));
            self.number(&format!("{name}-kv"), &draft, &[0, 100_000_000], &[100_000_001], at(VERTICAL));
            self.number(&format!("{name}-is-screened"), &draft, &[], &[2], at(SCREENED));
        }
        self.number("yield", &draft, &[1, 100_000_000], &[0, 100_000_001], |d, v| d.layers[0][STORAGE] = v);
        self.number("storage", &draft, &[1, 1_000_000], &[0, 1_000_001], |d, v| d.layers[2][STORAGE] = v);
        self.number("middle-is-screened", &draft, &[0, 1], &[], |d, v| d.layers[1][SCREENED] = v);
    }

    /// Numbers of the other sections at their limits.
    fn other_numbers(&mut self) {
        let draft = plain(100);
        for (radius, start) in [(10, 0), (5000, 0), (9, 3), (5001, 3)] {
            self.edit(&format!("well-radius-{radius}"), &plain(radius), start, |_| ());
        }
        self.number("last-radius", &far_reaching(), &[2_000_000], &[2_000_001], |d, v| d.radii[7] = v);
        self.number("water-area", &draft, &[1, 1_000_000_000], &[0, 1_000_000_001], |d, v| d.well[WATER_AREA] = v);
        let mut thick = draft.clone();
        thick.layers[0][THICKNESS] = 1_000_000;
        self.number("intake", &thick, &[1, 1_000_000], &[0, 1_000_001], |d, v| d.well[INTAKE] = v);
        self.number("friction", &draft, &[0, 1_000_000], &[1_000_001], |d, v| d.well[FRICTION] = v);
        for index in 0..2 {
            let most = *limits::SCREEN_LOSS.end();
            let name = format!("coefficient-{}", index + 1);
            self.number(&name, &draft, &[0, most], &[most + 1], |d, v| d.screen_losses[index] = v);
        }
        // A length of 0 ends each entry at once.
        let mut repeated = draft.clone();
        repeated.pumping = vec![[1, 0, 1], [1, 0, 1]];
        self.number("repeats", &repeated, &[1, 1_000_000], &[0, 1_000_001], |d, v| d.pumping[1][REPEATS] = v);
        self.edit("rate-and-length-free", &draft, 0, |draft| {
            draft.pumping = vec![[999_999_999_999_999_999, 999_999_999_999_999_999, 1], [0, 0, 1]];
        });
        self.edit("number-before-radii", &draft, 3, |draft| {
            draft.radii[0] = 1;
            draft.pumping[1][REPEATS] = 0;
        });
    }

    /// Rule 4: radii that rise and do not, and where Λ goes over from its series, at the well, in the middle and at the last column.
    fn radii(&mut self) {
        let draft = plain(100);
        let mut one = |name: &str, start, radii: [u64; 3]| self.edit(name, &draft, start, |d| d.radii = radii.to_vec());
        one("first-radius-over-well", 0, [101, 300, 700]);
        one("first-radius-as-well", 4, [100, 300, 700]);
        one("first-radius-under-well", 4, [99, 300, 700]);
        one("first-radius-0", 4, [0, 300, 700]);
        one("middle-radius-rises", 0, [300, 301, 700]);
        one("middle-radius-equal", 4, [300, 300, 700]);
        one("last-radius-rises", 0, [300, 700, 701]);
        one("last-radius-equal", 4, [300, 700, 700]);
        one("last-radius-falls", 4, [300, 700, 699]);
        one("first-three-times", 0, [500, 700, 1500]);
        one("first-over-three-times", 0, [501, 700, 1500]);
        one("middle-three-times", 0, [300, 900, 1500]);
        one("middle-over-three-times", 0, [300, 901, 1500]);
        one("last-three-times", 0, [300, 700, 2300]);
        one("last-over-three-times", 0, [300, 700, 2301]);
        self.edit("radii-before-screen", &draft, 4, |draft| {
            draft.radii[2] = 1;
            draft.layers[2][SCREENED] = 0;
        });
    }

    /// Rule 5 at its limits.
    fn screen(&mut self) {
        let draft = plain(100);
        self.edit("screen-none", &draft, 5, |draft| draft.layers[2][SCREENED] = 0);
        self.edit("screen-in-layer-1", &draft, 5, |draft| draft.layers[0][SCREENED] = 1);
        for (name, second, intake, start) in
            [("below-2", 1, 19_999, 0), ("at-2", 1, 20_000, 5), ("below-3", 0, 24_999, 0), ("at-3", 0, 25_000, 5)]
        {
            self.edit(&format!("intake-{name}"), &draft, start, |draft| {
                draft.layers[1][SCREENED] = second;
                draft.well[INTAKE] = intake;
            });
        }
        self.edit("intake-thin-top", &draft, 5, |draft| {
            draft.layers[0][THICKNESS] = 1;
            draft.layers[1][SCREENED] = 1;
            draft.well[INTAKE] = 1;
        });
        self.edit("screen-before-storage", &draft, 5, |draft| {
            draft.layers[2] = [1, 0, 0, 0, 1];
            draft.radii = vec![101, 102, 103];
        });
    }

    /// C at 10^15: the largest conductivity that start accepts, and the next.
    fn conductances(&mut self) {
        let mut draft = plain(5000);
        draft.layers[0][THICKNESS] = 1_000_000;
        draft.layers[2][THICKNESS] = 1_000_000;
        let narrow = [("well", 2, [5001, 12_000, 20_000]), ("middle", 0, [12_000, 12_001, 20_000])];
        let last = [("last", 0, [12_000, 20_000, 20_001]), ("last-screened", 2, [12_000, 20_000, 20_001])];
        for (name, layer, radii) in narrow.into_iter().chain(last) {
            let mut edited = draft.clone();
            edited.radii = radii.to_vec();
            self.largest(&format!("c-{name}"), &edited, limits::CONDUCTIVITY.end(), |draft, value| {
                draft.layers[layer][HORIZONTAL] = value;
            });
        }
        let mut wide = far_reaching();
        wide.layers[0][VERTICAL] = 0;
        wide.layers[1][THICKNESS] = 1;
        wide.layers[2][THICKNESS] = 1;
        wide.layers[2][VERTICAL] = 100_000_000;
        self.largest("c-down", &wide, limits::CONDUCTIVITY.end(), |draft, value| draft.layers[1][VERTICAL] = value);
        self.edit("c-down-zero", &wide, 0, |draft| draft.layers[1][VERTICAL] = 0);
        // A layer without screen has no C at the well.
        self.edit("c-no-well-face", &plain(5000), 0, |draft| {
            draft.radii = vec![5001, 12_000, 20_000];
            draft.layers[1] = [1000, 0, 100_000_000, 0, 1000];
        });
    }

    /// S from 1 to 10^18 at the stored cells, and free in the last column.
    fn storages(&mut self) {
        let wide = far_reaching();
        self.largest("s-yield", &wide, limits::SPECIFIC_YIELD.end(), |draft, value| draft.layers[0][STORAGE] = value);
        // In the last column it would be 1.5 × 10^18.
        self.edit("s-last-column-large", &wide, 0, |_| ());
        let mut thick = wide.clone();
        thick.layers[2][THICKNESS] = 1_000_000;
        self.largest("s-storage", &thick, limits::SPECIFIC_STORAGE.end(), |d, value| d.layers[2][STORAGE] = value);
        let mut small = plain(10);
        small.radii = vec![11, 12, 13];
        small.layers[2][THICKNESS] = 1;
        let least = 1_000_000u128.div_ceil(geometry::area(10, 11)) as u64;
        self.edit("s-1", &small, 0, |draft| draft.layers[2][STORAGE] = least);
        self.edit("s-0", &small, 6, |draft| draft.layers[2][STORAGE] = least - 1);
        // In the last column it would be 0.
        self.edit("s-last-column-small", &plain(10), 0, |draft| {
            draft.radii[2] = 71;
            draft.layers[2][THICKNESS] = 1;
        });
    }

    /// The largest value of a number that 6 lets pass, found by halving, and the next.
    fn largest(&mut self, name: &str, draft: &Draft, most: &u64, edit: impl Fn(&mut Draft, u64)) {
        let accepted = |value| edited(draft, &|draft| edit(draft, value)).start().is_some();
        let (mut under, mut over) = (1, *most);
        assert!(accepted(under) && !accepted(over), "{name} has its limit between 1 and {most}");
        while over - under > 1 {
            let middle = (under + over) / 2;
            if accepted(middle) {
                under = middle;
            } else {
                over = middle;
            }
        }
        self.edit(&format!("{name}-last"), draft, 0, |draft| edit(draft, under));
        self.edit(&format!("{name}-over"), draft, 6, |draft| edit(draft, over));
    }

    /// Rates, lengths and drawdowns at the limits of 7, 8 and 10.
    fn steps(&mut self) {
        let mut still = plain(100);
        for layer in &mut still.layers {
            layer[HORIZONTAL] = 0;
            layer[VERTICAL] = 0;
        }
        still.well[WATER_AREA] = 1_000_000_000;
        self.edit("step-rates", &still, 0, |draft| {
            draft.pumping = vec![[10_000_000, 1, 2], [10_000_001, 1, 2], [0, 1, 2]];
        });
        self.edit("step-lengths", &still, 0, |draft| {
            draft.pumping = vec![[1, 1_000_000_000, 2], [1, 1_000_000_001, 2], [1, 0, 1], [1, 1, 1]];
        });
        // With W = 1 a volume of 1 nl is 1 µm of drawdown.
        self.edit("step-to-intake", &still, 0, |draft| {
            draft.well[WATER_AREA] = 1;
            draft.pumping = vec![[500, 1000, 1], [1, 1, 1], [0, 1, 1]];
        });
        self.edit("step-past-intake", &still, 0, |draft| {
            draft.well[WATER_AREA] = 1;
            draft.pumping = vec![[166_667, 3, 1], [499_999, 1, 1], [1, 1, 2]];
        });
        for (name, draft) in [("plain", plain(100)), ("far", far_reaching()), ("thin", thin())] {
            self.edit(&format!("step-longest-{name}"), &at_the_longest(draft, 1, 3), 0, |_| ());
        }
    }

    /// Columns as wide as rule 4 allows, u_(j+1) = 9×u_j, and 1 mm wider: at the well, in the middle and at the last column.
    fn wide_columns(&mut self) {
        let k = bore_k();
        self.edit("k-radius-1301", &k, 0, |draft| draft.radii[1] = 1301);
        self.edit("k-radius-4900", &k, 0, |draft| draft.radii[1] = 4900);
        self.edit("k-first-radius-1700", &k, 0, |draft| draft.radii = vec![1700, 2600]);
        self.edit("k-first-radius-1701", &k, 4, |draft| draft.radii = vec![1701, 2600]);
        let draft = plain(100);
        let mut one = |name: &str, start, radii: [u64; 3]| self.edit(name, &draft, start, |d| d.radii = radii.to_vec());
        one("first-widest", 0, [1700, 2600, 3500]);
        one("first-too-wide", 4, [1701, 2600, 3500]);
        one("middle-widest", 0, [300, 3300, 5000]);
        one("middle-too-wide", 4, [300, 3301, 5000]);
        one("last-widest", 0, [300, 700, 8300]);
        one("last-too-wide", 4, [300, 700, 8301]);
        self.edit("wide-run", &wide(), 0, |_| ());
        // Wide columns let 5 and 6 have their turn.
        self.edit("wide-no-screen", &wide(), 5, |draft| draft.layers[2][SCREENED] = 0);
        self.edit("wide-storage-over", &wide(), 6, |draft| {
            draft.radii.extend([1_180_900, 2_000_000]);
            draft.layers[0][STORAGE] = 300_000;
        });
    }

    /// Grids in which many cells are deep and many have the same drawdown, for the order of the list of deep cells. Every step is taken.
    fn equal_drawdowns(&mut self) {
        for (name, draft) in [
            ("equal-layers", equal_layers()),
            ("equal-layers-coupled", equal_layers_coupled()),
            ("ties-in-um", ties_in_um()),
            ("all-deep", all_deep()),
        ] {
            self.edit(name, &draft, 0, |_| ());
        }
    }

    /// The C between layers 1 and 2 at s = 0, which 6 and 8 use (document 02, N6): 10^15, over that and over a word, and 0 by a Kv; then as
    /// what limits the step, at a cell of layer 1 and at one of layer 2.
    fn below_layer_1(&mut self) {
        let draft = at_the_longest(closely_coupled(), 10_000_000, 40);
        self.edit("c-below-last", &draft, 0, |_| ());
        self.edit("c-below-over", &draft, 6, |draft| draft.layers[1][THICKNESS] -= 1);
        self.edit("c-below-over-a-word", &far_reaching(), 6, |draft| {
            draft.layers[0][VERTICAL] = 100_000_000;
            draft.layers[1] = [1, 0, 20_000, 100_000_000, 20_000];
        });
        self.edit("c-below-kv-0", &draft, 0, |draft| {
            draft.layers[0][VERTICAL] = 0;
            draft.layers[1][THICKNESS] -= 1;
        });
        for (name, specific_yield) in [("top", 5), ("second", 1000)] {
            let draft = at_the_longest(thin_second(specific_yield), 100_000, 40);
            self.edit(&format!("step-longest-{name}"), &draft, 0, |_| ());
        }
    }

    /// Water tables drawn down far, to the bottom of layer 1 and past it, and rising again (document 02, N6).
    fn water_tables(&mut self) {
        let draft = thin_top();
        self.edit("table-at-bottom", &draft, 0, |_| ());
        self.edit("table-past-bottom", &draft, 0, |draft| {
            let last = draft.pumping.len() - 1;
            draft.pumping[last][REPEATS] += 1;
        });
        for (name, draft) in [
            ("table-columns", thin_top_columns()),
            ("table-two-layers", low_table_of_two()),
            ("table-thick", thick_top()),
            ("table-rises", rising_table(360)),
            ("table-past-bottom-at-rest", rising_table(400)),
        ] {
            self.edit(name, &draft, 0, |_| ());
        }
    }

    /// The deepest mark (document 02, N1): bore K, pumped and then at rest; a well that rises while it is pumped less and at rest; one that is
    /// drawn down deeper after a rest; one that is deepest in the middle of an entry; and an entry whose last step 10 refuses.
    fn marks(&mut self) {
        self.edit("k-marks", &bore_k(), 0, |draft| {
            draft.pumping = vec![[1000, 500_000, 1]; 3];
            draft.pumping.push([0, 500_000, 1]);
        });
        for (name, draft) in [
            ("mark-rate-drops", two_screens(8000, &[(1000, 60), (300, 60), (0, 60)])),
            ("mark-deeper-later", two_screens(8000, &[(600, 40), (0, 40), (900, 40)])),
            ("mark-in-the-middle", swinging()),
            ("mark-refused-10", two_screens(700, &[(1000, 40), (0, 20), (300, 20)])),
        ] {
            self.edit(name, &draft, 0, |_| ());
        }
    }

    /// Pumping and a long rest (document 02, N14): until hardly anything is drawn down; with steps among those of the rest that 7 and 8 refuse;
    /// a well that goes down at rest, a cell being deeper; and levels that come to stand still before they are back.
    fn rests(&mut self) {
        let long = two_screens(8000, &[(1000, 60), (0, 20), (0, 200), (0, 2000)]);
        self.edit("rest-long", &long, 0, |_| ());
        self.edit("rest-refusals", &long, 0, |draft| {
            let longest = draft.pumping[0][LENGTH];
            let rests =
                [(longest, 20), (longest + 1, 9), (longest, 20), (0, 9), (1_000_000_001, 9), (longest / 2, 200)];
            draft.pumping.truncate(1);
            draft.pumping.extend(rests.map(|(length, repeats)| [0, length, repeats]));
        });
        self.edit("rest-well-goes-down", &swinging(), 0, |draft| {
            draft.pumping[2][REPEATS] = 1;
            draft.pumping.extend([draft.pumping[2]; 5]);
            draft.pumping.push([0, draft.pumping[2][LENGTH], 2000]);
        });
        self.edit("rest-stands-still", &slow(), 0, |_| ());
    }

    /// What holds a step back (document 02, N12): for 8 places that allow the same number of whole µs, one place that allows less than all
    /// others, limits of 0, at the greatest length and over a word, and none; then the well for 10 where 11 forbids the step too, and for 11
    /// water tables that are deepest in column 2, in column 1 and in both.
    fn held_back(&mut self) {
        for (name, draft) in [
            ("limit-ties-row", tied(1_490_000, 1000)),
            ("limit-ties-well", tied(1_490_000, 250_000)),
            ("limit-well", tied(1_490_000, 400_000)),
            ("limit-in-the-middle", tied(1_600_000, 1000)),
            ("limit-last-cell", near_the_end()),
            ("limit-over-a-word", past_a_word()),
        ] {
            self.edit(name, &at_the_longest(draft, 100, 3), 0, |_| ());
        }
        for (name, draft) in
            [("limit-longest-0", tied(16_000_000, 1000)), ("limit-longest-0-well", tied(16_000_000, 1_400_000))]
        {
            self.edit(name, &draft, 0, |draft| draft.pumping = vec![[1000, 1, 1], [0, 1, 1]]);
        }
        for (name, conductivity, water_area) in
            [("limit-greatest", 200_101, 1_144_418), ("limit-under-greatest", 200_450, 1_146_414)]
        {
            let draft = at_the_well(conductivity, water_area);
            self.edit(name, &draft, 0, |draft| draft.pumping = vec![[1, 1_000_000_000, 2], [0, 1_000_000_000, 2]]);
        }
        self.edit("limit-no-flow", &tied(0, 0), 0, |draft| {
            for layer in &mut draft.layers {
                layer[HORIZONTAL] = 0;
            }
            draft.pumping = vec![[0, 1_000_000_000, 2], [1, 1_000_000, 1], [30, 1_000_000, 1]];
        });
        self.edit("limit-intake-and-bottom", &thin_top(), 0, |draft| {
            let longest = draft.pumping[0][LENGTH];
            draft.pumping.extend([[1000, longest, 1], [10_000_000, longest, 1]]);
        });
        for (name, draft) in [
            ("limit-outer-table", outer_table()),
            ("limit-outer-table-at-rest", outer_table_at_rest()),
            ("limit-equal-tables", equal_tables()),
            ("limit-outer-overtakes", outer_overtakes()),
            ("limit-inner-overtakes", inner_overtakes()),
            ("limit-both-tables", both_tables()),
        ] {
            self.edit(name, &draft, 0, |_| ());
        }
    }
}

/// Layers 2 to 4 without vertical flow, in which every cell allows a step of 3 µs and a fraction, the least of these being that of layer 3, column 2,
/// where its Kh is 1,490,000; more lets it allow less than 3. The Kh of layer 5, which is screened, decides what the well allows.
fn tied(third: u64, screened: u64) -> Draft {
    let fast = |conductivity| [1000, 0, conductivity, 0, 1000];
    let (top, last) = ([30_000, 0, 1000, 0, 200_000], [1000, 1, screened, 0, 500_000]);
    let layers = vec![top, fast(1_400_000), fast(third), fast(1_300_000), last];
    pumped(layers, (0..6).map(|column| 5062 + 100 * column).collect(), [5000, 1, 29_000, 20_000], &[])
}

/// A last column so narrow that the last stored one allows the shortest step, in the last layer, which is the fastest.
fn near_the_end() -> Draft {
    let mut draft = tied(1000, 0);
    draft.layers.truncate(4);
    draft.layers[1] = [1000, 1, 1000, 0, 500_000];
    draft.layers[3][HORIZONTAL] = 1_400_000;
    draft.radii[5] = draft.radii[4] + 10;
    draft
}

/// A layer 1 whose cell allows 2^64 + 21323384 µs, over a layer 3 that allows 495650000.
fn past_a_word() -> Draft {
    let layers = vec![[1, 0, 1, 0, 44_657_387], [10, 0, 0, 0, 1], [1, 1, 1, 0, 3000]];
    pumped(layers, vec![1141, 2282], [500, 1, 10, 20_000], &[])
}

/// A well that allows about the greatest length, beside a cell that allows more.
fn at_the_well(conductivity: u64, water_area: u64) -> Draft {
    let layers = vec![[30_000, 0, 0, 0, 200_000], [2000, 1, conductivity, 0, 1_000_000]];
    pumped(layers, vec![85_000, 400_000], [5000, water_area, 29_000, 20_000], &[])
}

/// A layer 1 of 1 mm that yields so little in steps so short that in column 1 less than a nl would cross, and nothing does; column 2, of five
/// times the area, is drawn down to the bottom.
fn outer_table() -> Draft {
    let layers = vec![[1, 0, 0, 1, 1], [1000, 0, 100_000, 200_000, 100_000], [1000, 1, 100_000, 200_000, 100_000]];
    with_entries(layers, vec![300, 700, 1500], [100, 300, 1000, 20_000], &[[6, 2000, 400], [6, 2000, 400]])
}

/// A narrow column 1, which comes up first at rest, while the water table in column 2 falls on to the bottom.
fn outer_table_at_rest() -> Draft {
    let layers = vec![[3, 0, 1000, 217, 10], [500, 0, 1000, 10_000, 10_000], [500, 1, 100_000, 10_000, 1_000_000]];
    with_entries(layers, vec![110, 200, 600], [100, 300, 502, 20_000], &[[1766, 455, 203], [0, 455, 50]])
}

/// Columns 1 and 2 of the same area, so small that 1 nl is 663 µm of the water table: two in both bring it past the bottom in one step.
fn equal_tables() -> Draft {
    let layers = vec![[1, 0, 0, 10_000, 1], [100, 0, 1000, 3000, 100_000], [1000, 1, 10_000, 1_000_000, 1_000_000]];
    let entries = [[25, 1364, 29], [0, 1364, 11], [0, 4549, 1]];
    with_entries(layers, vec![26, 34, 500], [14, 10, 100, 20_000], &entries)
}

/// The water table of column 1 is the deeper one at the start of the last step; in it less than a nl would cross there, and that of column 2 is
/// deeper after it.
fn outer_overtakes() -> Draft {
    let layers = vec![[1, 0, 0, 10_000, 2], [200, 0, 0, 3000, 1_000_000], [100, 1, 3000, 10_000, 1_000_000]];
    let entries = [[5, 16_123, 20], [0, 16_123, 92], [0, 15_115, 1]];
    with_entries(layers, vec![26, 70, 500], [14, 100, 200, 20_000], &entries)
}

/// The other way round: the last step is longer than those before, in most of which less than a nl would have crossed in column 1.
fn inner_overtakes() -> Draft {
    let layers = vec![[2, 0, 0, 10_000, 1], [100, 0, 1000, 3000, 1_000_000], [1000, 1, 1000, 1_000_000, 100_000]];
    let entries = [[934, 2422, 13], [0, 2422, 67], [0, 6056, 1]];
    with_entries(layers, vec![26, 70, 500], [14, 300, 101, 20_000], &entries)
}

/// A last step that brings the water tables of both columns past the bottom, that of column 2 deeper.
fn both_tables() -> Draft {
    let layers = vec![[1, 0, 0, 1_000_000, 1], [100, 0, 1000, 1000, 100_000], [10, 1, 1000, 10_000, 1_000_000]];
    let entries = [[716, 5273, 9], [0, 5273, 81], [0, 26_365, 1]];
    with_entries(layers, vec![40, 100, 900], [28, 1000, 100, 20_000], &entries)
}

/// A draft without screen losses and with entries of a rate, a length and repeats each.
fn with_entries(layers: Vec<[u64; 5]>, radii: Vec<u64>, well: [u64; 4], entries: &[[u64; 3]]) -> Draft {
    Draft { layers, radii, well: well.to_vec(), screen_losses: vec![], pumping: entries.to_vec() }
}

/// A draft with steps of a rate at the longest length that 8 allows, and one µs above it, and a rest.
fn at_the_longest(mut draft: Draft, rate: u64, repeats: u64) -> Draft {
    let longest = draft.longest_step();
    draft.pumping = vec![[rate, longest, repeats], [rate, longest + 1, repeats], [0, longest, repeats]];
    draft
}

/// Two layers whose C at s = 0 is 10^15: A_1 is 5,000,000 mm² for each mm of b_2.
fn closely_coupled() -> Draft {
    let layers = vec![[20, 0, 100, 100_000_000, 2000], [1626, 1, 100_000_000, 100_000_000, 1_000_000]];
    pumped(layers, vec![51_000, 90_000], [3625, 1_000_000_000, 19, 20_000], &[])
}

/// A layer 2 of 10 mm, faster than layer 1: their C at s = 0, two hundred times the one in use while layer 1 is full, limits the step, at
/// layer 1 where it yields little, else at layer 2.
fn thin_second(specific_yield: u64) -> Draft {
    let mut draft = plain(100);
    draft.layers = vec![
        [100, 0, 100, 10_000, specific_yield],
        [10, 0, 100, 100_000, 1_000_000],
        [2000, 1, 100_000, 100_000, 100_000],
    ];
    draft.well[INTAKE] = 109;
    draft
}

/// Adds entries of a rate, their steps as long as may be and then ten, a hundred .. times shorter, each of as many steps as are taken until
/// 11 refuses one.
fn pump_to_bottom(draft: &mut Draft, rate: u64, entries: u32) {
    let mut record = draft.start().expect("the draft is accepted");
    let longest = draft.longest_step();
    for shorter in 0..entries {
        let length = longest / 10u64.pow(shorter);
        let (outcome, taken) = listing::repeat(&mut record, rate, length, 1000);
        assert_eq!(outcome, Err(Refusal::WaterTable));
        draft.pumping.push([rate, length, taken]);
    }
}

/// A layer 1 of 4 mm, slow above fast ones, pumped until its water table is at its bottom: 44 steps.
fn thin_top() -> Draft {
    let fast = |screened| [1000, screened, 100_000, 1_000_000, 1_000_000];
    let layers = vec![[4, 0, 0, 1000, 10_000], fast(0), fast(1)];
    let mut draft = pumped(layers, vec![500, 1300], [100, 30_000, 1003, 50_000], &[]);
    pump_to_bottom(&mut draft, 1000, 5);
    draft
}

/// A layer 1 of 6 mm over seven stored columns, pumped until its water table is at its bottom in the first: 226 steps. The last has hardly
/// begun to be drawn down.
fn thin_top_columns() -> Draft {
    let fast = |screened| [500, screened, 200_000, 500_000, 1_000_000];
    let layers = vec![[6, 0, 20_000, 2000, 5000], fast(0), fast(1), fast(0), fast(1)];
    let radii = vec![200, 300, 450, 700, 1000, 1500, 2200, 3300];
    let mut draft = pumped(layers, radii, [100, 30_000, 505, 50_000], &[]);
    pump_to_bottom(&mut draft, 2000, 4);
    draft
}

/// Two layers, the least there are. The intake keeps the water table 1 mm above the bottom of layer 1 at least.
fn low_table_of_two() -> Draft {
    let layers = vec![[60, 0, 0, 100_000, 20], [300, 1, 1_000_000, 1_000_000, 100_000]];
    pumped(layers, vec![1200, 6000], [1000, 50, 59, 50_000], &[(86, 200), (0, 10), (0, 50)])
}

/// A layer 1 of 30 m, drawn down by more than half of it.
fn thick_top() -> Draft {
    let layers =
        vec![[30_000, 0, 0, 10_000_000, 100], [2000, 0, 0, 400_000, 20_000], [4000, 1, 20_000, 400_000, 20_000]];
    pumped(layers, vec![500, 3000], [100, 200, 31_000, 50_000], &[(4800, 60), (4800, 60), (0, 50)])
}

/// Pumping, and a rest in which the water table goes on falling, to its bottom and past it if the rate was high enough; else it rises
/// again, as layer 2 gives water back to layer 1.
fn rising_table(rate: u64) -> Draft {
    let layers =
        vec![[50, 0, 0, 20_000, 300], [100, 0, 200_000, 400_000, 1_000_000], [1000, 1, 1_000_000, 400_000, 1_000_000]];
    pumped(layers, vec![400, 900, 1500], [100, 2000, 149, 50_000], &[(rate, 150), (0, 30), (0, 100)])
}

/// Two screened layers around a well of little free water, which rises at once where it is pumped less; an intake depth (mm), and entries of
/// a rate and repeats each.
fn two_screens(intake: u64, entries: &[(u64, u64)]) -> Draft {
    let layers = vec![
        [9000, 0, 500, 30, 200_000],
        [2000, 1, 90_000, 200, 500_000],
        [4000, 0, 700, 20, 500_000],
        [3000, 1, 40_000, 100, 400_000],
    ];
    pumped(layers, vec![300, 700, 1600, 3000, 5000], [100, 3000, intake, 20_000], entries)
}

/// A well whose S is that of the cell beside its screen, with nearly all of both their C between them, so that in a step as long as 8 allows
/// they nearly change their drawdowns: one step, then three at half the rate, of which the second draws the well down deeper than ever
/// before and the third lets it rise.
fn swinging() -> Draft {
    let layers = vec![[9000, 0, 1000, 10, 200_000], [3000, 0, 1000, 10, 50_000], [10_000, 1, 100_000, 10, 1_000_000]];
    pumped(layers, vec![150, 2000, 9000], [100, 393, 8999, 20_000], &[(1000, 1), (500, 3), (0, 4)])
}

/// A well and cells of so little storage, and so slow a layer, that a step of the greatest length moves some nl, and none where neighbours
/// differ by few enough µm.
fn slow() -> Draft {
    let layers = vec![[10, 0, 0, 0, 1], [1, 1, 1, 0, 100_000]];
    let mut draft =
        pumped(layers, vec![1000, 2000, 3000, 4000], [500, 1, 9, 20_000], &[(0, 100), (0, 2000), (0, 2000)]);
    draft.pumping.insert(0, [1, 8000, 1]);
    draft
}

/// Columns each nine times as wide as the one before it, pumped and at rest in turn for 2,000 steps.
fn wide() -> Draft {
    let mut draft = plain(100);
    draft.radii = vec![1700, 14_500, 131_300];
    let longest = draft.longest_step();
    draft.pumping = (0..40).map(|entry| [if entry % 4 == 3 { 0 } else { 600 }, longest, 50]).collect();
    draft
}

/// Twenty layers of 1 mm, all but the top two screened.
fn thin() -> Draft {
    let mut draft = plain(50);
    draft.layers = vec![[1, 1, 40_000, 500, 50_000]; 20];
    draft.layers[0] = [1, 0, 40_000, 500, 50_000];
    draft.layers[1][SCREENED] = 0;
    draft.well[INTAKE] = 1;
    draft.well[RADIUS] = 50;
    draft
}

/// Columns that a drawdown runs through fast, each but the first 100 mm wide, around a well of 5 m.
fn narrow_radii(columns: u64) -> Vec<u64> {
    (1..=columns).map(|column| 5100 + 100 * column).collect()
}

/// A draft without screen losses and with entries of a rate and repeats each, their steps as long as may be.
fn pumped(layers: Vec<[u64; 5]>, radii: Vec<u64>, well: [u64; 4], entries: &[(u64, u64)]) -> Draft {
    let mut draft = Draft { layers, radii, well: well.to_vec(), screen_losses: vec![], pumping: vec![] };
    let longest = draft.longest_step();
    draft.pumping = entries.iter().map(|&(rate, repeats)| [rate, longest, repeats]).collect();
    draft
}

/// Twenty layers without vertical flow, all below layer 1 screened and equal, so that they have equal drawdowns in each column. After the
/// 140 steps all of their 19 × 49 cells are deep.
fn equal_layers() -> Draft {
    let mut layers = vec![[1000, 1, 1000, 0, 1_000_000]; 20];
    layers[0] = [30_000, 0, 1000, 0, 200_000];
    let well = [5000, 1_000_000, 29_000, 20_000];
    pumped(layers, narrow_radii(50), well, &[(50_000, 50), (80_000, 50), (0, 40)])
}

/// Three fast layers, equal, with two slow ones between them, equal too, and a layer 1 without horizontal flow: 520 steps. At rest the well
/// and the fast layers rise first, and layers and columns change places in the list. After each entry all 66 cells are deep.
fn equal_layers_coupled() -> Draft {
    let (fast, slow) = ([1000, 1, 100_000, 10_000, 1_000_000], [1000, 1, 20_000, 10_000, 1_000_000]);
    let layers = vec![[30_000, 0, 0, 10_000, 20], fast, slow, fast, slow, fast];
    let well = [5000, 10_000, 29_000, 20_000];
    pumped(layers, narrow_radii(12), well, &[(100, 100), (0, 250), (100, 20), (0, 150)])
}

/// Cells of such storage that after 180 steps all are within a few µm of 0, those of a column equal in S: many have the same drawdown and
/// have lost different volumes.
fn ties_in_um() -> Draft {
    let mut layers = vec![[10_000, 0, 10_000_000, 200_000, 1_000_000]; 5];
    layers[0][STORAGE] = 10_000;
    layers[4][SCREENED] = 1;
    let radii = (0..9).map(|column| 50_000 + 100_000 * column).collect();
    let well = [5000, 100_000_000, 9000, 20_000];
    pumped(layers, radii, well, &[(20, 60), (0, 60), (20, 30), (0, 30)])
}

/// The largest grid, every third layer screened, each layer below layer 1 a little faster than the one above it. After the 150 steps all of
/// its 980 cells are deep.
fn all_deep() -> Draft {
    let layer = |number: u64| [1000, u64::from(number % 3 == 2), 900 + 5 * number, 20_000, 1_000_000];
    let mut layers: Vec<_> = (1..=20).map(layer).collect();
    layers[0] = [100_000, 0, 1, 100_000, 300];
    let well = [5000, 1_000_000, 90_000, 20_000];
    pumped(layers, narrow_radii(50), well, &[(250_000, 60), (100_000, 60), (0, 30)])
}
