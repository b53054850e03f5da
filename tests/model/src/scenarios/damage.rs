//! Texts with damage: one of each kind in turn, or several faults at once whose first in order must be named.

use super::accepted;
use super::draft::{text_of, Draft, INTAKE, RADIUS, SCREENED, STORAGE, THICKNESS};
use super::Case;
use crate::limits;
use crate::random::Random;

const KINDS: u64 = 14;

/// A small accepted scenario to be damaged.
fn sound(random: &mut Random) -> Draft {
    let (layers, columns) = (random.between(2, 5) as usize, random.between(2, 8) as usize);
    accepted::scenario(random, layers, columns)
}

/// One fault, its kind by turns.
pub fn one(random: &mut Random, turn: u64) -> Case {
    let mut draft = sound(random);
    let numbers = draft.numbers();
    let some = random.between(0, numbers.len() as u64 - 1) as usize;
    let (name, text, start) = match turn % KINDS {
        0 => ("damaged-byte", damaged_byte(random, draft.text()), None),
        1 => ("byte-more", byte_more(random, draft.text()), None),
        2 => ("byte-less", byte_less(random, draft.text()), None),
        3 => ("cr-lf", text_of(&numbers).iter().flat_map(|&byte| carriage_return(byte)).collect(), Some(1)),
        4 => ("19-digits", line_replaced(&numbers, some, b"1000000000000000000"), Some(1)),
        5 => ("leading-zero", line_replaced(&numbers, some, format!("0{}", numbers[some]).as_bytes()), Some(1)),
        6 => ("missing", text_of(&numbers[..some]), Some(1)),
        7 => ("left-over", text_of(&[numbers.as_slice(), &[random.spread(0, 1 << 50)]].concat()), Some(1)),
        8 => ("wrong-number", number_replaced(random, numbers, some), None),
        9 => {
            let column = random.between(1, draft.radii.len() as u64 - 1) as usize;
            draft.radii[column] = draft.radii[column - 1] - random.between(0, 1);
            ("not-rising", draft.text(), Some(4))
        }
        10 => {
            draft.layers.iter_mut().for_each(|layer| layer[SCREENED] = 0);
            ("no-screen", draft.text(), Some(5))
        }
        11 => {
            draft.layers[0][SCREENED] = 1;
            ("top-screened", draft.text(), Some(5))
        }
        12 => {
            draft.well[INTAKE] = draft.screen_top().min(1_000_000);
            let refused = draft.screen_top() <= 1_000_000;
            ("intake-in-screen", draft.text(), Some(if refused { 5 } else { 0 }))
        }
        _ => ("count-off", count_off(random, &draft), None),
    };
    Case { name: name.to_string(), text, start }
}

/// A grid of wide columns that ends with one 1 mm wider than rule 4 allows.
pub fn too_wide(random: &mut Random) -> Case {
    loop {
        let mut draft = accepted::wide(random);
        let last = random.between(1, draft.radii.len() as u64 - 1) as usize;
        draft.radii.truncate(last + 1);
        let inner = if last == 1 { draft.well[RADIUS] } else { draft.radii[last - 2] };
        draft.radii[last] = accepted::widest_radius(inner, draft.radii[last - 1], limits::WIDEST_RATIO) + 1;
        if limits::COLUMN_RADIUS.contains(&draft.radii[last]) {
            return Case { name: "too-wide".to_string(), text: draft.text(), start: Some(4) };
        }
    }
}

/// Two or three faults in one text.
pub fn several(random: &mut Random) -> Case {
    let mut draft = sound(random);
    for _ in 0..random.between(2, 3) {
        match random.between(0, 8) {
            0 => draft.layers[0][THICKNESS] = 0,
            1 => draft.layers[1][STORAGE] = 1_000_001,
            2 => draft.radii.swap(0, 1),
            3 => draft.layers[0][SCREENED] = random.between(1, 2),
            4 => draft.well[INTAKE] = 1_000_000,
            5 => draft.screen_losses = vec![1; 3],
            6 => draft.layers[0][STORAGE] = 100_000_000,
            7 => draft.pumping.push([1, 1, random.one_of(&[0, 1_000_001])]),
            _ => draft.well.push(random.spread(0, 1000)),
        }
    }
    let mut text = draft.text();
    if random.once_in(4) {
        text.extend(b"7\n");
    }
    if random.once_in(6) {
        text.pop();
    }
    Case { name: "several-faults".to_string(), text, start: None }
}

fn carriage_return(byte: u8) -> Vec<u8> {
    if byte == b'\n' {
        b"\r\n".to_vec()
    } else {
        vec![byte]
    }
}

/// A byte that may stand in a number, or may not.
fn some_byte(random: &mut Random) -> u8 {
    let digit = random.between(u64::from(b'0'), u64::from(b'9')) as u8;
    let any = random.between(0, 255) as u8;
    random.one_of(&[digit, digit, digit, b'\n', b'\n', b' ', b'-', b'+', b'.', any])
}

fn damaged_byte(random: &mut Random, mut text: Vec<u8>) -> Vec<u8> {
    let at = random.between(0, text.len() as u64 - 1) as usize;
    text[at] = some_byte(random);
    text
}

fn byte_more(random: &mut Random, mut text: Vec<u8>) -> Vec<u8> {
    let at = random.between(0, text.len() as u64) as usize;
    text.insert(at, some_byte(random));
    text
}

fn byte_less(random: &mut Random, mut text: Vec<u8>) -> Vec<u8> {
    let at = random.between(0, text.len() as u64 - 1) as usize;
    text.remove(at);
    text
}

/// One line in place of another.
pub fn line_replaced(numbers: &[u64], index: usize, line: &[u8]) -> Vec<u8> {
    let mut text = text_of(&numbers[..index]);
    text.extend(line);
    text.push(b'\n');
    text.extend(text_of(&numbers[index + 1..]));
    text
}

/// Any number in place of another, a count's among them.
fn number_replaced(random: &mut Random, mut numbers: Vec<u64>, index: usize) -> Vec<u8> {
    let any = random.spread(0, 999_999_999_999_999_999);
    let near = numbers[index] + random.between(0, 2);
    numbers[index] = random.one_of(&[0, near, near.saturating_sub(2), any]);
    text_of(&numbers)
}

/// A count one more or one less than its section's records.
fn count_off(random: &mut Random, draft: &Draft) -> Vec<u8> {
    let mut numbers = draft.numbers();
    let columns = 1 + 5 * draft.layers.len();
    let well = columns + 1 + draft.radii.len();
    let screen = well + 1 + draft.well.len();
    let pumping = screen + 1 + draft.screen_losses.len();
    let at = random.one_of(&[0, columns, well, screen, pumping]);
    numbers[at] = if random.once_in(2) { numbers[at] + 1 } else { numbers[at].saturating_sub(1) };
    text_of(&numbers)
}
