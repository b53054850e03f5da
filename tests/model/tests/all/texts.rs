//! Refusals 1 to 6 and their order.

use crate::bore_k::{changed, text_of, INTAKE, LAST_RADIUS, NUMBERS};
use reference_model::record::{start, Record};
use reference_model::text::numbers;

/// What start says: 0 accepted, else the refusal, with the all-zero record.
fn outcome(text: &[u8]) -> u64 {
    let (outcome, record) = start(text);
    match outcome {
        Ok(()) => 0,
        Err(refusal) => {
            assert_eq!(record, Record::zero());
            refusal.number()
        }
    }
}

#[test]
fn line_form() {
    assert_eq!(numbers(b""), Some(vec![]));
    assert_eq!(numbers(b"0\n10\n999999999999999999\n"), Some(vec![0, 10, 999_999_999_999_999_999]));
    let bad: [&[u8]; 14] = [
        b"\n",
        b"1",
        b"1\n2",
        b"01\n",
        b"00\n",
        b"1\r\n",
        b" 1\n",
        b"1 \n",
        b"-1\n",
        b"+1\n",
        b"1000000000000000000\n",
        b"1\n\n",
        b"\0\n",
        b"\xFF\n",
    ];
    for text in bad {
        assert_eq!(numbers(text), None, "{text:?}");
    }
}

#[test]
fn length_belongs_to_the_line_form() {
    let mut text = b"21\n".to_vec();
    text.extend(b"1\n".repeat(32_765));
    text.extend(b"11\n");
    assert_eq!((text.len(), outcome(&text)), (65_536, 2));
    text.pop();
    text.extend(b"1\n");
    assert_eq!((text.len(), outcome(&text)), (65_537, 1));
}

#[test]
fn lines_are_judged_before_counts() {
    let mut text = text_of(&[21]);
    assert_eq!(outcome(&text), 2);
    text.extend(b"x\n");
    assert_eq!(outcome(&text), 1);
}

#[test]
fn counts_and_lengths_go_section_by_section() {
    for length in 0..NUMBERS.len() {
        assert_eq!(outcome(&text_of(&NUMBERS[..length])), 1);
    }
    assert_eq!(outcome(&text_of(&[&NUMBERS[..], &[1]].concat())), 1);
    // A bad count is named before numbers missing after it, and after numbers missing before it.
    assert_eq!(outcome(&text_of(&[&NUMBERS[..11], &[51]].concat())), 2);
    assert_eq!(outcome(&text_of(&NUMBERS[..10])), 1);
    for (index, count) in [(0, 1), (0, 21), (11, 1), (11, 51), (14, 3), (14, 5), (19, 3), (20, 501)] {
        assert_eq!(outcome(&changed(index, count)), 2, "count {count} at {index}");
    }
    // Counts within their limits that do not fit the numbers.
    for (index, count) in [(0, 3), (11, 3), (19, 1), (20, 1), (20, 3)] {
        let refusal = outcome(&changed(index, count));
        assert!(refusal == 1 || refusal == 2, "count {count} at {index} gives {refusal}");
    }
}

#[test]
fn later_refusals_keep_their_order() {
    let edit = |edits: &[(usize, u64)]| {
        let mut numbers = NUMBERS;
        edits.iter().for_each(|&(index, number)| numbers[index] = number);
        outcome(&text_of(&numbers))
    };
    // Repeats 0 is 3, R_2 4901 is 4, p 10000 is 5, storage too small is 6.
    let (three, four, five) = ((26, 0), (LAST_RADIUS, 4901), (INTAKE, 10_000));
    let six = [(6, 1), (10, 1)];
    assert_eq!(edit(&six), 6);
    assert_eq!(edit(&[five, six[0], six[1]]), 5);
    assert_eq!(edit(&[four, five, six[0], six[1]]), 4);
    assert_eq!(edit(&[three, four, five, six[0], six[1]]), 3);
    assert_eq!(edit(&[(20, 501), three, four, five]), 2);
    assert_eq!(edit(&[(21, 999_999_999_999_999_999), (22, 0)]), 0);
}

#[test]
fn more_numbers_than_any_scenario_are_left_over() {
    let mut text = text_of(&NUMBERS);
    text.extend(b"0\n".repeat(30_000));
    assert_eq!(outcome(&text), 1);
}
