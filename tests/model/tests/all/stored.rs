//! What the texts and the choice texts of tests/stored have among them.

use reference_model::choice_text;
use reference_model::listing::listing;
use reference_model::scenarios::{lists, Case, Scenarios};
use reference_model::text::read;
use std::collections::BTreeSet;
use std::fs;
use std::path::PathBuf;

pub fn repository() -> PathBuf {
    PathBuf::from(env!("CARGO_MANIFEST_DIR")).join("../..")
}

/// Seed and count of the line `texts SEED COUNT CRATE`, or of the line `lists SEED COUNT CRATE`.
fn seed_and_count(kind: &str) -> (u64, usize) {
    let stored = fs::read_to_string(repository().join("tests/stored")).unwrap();
    let line = stored.lines().find(|line| line.split(' ').next() == Some(kind)).expect(kind);
    let words: Vec<&str> = line.split(' ').collect();
    (words[1].parse().unwrap(), words[2].parse().unwrap())
}

/// The scenario texts of the first.
pub fn stored_cases() -> Vec<Case> {
    let (seed, count) = seed_and_count("texts");
    Scenarios::new(seed).different().take(count).collect()
}

/// The choice texts of the second.
pub fn stored_lists() -> Vec<Case> {
    let (seed, count) = seed_and_count("lists");
    lists::cases(seed).take(count).collect()
}

#[test]
fn stored_texts_show_every_edge_and_refusal() {
    let (seed, count) = seed_and_count("texts");
    let scenarios = Scenarios::new(seed);
    let cases = stored_cases();
    let texts: BTreeSet<_> = cases.iter().map(|case| &case.text).collect();
    assert_eq!(texts.len(), count, "texts that are equal");
    let edges: Vec<Case> = (0..scenarios.whole()).step_by(2).map(|number| scenarios.case(number)).collect();
    for edge in &edges {
        assert!(texts.contains(&edge.text), "no {}", edge.name);
    }
    assert_eq!(cases[count - 1], edges[edges.len() - 1], "a smaller count has every edge");
    assert!(texts.contains(&fs::read(repository().join("examples/bore-k.txt")).unwrap()), "no bore K");
    let listings: String = cases.iter().map(|case| listing(&case.text)).collect();
    for number in 1..=11 {
        let start = if number <= 6 { "scenario" } else { "refused " };
        let ends = |line: &str| line.starts_with(start) && line.ends_with(&format!(" {number}"));
        assert!(listings.lines().any(ends), "no refusal {number}");
    }
    let sizes: BTreeSet<_> =
        cases.iter().filter(|case| case.name.starts_with("grid-")).map(|case| &case.name).collect();
    assert!(sizes.len() >= 50, "{} sizes of grids", sizes.len());
}

/// Where a column stands that is more than three times as wide as the one before it, and whether it is as wide as rule 4 allows.
fn wide_columns(text: &[u8]) -> Vec<(&'static str, bool)> {
    let Ok(scenario) = read(text) else { return Vec::new() };
    let (site, last) = (&scenario.site, scenario.site.columns());
    let ratio = |j: usize| (site.doubled_midsection(j), site.doubled_midsection(j - 1));
    let wide = (1..=last).filter(|&j| ratio(j).0 > 3 * ratio(j).1);
    let place = |j: usize| {
        if j == 1 {
            "first"
        } else if j == last {
            "last"
        } else {
            "middle"
        }
    };
    wide.map(|j| (place(j), ratio(j).0 == 9 * ratio(j).1)).collect()
}

#[test]
fn stored_texts_have_wide_columns_in_every_place() {
    let texts = stored_cases().into_iter();
    let wide: Vec<_> = texts.map(|case| wide_columns(&case.text)).filter(|columns| !columns.is_empty()).collect();
    let columns: BTreeSet<_> = wide.iter().flatten().collect();
    let wanted = ["first", "middle", "last"].into_iter().flat_map(|place| [(place, false), (place, true)]);
    assert!(wanted.into_iter().all(|one| columns.contains(&one)), "{columns:?}");
    assert!(wide.len() >= 20, "{} texts with wide columns", wide.len());
}

/// The fixed choice texts come first, and then drawn ones of every kind, no two of them alike; start says of each scenario what is foretold.
#[test]
fn stored_lists_are_of_every_kind() {
    let cases = stored_lists();
    let texts: BTreeSet<_> = cases.iter().map(|case| &case.text).collect();
    assert_eq!(texts.len(), cases.len(), "texts that are equal");
    for case in &cases {
        let scenario = choice_text::read(&case.text).unwrap().scenario;
        assert_eq!(read(scenario).map_or_else(|refusal| refusal.number(), |_| 0), case.start.unwrap(), "{}", case.name);
    }
    let names: Vec<&str> = cases.iter().map(|case| case.name.as_str()).collect();
    let (fixed, drawn) = names.split_at(8);
    assert_eq!(fixed[..4], ["k-start", "k-turned-away", "k-many-steps", "k-intake-17"]);
    assert_eq!(fixed[4..], ["not-monotone", "k-entries", "k-intake-17-entries", "k-intake-10000"]);
    for kind in ["stability", "ends-in-9", "ends-in-10", "ends-in-11", "wide", "cross-flow"] {
        assert!(drawn.iter().filter(|&&name| name == kind).count() >= 4, "{kind}");
    }
    let sizes: BTreeSet<_> = drawn.iter().filter(|name| name.starts_with("grid-")).collect();
    assert!(sizes.len() >= 25, "{} sizes of grids", sizes.len());
}
