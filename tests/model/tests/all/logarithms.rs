//! Λ against the true logarithm over the allowed range.

use reference_model::geometry::lambda;
use reference_model::logarithm::{check, in_range, true_logarithm, Held, Range};
use reference_model::random::Random;
use reference_model::worst::{farthest, worst, RATIOS};

#[test]
fn lambda_is_near_the_true_logarithm() {
    let mut held = Held::default();
    let mut hold = |p: u64, q: u64| held.hold(p, q, lambda(p, q) as u64).unwrap();
    for q in 20..3000 {
        for p in (q + 1..=9 * q).step_by(1 + q as usize / 40) {
            hold(p, q);
        }
        for p in [3 * q, 3 * q + 1, 9 * q] {
            hold(p, q);
        }
    }
    let mut random = Random::new(1);
    for times in [3, 9] {
        for _ in 0..300_000 {
            let q = random.spread(20, 3_999_998);
            let p = random.between(q + 1, (times * q).min(4_000_000));
            hold(p, q);
        }
    }
    assert!(Range::BOTH.into_iter().all(|range| held.in_range(range).lines > 400_000));
}

#[test]
fn tolerance_is_64_up_to_3q_and_128_above() {
    for (p, q, tolerance) in [(600, 200, 64), (601, 200, 128), (1800, 200, 128), (201, 200, 64)] {
        let middle = true_logarithm(p, q);
        for (value, held) in [
            (middle + f64::from(tolerance) - 1.0, true),
            (middle + f64::from(tolerance) + 1.0, false),
            (middle - f64::from(tolerance) + 1.0, true),
            (middle - f64::from(tolerance) - 1.0, false),
        ] {
            assert_eq!(Held::default().hold(p, q, value.round() as u64).is_ok(), held, "{p} {q} {value}");
        }
    }
}

#[test]
fn lambda_goes_over_from_its_series_at_3q() {
    for q in (1..=1000).chain([444_444, 1_000_000, 1_333_333]) {
        assert_eq!(lambda(3 * q, q), 1_179_625_948);
        assert_eq!(lambda(3 * q + 1, q), 1_179_625_948 + lambda(3 * q + 1, 3 * q));
        assert_eq!(lambda(9 * q, q), 2_359_251_896);
    }
}

/// The z of a pair in a range, worked from p and q or from p and 3q.
fn ratio_in(range: Range, p: u64, q: u64) -> Option<u64> {
    let from = if range == Range::UpTo3 { q } else { 3 * q };
    (in_range(p, q) && Range::of(p, q) == range).then(|| ((p - from) << 30) / (p + from))
}

/// The worst pair of a z among all pairs of a range, one q after the other.
fn farthest_of_all(range: Range, z: u64) -> Option<f64> {
    let pairs = (1..4_000_000).flat_map(|q| {
        let from = if range == Range::UpTo3 { q } else { 3 * q };
        // The p that have the z lie between these.
        let least = from * ((1 << 30) + z) / ((1 << 30) - z);
        let most = from * ((1 << 30) + z + 1) / ((1 << 30) - z - 1);
        (least..=most + 1).map(move |p| (p, q))
    });
    let differences = pairs
        .filter(|&(p, q)| ratio_in(range, p, q) == Some(z))
        .map(|(p, q)| true_logarithm(p, q) - lambda(p, q) as f64);
    differences.reduce(f64::max)
}

#[test]
fn farthest_pairs_are_the_farthest_of_all() {
    let near = |one: f64, other: f64| (one - other).abs() < 1e-6;
    for z in [1, 268, 269, 1 << 20, 357_913_941, 357_913_942, 529_170_090, (1 << 29) - 1, 1 << 29] {
        for range in Range::BOTH {
            match (farthest(range, z), farthest_of_all(range, z)) {
                (Some(pair), Some(difference)) => {
                    assert_eq!(ratio_in(range, pair.p, pair.q), Some(z));
                    assert!(near(pair.difference, difference), "{z}: {pair:?}, {difference}");
                }
                (None, None) => (),
                different => panic!("{range:?} {z}: {different:?}"),
            }
        }
    }
}

#[test]
fn worst_pairs_are_the_known_ones() {
    // The ratios around them; `model worst` tries all.
    let known = [(Range::UpTo3, 1_251_543, 425_198, "26.199"), (Range::Above3, 3_754_629, 425_198, "40.903")];
    for (range, p, q, difference) in known {
        let z = ratio_in(range, p, q).unwrap();
        let pairs = worst(range, z - 200_000..=z + 200_000, 3);
        assert_eq!((pairs[0].p, pairs[0].q), (p, q));
        assert_eq!(format!("{:.3}", pairs[0].difference), difference);
        assert!(pairs.windows(2).all(|two| two[0].difference >= two[1].difference));
        assert!(worst(range, 1..=1000, 0).is_empty());
    }
    assert_eq!(RATIOS, 1..=1 << 29);
}

#[test]
fn smallest_lambda_is_536() {
    // Doubled midsection radii of neighbours differ by 2 mm at least.
    assert_eq!(lambda(3_999_999, 3_999_997), 536);
    assert_eq!(lambda(600, 200), lambda(3_000_000, 1_000_000));
}

#[test]
fn stored_lines_are_held() {
    let (answers, held) = check("600 200\n600 200 1179625948\n1800 200 2359251896\n").unwrap();
    assert_eq!(answers, ["600 200 1179625948"]);
    assert_eq!(Range::BOTH.map(|range| held.in_range(range).lines), [1, 1]);
    for bad in [
        "",
        "600\n",
        "600 200 1179625949\n",
        "600 200 1179625848\n",
        "1800 200 2359251895\n",
        "1801 200 5\n",
        "200 200 0\n",
        "a b\n",
        "1 2 3 4\n",
        "\n",
    ] {
        assert!(check(bad).is_err(), "{bad:?}");
    }
    assert!(in_range(4_000_000, 3_999_999) && !in_range(4_000_001, 4_000_000));
}
