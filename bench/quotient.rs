// Times the proved quotients of crates/words, through crates/bench_quotients, against the same quotients by u128. Both sides are called the same
// way, once a pair of operands; they take turns over the same pairs, and the best round of each counts. The sums of the quotients must agree.
use std::hint::black_box;
use std::time::Instant;

const PAIRS: usize = 4096;
const ROUNDS: usize = 1500;
const MILLION: u64 = 1_000_000;
const TRILLION: u64 = 1_000_000_000_000;
const MOST_LOSS: u64 = 4_000_000_000_000_000_000; // V, nl
const MOST_STORAGE: u64 = 1_000_000_000_000_000_000; // S, nl per m
const MOST_DRAWDOWN: u64 = 1_000_000_000; // D, µm

extern "C" {
    fn bench_word(v: u64, s: u64) -> u64;
    fn bench_fitted(v: u64, s: u64) -> u64;
    fn bench_literal(a: u64, b: u64) -> u64;
}

#[inline(never)]
extern "C" fn u128_word(v: u64, s: u64) -> u64 {
    (v as u128 * MILLION as u128 / s as u128) as u64
}

#[inline(never)]
extern "C" fn u128_fitted(v: u64, s: u64) -> u64 {
    u64::try_from(v as u128 * MILLION as u128 / s as u128).unwrap_or(0)
}

#[inline(never)]
extern "C" fn u128_literal(a: u64, b: u64) -> u64 {
    (a as u128 * b as u128 / TRILLION as u128) as u64
}

// xorshift64: the operands are the same in every run
struct Sequence(u64);

impl Sequence {
    fn next(&mut self) -> u64 {
        self.0 ^= self.0 << 13;
        self.0 ^= self.0 >> 7;
        self.0 ^= self.0 << 17;
        self.0
    }

    // from 1 to most, each length in bits as likely as another
    fn to(&mut self, most: u64) -> u64 {
        let bits = 1 + self.next() % (64 - most.leading_zeros() as u64);
        1 + self.next() % most.min((1u64 << (bits - 1)) * 2 - 1)
    }
}

type Pairs = Vec<(u64, u64)>;

// V and S, S from `least` to `most` and V * 10^6 / S up to the greatest drawdown
fn losses(seq: &mut Sequence, least: u64, most: u64) -> Pairs {
    let mut pairs = Pairs::new();
    while pairs.len() < PAIRS {
        let s = seq.to(most);
        let cap = (MOST_DRAWDOWN as u128 * s as u128 / MILLION as u128).min(MOST_LOSS as u128) as u64;
        if least <= s && 0 < cap {
            pairs.push((seq.next() % cap, s));
        }
    }
    pairs
}

fn factors(seq: &mut Sequence, a: u64, b: u64) -> Pairs {
    (0..PAIRS).map(|_| (seq.to(a), seq.to(b))).collect()
}

fn sum(pairs: &Pairs, f: impl Fn(u64, u64) -> u64) -> u64 {
    pairs.iter().fold(0u64, |t, &(a, b)| t.wrapping_add(f(a, b)))
}

// nanoseconds a quotient
fn timed(pairs: &Pairs, f: impl Fn(u64, u64) -> u64) -> f64 {
    let began = Instant::now();
    black_box(sum(black_box(pairs), f));
    began.elapsed().as_secs_f64() * 1e9 / PAIRS as f64
}

fn compare(name: &str, pairs: &Pairs, ours: impl Fn(u64, u64) -> u64, theirs: impl Fn(u64, u64) -> u64) {
    assert_eq!(sum(pairs, &ours), sum(pairs, &theirs), "{name}: the sums differ");
    let (mut a, mut b) = (f64::MAX, f64::MAX);
    for _ in 0..ROUNDS {
        a = a.min(timed(pairs, &ours));
        b = b.min(timed(pairs, &theirs));
    }
    println!("{name:<52} {a:7.2} {b:7.2} {:6.2}", a / b);
}

fn main() {
    let word = |v, s| unsafe { bench_word(v, s) };
    let fitted = |v, s| unsafe { bench_fitted(v, s) };
    let literal = |a, b| unsafe { bench_literal(a, b) };
    let seq = &mut Sequence(88172645463325252);
    let any = losses(seq, 1, MOST_STORAGE);
    let small = losses(seq, 1, MILLION);
    let large = losses(seq, MILLION, MOST_STORAGE);
    let over: Pairs = (0..PAIRS).map(|_| (seq.next() % MOST_LOSS, seq.to(MOST_STORAGE))).collect();
    let short = factors(seq, 1_000_000_000_000_000, 1_000_000_000);
    let long = factors(seq, MOST_STORAGE, TRILLION);
    println!("{:<52} {:>7} {:>7} {:>6}", "quotient", "ns", "u128 ns", "ratio");
    compare("quotient_word, V*10^6/S up to 10^9, S 1 to 10^18", &any, word, |v, s| u128_word(v, s));
    compare("quotient_word, the same, S up to 10^6", &small, word, |v, s| u128_word(v, s));
    compare("quotient_word, the same, S from 10^6", &large, word, |v, s| u128_word(v, s));
    compare("quotient, V*10^6/S up to 10^9, S 1 to 10^18", &any, fitted, |v, s| u128_fitted(v, s));
    compare("quotient, V up to 4*10^18, over one word too", &over, fitted, |v, s| u128_fitted(v, s));
    compare("quotient_word, a*b/10^12 up to 10^12", &short, literal, |a, b| u128_literal(a, b));
    compare("quotient_word, a*b/10^12 up to 10^18", &long, literal, |a, b| u128_literal(a, b));
}
