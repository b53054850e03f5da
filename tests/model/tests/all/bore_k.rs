//! The bore K of document 01, whole, with the figures that document 02 (N1, N4, N6) moves or adds.

use reference_model::geometry;
use reference_model::grid::{cell, slot, Place};
use reference_model::listing::listing;
use reference_model::mistake::Mistake;
use reference_model::readings;
use reference_model::record::{start, Record};
use reference_model::refusal::Refusal;
use reference_model::step::{step, step_with, top_vertical_in_use};
use reference_model::text::{pumping_entry, Entry};

/// The numbers of bore K's text.
pub const NUMBERS: [u64; 27] = [
    2, 10_000, 0, 100_000, 10_000, 200_000, 2000, 1, 100_000, 10_000, 1_000_000, 2, 500, 1300, 4, 100, 30_000, 9999,
    50_000, 0, 2, 1000, 500_000, 2, 1000, 500_000, 1,
];
/// Where R_2, p and the first entry's rate and length stand among them.
pub const LAST_RADIUS: usize = 13;
pub const INTAKE: usize = 17;
const RATE: usize = 21;
const LENGTH: usize = 22;

const LISTING: &str = "entry us well pumped wellloss cellloss inflow
1 1000000 33015 1000000000 990468379 9531621 0
2 1500000 49173 1500000000 1475200970 21184495 3614535
";

/// Numbers as the lines of a text.
pub fn text_of(numbers: &[u64]) -> Vec<u8> {
    numbers.iter().map(|number| format!("{number}\n")).collect::<String>().into_bytes()
}

/// Bore K's text with one number changed.
pub fn changed(index: usize, number: u64) -> Vec<u8> {
    let mut numbers = NUMBERS;
    numbers[index] = number;
    text_of(&numbers)
}

pub fn record() -> Record {
    let (outcome, record) = start(&text_of(&NUMBERS));
    assert_eq!(outcome, Ok(()));
    record
}

/// Fails with what is wrong unless two values are equal.
pub fn equal<T: PartialEq + std::fmt::Debug>(what: &str, found: T, wanted: T) -> Result<(), String> {
    if found == wanted {
        Ok(())
    } else {
        Err(format!("{what}: {found:?}, not {wanted:?}"))
    }
}

/// The steps of bore K, made with a mistake or none, held to its figures.
pub fn check_steps(mistake: Option<Mistake>) -> Result<(), String> {
    let mut k = record();
    equal("start", figures(&k), Ok([0; 7]))?;
    equal("step 1", step_with(&mut k, 1000, 500_000, mistake), Ok(()))?;
    equal("after step 1", figures(&k), Ok([500_000, 16_666, 500_000_000, 500_000_000, 0, 0, 16_666]))?;
    equal("step 2", step_with(&mut k, 1000, 500_000, mistake), Ok(()))?;
    equal("entry 1", figures(&k), Ok([1_000_000, 33_015, 1_000_000_000, 990_468_379, 9_531_621, 0, 33_015]))?;
    equal("inward", readings::flow(&k, cell(2, 1), Place::Well, 500_000), Ok(15_267_409))?;
    equal("from the last column", readings::flow(&k, cell(2, 2), cell(2, 1), 500_000), Ok(3_614_535))?;
    equal("down", readings::flow(&k, cell(1, 1), cell(2, 1), 500_000), Ok(2165))?;
    equal("step 3", step_with(&mut k, 1000, 500_000, mistake), Ok(()))?;
    let second = [1_500_000, 49_173, 1_500_000_000, 1_475_200_970, 21_184_495, 3_614_535, 49_173];
    equal("entry 2", figures(&k), Ok(second))?;
    equal("layer 2", readings::drawdown(&k, cell(2, 1)), Ok(14_046))?;
    equal("longest step", step_with(&mut record(), 1000, 657_001, mistake), Ok(()))?;
    equal("too long a step", step_with(&mut record(), 1000, 657_002, mistake), Err(Refusal::Stability))?;
    check_marks(k, mistake)
}

/// Bore K's mark after its entries: a step at rate 0, in which the well rises, leaves it, and so does a refused one.
fn check_marks(mut k: Record, mistake: Option<Mistake>) -> Result<(), String> {
    equal("rest", step_with(&mut k, 0, 500_000, mistake), Ok(()))?;
    equal("well at rest", readings::drawdown(&k, Place::Well), Ok(48_503))?;
    equal("mark at rest", readings::budget(&k).map(|budget| budget.mark), Ok(49_173))?;
    let mut shallow = start(&changed(INTAKE, 17)).1;
    equal("to the intake", step_with(&mut shallow, 1000, 500_000, mistake), Ok(()))?;
    equal("past the intake", step_with(&mut shallow, 1000, 500_000, mistake), Err(Refusal::Intake))?;
    equal("mark at the intake", readings::budget(&shallow).map(|budget| budget.mark), Ok(16_666))
}

/// Time, well's drawdown and the five figures of the budget of a record.
fn figures(k: &Record) -> Result<[i64; 7], Refusal> {
    let (well, budget) = (readings::drawdown(k, Place::Well)?, readings::budget(k)?);
    let [time, well, pumped] = [k.time, well, budget.pumped].map(|number| number as i64);
    Ok([time, well, pumped, budget.well_loss, budget.cell_loss, budget.inflow, budget.mark])
}

#[test]
fn listing_of_k() {
    assert_eq!(listing(&text_of(&NUMBERS)), LISTING);
}

#[test]
fn steps_of_k() {
    assert_eq!(check_steps(None), Ok(()));
}

#[test]
fn coefficients_of_k() {
    assert_eq!(geometry::lambda(600, 200), 1_179_625_948);
    assert_eq!(geometry::area(100, 500), 753_982);
    let k = record();
    assert_eq!(k.well_c[1], 1_143_840_361);
    assert_eq!(k.across_c[slot(2, 1)], 1_143_840_361);
    assert_eq!(k.across_c[slot(1, 1)], 5_719_201_805);
    assert_eq!(k.down_c[slot(1, 1)], 7_539_820);
    assert_eq!(top_vertical_in_use(&k.site(), 1, 0), 685_438);
    assert_eq!(k.cell_s[slot(1, 1)], 150_796_400_000);
    assert_eq!(k.cell_s[slot(2, 1)], 1_507_964_000);
    assert_eq!(k.well_s, 30_000_000_000);
}

#[test]
fn unmarked_cases_of_k() {
    let refused = |text: &[u8]| start(text).0.unwrap_err().number();
    assert_eq!(refused(&changed(LAST_RADIUS, 4901)), 4);
    assert_eq!(refused(&changed(INTAKE, 10_000)), 5);
    assert_eq!(refused(b""), 1);
    let mut k = start(&changed(INTAKE, 17)).1;
    assert_eq!(step(&mut k, 1000, 500_000), Ok(()));
    let mut k = start(&changed(INTAKE, 16)).1;
    assert_eq!(step(&mut k, 1000, 500_000), Err(Refusal::Intake));
    assert_eq!(step(&mut record(), 10_000_001, 500_000), Err(Refusal::Call));
    assert_eq!(step(&mut record(), 10_000_000, 5), Ok(()));
    assert_eq!(step(&mut record(), 1000, 0), Err(Refusal::Call));
    assert_eq!(step(&mut record(), 1000, 1_000_000_001), Err(Refusal::Call));
    assert_eq!(step(&mut record(), 1000, 1_000_000_000), Err(Refusal::Stability));
}

#[test]
fn wider_columns_of_k() {
    // u_2 is 1801, one over three times u_1 = 600, and 5400, nine times.
    for (radius, lambda) in [(1300, 1_179_625_948), (1301, 1_180_222_304), (4900, 2_359_251_896)] {
        let (outcome, k) = start(&changed(LAST_RADIUS, radius));
        assert_eq!(outcome, Ok(()), "R_2 {radius}");
        assert_eq!(geometry::lambda(500 + radius, 600), lambda);
        assert_eq!(u128::from(k.across_c[slot(2, 1)]), 2000 * 100_000 * 6_746_518_852 / lambda);
        assert_eq!(k.fault(), None);
    }
    // u_1 is 1800, nine times u_0 = 200, and one over it.
    let first = |radius: u64| {
        let mut numbers = NUMBERS;
        (numbers[LAST_RADIUS - 1], numbers[LAST_RADIUS]) = (radius, 2600);
        start(&text_of(&numbers)).0.map_err(|refusal| refusal.number())
    };
    assert_eq!((first(1700), first(1701)), (Ok(()), Err(4)));
}

#[test]
fn refused_listings_of_k() {
    assert_eq!(listing(b""), "scenario 1\n");
    assert_eq!(listing(&changed(LAST_RADIUS, 4901)), "scenario 4\n");
    let header = LISTING.lines().next().unwrap();
    let second = "2 500000 16666 500000000 500000000 0 0";
    assert_eq!(listing(&changed(RATE, 10_000_001)), format!("{header}\nrefused 1 7\n{second}\n"));
    assert_eq!(listing(&changed(LENGTH, 657_002)), format!("{header}\nrefused 1 8\n{second}\n"));
    // The first of entry 1's two steps stays, the second would pass the intake, and so would entry 2's.
    assert_eq!(listing(&changed(INTAKE, 17)), format!("{header}\nrefused 1 10\nrefused 2 10\n"));
    let without = text_of(&[&NUMBERS[..20], &[0]].concat());
    assert_eq!(listing(&without), format!("{header}\n"));
}

#[test]
fn entries_of_k() {
    let text = text_of(&NUMBERS);
    assert_eq!(pumping_entry(&text, 1), Ok(Entry { rate: 1000, length: 500_000, repeats: 2 }));
    assert_eq!(pumping_entry(&text, 2), Ok(Entry { rate: 1000, length: 500_000, repeats: 1 }));
    for number in [0, 3, u64::MAX] {
        assert_eq!(pumping_entry(&text, number), Err(Refusal::Absent));
    }
    assert_eq!(pumping_entry(b"x\n", 0), Err(Refusal::Line));
    assert_eq!(pumping_entry(&changed(LAST_RADIUS, 4901), 9), Err(Refusal::Radii));
}
