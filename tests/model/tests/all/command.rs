//! The command: what it prints, and messages with a nonzero status.

use crate::bore_k::{changed, text_of, INTAKE, NUMBERS};
use reference_model::checksum::record_checksum;
use reference_model::choice_text::broken;
use reference_model::record::start;
use reference_model::step::step;
use std::fs::{self, File};
use std::path::PathBuf;
use std::process::{Command, Output, Stdio};

/// A directory of this test's own.
fn directory(name: &str) -> PathBuf {
    let path = PathBuf::from(env!("CARGO_TARGET_TMPDIR")).join(name);
    let _ = fs::remove_dir_all(&path);
    fs::create_dir_all(&path).unwrap();
    path
}

fn model(words: &[&str], input: Stdio) -> Output {
    Command::new(env!("CARGO_BIN_EXE_model")).args(words).stdin(input).output().unwrap()
}

/// The command with bytes on standard input, by way of a file.
fn model_on(name: &str, words: &[&str], input: &[u8]) -> Output {
    let path = directory(name).join("input");
    fs::write(&path, input).unwrap();
    model(words, File::open(path).unwrap().into())
}

fn printed(output: Output) -> String {
    assert!(output.status.success() && output.stderr.is_empty(), "{output:?}");
    String::from_utf8(output.stdout).unwrap()
}

fn assert_message(output: Output) {
    assert!(!output.status.success(), "{output:?}");
    assert!(output.stderr.starts_with(b"model: ") && output.stdout.is_empty(), "{output:?}");
}

#[test]
fn bad_arguments_end_with_a_message() {
    let bad: [&[&str]; 19] = [
        &[],
        &["list"],
        &["listing", "more"],
        &["entry"],
        &["entry", "-1"],
        &["entry", "+1"],
        &["entry", "18446744073709551616"],
        &["entry", ""],
        &["scenarios", "1", "2"],
        &["scenarios", "one", "2", "x"],
        &["scenarios", "1", "2.5", "x"],
        &["choices", "more"],
        &["lists"],
        &["lists", "1", "2"],
        &["lists", "one", "2", "x"],
        &["lists", "1", "2", "x", "more"],
        &["logarithm", "1"],
        &["worst"],
        &["worst", "few"],
    ];
    for words in bad {
        assert_message(model(words, Stdio::null()));
    }
}

#[test]
fn unreadable_input_ends_with_a_message() {
    let path = directory("unreadable");
    for words in
        [&["listing"][..], &["readings"], &["start"], &["brief"], &["entry", "1"], &["choices"], &["logarithm"]]
    {
        assert_message(model(words, File::open(&path).unwrap().into()));
    }
    assert_message(model_on("logarithm-bytes", &["logarithm"], b"\xFF\xFE\n"));
    assert_message(model_on("logarithm-off", &["logarithm"], b"600 200 1179626048\n"));
    let file = path.join("file");
    fs::write(&file, b"").unwrap();
    for command in ["scenarios", "lists"] {
        assert_message(model(&[command, "1", "2", file.to_str().unwrap()], Stdio::null()));
    }
}

#[test]
fn refused_scenarios_are_no_failure() {
    for words in [["listing"], ["readings"], ["heads"], ["sums"], ["start"], ["brief"], ["records"]] {
        assert_eq!(printed(model_on(words[0], &words, b"\xFF")), "scenario 1\n");
    }
    assert_eq!(printed(model_on("entry", &["entry", "1"], b"")), "refused 1\n");
    assert_eq!(printed(model_on("choices", &["choices"], b"\xFF\n\n")), "scenario 1\n");
}

#[test]
fn start_and_entries_are_printed() {
    let k = text_of(&NUMBERS);
    let start = printed(model_on("k-start", &["start"], &k));
    assert!(start.contains("\nwellC 2 1143840361\nacrossC 1 5719201805\nacrossC 2 1143840361\ndownC 1 7539820\n"));
    assert!(start.ends_with("wellS 30000000000\ncellS 1 150796400000\ncellS 2 1507964000\n"));
    assert!(start.starts_with(&printed(model_on("k-brief", &["brief"], &k))));
    assert_eq!(printed(model_on("k-entry", &["entry", "2"], &k)), "entry 1000 500000 1\n");
    assert_eq!(printed(model_on("k-entry-3", &["entry", "3"], &k)), "refused 12\n");
    let readings = printed(model_on("k-readings", &["readings"], &k));
    assert!(readings
        .contains("\ninward 500000 2 15267409\nacross 500000 1 0\nacross 500000 2 -3614535\ndown 500000 1 2165\n"));
    assert!(readings.contains("\nbudget 0 0 0 0 0\n"));
    assert!(readings.contains("\nbudget 1500000000 1475200970 21184495 3614535 49173\n"));
}

#[test]
fn changed_records_are_stepped() {
    let records = printed(model_on("k-records", &["records"], &text_of(&NUMBERS)));
    assert!(records.starts_with("unchanged taken "));
    // Three layers, layer 2 without screen, a time at its limit and one past it.
    for line in ["counts 3 refused 14", "numbers 25 refused 14", "totals 5 refused 9 ", "totals 6 refused 14"] {
        assert!(records.contains(&format!("\n{line}")), "{line}");
    }
    // The C between layers 1 and 2: at its value, one less, one more, document 01's; another b_2, with it and without, and another b_1.
    for line in ["below 1 taken", "below 2 refused 14", "below 3 refused 14", "below 4 refused 14"] {
        assert!(records.contains(&format!("\n{line}")), "{line}");
    }
    for line in ["layers 5 taken", "alone 2 refused 14", "alone 13 taken"] {
        assert!(records.contains(&format!("\n{line}")), "{line}");
    }
    // The mark at the well's D, one under it, at 1000×p, one over it, and at the ends of a word.
    for line in ["marks 1 taken", "marks 2 refused 14", "marks 5 taken", "marks 6 refused 14", "marks 15 refused 14"] {
        assert!(records.contains(&format!("\n{line}")), "{line}");
    }
    let limiting = records.matches("\nlimiting ").count();
    assert_eq!((limiting, records.matches("\nmarks ").count()), (2 * 261, 32));
    assert_eq!(records.lines().count(), 261 + limiting + 260 + 27);
}

/// Whether each changed record is the same as bore K as it was, and as the one before it in its group (document 02, N10).
#[test]
fn changed_records_are_compared() {
    let records = printed(model_on("k-same", &["records"], &text_of(&NUMBERS)));
    let lines: Vec<&str> = records.lines().collect();
    let after = |name: &str| &lines[lines.iter().position(|line| line.starts_with(name)).expect(name) + 1..];
    // One layer; two, as there were; three: the first and the last of these are refused, on either side.
    let refused = "same refused 14 refused 14 refused 14 refused 14";
    assert_eq!(after("counts 1 ")[2], refused);
    assert_eq!(after("counts 2 ")[2], "same 1 1 refused 14 refused 14");
    assert_eq!(after("counts 3 ")[2], refused);
    // Of the waters the first is bore K as it was; none of the others is, nor the same as the one before it, though no drawdown but that of the
    // recovered well, 10 and 11, is another.
    for number in 1..=27 {
        let lines = after(&format!("waters {number} taken "));
        let same = if number == 1 { "same 1 1 1 1" } else { "same 0 0 0 0" };
        let drawdowns = match number {
            10 => "drawdowns 0 0",
            11 => "drawdowns 0 1",
            12 => "drawdowns 1 0",
            _ => "drawdowns 1 1",
        };
        assert_eq!((lines[2], lines[3]), (same, drawdowns), "waters {number}");
    }
}

/// What holds back the step of each changed record, and one of the greatest length (document 02, N12).
#[test]
fn changed_records_say_what_holds_a_step_back() {
    let records = printed(model_on("k-limiting", &["records"], &text_of(&NUMBERS)));
    let lines: Vec<&str> = records.lines().collect();
    let after = |name: &str| {
        let at = lines.iter().position(|line| line.starts_with(name)).expect(name);
        [lines[at + 1], lines[at + 2]]
    };
    let k = ["limiting 1000 500000 nothing", "limiting 1000 1000000000 8 2 1 657001"];
    let refused = ["limiting 1000 500000 refused 14", "limiting 1000 1000000000 refused 14"];
    assert_eq!(after("unchanged taken "), k);
    assert_eq!(after("counts 3 refused 14"), refused);
    // The pumped total and the time at their limit, which the step would pass; the longer one is refused with 8 before it.
    for name in ["totals 1 refused 9 ", "totals 4 refused 9 ", "totals 5 refused 9 ", "totals 8 refused 9 "] {
        assert_eq!(after(name), k, "{name}");
    }
}

/// Bore K's text with its intake at 17 mm, an empty line, and numbers below it.
fn choice_text(below: &[u64]) -> Vec<u8> {
    [changed(INTAKE, 17), b"\n".to_vec(), text_of(below)].concat()
}

/// The controller's choice (document 02, N13) at the start, after each entry, whose last step is refused, and of a record that 14 refuses.
#[test]
fn choices_are_printed() {
    let text = choice_text(&[500_000, 1, 3, 39, 40, 1020, 500_000, 1, 0, 500_000, 2, 1, 1000]);
    let mut record = start(&changed(INTAKE, 17)).1;
    let first = record_checksum(&record);
    assert_eq!(step(&mut record, 1000, 500_000), Ok(()));
    let (second, refused) = (record_checksum(&record), record_checksum(&broken(record)));
    let state = |heading: &str, first: &str, sum: u64| {
        format!(
            "after {heading}\nchoice 1 {first} {sum}\nchoice 2 refused 20 {sum}\nchoice 3 none {sum}\n\
             words 1 none {sum}\nwords 2 refused 20 {sum}\n"
        )
    };
    let expected = [
        state("0 taken", "rate 1020", first),
        state("1 refused 10", "rate 39", second),
        state("2 refused 10", "rate 39", second),
        "broken\n".to_string(),
        (1..=3).map(|number| format!("choice {number} refused 14 {refused}\n")).collect(),
    ];
    assert_eq!(printed(model_on("k-choices", &["choices"], &text)), expected.concat());
    let without = printed(model_on("k-no-choices", &["choices"], &choice_text(&[])));
    assert!(without.starts_with("after 0 taken\nwords 1 none ") && without.ends_with("\nbroken\n"), "{without}");
}

/// What stands below the empty line is judged before the scenario.
#[test]
fn damaged_lists_end_with_a_message() {
    let k = text_of(&NUMBERS);
    let lines: [&[u8]; 14] = [
        b"",
        b"\n500000\n",
        b"\n500000\n1\n",
        b"\n500000\n1\n1\n",
        b"\n500000\n1\n2\n1000\n",
        b"\n500000\n1\n1\n1000\n7\n",
        b"\n500000\n1\n1\n1000",
        b"\n500000\n1\n1\n01000\n",
        b"\n500000\n1\n1\n-1000\n",
        b"\n500000\n1\n1\n1000000000000000000\n",
        b"\n500000\n1\n1\n1000\r\n",
        b"\n500000\n1\n1\n1000\n\n",
        b"\n\n500000\n1\n1\n1000\n",
        b"\n500000\n1\n999999999999999999\n1000\n",
    ];
    for (number, below) in lines.into_iter().enumerate() {
        for scenario in [&k[..], b"7\n"] {
            let text = [scenario, below].concat();
            assert_message(model_on(&format!("damaged-lists-{number}"), &["choices"], &text));
        }
    }
}

/// The most rates of a list, the most numbers and the most bytes, and one more of each.
#[test]
fn lists_have_limits() {
    let list = |rates: u64| -> Vec<u64> { [500_000, 1, rates].into_iter().chain(0..rates).collect() };
    let many = |last: u64| [list(64).repeat(24), list(last)].concat();
    assert_eq!((many(50).len(), many(51).len()), (1661, 1662));
    for (name, within, over) in [("rates", list(64), list(65)), ("numbers", many(50), many(51))] {
        let answers = printed(model_on(&format!("most-{name}"), &["choices"], &choice_text(&within)));
        assert!(answers.contains("\nchoice 1 refused 20 "), "{answers}");
        assert_message(model_on(&format!("more-{name}"), &["choices"], &choice_text(&over)));
    }
    let long = |first: &str| [first, &"1\n".repeat(32_766), "\n"].concat().into_bytes();
    assert_eq!((long("11\n").len(), long("111\n").len()), (65_536, 65_537));
    assert_eq!(printed(model_on("most-bytes", &["choices"], &long("11\n"))), "scenario 2\n");
    assert_message(model_on("more-bytes", &["choices"], &long("111\n")));
}

/// The texts that a command writes twice of one seed are alike.
fn assert_written_anew_alike(command: &str) {
    let (one, two) = (directory(&format!("{command}-one")), directory(&format!("{command}-two")));
    let names = |path: &PathBuf| -> Vec<_> {
        let mut names: Vec<_> = fs::read_dir(path).unwrap().map(|entry| entry.unwrap().file_name()).collect();
        names.sort();
        names
    };
    for path in [&one, &two] {
        printed(model(&[command, "4", "30", path.to_str().unwrap()], Stdio::null()));
    }
    assert_eq!(names(&one).len(), 30);
    assert_eq!(names(&one), names(&two));
    for name in names(&one) {
        assert_eq!(fs::read(one.join(&name)).unwrap(), fs::read(two.join(&name)).unwrap());
    }
}

#[test]
fn scenarios_are_written_anew_alike() {
    assert_written_anew_alike("scenarios");
}

#[test]
fn lists_are_written_anew_alike() {
    assert_written_anew_alike("lists");
}
