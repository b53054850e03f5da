//! The command `model`: what the reference model says of a scenario, or of a choice text, on standard input.

use reference_model::geometry::lambda;
use reference_model::logarithm::Range;
use reference_model::scenarios::{self, lists};
use reference_model::{changes, choice_text, listing, logarithm, report, worst};
use std::io::{self, BufWriter, Read, Write};
use std::process::ExitCode;

const USAGE: &str = "usage: model listing|readings|heads|sums|start|brief|entries|runs|records < scenario
       model entry NUMBER < scenario
       model choices < choice text
       model scenarios|lists SEED COUNT DIRECTORY
       model logarithm < lines of 'p q' or 'p q value'
       model worst COUNT";

fn main() -> ExitCode {
    let arguments: Vec<String> = std::env::args_os().skip(1).map(|word| word.to_string_lossy().into_owned()).collect();
    let words: Vec<&str> = arguments.iter().map(String::as_str).collect();
    match run(&words) {
        Ok(()) => ExitCode::SUCCESS,
        Err(message) => {
            eprintln!("model: {message}");
            ExitCode::FAILURE
        }
    }
}

/// Does what the words ask, or says what is wrong.
fn run(words: &[&str]) -> Result<(), String> {
    let mut out = BufWriter::new(io::stdout().lock());
    match words {
        ["listing"] => written(listing::write(&input()?, &mut out)),
        ["readings"] => written(report::write_readings(&input()?, &mut out)),
        ["heads"] => written(report::write_heads(&input()?, &mut out)),
        ["sums"] => written(report::write_sums(&input()?, &mut out)),
        ["start"] => written(report::write_start(&input()?, &mut out)),
        ["brief"] => written(report::write_brief(&input()?, &mut out)),
        ["runs"] => written(report::write_runs(&input()?, &mut out)),
        ["records"] => written(changes::write(&input()?, &mut out)),
        ["entries"] => written(report::write_entries(&input()?, &mut out)),
        ["entry", number] => {
            let number = whole("NUMBER", number)?;
            written(report::write_entry(&input()?, number, &mut out))
        }
        ["choices"] => written(choice_text::write(&choice_text::read(&input()?)?, &mut out)),
        ["scenarios", seed, count, directory] => texts(scenarios::write_all, seed, count, directory),
        ["lists", seed, count, directory] => texts(lists::write_all, seed, count, directory),
        ["logarithm"] => logarithms(&input()?, &mut out),
        ["worst", count] => {
            let count = whole("COUNT", count)? as usize;
            for range in Range::BOTH {
                for pair in worst::worst(range, worst::RATIOS, count) {
                    written(writeln!(out, "{} {} {}", pair.p, pair.q, lambda(pair.p, pair.q)))?;
                }
            }
            Ok(())
        }
        _ => Err(format!("bad arguments\n{USAGE}")),
    }?;
    written(out.flush())
}

/// All of standard input.
fn input() -> Result<Vec<u8>, String> {
    let mut bytes = Vec::new();
    io::stdin().lock().read_to_end(&mut bytes).map_err(|error| format!("cannot read standard input: {error}"))?;
    Ok(bytes)
}

fn written(outcome: io::Result<()>) -> Result<(), String> {
    outcome.map_err(|error| format!("cannot write standard output: {error}"))
}

/// Writes so many texts of a seed into a directory.
fn texts(
    write_all: fn(u64, u64, &str) -> io::Result<()>,
    seed: &str,
    count: &str,
    directory: &str,
) -> Result<(), String> {
    let (seed, count) = (whole("SEED", seed)?, whole("COUNT", count)?);
    write_all(seed, count, directory).map_err(|error| format!("cannot write to {directory}: {error}"))
}

fn whole(name: &str, word: &str) -> Result<u64, String> {
    let digits = !word.is_empty() && word.bytes().all(|byte| byte.is_ascii_digit());
    let number = if digits { word.parse().ok() } else { None };
    number.ok_or_else(|| format!("{name} is no whole number of 64 bits: {word}\n{USAGE}"))
}

/// Answers lines `p q`, holds lines `p q value`, and says the worst of those held in each range.
fn logarithms(bytes: &[u8], out: &mut impl Write) -> Result<(), String> {
    let input = std::str::from_utf8(bytes).map_err(|_| "logarithm: standard input is no text".to_string())?;
    let (answers, held) = logarithm::check(input)?;
    for answer in answers {
        written(writeln!(out, "{answer}"))?;
    }
    for range in Range::BOTH {
        let worst = held.in_range(range);
        if worst.lines > 0 {
            written(writeln!(
                out,
                "logarithm {}: {} lines held, the worst {:.1} from the true logarithm of the allowed {}, at {} {}",
                range.name(),
                worst.lines,
                worst.difference,
                range.tolerance(),
                worst.p,
                worst.q
            ))?;
        }
    }
    Ok(())
}
