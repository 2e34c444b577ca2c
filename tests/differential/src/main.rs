//! Compares the port, through its C face, with the Rust crate mpeg2ts-reader 0.18.2 and with a model of document 01, on the same bytes.
//!
//! `compare` builds and runs this; README.md says what it is given and what it prints.

// without the crate's sources, what only they call for is not used
#![cfg_attr(not(feature = "rust-crate"), allow(dead_code))]

mod answers;
mod caught;
mod compare;
mod gathering;
mod inputs;
mod model;
mod mutations;
#[cfg(feature = "port")]
mod port;
mod random;
mod random_inputs;
mod report;
mod run;
#[cfg(feature = "rust-crate")]
mod rust_crate;
#[cfg(not(feature = "rust-crate"))]
#[path = "no_crate.rs"]
mod rust_crate;
#[cfg(feature = "rust-crate")]
mod sample;

use answers::Calls;
use run::Amount;
use std::process::ExitCode;
use std::time::Instant;

/// The fixed run.
const FIXED: Amount = Amount {
    seed: 20181,
    packets: 5_000_000,
    cases: 2_500_000,
    depth: 4,
    whole: true,
};

const USAGE: &str = "usage: compare [--ci] [--seed N] [--packets N] [--cases N] [--depth N]
       compare [--ci] --mutations
       compare --mutation NAME
       compare [--ci] --write-sample FILE_IN FILE_OUT
       compare [--ci] --check-sample FILE_IN FILE_OUT";

fn main() -> ExitCode {
    caught::prepare();
    let words: Vec<String> = std::env::args().skip(1).collect();
    let words: Vec<&str> = words.iter().map(String::as_str).collect();
    let good = match words[..] {
        ["--mutations"] => mutations::all_noticed(&side(), &model::Model),
        ["--mutation", name] => mutations::show(&side(), &model::Model, name),
        ["--write-sample", requests, lines] => write_sample(requests, lines),
        ["--check-sample", requests, lines] => check_sample(requests, lines),
        _ => match amount(&words) {
            Some(amount) => compare_all(amount),
            None => {
                eprintln!("{USAGE}");
                return ExitCode::from(2);
            }
        },
    };
    if good {
        ExitCode::SUCCESS
    } else {
        ExitCode::FAILURE
    }
}

#[cfg(feature = "port")]
fn side() -> impl Calls {
    port::Port
}

/// Without the static library the model stands in the port's place, beside the crate.
#[cfg(not(feature = "port"))]
fn side() -> impl Calls {
    model::Model
}

fn amount(words: &[&str]) -> Option<Amount> {
    let mut amount = FIXED;
    for pair in words.chunks(2) {
        let [name, number] = pair else { return None };
        let number: u64 = number.parse().ok()?;
        match *name {
            "--seed" => amount.seed = number,
            "--packets" => amount.packets = number,
            "--cases" => amount.cases = number,
            "--depth" => amount.depth = usize::try_from(number).ok()?.max(1),
            _ => return None,
        }
    }
    Some(amount)
}

fn compare_all(amount: Amount) -> bool {
    let with_crate = cfg!(feature = "rust-crate");
    if let Err(what) = rust_crate::check_warnings() {
        println!("the table of warnings: {what}");
        return false;
    }
    let port = side();
    let mut comparison = compare::Comparison::new(&port, &model::Model);
    let begun = Instant::now();
    let say = |what: &str| println!("{:6.1} s {what}", begun.elapsed().as_secs_f64());
    let outcome = run::run(&mut comparison, amount, &say);
    say("done");
    if let Err(difference) = outcome {
        println!("{}", difference.print(amount.seed));
        return false;
    }
    let counts = &comparison.counts;
    print!("{}", counts.print(with_crate));
    let (missing, unexpected) = (counts.missing(with_crate), counts.unexpected());
    for what in &missing {
        println!("never reached: {what}");
    }
    for what in &unexpected {
        println!("reached, though it cannot be: {what}");
    }
    println!(
        "seed {}: {} packets worked, {} field and walk cases, compared: {}; no difference but the intended",
        amount.seed,
        counts.packets,
        counts.cases,
        sides()
    );
    let good = missing.is_empty() && unexpected.is_empty();
    if !good {
        println!("FAILED: not every answer was reached, or one that cannot be");
    }
    good
}

fn sides() -> &'static str {
    match (cfg!(feature = "port"), cfg!(feature = "rust-crate")) {
        (true, true) => "port, crate, model",
        (true, false) => "port, model",
        (false, true) => "crate, model",
        (false, false) => "nothing: the model with itself",
    }
}

#[cfg(feature = "rust-crate")]
fn made_sample() -> Option<sample::Sample> {
    match sample::make() {
        Ok(sample) => Some(sample),
        Err(missing) => {
            println!("the sample lacks: {}", missing.join(", "));
            None
        }
    }
}

/// Lays the sample into both files, in place of the part that they have.
#[cfg(feature = "rust-crate")]
fn write_sample(requests: &str, lines: &str) -> bool {
    let Some(sample) = made_sample() else {
        return false;
    };
    for (name, made) in [(requests, &sample.requests), (lines, &sample.lines)] {
        let Some((mut file, part)) = stored_sample(name) else {
            return false;
        };
        file.replace_range(part, made);
        if let Err(error) = std::fs::write(name, file) {
            println!("{name}: {error}");
            return false;
        }
        println!("{name}: {} bytes", made.len());
    }
    true
}

#[cfg(feature = "rust-crate")]
fn check_sample(requests: &str, lines: &str) -> bool {
    let Some(sample) = made_sample() else {
        return false;
    };
    let mut good = true;
    for (name, made) in [(requests, &sample.requests), (lines, &sample.lines)] {
        let same = stored_sample(name).is_some_and(|(file, part)| file[part] == **made);
        println!(
            "{name}: {}",
            if same {
                "as made now"
            } else {
                "NOT as made now"
            }
        );
        good &= same;
    }
    good
}

/// The file, and where the sample stands in it.
#[cfg(feature = "rust-crate")]
fn stored_sample(name: &str) -> Option<(String, std::ops::Range<usize>)> {
    let file = match std::fs::read_to_string(name) {
        Ok(file) => file,
        Err(error) => {
            println!("{name}: {error}");
            return None;
        }
    };
    let part = sample::part(&file);
    if part.is_none() {
        println!("{name}: the part of the crate's answers is not marked there");
    }
    Some((file, part?))
}

#[cfg(not(feature = "rust-crate"))]
fn write_sample(_requests: &str, _lines: &str) -> bool {
    println!("the sample holds the Rust crate's answers, and its sources are not here");
    false
}

#[cfg(not(feature = "rust-crate"))]
fn check_sample(requests: &str, lines: &str) -> bool {
    write_sample(requests, lines)
}
