//! Compares the port with the Rust crate, libdvbpsi and biTStream. bench/README.md says what is compared and how.
mod crc;
mod delivered;
mod inputs;
mod original;
mod others;
mod port;
mod readers;
mod report;
mod timing;

use inputs::{Input, INPUTS, PACKET};
use std::ffi::{c_char, CString};
use std::hint::black_box;
use std::process::ExitCode;

extern "C" {
    fn count_from_here();
    fn count_up_to_here(name: *const c_char);
}

const SMALL: usize = 2_000;
const IN_CACHE: usize = 512_000 / PACKET;
const BEYOND: usize = 36_000_000 / PACKET;

/// Every reader once over every input: it delivers what the input's maker says.
fn check() {
    for make in INPUTS {
        let input = make(SMALL);
        for reader in readers::readers(&input) {
            report::checked(&input, reader, readers::check(reader, &input));
        }
    }
    crc::check();
}

/// The times of every reader on every input, or on the one named, and of the CRC alone.
fn time(only: Option<&str>) {
    let chosen = |make: &fn(usize) -> Input| only.is_none_or(|name| name == make(1).name);
    let inputs: Vec<_> = INPUTS.into_iter().filter(chosen).collect();
    assert!(!inputs.is_empty(), "there is no input of that name");
    report::heading();
    for make in inputs {
        for (packets, passes) in [(IN_CACHE, 20), (BEYOND, 1)] {
            time_input(&make(packets), passes);
        }
    }
    crc::time();
}

fn time_input(input: &Input, passes: usize) {
    let readers = readers::readers(input);
    let tasks: Vec<_> = readers
        .iter()
        .map(|reader| {
            readers::check(reader, input);
            move || {
                for _ in 0..passes {
                    black_box((reader.read)(black_box(input)));
                }
            }
        })
        .collect();
    let tasks: Vec<&dyn Fn()> = tasks.iter().map(|task| task as &dyn Fn()).collect();
    let measured = timing::measure(&tasks);
    report::times(input, readers, &measured, passes);
}

/// One pass of every reader over every input, each counted by itself where this runs under callgrind.
fn count() {
    for make in INPUTS {
        let input = make(SMALL);
        for reader in readers::readers(&input) {
            readers::check(reader, &input);
            let name = format!("{}|{}|{}", input.name, reader.name, input.packet_count());
            let name = CString::new(name).unwrap();
            unsafe { count_from_here() };
            black_box((reader.read)(black_box(&input)));
            unsafe { count_up_to_here(name.as_ptr()) };
        }
    }
}

fn main() -> ExitCode {
    let words: Vec<String> = std::env::args().skip(1).collect();
    match words.first().map(String::as_str) {
        Some("check") => check(),
        Some("time") => time(words.get(1).map(String::as_str)),
        Some("count") => count(),
        _ => {
            eprintln!("bench check | time [INPUT] | count");
            return ExitCode::from(2);
        }
    }
    ExitCode::SUCCESS
}
