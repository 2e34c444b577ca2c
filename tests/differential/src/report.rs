//! How often each answer was reached, where two sides differ, and how both are printed.

use crate::answers::*;
use std::fmt::Write;

/// Two sides that answer differently to the same input.
#[derive(Debug)]
pub struct Difference {
    pub what: String,
    pub input: String,
    pub sides: [(&'static str, String); 2],
}

impl Difference {
    pub fn print(&self, seed: u64) -> String {
        let [(first, first_answer), (second, second_answer)] = &self.sides;
        format!(
            "DIFFERENCE: {}\n{}\n{first:>6}: {first_answer}\n{second:>6}: {second_answer}\n(seed {seed})",
            self.what, self.input
        )
    }
}

pub type Outcome = Result<(), Box<Difference>>;

/// Hexadecimal, with a run of four or more equal bytes written once: `ff*180`.
pub fn short_hex(bytes: &[u8]) -> String {
    let mut text = format!("{} bytes:", bytes.len());
    for run in bytes.chunk_by(|first, second| first == second) {
        if run.len() < 4 {
            run.iter().for_each(|byte| {
                let _ = write!(text, " {byte:02x}");
            });
        } else {
            let _ = write!(text, " {:02x}*{}", run[0], run.len());
        }
    }
    text
}

pub const TAIL: usize = 0;
pub const HEAD: usize = 1;
const STEPS: [&str; 2] = ["tail", "head"];

/// The calls that only read, with the answers that each can give (document 01, "Table of answers" and what follows it). `follows` and `is_sound`
/// answer no or yes, 0 or 1.
pub const CALLS: [(&str, &[u8]); 18] = [
    ("header", &[0, 3, 4]),
    ("payload", &[0, 3, 4, 6, 7, 8]),
    ("adaptation field", &[0, 3, 4, 18, 19]),
    ("PCR", &[0, 3, 4, 18, 19, 20, 21]),
    ("OPCR", &[0, 3, 4, 18, 19, 20, 21]),
    ("splice countdown", &[0, 3, 4, 18, 19, 20, 21]),
    ("private data", &[0, 3, 4, 18, 19, 20, 21]),
    ("section header", &[0, 10]),
    ("table header", &[0, 12]),
    ("body", &[0, 16]),
    ("CRC", &[0]),
    ("PAT walk", &[0, 23, 24, 26]),
    ("PMT start", &[0, 22]),
    ("PMT walk", &[0, 23, 26, 27, 28]),
    ("counter follows", &[0, 1]),
    ("is sound", &[0, 1]),
    // 0: nowhere, 2: the place
    ("delivered section", &[0, 2]),
    ("fresh state", &[0]),
];

/// Worked out by the compiler, which refuses a name that is not in the table.
pub const fn call_index(name: &str) -> usize {
    let mut index = 0;
    while !same_text(CALLS[index].0.as_bytes(), name.as_bytes()) {
        index += 1;
    }
    index
}

const fn same_text(first: &[u8], second: &[u8]) -> bool {
    let mut at = 0;
    while at < first.len() && at < second.len() && first[at] == second[at] {
        at += 1;
    }
    at == first.len() && at == second.len()
}

/// The answers that a step can give. Never: in the tail 10 to 14, which belong to a start; in the head 15, which belongs to a continuation;
/// in COMPACT 12, 16 and 17, which ask for the long header and the CRC; 14 but in ONCE; 18 to 24 and 26 to 28, which belong to other calls.
fn reachable(form: u8, step: usize) -> Vec<u8> {
    let mut answers = vec![0, 1, 2, 3, 4, 5, 6, 7, 8, 9, 25];
    match step {
        TAIL => answers.push(15),
        _ => answers.extend([10, 11, 13]),
    }
    if form != COMPACT {
        answers.extend([16, 17]);
        if step == HEAD {
            answers.push(12);
        }
    }
    if form == ONCE && step == HEAD {
        answers.push(14);
    }
    answers
}

/// Of these the crate shows all but 5 and 25, which it has no place for, and 3 and 4, where it panics.
fn shown_by_the_crate(answer: u8) -> bool {
    !matches!(answer, 3 | 4 | 5 | 25)
}

/// Counted in every run; an intended difference is counted where it was met.
pub struct Counts {
    steps: [[[u64; ANSWERS]; 2]; 3],
    crate_steps: [[[u64; ANSWERS]; 2]; 3],
    calls: [[u64; ANSWERS]; CALLS.len()],
    dropped: [[u64; 3]; 3],
    /// ONCE's steps beside the crate's FULL that are the same
    as_full: u64,
    /// FULL's answers where ONCE's head gave 14 and its tail 15
    silenced: [[u64; ANSWERS]; 2],
    /// ONCE's steps behind the one where the rules part, in which the crate's ONCE is not compared
    pub behind: u64,
    /// packets worked by a reader, one count for each form
    pub packets: u64,
    /// inputs of the calls that only read
    pub cases: u64,
    intended: [u64; INTENDED.len()],
}

/// Where the sides differ and are meant to; docs/DIFFERENCES.md has the reasons.
pub const INTENDED: [&str; 8] = [
    "a packet that is not 188 bytes long: the crate panics, 3",
    "a packet without 0x47: the crate panics or gives none, 4",
    "a counter above 15: the crate panics, no",
    "a section header of under 3 bytes: the crate panics, 10",
    "a table header of a section of under 8 bytes: the crate panics, 12",
    "a clock's extension of 300 to 511: the standard has none, the crate and the port give it",
    "ONCE, a section of the version that started last, not delivered: the crate's 14, the port takes it",
    "ONCE, a section already delivered, not of the version that started last: the crate takes it, 14",
];
pub const SIZE: usize = 0;
pub const SYNC: usize = 1;
pub const COUNTER: usize = 2;
pub const SHORT_SECTION: usize = 3;
pub const SHORT_TABLE: usize = 4;
pub const EXTENSION: usize = 5;
pub const NOT_DELIVERED: usize = 6;
pub const ALREADY_DELIVERED: usize = 7;

impl Default for Counts {
    fn default() -> Counts {
        Counts {
            steps: [[[0; ANSWERS]; 2]; 3],
            crate_steps: [[[0; ANSWERS]; 2]; 3],
            calls: [[0; ANSWERS]; CALLS.len()],
            dropped: [[0; 3]; 3],
            as_full: 0,
            silenced: [[0; ANSWERS]; 2],
            behind: 0,
            packets: 0,
            cases: 0,
            intended: [0; INTENDED.len()],
        }
    }
}

impl Counts {
    pub fn step(&mut self, form: u8, step: usize, answer: u8) {
        if let Some(counts) = self.steps.get_mut(usize::from(form)) {
            counts[step][usize::from(answer)] += 1;
        }
    }

    pub fn crate_step(&mut self, form: u8, step: usize, answer: u8) {
        self.crate_steps[usize::from(form)][step][usize::from(answer)] += 1;
    }

    /// The crate's 15, by the layer that gave it.
    pub fn drop_by(&mut self, form: u8, layer: usize) {
        self.dropped[usize::from(form)][layer] += 1;
    }

    /// A step of ONCE beside the crate's FULL, and whether it was a 14 or 15 in the place of that answer.
    pub fn beside_full(&mut self, step: usize, full: u8, silent: bool) {
        if silent {
            self.silenced[step][usize::from(full)] += 1;
        } else {
            self.as_full += 1;
        }
    }

    pub fn call(&mut self, call: usize, answer: u8) {
        self.calls[call][usize::from(answer)] += 1;
    }

    pub fn intend(&mut self, which: usize) {
        self.intended[which] += 1;
    }

    /// The crate panics on these bytes.
    pub fn intend_not_a_packet(&mut self, bytes: &[u8]) {
        let which = if bytes.len() == PACKET_BYTES {
            SYNC
        } else {
            SIZE
        };
        self.intend(which);
    }

    pub fn print(&self, with_crate: bool) -> String {
        let mut text = String::from("answers reached, by form and step (number: count):\n");
        for (form, name) in FORMS {
            for (step, word) in STEPS.iter().enumerate() {
                let counts = &self.steps[usize::from(form)][step];
                let _ = writeln!(text, "  {name} {word}:{}", reached(counts));
                if with_crate {
                    let counts = &self.crate_steps[usize::from(form)][step];
                    let _ = writeln!(text, "    of these by the crate:{}", reached(counts));
                }
            }
        }
        if with_crate {
            text.push_str(&self.print_once());
            text.push_str("the crate's 15, by form and by the layer that dropped the bytes:\n");
            for ((_, name), [buffer, processor, dedup]) in FORMS.iter().zip(self.dropped) {
                let silent = format!("{processor} processor in silence, {dedup} dedup in silence");
                let _ = writeln!(text, "  {name}: {buffer} buffer with a warning, {silent}");
            }
        }
        text.push_str("answers reached, by call:\n");
        for ((name, _), counts) in CALLS.iter().zip(&self.calls) {
            let _ = writeln!(text, "  {name}:{}", reached(counts));
        }
        if !with_crate {
            return text;
        }
        text.push_str("intended differences met:\n");
        for (what, count) in INTENDED.iter().zip(&self.intended) {
            let _ = writeln!(text, "  {count} times {what}");
        }
        text
    }

    fn print_once(&self) -> String {
        let steps = self.crate_steps[usize::from(ONCE)].iter().flatten();
        let compared: u64 = steps.sum();
        let mut text = format!(
            "ONCE beside the crate's FULL: {} steps as FULL\n",
            self.as_full
        );
        for (answer, step) in [(14, HEAD), (15, TAIL)] {
            let (word, full) = (STEPS[step], reached(&self.silenced[step]));
            let _ = writeln!(text, "  {word} {answer} where FULL answers:{full}");
        }
        let behind = self.behind;
        let _ = writeln!(
            text,
            "ONCE beside the crate's ONCE: {compared} steps; {behind} behind the one where the rules part"
        );
        text
    }

    /// Where FULL works on a section and ONCE does not.
    fn never_silenced(&self) -> Vec<String> {
        let mut missing = Vec::new();
        for (step, word) in STEPS.iter().enumerate() {
            let answers = [1usize, 2, 16, 17].into_iter();
            let never = answers.filter(|answer| self.silenced[step][*answer] == 0);
            missing.extend(
                never.map(|answer| format!("ONCE {word} silent where FULL answers {answer}")),
            );
        }
        missing
    }

    /// What could have been reached and was not.
    pub fn missing(&self, with_crate: bool) -> Vec<String> {
        let mut missing = never(&self.steps, |_| true, "");
        if with_crate {
            missing.extend(never(
                &self.crate_steps,
                shown_by_the_crate,
                " by the crate",
            ));
            missing.extend(self.never_silenced());
            // only ONCE has a dedup layer
            let dropped = [
                (COMPACT, 0),
                (COMPACT, 1),
                (FULL, 0),
                (FULL, 1),
                (ONCE, 0),
                (ONCE, 1),
                (ONCE, 2),
            ];
            let never = dropped
                .iter()
                .filter(|(form, layer)| self.dropped[usize::from(*form)][*layer] == 0);
            missing.extend(never.map(|(form, layer)| format!("form {form}, 15 by layer {layer}")));
        }
        for ((name, answers), counts) in CALLS.iter().zip(&self.calls) {
            missing.extend(never_called(name, answers, counts, |_| true));
        }
        missing
    }

    /// The same for a sample of the crate's answers alone, with the calls that it shows several answers of.
    pub fn missing_of_the_crate(&self, calls: &[&str]) -> Vec<String> {
        let mut missing = never(&self.crate_steps, shown_by_the_crate, "");
        for ((name, answers), counts) in CALLS.iter().zip(&self.calls) {
            // a walk's 0 is an entry, which its end counts; 26 asks for a position
            let walk = name.ends_with("walk");
            let shown = |answer| !(matches!(answer, 3 | 4 | 26) || walk && answer == 0);
            if calls.contains(name) {
                missing.extend(never_called(name, answers, counts, shown));
            }
        }
        missing
    }

    /// What the steps answered though document 01 has no way to it.
    pub fn unexpected(&self) -> Vec<String> {
        let mut unexpected = Vec::new();
        for (form, name) in FORMS {
            for (step, word) in STEPS.iter().enumerate() {
                let answers = reachable(form, step);
                let counts = self.steps[usize::from(form)][step].iter().enumerate();
                let others = counts
                    .filter(|(answer, count)| **count > 0 && !answers.contains(&(*answer as u8)));
                unexpected.extend(others.map(|(answer, _)| format!("{name} {word} {answer}")));
            }
        }
        unexpected
    }
}

/// The steps' answers that were never counted.
fn never(counts: &[[[u64; ANSWERS]; 2]; 3], asked: impl Fn(u8) -> bool, by: &str) -> Vec<String> {
    let mut missing = Vec::new();
    for (form, name) in FORMS {
        for (step, word) in STEPS.iter().enumerate() {
            let counts = &counts[usize::from(form)][step];
            let answers = reachable(form, step)
                .into_iter()
                .filter(|answer| asked(*answer));
            let never = answers.filter(|answer| counts[usize::from(*answer)] == 0);
            missing.extend(never.map(|answer| format!("{name} {word} {answer}{by}")));
        }
    }
    missing
}

/// A call's answers that were never counted.
fn never_called(
    name: &str,
    answers: &[u8],
    counts: &[u64; ANSWERS],
    asked: impl Fn(u8) -> bool,
) -> Vec<String> {
    let answers = answers.iter().filter(|answer| asked(**answer));
    let never = answers.filter(|answer| counts[usize::from(**answer)] == 0);
    never.map(|answer| format!("{name} {answer}")).collect()
}

fn reached(counts: &[u64; ANSWERS]) -> String {
    let reached = counts.iter().enumerate().filter(|(_, count)| **count > 0);
    reached.fold(String::new(), |mut text, (answer, count)| {
        let _ = write!(text, " {answer}: {count},");
        text
    })
}
