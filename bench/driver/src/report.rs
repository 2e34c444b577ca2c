//! What is printed: rows of a table, which bench/spread reads too.
use crate::delivered::Delivered;
use crate::inputs::{Input, Sections};
use crate::readers::Reader;
use crate::timing::{Measured, Ratio};

pub fn checked(input: &Input, reader: &Reader, delivered: Delivered) {
    println!(
        "{:11} {:5} packets: {:13} {:5} sections {:7} bytes",
        input.name,
        input.packet_count(),
        reader.name,
        delivered.sections,
        delivered.bytes
    );
}

pub fn heading() {
    println!("| input       | MB   | reader        | sections | bytes    | ns      | over          | ratio | quartiles    | |");
    println!("|---|---|---|---|---|---|---|---|---|---|");
}

struct Row<'a> {
    input: &'a str,
    megabytes: f64,
    reader: &'a str,
    delivered: Delivered,
    nanoseconds: f64,
    over: &'a str,
    ratio: Ratio,
    remark: String,
}

impl Row<'_> {
    fn print(&self) {
        println!(
            "| {:11} | {:4.1} | {:13} | {:8} | {:8} | {:7.1} | {:13} | {:5.2} | {:5.2} {:5.2}  | {} |",
            self.input,
            self.megabytes,
            self.reader,
            self.delivered.sections,
            self.delivered.bytes,
            self.nanoseconds,
            self.over,
            self.ratio.median,
            self.ratio.low,
            self.ratio.high,
            self.remark
        );
    }
}

/// What the port is to reach beside the crate's reader of the same form, where their work is the same.
fn goal(input: &Input, reader: &Reader) -> Option<f64> {
    match (reader.name, input.name) {
        ("port FULL", "multiplex") => Some(0.8),
        ("port FULL", "small") => Some(0.6),
        ("port FULL", "1,024 bytes") => Some(0.95),
        ("port ONCE", _) => Some(0.7),
        _ => None,
    }
}

fn goal_remark(goal: Option<f64>, ratio: f64) -> String {
    match goal {
        Some(goal) if ratio <= goal => format!("goal {goal} met"),
        Some(goal) => format!("goal {goal} missed"),
        None => String::new(),
    }
}

/// What a reader does that does not deliver the sections that the other does.
fn other_work(input: &Input, reader: &Reader, other: &Reader) -> Option<&'static str> {
    if input.expected(reader.sections) == input.expected(other.sections) {
        return None;
    }
    Some(match reader.sections {
        Sections::All => "other work: all sections of a packet",
        Sections::FirstOfPacket => "other work: the first section of a packet",
        Sections::EachVersionOnce => "other work: each version once",
        Sections::EachSectionOnce => "other work: each section once",
    })
}

/// The rows of an input: nanoseconds a packet, each reader over the first, and those with another to compare with over that one.
pub fn times(input: &Input, readers: &[Reader], measured: &[Measured], passes: usize) {
    let packets = (input.packet_count() * passes) as f64;
    for (number, reader) in readers.iter().enumerate() {
        let others = [Some(0), reader.beside];
        for other in others.into_iter().flatten() {
            let ratio = measured[number].ratio_to(&measured[other]);
            let is_goal = reader.beside.unwrap_or(0) == other;
            let goal = goal(input, reader).filter(|_| is_goal);
            let remark = match other_work(input, reader, &readers[other]) {
                Some(work) => work.into(),
                None => goal_remark(goal, ratio.median),
            };
            Row {
                input: input.name,
                megabytes: input.bytes.len() as f64 / 1e6,
                reader: reader.name,
                delivered: input.expected(reader.sections),
                nanoseconds: measured[number].median_seconds() * 1e9 / packets,
                over: readers[other].name,
                ratio,
                remark,
            }
            .print();
        }
    }
}

/// A row of the CRC alone: nanoseconds a call.
pub fn crc(size: usize, name: &str, over: &str, calls: usize, times: &Measured, first: &Measured) {
    Row {
        input: "CRC",
        megabytes: 0.0,
        reader: name,
        delivered: Delivered {
            bytes: size as u64,
            ..Delivered::default()
        },
        nanoseconds: times.median_seconds() * 1e9 / calls as f64,
        over,
        ratio: times.ratio_to(first),
        remark: "a call".into(),
    }
    .print();
}
