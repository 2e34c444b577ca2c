//! A sample of the crate's answers, for the program `replay`, which compares them without Rust: requests, and a line of answers for each.
//!
//! It is a part of the files that the program is run on; crates/replay/README.md has the form of requests and answers.

use crate::answers::*;
use crate::compare::is_packet;
use crate::gathering::Kept;
use crate::inputs::{self, Wish};
use crate::model::{Former, Model};
use crate::random::Random;
use crate::random_inputs;
use crate::report::*;
use crate::rust_crate::{self, CrateReader, CrateStep};
use std::fmt::Write;

const SEED: u64 = 13818;
/// packets for the reader of each form
const PACKETS: usize = 1000;

/// The comment that the part begins with.
const MARK: &str = "# crate: made by tests/differential/compare\n";

/// What the crate shows of a packet.
const PACKET_CALLS: &str =
    "header,payload,adaptation_field,pcr,opcr,splice_countdown,transport_private_data";

pub struct Sample {
    pub requests: String,
    pub lines: String,
    counts: Counts,
    reader: CrateReader,
    form: u8,
    /// the reader that `replay` has, and document 01's rule of 14 beside it
    kept: Kept,
    former: Former,
}

/// The Adler-32 of RFC 1950.
fn adler32(bytes: &[u8]) -> u32 {
    let (mut low, mut high) = (1u32, 0u32);
    for byte in bytes {
        low = (low + u32::from(*byte)) % 65521;
        high = (high + low) % 65521;
    }
    high << 16 | low
}

fn hexadecimal(bytes: &[u8]) -> String {
    if bytes.is_empty() {
        return String::from("-");
    }
    bytes.iter().map(|byte| format!("{byte:02x}")).collect()
}

/// Where the part stands in a file: from behind its mark up to the next one.
pub fn part(file: &str) -> Option<std::ops::Range<usize>> {
    let start = file.find(MARK)? + MARK.len();
    let is_mark = |line: &&str| line.starts_with("# ") && line.contains(": made by ");
    let lines = file[start..].split_inclusive('\n');
    let length: usize = lines.take_while(|line| !is_mark(line)).map(str::len).sum();
    Some(start..start + length)
}

fn step_words(step: &CrateStep<'_>) -> String {
    if step.answer != 2 {
        return step.answer.to_string();
    }
    let place = step.place();
    let digest = adler32(step.bytes());
    format!(
        "2 {} {} {} {digest}",
        place.holder, place.start, place.length
    )
}

/// The answer of a call: its number, and the values where it is not refused.
fn answer(number: u8, values: &[u64]) -> String {
    let mut words = number.to_string();
    if number == 0 {
        for value in values {
            let _ = write!(words, " {value}");
        }
    }
    words
}

impl Sample {
    fn request(&mut self, words: &str) {
        self.requests.push_str(words);
        self.requests.push('\n');
    }

    fn line(&mut self, words: &str) {
        self.lines.push_str(words);
        self.lines.push('\n');
    }

    fn fresh(&mut self, form: u8) {
        self.request(&format!("begin {form}"));
        self.line("0");
        self.reader.renew(form);
        self.form = form;
        self.kept = Kept::fresh(&Model, form);
        self.former = Former::default();
    }

    /// Whether the crate's reader, which remembers by document 01's rule, answers as `replay` does.
    fn is_alike(&mut self, packet: &[u8]) -> bool {
        [TAIL, HEAD].into_iter().all(|step| {
            let answer = self.kept.step(&Model, step, packet).answer;
            self.form != ONCE || self.former.answers(step, packet, answer)
        })
    }

    /// Where the rules part on it, it is the first packet of another reader, which remembers nothing by either.
    fn packet(&mut self, packet: &[u8]) {
        if !self.is_alike(packet) {
            self.fresh(self.form);
            assert!(self.is_alike(packet));
        }
        self.request(&format!("feed {}", hexadecimal(packet)));
        let [tail, head] = self.reader.work(packet).expect("an answer of the crate");
        self.counts.crate_step(self.form, TAIL, tail.answer);
        self.counts.crate_step(self.form, HEAD, head.answer);
        let words = format!("{} {}", step_words(&tail), step_words(&head));
        self.line(&words);
    }

    fn fields(&mut self, packet: &[u8]) {
        self.request(&format!("{PACKET_CALLS} {}", hexadecimal(packet)));
        let fields = rust_crate::fields(packet);
        let header = fields.header;
        let payload = fields.payload;
        let field = fields.adaptation;
        let mut flags = vec![u64::from(field.length)];
        flags.extend(field.flags.map(u64::from));
        let clock = |clock: &Clock| answer(clock.answer, &[clock.base, clock.extension.into()]);
        let (splice, data) = (fields.splice, fields.private_data);
        let answers = [
            answer(
                0,
                &[
                    header.error.into(),
                    header.unit_start.into(),
                    header.priority.into(),
                    header.pid.into(),
                    header.scrambling.into(),
                    header.control.into(),
                    header.counter.into(),
                ],
            ),
            answer(payload.answer, &[payload.start as u64]),
            answer(field.answer, &flags),
            clock(&fields.pcr),
            clock(&fields.opcr),
            answer(splice.answer, &[splice.countdown.into()]),
            answer(data.answer, &[data.start as u64, data.length as u64]),
        ];
        self.line(&answers.join(" "));
        let calls = [
            ("payload", payload.answer),
            ("adaptation field", field.answer),
            ("PCR", fields.pcr.answer),
            ("OPCR", fields.opcr.answer),
            ("splice countdown", splice.answer),
            ("private data", data.answer),
        ];
        for (name, answer) in calls {
            self.counts.call(call_index(name), answer);
        }
    }

    fn counter(&mut self, counter: u8, other: u8) {
        self.request(&format!("counter_follows {counter} {other}"));
        let follows = rust_crate::follows(counter, other).expect("counters of at most 15");
        self.line(&format!("0 {follows}"));
    }

    /// A section of at least 8 bytes.
    fn section(&mut self, section: &[u8]) {
        let bytes = hexadecimal(section);
        self.request(&format!("sum32,section_header,table_header {bytes}"));
        let header = rust_crate::section_header(section);
        let table = rust_crate::table_header(section);
        let answers = [
            answer(0, &[rust_crate::crc(section).into()]),
            answer(
                header.answer,
                &[
                    header.table_id.into(),
                    header.syntax.into(),
                    header.private.into(),
                    header.length.into(),
                ],
            ),
            answer(
                table.answer,
                &[
                    table.id.into(),
                    table.version.into(),
                    table.current.into(),
                    table.number.into(),
                    table.last.into(),
                ],
            ),
        ];
        self.line(&answers.join(" "));
    }

    fn pat(&mut self, body: &[u8]) {
        self.request(&format!("pat {}", hexadecimal(body)));
        let walk = rust_crate::pat(body);
        let mut words = String::new();
        for (number, pid) in walk.entries {
            let _ = write!(words, "0 {number} {pid} ");
        }
        let _ = write!(words, "{}", walk.end);
        self.line(&words);
        self.counts.call(call_index("PAT walk"), walk.end);
    }

    fn pmt(&mut self, body: &[u8]) {
        self.request(&format!("pmt {}", hexadecimal(body)));
        let (pmt, walk) = rust_crate::pmt(body);
        self.counts.call(call_index("PMT start"), pmt.answer);
        if pmt.answer == 22 {
            self.line(&format!("22 {} {}", pmt.needed, pmt.actual));
            return;
        }
        let (length, start) = (pmt.descriptors_length, pmt.streams);
        let mut words = format!("0 {} {length} {start}", pmt.pcr_pid);
        for stream in walk.entries {
            let (kind, pid) = (stream.stream_type, stream.pid);
            let (start, length) = (stream.info_start, stream.info_length);
            let _ = write!(words, " 0 {kind} {pid} {start} {length}");
        }
        let _ = write!(words, " {}", walk.end);
        self.line(&words);
        self.counts.call(call_index("PMT walk"), walk.end);
    }

    /// A section twice, and a good copy behind a damaged one.
    fn copies(&mut self, form: u8) {
        let good = inputs::whole(inputs::FIRST);
        let mut damaged = good.clone();
        damaged[PACKET_BYTES - 1] ^= 1;
        for first in [&good, &damaged] {
            self.fresh(form);
            self.packet(first);
            self.packet(&good);
        }
    }

    /// Awkward packets in a random order, copies, the longest section and one that is too long, and random streams.
    fn gathering(&mut self, random: &mut Random, form: u8) {
        self.fresh(form);
        let mut awkward = inputs::awkward(form);
        if form != COMPACT {
            awkward.extend(inputs::copies());
        }
        for _ in 0..PACKETS / 3 {
            let packet = &awkward[random.below(awkward.len())];
            self.packet(packet);
        }
        if form != COMPACT {
            self.copies(form);
        }
        for size in [1024, 1025] {
            self.fresh(form);
            let wish = Wish {
                syntax: form != COMPACT,
                size,
                label: inputs::FIRST,
                sealed: true,
            };
            let section = inputs::section(wish, 1);
            self.packet(&inputs::packet(true, &[&[0], &section[..183]].concat()));
            for part in section[183..].chunks(184) {
                self.packet(&inputs::packet(false, part));
            }
        }
        let mut made = 0;
        while made < PACKETS * 2 / 3 {
            self.fresh(form);
            let packets = random_inputs::stream(random);
            // the crate panics on the others
            for packet in packets.iter().filter(|packet| is_packet(packet)) {
                self.packet(packet);
                made += 1;
            }
        }
    }

    fn what_only_reads(&mut self, random: &mut Random) {
        for control in 0..4 {
            for length in [0, 1, 2, 7, 8, 13, 14, 181, 182, 183, 184, 255] {
                let mut packet = inputs::controlled(random.one_in(2), control, length);
                random.fill(&mut packet[5..]);
                self.fields(&packet);
            }
        }
        for _ in 0..450 {
            let packet = random_inputs::field_packet(random);
            if is_packet(&packet) {
                self.fields(&packet);
            }
        }
        for counter in 0..16 {
            for other in 0..16 {
                self.counter(counter, other);
            }
        }
        for _ in 0..100 {
            let section = random_inputs::any_section(random);
            if (8..=BUFFER_BYTES).contains(&section.len()) {
                self.section(&section);
            }
            self.pat(&random_inputs::pat_body(random));
            self.pmt(&random_inputs::pmt_body(random));
            self.pmt(&random_inputs::pmt_body(random));
        }
    }

    /// Everything that the crate shows is in the sample.
    fn missing(&self) -> Vec<String> {
        // the rest of the calls the crate shows only one answer of
        let shown = [
            "payload",
            "adaptation field",
            "PCR",
            "OPCR",
            "splice countdown",
            "private data",
            "PAT walk",
            "PMT start",
            "PMT walk",
        ];
        self.counts.missing_of_the_crate(&shown)
    }
}

/// The sample, or the answers that it lacks.
pub fn make() -> Result<Sample, Vec<String>> {
    let mut sample = Sample {
        requests: String::new(),
        lines: String::new(),
        counts: Counts::default(),
        reader: CrateReader::new(COMPACT),
        form: COMPACT,
        kept: Kept::fresh(&Model, COMPACT),
        former: Former::default(),
    };
    let mut random = Random::new(SEED);
    for (form, _) in FORMS {
        sample.gathering(&mut random, form);
    }
    sample.what_only_reads(&mut random);
    let missing = sample.missing();
    if missing.is_empty() {
        Ok(sample)
    } else {
        Err(missing)
    }
}
