//! One input, asked of all sides: the calls that only read. The port is compared with the Rust crate wherever the crate shows something, and
//! with the model everywhere.

use crate::answers::*;
use crate::caught::caught;
use crate::report::*;
use crate::rust_crate;
use std::fmt::Debug;

pub const PORT: &str = "port";
pub const MODEL: &str = "model";
pub const CRATE: &str = "crate";

/// The sides and what was counted. Where `beside_crate` is false the crate is not asked, where `beside_model` is false the model is not compared.
pub struct Comparison<'a> {
    pub port: &'a dyn Calls,
    pub model: &'a dyn Calls,
    pub beside_crate: bool,
    pub beside_model: bool,
    pub counts: Counts,
}

pub fn differ<T: Debug>(
    what: &str,
    first: (&'static str, T),
    second: (&'static str, T),
) -> Box<Difference> {
    Box::new(Difference {
        what: what.to_string(),
        input: String::new(),
        sides: [
            (first.0, format!("{:?}", first.1)),
            (second.0, format!("{:?}", second.1)),
        ],
    })
}

pub fn with_input(
    mut difference: Box<Difference>,
    input: impl FnOnce() -> String,
) -> Box<Difference> {
    if difference.input.is_empty() {
        difference.input = input();
    }
    difference
}

/// Cuts the bytes (where `cut`) and clears them as long as the sides still differ, and tells the difference with what is left.
fn smallest_bytes(
    bytes: &[u8],
    cut: bool,
    mut difference: Box<Difference>,
    mut differ_on: impl FnMut(&[u8]) -> Outcome,
) -> Box<Difference> {
    let mut bytes = bytes.to_vec();
    while cut && !bytes.is_empty() {
        match differ_on(&bytes[..bytes.len() - 1]) {
            Err(smaller) => difference = smaller,
            Ok(()) => break,
        }
        bytes.pop();
    }
    for at in 0..bytes.len() {
        let byte = std::mem::replace(&mut bytes[at], 0);
        match differ_on(&bytes) {
            Err(smaller) => difference = smaller,
            Ok(()) => bytes[at] = byte,
        }
    }
    with_input(difference, || short_hex(&bytes))
}

/// Whether the crate takes the bytes for a packet without a panic.
pub fn is_packet(bytes: &[u8]) -> bool {
    bytes.len() == PACKET_BYTES && bytes[0] == 0x47
}

/// What the crate answers. A panic is a difference.
fn crate_says<T>(what: &str, ask: impl FnOnce() -> T) -> Result<T, Box<Difference>> {
    caught(ask).map_err(|panic| differ(what, (PORT, "an answer".to_string()), (CRATE, panic)))
}

/// Fails where the crate's answer is not the port's.
pub fn shown<T: Debug + PartialEq>(what: &str, port: T, shown: T) -> Outcome {
    if port == shown {
        return Ok(());
    }
    Err(differ(what, (PORT, port), (CRATE, shown)))
}

/// The port's answer to a call, counted by the number that stands in it, after comparing it with the model's.
macro_rules! ask {
    ($self:ident, $name:literal, $call:ident ( $($given:expr),* )) => {
        ask!($self, $name, $call($($given),*), answer => answer.answer)
    };
    ($self:ident, $name:literal, $call:ident ( $($given:expr),* ), $answer:ident => $number:expr) => {{
        let $answer = $self.port.$call($($given),*);
        if $self.beside_model {
            let model = $self.model.$call($($given),*);
            if $answer != model {
                return Err(differ($name, (PORT, $answer), (MODEL, model)));
            }
        }
        $self.counts.call(const { call_index($name) }, $number);
        $answer
    }};
}

impl<'a> Comparison<'a> {
    pub fn new(port: &'a dyn Calls, model: &'a dyn Calls) -> Comparison<'a> {
        Comparison {
            port,
            model,
            beside_crate: cfg!(feature = "rust-crate"),
            beside_model: true,
            counts: Counts::default(),
        }
    }

    /// Only the header, for going through all of its bytes.
    pub fn header(&mut self, packet: &[u8]) -> Outcome {
        self.counts.cases += 1;
        self.header_differs(packet)
            .map_err(|difference| with_input(difference, || short_hex(packet)))
    }

    fn header_differs(&mut self, packet: &[u8]) -> Outcome {
        let header = ask!(self, "header", header(packet));
        if self.beside_crate {
            let crate_header = crate_says("header", || rust_crate::header(packet))?;
            shown("header", header, crate_header)?;
        }
        Ok(())
    }

    /// Header, payload and adaptation field of any bytes.
    pub fn fields(&mut self, packet: &[u8]) -> Outcome {
        self.counts.cases += 1;
        self.fields_differ(packet).map_err(|difference| {
            smallest_bytes(packet, false, difference, |bytes| self.fields_differ(bytes))
        })
    }

    fn fields_differ(&mut self, packet: &[u8]) -> Outcome {
        let header = ask!(self, "header", header(packet));
        let payload = ask!(self, "payload", payload(packet));
        let adaptation = ask!(self, "adaptation field", adaptation(packet));
        let pcr = ask!(self, "PCR", pcr(packet));
        let opcr = ask!(self, "OPCR", opcr(packet));
        let splice = ask!(self, "splice countdown", splice(packet));
        let private_data = ask!(self, "private data", private_data(packet));
        if pcr.extension >= 300 || opcr.extension >= 300 {
            self.counts.intend(EXTENSION);
        }
        if !is_packet(packet) {
            self.counts.intend_not_a_packet(packet);
            return Ok(());
        }
        if self.beside_crate {
            let fields = crate_says("fields", || rust_crate::fields(packet))?;
            shown("header", header, fields.header)?;
            shown("payload", payload, fields.payload)?;
            shown("adaptation field", adaptation, fields.adaptation)?;
            shown("PCR", pcr, fields.pcr)?;
            shown("OPCR", opcr, fields.opcr)?;
            shown("splice countdown", splice, fields.splice)?;
            shown("private data", private_data, fields.private_data)?;
        }
        Ok(())
    }

    /// Whether one counter follows another.
    pub fn follows(&mut self, counter: u8, other: u8) -> Outcome {
        self.counts.cases += 1;
        self.follows_differ(counter, other)
            .map_err(|difference| with_input(difference, || format!("{counter} after {other}")))
    }

    fn follows_differ(&mut self, counter: u8, other: u8) -> Outcome {
        let follows = ask!(self, "counter follows", follows(counter, other), yes => yes);
        if !self.beside_crate {
            return Ok(());
        }
        let panics = counter > 15 || other > 15;
        if panics {
            self.counts.intend(COUNTER);
        }
        let expected = if panics { None } else { Some(follows) };
        shown(
            "counter follows",
            expected,
            rust_crate::follows(counter, other),
        )
    }

    /// CRC, section header, table header and body of any bytes.
    pub fn section(&mut self, section: &[u8]) -> Outcome {
        self.counts.cases += 1;
        self.section_differs(section).map_err(|difference| {
            smallest_bytes(section, true, difference, |bytes| {
                self.section_differs(bytes)
            })
        })
    }

    fn section_differs(&mut self, section: &[u8]) -> Outcome {
        let crc = ask!(self, "CRC", crc(section), crc => 0);
        let header = ask!(self, "section header", section_header(section));
        let table = ask!(self, "table header", table_header(section));
        ask!(self, "body", body(section));
        if !self.beside_crate {
            return Ok(());
        }
        shown("CRC", crc, crate_says("CRC", || rust_crate::crc(section))?)?;
        if section.len() < 3 {
            self.counts.intend(SHORT_SECTION);
        } else {
            let ask = || rust_crate::section_header(section);
            shown("section header", header, crate_says("section header", ask)?)?;
        }
        if section.len() < 8 {
            self.counts.intend(SHORT_TABLE);
            return Ok(());
        }
        let ask = || rust_crate::table_header(section);
        shown("table header", table, crate_says("table header", ask)?)
    }

    /// A PAT walk from 0, then single calls at the given positions.
    pub fn pat(&mut self, body: &[u8], positions: &[usize]) -> Outcome {
        self.counts.cases += 1;
        self.pat_differs(body, positions).map_err(|difference| {
            smallest_bytes(body, true, difference, |bytes| {
                self.pat_differs(bytes, positions)
            })
        })
    }

    fn pat_differs(&mut self, body: &[u8], positions: &[usize]) -> Outcome {
        let walk = self.pat_walk(body)?;
        if self.beside_crate {
            let crate_walk = crate_says("PAT walk", || rust_crate::pat(body))?;
            shown("PAT walk", walk, crate_walk)?;
        }
        for &position in positions {
            self.program_at(body, position).map_err(|difference| {
                with_input(difference, || format!("{}, at {position}", short_hex(body)))
            })?;
        }
        Ok(())
    }

    fn pat_walk(&mut self, body: &[u8]) -> Result<PatWalk, Box<Difference>> {
        let mut entries = Vec::new();
        let mut position = 0;
        loop {
            let entry = ask!(self, "PAT walk", program_at(body, position));
            if entry.answer != 0 {
                return Ok(Walk {
                    entries,
                    end: entry.answer,
                    offset: entry.offset,
                });
            }
            entries.push((entry.number, entry.pid));
            if entry.next <= position {
                return Err(differ("PAT walk", (PORT, entry.next), ("from", position)));
            }
            position = entry.next;
        }
    }

    /// The crate walks from the start of what it is given: from the position on.
    fn program_at(&mut self, body: &[u8], position: usize) -> Outcome {
        let entry = ask!(self, "PAT walk", program_at(body, position));
        let (true, Some(left)) = (self.beside_crate, body.get(position..)) else {
            return Ok(());
        };
        let walk = crate_says("PAT walk", || rust_crate::pat(left))?;
        let crate_entry = match walk.entries.first() {
            Some(&(number, pid)) => Program {
                answer: 0,
                number,
                pid,
                next: position + 4,
                offset: 0,
            },
            None => Program {
                answer: walk.end,
                offset: offset_told(walk.end, position),
                ..Program::default()
            },
        };
        shown("PAT walk", entry, crate_entry)
    }

    /// A PMT's start and the walk over its streams, then single calls at the given positions.
    pub fn pmt(&mut self, body: &[u8], positions: &[usize]) -> Outcome {
        self.counts.cases += 1;
        self.pmt_differs(body, positions).map_err(|difference| {
            smallest_bytes(body, true, difference, |bytes| {
                self.pmt_differs(bytes, positions)
            })
        })
    }

    fn pmt_differs(&mut self, body: &[u8], positions: &[usize]) -> Outcome {
        let pmt = ask!(self, "PMT start", pmt_start(body));
        let walk = match pmt.answer {
            0 => Some(self.pmt_walk(body, pmt.streams)?),
            _ => None,
        };
        if self.beside_crate {
            let (start, crate_walk) = crate_says("PMT start", || rust_crate::pmt(body))?;
            shown("PMT start", pmt, start)?;
            if let Some(walk) = walk {
                shown("PMT walk", walk, crate_walk)?;
            }
        }
        for &position in positions {
            self.stream_at(body, position).map_err(|difference| {
                with_input(difference, || format!("{}, at {position}", short_hex(body)))
            })?;
        }
        Ok(())
    }

    fn pmt_walk(&mut self, body: &[u8], start: usize) -> Result<PmtWalk, Box<Difference>> {
        let mut entries = Vec::new();
        let mut position = start;
        loop {
            let entry = ask!(self, "PMT walk", stream_at(body, position));
            if entry.answer != 0 {
                return Ok(Walk {
                    entries,
                    end: entry.answer,
                    offset: entry.offset,
                });
            }
            entries.push(entry);
            if entry.next <= position {
                return Err(differ("PMT walk", (PORT, entry.next), ("from", position)));
            }
            position = entry.next;
        }
    }

    /// The crate walks from a PMT's own start: a PMT without descriptors, whose streams are what stands from the position on, shows the same.
    fn stream_at(&mut self, body: &[u8], position: usize) -> Outcome {
        let entry = ask!(self, "PMT walk", stream_at(body, position));
        let (true, Some(left)) = (self.beside_crate, body.get(position..)) else {
            return Ok(());
        };
        let made = [&[0xE0, 0x00, 0xF0, 0x00], left].concat();
        let (_, walk) = crate_says("PMT walk", || rust_crate::pmt(&made))?;
        let crate_entry = match walk.entries.first() {
            Some(stream) => Stream {
                info_start: stream.info_start - 4 + position,
                next: stream.next - 4 + position,
                ..*stream
            },
            None => Stream {
                answer: walk.end,
                offset: offset_told(walk.end, position),
                ..Stream::default()
            },
        };
        shown("PMT walk", entry, crate_entry)
    }

    /// The fresh state of any form number, and whether any state is sound with any words beside it.
    pub fn states(&mut self, form: u8, state: State, memory: &[u64]) -> Outcome {
        self.counts.cases += 1;
        self.states_differ(form, state, memory)
            .map_err(|difference| {
                with_input(difference, || {
                    format!("form {form}, {state:?}, memory {memory:?}")
                })
            })
    }

    fn states_differ(&mut self, form: u8, state: State, memory: &[u64]) -> Outcome {
        ask!(self, "fresh state", fresh(form), fresh => 0);
        ask!(self, "is sound", is_sound(state, memory), yes => yes);
        Ok(())
    }

    /// The read of a delivered section, with any place.
    pub fn delivered(&mut self, packet: &[u8], buffer: &[u8], answer: u8, place: Place) -> Outcome {
        self.counts.cases += 1;
        self.delivered_differs(packet, buffer, answer, place)
            .map_err(|difference| {
                with_input(difference, || {
                    let (packet, buffer) = (packet.len(), buffer.len());
                    format!("packet of {packet}, buffer of {buffer}, answer {answer}, {place:?}")
                })
            })
    }

    fn delivered_differs(
        &mut self,
        packet: &[u8],
        buffer: &[u8],
        answer: u8,
        place: Place,
    ) -> Outcome {
        ask!(self, "delivered section", section(packet, buffer, answer, place),
            read => if read.holder == NOWHERE { 0 } else { 2 });
        Ok(())
    }
}
