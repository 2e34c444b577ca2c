//! The Rust crate mpeg2ts-reader 0.18.2, unchanged: what it shows of every call, in document 01's numbers.
//!
//! Packets here have 188 bytes and start with 0x47, headers have their bytes: the crate panics elsewhere (`panics`).

mod reader;
mod warnings;

use crate::answers::*;
use crate::caught::caught;
use mpeg2ts_reader::demultiplex::DemuxError;
use mpeg2ts_reader::descriptor::{Descriptor, DescriptorError};
use mpeg2ts_reader::packet::{AdaptationField, AdaptationFieldError, ClockRef, ContinuityCounter};
use mpeg2ts_reader::psi::pat::{PatSection, ProgramDescriptor};
use mpeg2ts_reader::psi::pmt::{PmtSection, StreamInfo};
use mpeg2ts_reader::psi::{CurrentNext, SectionCommonHeader, TableSyntaxHeader};
use mpeg2ts_reader::{mpegts_crc, packet};
pub use reader::{CrateReader, CrateStep};
pub use warnings::check as check_warnings;
use warnings::Said;

/// Everything that is asked of one packet.
#[derive(Clone, Copy, Debug, PartialEq, Eq)]
pub struct Fields {
    pub header: Header,
    pub payload: Payload,
    pub adaptation: Adaptation,
    pub pcr: Clock,
    pub opcr: Clock,
    pub splice: Splice,
    pub private_data: Part,
}

pub fn header(bytes: &[u8]) -> Header {
    let packet = packet::Packet::new(bytes);
    let control = packet.adaptation_control();
    let scheme = packet.transport_scrambling_control().scheme();
    Header {
        answer: 0,
        error: packet.transport_error_indicator().into(),
        unit_start: packet.payload_unit_start_indicator().into(),
        priority: packet.transport_priority().into(),
        pid: packet.pid().into(),
        scrambling: scheme.map_or(0, |scheme| scheme.get()),
        control: u8::from(control.has_adaptation_field()) * 2 + u8::from(control.has_payload()),
        counter: packet.continuity_counter().count(),
    }
}

/// Where a part of the packet that the crate gave lies.
fn start_within(whole: &[u8], part: &[u8]) -> usize {
    part.as_ptr() as usize - whole.as_ptr() as usize
}

fn payload(bytes: &[u8]) -> Payload {
    Said::take();
    match packet::Packet::new(bytes).payload() {
        Some(payload) => Payload {
            // a payload that does not go on to the packet's end would be a difference
            answer: if start_within(bytes, payload) + payload.len() == bytes.len() {
                0
            } else {
                warnings::UNKNOWN
            },
            start: start_within(bytes, payload),
        },
        None => Payload {
            answer: match Said::take().answers() {
                [] => 6,
                [answer] => *answer,
                _ => warnings::UNKNOWN,
            },
            start: 0,
        },
    }
}

/// 0 and what was asked, or 20, 21.
fn part_answer<T>(part: Result<T, AdaptationFieldError>) -> Result<T, u8> {
    part.map_err(|error| match error {
        AdaptationFieldError::FieldNotPresent => 20,
        AdaptationFieldError::NotEnoughData => 21,
        AdaptationFieldError::SpliceTimestampError(_) => warnings::UNKNOWN,
    })
}

fn clock(part: Result<ClockRef, u8>) -> Clock {
    match part {
        Ok(clock) => Clock {
            answer: 0,
            base: clock.base(),
            extension: clock.extension(),
        },
        Err(answer) => Clock {
            answer,
            ..Clock::default()
        },
    }
}

fn splice(part: Result<u8, u8>) -> Splice {
    match part {
        Ok(countdown) => Splice {
            answer: 0,
            countdown,
        },
        Err(answer) => Splice {
            answer,
            countdown: 0,
        },
    }
}

fn private_data(bytes: &[u8], part: Result<&[u8], u8>) -> Part {
    match part {
        Ok(data) => Part {
            answer: 0,
            start: start_within(bytes, data),
            length: data.len(),
        },
        Err(answer) => Part {
            answer,
            ..Part::default()
        },
    }
}

/// The flags that the crate keeps to itself show in whether it says that the part is not present.
fn flags(field: &AdaptationField<'_>) -> [u8; 8] {
    fn present<T>(part: Result<T, AdaptationFieldError>) -> u8 {
        u8::from(!matches!(part, Err(AdaptationFieldError::FieldNotPresent)))
    }
    [
        field.discontinuity_indicator().into(),
        field.random_access_indicator().into(),
        field.elementary_stream_priority_indicator(),
        present(field.pcr()),
        present(field.opcr()),
        present(field.splice_countdown()),
        present(field.transport_private_data()),
        present(field.adaptation_field_extension()),
    ]
}

/// The length byte does not show, but where the payload starts does; without a payload the crate gives a field of 183 bytes or none.
fn field_length(payload: Payload) -> u8 {
    match payload {
        Payload { answer: 0, start } => (start - 5) as u8,
        _ => 183,
    }
}

pub fn fields(bytes: &[u8]) -> Fields {
    let header = header(bytes);
    let payload = payload(bytes);
    let packet = packet::Packet::new(bytes);
    Said::take();
    let field = packet.adaptation_field();
    let refusal = match Said::take().answers() {
        [] => 18,
        [answer] => *answer,
        _ => warnings::UNKNOWN,
    };
    let Some(field) = field else {
        return Fields {
            header,
            payload,
            adaptation: Adaptation {
                answer: refusal,
                ..Adaptation::default()
            },
            pcr: clock(Err(refusal)),
            opcr: clock(Err(refusal)),
            splice: splice(Err(refusal)),
            private_data: private_data(bytes, Err(refusal)),
        };
    };
    Fields {
        header,
        payload,
        adaptation: Adaptation {
            answer: 0,
            length: field_length(payload),
            flags: flags(&field),
        },
        pcr: clock(part_answer(field.pcr())),
        opcr: clock(part_answer(field.opcr())),
        splice: splice(part_answer(field.splice_countdown())),
        private_data: private_data(bytes, part_answer(field.transport_private_data())),
    }
}

/// `None` where the crate panics: for a counter above 15.
pub fn follows(counter: u8, other: u8) -> Option<u8> {
    let ask = || ContinuityCounter::new(counter).follows(ContinuityCounter::new(other));
    caught(ask).ok().map(u8::from)
}

pub fn crc(bytes: &[u8]) -> u32 {
    mpegts_crc::sum32(bytes)
}

fn section_header_of(header: &SectionCommonHeader) -> SectionHeader {
    SectionHeader {
        answer: 0,
        table_id: header.table_id,
        syntax: header.section_syntax_indicator.into(),
        private: header.private_indicator.into(),
        length: header.section_length as u16,
    }
}

fn table_header_of(header: &TableSyntaxHeader<'_>) -> TableHeader {
    TableHeader {
        answer: 0,
        id: header.id(),
        version: header.version(),
        current: (header.current_next_indicator() == CurrentNext::Current).into(),
        number: header.section_number(),
        last: header.last_section_number(),
    }
}

/// Of a section of at least 3 bytes; the crate takes exactly these.
pub fn section_header(section: &[u8]) -> SectionHeader {
    section_header_of(&SectionCommonHeader::new(&section[..3]))
}

/// Of a section of at least 8 bytes; the crate takes the five from 3 on.
pub fn table_header(section: &[u8]) -> TableHeader {
    table_header_of(&TableSyntaxHeader::new(&section[3..8]))
}

/// The walk that gave these entries and came to this position. It ends with 23 in silence, with other numbers by a warning.
fn ended<T>(entries: Vec<T>, position: usize) -> Walk<T> {
    let end = match Said::take().answers() {
        [] => 23,
        [answer] => *answer,
        _ => warnings::UNKNOWN,
    };
    Walk {
        entries,
        end,
        offset: offset_told(end, position),
    }
}

/// Number and PID of every entry of the body, and how the walk ends.
pub fn pat(body: &[u8]) -> PatWalk {
    Said::take();
    let entries = PatSection::new(body).programs().map(|entry| match entry {
        ProgramDescriptor::Network { pid } => (0, pid.into()),
        ProgramDescriptor::Program {
            program_number,
            pid,
        } => (program_number, pid.into()),
    });
    let entries: Vec<_> = entries.collect();
    let position = 4 * entries.len();
    ended(entries, position)
}

/// A descriptor that only tells where it lies.
struct Span {
    at: usize,
    length: usize,
}

impl<'buf> Descriptor<'buf> for Span {
    fn from_bytes(bytes: &'buf [u8]) -> Result<Span, DescriptorError> {
        Ok(Span {
            at: bytes.as_ptr() as usize,
            length: bytes.len(),
        })
    }
}

/// Where the first descriptor lies, if there is one, and how many bytes the loop has: those of its descriptors, and those at its end that make
/// none, which the crate's error counts.
fn extent(
    descriptors: impl Iterator<Item = Result<Span, DescriptorError>>,
) -> (Option<usize>, usize) {
    let mut first = None;
    let mut total = 0;
    for descriptor in descriptors {
        total += match descriptor {
            Ok(span) => {
                first.get_or_insert(span.at);
                span.length
            }
            Err(DescriptorError::BufferTooShort { buflen }) => buflen,
            Err(DescriptorError::NotEnoughData { actual, .. }) => 2 + actual,
            Err(error) => panic!("{error:?} from the descriptors' iterator"),
        };
    }
    (first, total)
}

/// A loop's place, counted from the body's start. Where it has a descriptor, the place is the one that the crate shows; else it is what was
/// counted so far.
fn loop_place(
    body: &[u8],
    counted: usize,
    (first, length): (Option<usize>, usize),
) -> (usize, usize) {
    let start = first.map_or(counted, |at| at.wrapping_sub(body.as_ptr() as usize));
    (start, length)
}

/// A PMT body's start and, where that is given, its streams and how their walk ends.
pub fn pmt(body: &[u8]) -> (Pmt, PmtWalk) {
    Said::take();
    let pmt = match PmtSection::from_bytes(body) {
        Err(DemuxError::NotEnoughData {
            expected, actual, ..
        }) => {
            let refused = Pmt {
                answer: 22,
                needed: expected,
                actual,
                ..Pmt::default()
            };
            return (refused, ended(Vec::new(), 0));
        }
        Ok(pmt) => pmt,
    };
    let (start, length) = loop_place(body, 4, extent(pmt.descriptors::<Span>()));
    let streams = start + length;
    let given = Pmt {
        answer: 0,
        needed: 0,
        actual: 0,
        pcr_pid: pmt.pcr_pid().into(),
        descriptors_start: start,
        descriptors_length: length,
        streams,
    };
    let mut position = streams;
    let entries = pmt.streams().map(|entry| {
        let stream = stream(body, position, &entry);
        position = stream.next;
        stream
    });
    let entries = entries.collect();
    (given, ended(entries, position))
}

fn stream(body: &[u8], position: usize, entry: &StreamInfo<'_>) -> Stream {
    let (start, length) = loop_place(body, position + 5, extent(entry.descriptors::<Span>()));
    Stream {
        answer: 0,
        stream_type: entry.stream_type().into(),
        pid: entry.elementary_pid().into(),
        info_start: start,
        info_length: length,
        next: start + length,
        offset: 0,
    }
}

/// Where document 01 answers and the crate panics instead: whether it does.
pub mod panics {
    use super::*;

    pub fn packet_new(bytes: &[u8]) -> bool {
        caught(|| packet::Packet::new(bytes).pid()).is_err()
    }

    /// `Some(true)` where it panics, `Some(false)` where it answers `None`, `None` where it gives a packet.
    pub fn packet_try_new(bytes: &[u8]) -> Option<bool> {
        match caught(|| packet::Packet::try_new(bytes).is_some()) {
            Err(_) => Some(true),
            Ok(false) => Some(false),
            Ok(true) => None,
        }
    }

    pub fn section_header(bytes: &[u8]) -> bool {
        caught(|| SectionCommonHeader::new(bytes).table_id).is_err()
    }

    pub fn table_header(bytes: &[u8]) -> bool {
        caught(|| TableSyntaxHeader::new(bytes).id()).is_err()
    }
}
