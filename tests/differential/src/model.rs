//! The model: document 01 in its words and its order, as requests 1 and 2 amend it, and the struct of numbers that the C face makes of it. It
//! shares no code with the port or with the Rust crate, and is written to be read, not to be fast: fields are cut out bit by bit, the CRC is the
//! bit steps.

use crate::answers::*;
use crate::report::HEAD;

pub struct Model;

/// The number in `count` bits from bit `from` on, the most significant first.
fn bits(bytes: &[u8], from: usize, count: usize) -> u64 {
    (from..from + count).fold(0, |number, bit| {
        number * 2 + u64::from(bytes[bit / 8] >> (7 - bit % 8) & 1)
    })
}

fn flag(bytes: &[u8], bit: usize) -> u8 {
    bits(bytes, bit, 1) as u8
}

/// "188 bytes, the first 0x47": 3 or 4, or 0.
fn packet_refusal(packet: &[u8]) -> u8 {
    if packet.len() != 188 {
        3
    } else if packet[0] != 0x47 {
        4
    } else {
        0
    }
}

/// Where the payload of a packet starts, or 6, 7, 8.
fn payload_start(packet: &[u8]) -> Result<usize, u8> {
    let start = match bits(packet, 26, 2) {
        0b01 => 4,
        0b11 => 5 + usize::from(packet[4]),
        _ => return Err(6),
    };
    match start {
        0..=187 => Ok(start),
        188 => Err(7),
        _ => Err(8),
    }
}

/// The adaptation field of a packet, from its flags on, or 18, 19.
fn adaptation_field(packet: &[u8]) -> Result<&[u8], u8> {
    let length = usize::from(packet[4]);
    match (bits(packet, 26, 2), length) {
        (0b00 | 0b01, _) | (0b11, 0) => Err(18),
        (0b10, 183) | (0b11, 1..=182) => Ok(&packet[5..5 + length]),
        _ => Err(19),
    }
}

/// 3, 4, 18, 19, or the field.
fn checked_field(packet: &[u8]) -> Result<&[u8], u8> {
    match packet_refusal(packet) {
        0 => adaptation_field(packet),
        refusal => Err(refusal),
    }
}

const PCR: usize = 3;
const OPCR: usize = 4;
const SPLICE: usize = 5;
const PRIVATE: usize = 6;

/// Where the optional part starts in the field: behind the flags and those present parts that come before it.
fn part_start(field: &[u8], part: usize) -> usize {
    let sizes = [(PCR, 6), (OPCR, 6), (SPLICE, 1)];
    let before = sizes.iter().filter(|(earlier, _)| *earlier < part);
    let present = before.filter(|(earlier, _)| flag(field, *earlier) == 1);
    1 + present.map(|(_, size)| size).sum::<usize>()
}

/// The bytes of an optional part of fixed size, or 3, 4, 18 to 21.
fn fixed_part(packet: &[u8], part: usize, size: usize) -> Result<&[u8], u8> {
    let field = checked_field(packet)?;
    if flag(field, part) == 0 {
        return Err(20);
    }
    let start = part_start(field, part);
    if field.len() < start + size {
        return Err(21);
    }
    Ok(&field[start..start + size])
}

fn clock(packet: &[u8], part: usize) -> Clock {
    match fixed_part(packet, part, 6) {
        Err(answer) => Clock {
            answer,
            ..Clock::default()
        },
        Ok(bytes) => Clock {
            answer: 0,
            base: bits(bytes, 0, 33),
            extension: bits(bytes, 39, 9) as u16,
        },
    }
}

/// Where the private data lies in the packet, or 3, 4, 18 to 21.
fn private_place(packet: &[u8]) -> Result<(usize, usize), u8> {
    let length_byte = fixed_part(packet, PRIVATE, 1)?;
    let field = checked_field(packet)?;
    let start = part_start(field, PRIVATE) + 1;
    let length = usize::from(length_byte[0]);
    if field.len() < start + length {
        return Err(21);
    }
    Ok((5 + start, length))
}

/// What is left of the body from the position on, or 26, 23.
fn left(body: &[u8], position: usize) -> Result<&[u8], u8> {
    match body.get(position..) {
        None => Err(26),
        Some([]) => Err(23),
        Some(bytes) => Ok(bytes),
    }
}

fn sound(state: State, memory: &[u64]) -> bool {
    let least = if state.form == COMPACT { 3 } else { 8 };
    let counts = if state.is_open == 0 {
        state.held == 0 && state.wanted == 0
    } else {
        least <= state.held && state.held < state.wanted && state.wanted <= 1024
    };
    let named = state.form <= 2 && state.is_open <= 1 && state.reserved == 0;
    named && counts && sound_memory(state.form, memory)
}

/// "Version at most 31, at least one mark; none is all zero." COMPACT and FULL are lent no words.
fn sound_memory(form: u8, memory: &[u64]) -> bool {
    if form != ONCE || memory.len() != 5 {
        return form != ONCE && memory.is_empty();
    }
    let none = memory.iter().all(|word| *word == 0);
    // the version is the topmost: with anything above its bits it is above 31
    let version = memory[0] >> 25;
    let marked = memory[1..].iter().any(|word| *word != 0);
    none || (version <= 31 && marked)
}

/// What a section of at least eight bytes says of itself, "table id, id, version, current bit", as the memory's first word has it.
fn four(section: &[u8]) -> u64 {
    // where each starts in the section, how many bits it has, and where its lowest is in the word
    let fields = [(0, 8, 0), (24, 16, 8), (42, 5, 25), (47, 1, 24)];
    let placed = fields.map(|(from, count, to)| bits(section, from, count) << to);
    placed.iter().sum()
}

/// The word and the bit that its number is marked by.
fn mark(section: &[u8]) -> (usize, u64) {
    let number = usize::from(section[6]);
    (1 + number / 64, 1 << (number % 64))
}

/// "All four agree and that number is marked."
fn already_delivered(memory: &[u64], section: &[u8]) -> bool {
    let (word, bit) = mark(section);
    memory[0] == four(section) && memory[word] & bit != 0
}

/// "A delivered section with the same four adds its mark; one with another four starts the memory anew with its own mark only."
fn remember(memory: &mut [u64], section: &[u8]) {
    if memory[0] != four(section) {
        memory[0] = four(section);
        memory[1..].fill(0);
    }
    let (word, bit) = mark(section);
    memory[word] |= bit;
}

/// "Checks before either step, in order: 3, 4, 5, 25, then 6, 7, 8": the payload, or the refusal.
fn checked<'a>(
    state: State,
    memory: &[u64],
    packet: &'a [u8],
    buffer: &[u8],
) -> Result<&'a [u8], u8> {
    let refusal = packet_refusal(packet);
    if refusal != 0 {
        return Err(refusal);
    }
    if buffer.len() != 1024 {
        return Err(5);
    }
    if !sound(state, memory) {
        return Err(25);
    }
    payload_start(packet).map(|start| &packet[start..])
}

fn unit_start(packet: &[u8]) -> bool {
    flag(packet, 9) == 1
}

/// The pointer and the rest, or 9.
fn pointer(payload: &[u8]) -> Result<(usize, &[u8]), u8> {
    let (pointer, rest) = (usize::from(payload[0]), &payload[1..]);
    if pointer > 0 && pointer >= rest.len() {
        return Err(9);
    }
    Ok((pointer, rest))
}

fn idle(state: State) -> State {
    State {
        is_open: 0,
        held: 0,
        wanted: 0,
        ..state
    }
}

/// An answer without a place.
fn plain(answer: u8, state: State) -> Step {
    Step {
        answer,
        state,
        place: Place::default(),
    }
}

/// The refusals that leave the reader idle. "Answers 9 and 10 still forget all of it."
fn refused(answer: u8, state: State, memory: &mut [u64]) -> Step {
    if answer == 9 || answer == 10 {
        memory.fill(0);
    }
    plain(answer, idle(state))
}

/// The register after one bit of the data.
fn bit_step(register: u32, bit: u8) -> u32 {
    let top = (register >> 31) as u8;
    let shifted = register << 1;
    if top ^ bit == 1 {
        shifted ^ 0x04C1_1DB7
    } else {
        shifted
    }
}

pub fn remainder(bytes: &[u8]) -> u32 {
    bytes.iter().fold(0xFFFF_FFFF, |register, byte| {
        (0..8).rev().fold(register, |register, place| {
            bit_step(register, byte >> place & 1)
        })
    })
}

/// "A whole section": 16, 17, or 2 with its place. "ONCE remembers on delivery only."
fn whole(state: State, memory: &mut [u64], section: &[u8], place: Place) -> Step {
    let state = idle(state);
    if state.form != COMPACT && section.len() < 12 {
        return plain(16, state);
    }
    if state.form != COMPACT && remainder(section) != 0 {
        return plain(17, state);
    }
    if state.form == ONCE {
        remember(memory, section);
    }
    Step {
        answer: 2,
        state,
        place,
    }
}

/// The bytes continue: 15, 1, or a whole section.
fn continued(state: State, memory: &mut [u64], bytes: &[u8], buffer: &mut [u8]) -> Step {
    if state.is_open == 0 {
        return refused(15, state, memory);
    }
    let (held, wanted) = (usize::from(state.held), usize::from(state.wanted));
    let copied = &bytes[..bytes.len().min(wanted - held)];
    buffer[held..held + copied.len()].copy_from_slice(copied);
    if held + copied.len() < wanted {
        let held = state.held + copied.len() as u16;
        return plain(1, State { held, ..state });
    }
    let place = Place {
        holder: IN_BUFFER,
        start: 0,
        length: state.wanted,
    };
    whole(state, memory, &buffer[..wanted], place)
}

/// 10 to 14 for the bytes from the pointer on, or 0.
fn start_refusal(state: State, memory: &[u64], bytes: &[u8]) -> u8 {
    if bytes.len() < 3 {
        return 10;
    }
    if flag(bytes, 8) != u8::from(state.form != COMPACT) {
        return 11;
    }
    if state.form != COMPACT && bytes.len() < 8 {
        return 12;
    }
    if bits(bytes, 12, 12) > 1021 {
        return 13;
    }
    if state.form == ONCE && already_delivered(memory, bytes) {
        return 14;
    }
    0
}

/// A section starts with these bytes, which stand at `at` in the packet.
fn started(state: State, memory: &mut [u64], at: usize, bytes: &[u8], buffer: &mut [u8]) -> Step {
    let refusal = start_refusal(state, memory, bytes);
    if refusal != 0 {
        return refused(refusal, state, memory);
    }
    let wanted = 3 + bits(bytes, 12, 12) as usize;
    if wanted <= bytes.len() {
        let place = Place {
            holder: IN_PACKET,
            start: at as u16,
            length: wanted as u16,
        };
        return whole(state, memory, &bytes[..wanted], place);
    }
    buffer[..bytes.len()].copy_from_slice(bytes);
    let open = State {
        is_open: 1,
        held: bytes.len() as u16,
        wanted: wanted as u16,
        ..state
    };
    plain(1, open)
}

/// ONCE as document 01 had it before request 2: it remembers the version of the last section that started, 14 is a start with that version, and 9
/// and 10 forget it. It is followed beside the answers of the rule of today, for as long as it would give the same: up to there the two differ in
/// nothing but what they remember.
#[derive(Clone, Copy, Default)]
pub struct Former {
    version: Option<u64>,
}

impl Former {
    /// Whether it gives this answer too.
    pub fn answers(&mut self, step: usize, packet: &[u8], answer: u8) -> bool {
        match answer {
            9 | 10 => self.version = None,
            1 | 2 | 14 | 16 | 17 if step == HEAD => {
                let started = start(packet).map(|bytes| bits(bytes, 42, 5));
                let repeated = self.version == started;
                self.version = started;
                return repeated == (answer == 14);
            }
            _ => {}
        }
        true
    }
}

/// The bytes from the pointer's target on, where the packet has one.
pub fn start(packet: &[u8]) -> Option<&[u8]> {
    if packet_refusal(packet) != 0 || !unit_start(packet) {
        return None;
    }
    let payload = &packet[payload_start(packet).ok()?..];
    let (pointer, rest) = pointer(payload).ok()?;
    Some(&rest[pointer..])
}

impl Calls for Model {
    fn header(&self, packet: &[u8]) -> Header {
        let answer = packet_refusal(packet);
        if answer != 0 {
            return Header {
                answer,
                ..Header::default()
            };
        }
        Header {
            answer: 0,
            error: flag(packet, 8),
            unit_start: flag(packet, 9),
            priority: flag(packet, 10),
            pid: bits(packet, 11, 13) as u16,
            scrambling: bits(packet, 24, 2) as u8,
            control: bits(packet, 26, 2) as u8,
            counter: bits(packet, 28, 4) as u8,
        }
    }

    fn payload(&self, packet: &[u8]) -> Payload {
        let start = match packet_refusal(packet) {
            0 => payload_start(packet),
            refusal => Err(refusal),
        };
        match start {
            Ok(start) => Payload { answer: 0, start },
            Err(answer) => Payload { answer, start: 0 },
        }
    }

    fn follows(&self, counter: u8, other: u8) -> u8 {
        u8::from(counter <= 15 && other <= 15 && counter == (other + 1) % 16)
    }

    fn adaptation(&self, packet: &[u8]) -> Adaptation {
        match checked_field(packet) {
            Err(answer) => Adaptation {
                answer,
                ..Adaptation::default()
            },
            Ok(field) => Adaptation {
                answer: 0,
                length: field.len() as u8,
                flags: std::array::from_fn(|bit| flag(field, bit)),
            },
        }
    }

    fn pcr(&self, packet: &[u8]) -> Clock {
        clock(packet, PCR)
    }

    fn opcr(&self, packet: &[u8]) -> Clock {
        clock(packet, OPCR)
    }

    fn splice(&self, packet: &[u8]) -> Splice {
        match fixed_part(packet, SPLICE, 1) {
            Err(answer) => Splice {
                answer,
                countdown: 0,
            },
            Ok(bytes) => Splice {
                answer: 0,
                countdown: bytes[0],
            },
        }
    }

    fn private_data(&self, packet: &[u8]) -> Part {
        match private_place(packet) {
            Err(answer) => Part {
                answer,
                ..Part::default()
            },
            Ok((start, length)) => Part {
                answer: 0,
                start,
                length,
            },
        }
    }

    fn section_header(&self, section: &[u8]) -> SectionHeader {
        if section.len() < 3 {
            return SectionHeader {
                answer: 10,
                ..SectionHeader::default()
            };
        }
        SectionHeader {
            answer: 0,
            table_id: section[0],
            syntax: flag(section, 8),
            private: flag(section, 9),
            length: bits(section, 12, 12) as u16,
        }
    }

    fn table_header(&self, section: &[u8]) -> TableHeader {
        if section.len() < 8 {
            return TableHeader {
                answer: 12,
                ..TableHeader::default()
            };
        }
        TableHeader {
            answer: 0,
            id: bits(section, 24, 16) as u16,
            version: bits(section, 42, 5) as u8,
            current: flag(section, 47),
            number: section[6],
            last: section[7],
        }
    }

    fn body(&self, section: &[u8]) -> Part {
        if section.len() < 12 {
            return Part {
                answer: 16,
                ..Part::default()
            };
        }
        Part {
            answer: 0,
            start: 8,
            length: section.len() - 8 - 4,
        }
    }

    fn crc(&self, bytes: &[u8]) -> u32 {
        remainder(bytes)
    }

    fn program_at(&self, body: &[u8], position: usize) -> Program {
        let (answer, offset) = match left(body, position) {
            Err(answer) => (answer, 0),
            Ok(bytes) if bytes.len() < 4 => (24, position),
            Ok(bytes) => {
                return Program {
                    answer: 0,
                    number: bits(bytes, 0, 16) as u16,
                    pid: bits(bytes, 19, 13) as u16,
                    next: position + 4,
                    offset: 0,
                }
            }
        };
        Program {
            answer,
            offset,
            ..Program::default()
        }
    }

    fn pmt_start(&self, body: &[u8]) -> Pmt {
        let needed = if body.len() < 4 {
            4
        } else {
            4 + bits(body, 20, 12) as usize
        };
        if body.len() < needed {
            return Pmt {
                answer: 22,
                needed,
                actual: body.len(),
                ..Pmt::default()
            };
        }
        Pmt {
            pcr_pid: bits(body, 3, 13) as u16,
            descriptors_start: 4,
            descriptors_length: needed - 4,
            streams: needed,
            ..Pmt::default()
        }
    }

    fn stream_at(&self, body: &[u8], position: usize) -> Stream {
        let (answer, offset) = match left(body, position) {
            Err(answer) => (answer, 0),
            Ok(bytes) if bytes.len() < 5 => (27, position),
            Ok(bytes) if bytes.len() < 5 + bits(bytes, 28, 12) as usize => (28, position),
            Ok(bytes) => {
                let info_length = bits(bytes, 28, 12) as usize;
                return Stream {
                    answer: 0,
                    stream_type: bytes[0],
                    pid: bits(bytes, 11, 13) as u16,
                    info_start: position + 5,
                    info_length,
                    next: position + 5 + info_length,
                    offset: 0,
                };
            }
        };
        Stream {
            answer,
            offset,
            ..Stream::default()
        }
    }

    fn fresh(&self, form: u8) -> State {
        State {
            form,
            ..State::default()
        }
    }

    fn is_sound(&self, state: State, memory: &[u64]) -> u8 {
        u8::from(sound(state, memory))
    }

    fn tail(&self, state: State, memory: &mut [u64], packet: &[u8], buffer: &mut [u8]) -> Step {
        let payload = match checked(state, memory, packet, buffer) {
            Err(answer) => return plain(answer, state),
            Ok(payload) => payload,
        };
        if !unit_start(packet) {
            return continued(state, memory, payload, buffer);
        }
        match pointer(payload) {
            Err(answer) => refused(answer, state, memory),
            Ok((0, _)) => plain(0, state),
            Ok((pointer, rest)) => continued(state, memory, &rest[..pointer], buffer),
        }
    }

    fn head(&self, state: State, memory: &mut [u64], packet: &[u8], buffer: &mut [u8]) -> Step {
        let payload = match checked(state, memory, packet, buffer) {
            Err(answer) => return plain(answer, state),
            Ok(payload) => payload,
        };
        if !unit_start(packet) {
            return plain(0, state);
        }
        match pointer(payload) {
            Err(answer) => refused(answer, state, memory),
            Ok((pointer, rest)) => {
                let bytes = &rest[pointer..];
                started(state, memory, 188 - bytes.len(), bytes, buffer)
            }
        }
    }

    fn section(&self, packet: &[u8], buffer: &[u8], answer: u8, place: Place) -> Place {
        let holder = match place.holder {
            IN_PACKET => packet.len(),
            IN_BUFFER => buffer.len(),
            _ => return Place::default(),
        };
        let end = usize::from(place.start) + usize::from(place.length);
        // the C face gives nowhere for every empty part, also for one that lies within
        if answer == 2 && end <= holder && place.length > 0 {
            place
        } else {
            Place::default()
        }
    }
}
