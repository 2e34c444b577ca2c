//! Random packets, sections, bodies and states, dense around the edges.

use crate::answers::*;
use crate::inputs::{mark, packet, seal, Label, Wish};
use crate::random::Random;

/// Sizes near the limits that document 01 names.
const SIZES: [usize; 28] = [
    3, 4, 7, 8, 9, 10, 11, 12, 13, 14, 16, 20, 24, 175, 176, 182, 183, 184, 186, 187, 366, 367,
    368, 1020, 1023, 1024, 1025, 1026,
];

const PAYLOADS: [usize; 22] = [
    1, 2, 3, 4, 5, 6, 8, 9, 10, 11, 12, 13, 14, 17, 20, 24, 181, 182, 183, 184, 184, 184,
];

const VERSIONS: [u8; 7] = [0, 0, 1, 1, 2, 17, 31];
const NUMBERS: [u8; 7] = [0, 0, 1, 1, 63, 64, 255];

/// A label of few, so that it comes again.
fn random_label(random: &mut Random) -> Label {
    Label {
        table_id: random.pick(&[0, 0, 2, 0x42, 255]),
        id: random.pick(&[0, 0, 1, 256, 65535]),
        version: random.pick(&VERSIONS),
        current: !random.one_in(4),
        number: random.pick(&NUMBERS),
    }
}

/// A section to come, its size dense around the limits and around what is left of the packet.
fn random_section(random: &mut Random, syntax: bool, label: Label, here: usize) -> Vec<u8> {
    let size = match random.below(10) {
        0..=3 => random.pick(&SIZES),
        4 | 5 => (here + random.below(5)).saturating_sub(2),
        6 => here + 184 + random.below(3) - 1,
        7 => random.between(12, 60),
        8 => random.between(3, 1024),
        _ if random.one_in(6) => random.between(1024, 4098),
        _ => random.between(12, 400),
    };
    let wish = Wish {
        syntax: syntax != random.one_in(25),
        size: size.clamp(3, 4098),
        label,
        sealed: !random.one_in(10),
    };
    let mut bytes = random.bytes(wish.size);
    seal(&mut bytes, wish);
    bytes
}

/// A stream in the making: what is left of the section that was started, and the labels of two tables.
struct Muxer<'a> {
    random: &'a mut Random,
    syntax: bool,
    left: Vec<u8>,
    labels: [Label; 2],
    /// one table of one section, whose version changes
    single: bool,
}

impl Muxer<'_> {
    fn payload_size(&mut self) -> usize {
        match self.random.below(4) {
            0 => self.random.pick(&PAYLOADS),
            1 => self.random.between(1, 184),
            _ => 184,
        }
    }

    /// The label of the next section: mostly that of the last one, or with one thing changed, or the other table's.
    fn label(&mut self) -> Label {
        let any = random_label(self.random);
        let [label, other] = &mut self.labels;
        match self.random.below(12) {
            0 => label.version = any.version,
            _ if self.single => {}
            1 | 2 => label.number = any.number,
            3 => label.current = !label.current,
            4 => label.table_id = any.table_id,
            5 => label.id = any.id,
            6 | 7 => std::mem::swap(label, other),
            _ => {}
        }
        self.labels[0]
    }

    fn continuation(&mut self, size: usize) -> Vec<u8> {
        let taken = self.left.len().min(size);
        let mut payload: Vec<u8> = self.left.drain(..taken).collect();
        let stuffing = self.random.pick(&[0xFF, 0x00, 0x47]);
        payload.resize(size, stuffing);
        packet(false, &payload)
    }

    /// The pointer is mostly what is left of the last section, sometimes near that or near the rest's end.
    fn start(&mut self, size: usize) -> Vec<u8> {
        let rest = size - 1;
        let pointer = match self.random.below(20) {
            0 => self.random.between(0, 255),
            1 => (rest + self.random.below(12)).saturating_sub(9).min(255),
            2 => self.random.between(0, 12),
            3 => (self.left.len() + 1).min(255),
            4 => self.left.len().saturating_sub(1).min(255),
            _ if self.left.len() < rest => self.left.len(),
            _ => 0,
        };
        let mut payload = vec![pointer as u8];
        let tail = self.left.iter().copied().chain(std::iter::repeat(0xFF));
        payload.extend(tail.take(pointer));
        self.left.clear();
        let here = rest.saturating_sub(pointer);
        let label = self.label();
        let section = random_section(self.random, self.syntax, label, here);
        let (now, later) = section.split_at(here.min(section.len()));
        payload.extend_from_slice(now);
        self.left.extend_from_slice(later);
        let stuffing = self.random.pick(&[0xFF, 0x00, 0xB0]);
        payload.resize(size, stuffing);
        packet(true, &payload)
    }

    fn next(&mut self) -> Vec<u8> {
        let size = self.payload_size();
        let starts = match self.left.len() {
            0 => !self.random.one_in(12),
            left if left < size - 1 => self.random.one_in(2),
            _ => self.random.one_in(12),
        };
        let mut made = if starts {
            self.start(size)
        } else {
            self.continuation(size)
        };
        // what gathering does not read
        made[1] |= self.random.byte() & 0xBF;
        made[2] = self.random.byte();
        made[3] = (made[3] & 0x30) | (self.random.byte() & 0xCF);
        made
    }
}

/// One stream: well made with dense edges, and in half of the streams then damaged.
pub fn stream(random: &mut Random) -> Vec<Vec<u8>> {
    let length = random.between(4, 40);
    let syntax = random.one_in(2);
    let labels = [random_label(random), random_label(random)];
    let single = random.one_in(2);
    let mut muxer = Muxer {
        random,
        syntax,
        left: Vec::new(),
        labels,
        single,
    };
    let mut packets: Vec<_> = (0..length).map(|_| muxer.next()).collect();
    if random.one_in(2) {
        damage(random, &mut packets);
    }
    packets
}

/// A few of: a bit turned over, a byte changed near the front, a packet lost, doubled, moved, cut, without its 0x47.
fn damage(random: &mut Random, packets: &mut Vec<Vec<u8>>) {
    for _ in 0..random.between(1, 6) {
        let index = random.below(packets.len());
        match random.below(12) {
            0..=3 => {
                let bit = random.between(8, 188 * 8 - 1);
                if let Some(byte) = packets[index].get_mut(bit / 8) {
                    *byte ^= 1 << (bit % 8);
                }
            }
            4 | 5 => {
                let at = random.between(1, 14);
                let byte = random.byte();
                if let Some(place) = packets[index].get_mut(at) {
                    *place = byte;
                }
            }
            6 | 7 if packets.len() > 1 => {
                packets.remove(index);
            }
            8 => packets.insert(index, packets[index].clone()),
            9 => {
                let other = random.below(packets.len());
                packets.swap(index, other);
            }
            10 => {
                let size = random.pick(&[0, 1, 4, 187, 189, 204]);
                packets[index].resize(size, 0xFF);
            }
            _ => {
                let byte = random.byte();
                if let Some(first) = packets[index].first_mut() {
                    *first = byte;
                }
            }
        }
    }
}

/// A packet whose adaptation field's parts end near the field's end.
pub fn field_packet(random: &mut Random) -> Vec<u8> {
    let mut packet = random.bytes(PACKET_BYTES);
    packet[0] = 0x47;
    if random.one_in(4) {
        return packet;
    }
    let (length, control) = match random.below(8) {
        0 => (183, 0b10),
        1 => (random.pick(&[0, 1, 181, 182, 183, 184, 255]), 0b11),
        _ => (random.between(1, 24), 0b11),
    };
    packet[3] = (packet[3] & 0xCF) | control << 4;
    packet[4] = length as u8;
    // the private data's length byte, near what is left of the field
    let flags = packet[5];
    let parts = [(0x10, 6), (0x08, 6), (0x04, 1)];
    let before = parts.iter().filter(|(bit, _)| flags & bit != 0);
    let at = 1 + before.map(|(_, size)| size).sum::<usize>();
    let left = (length + random.below(4)).saturating_sub(at + 2);
    if !random.one_in(4) {
        packet[5 + at] = left as u8;
    }
    if random.one_in(50) {
        packet.truncate(random.below(PACKET_BYTES));
    } else if random.one_in(50) {
        packet[0] = random.byte();
    }
    packet
}

/// A section, mostly short, sometimes sealed.
pub fn any_section(random: &mut Random) -> Vec<u8> {
    let size = match random.below(4) {
        0 => random.between(0, 13),
        1 => random.between(0, 64),
        2 => random.pick(&SIZES),
        _ => random.between(0, 1100),
    };
    let mut bytes = random.bytes(size);
    if (12..=1024).contains(&size) && random.one_in(3) {
        let wish = Wish {
            syntax: true,
            size,
            label: Label {
                table_id: random.byte(),
                id: random.number() as u16,
                version: random.byte() & 31,
                current: random.one_in(2),
                number: random.byte(),
            },
            sealed: true,
        };
        seal(&mut bytes, wish);
    }
    bytes
}

/// Positions of a walk: within the body, at its end, beyond it, and where a sum of them would wrap.
pub fn positions(random: &mut Random, body: &[u8]) -> [usize; 5] {
    let far = [usize::MAX, usize::MAX - 3, usize::MAX - 4, 1 << 63, 1 << 32];
    [
        random.below(body.len() + 1),
        random.below(body.len() + 1),
        (body.len() + random.below(7)).saturating_sub(5),
        body.len() + 1 + random.below(9),
        random.pick(&far),
    ]
}

pub fn pat_body(random: &mut Random) -> Vec<u8> {
    let size = match random.below(3) {
        0 => random.between(0, 9),
        1 => random.between(0, 60),
        _ => random.between(0, 1012),
    };
    let mut bytes = random.bytes(size);
    for entry in bytes.chunks_mut(4) {
        if random.one_in(5) {
            entry.iter_mut().take(2).for_each(|byte| *byte = 0);
        }
    }
    bytes
}

/// A length of 12 bits, mostly near what is left.
fn length_near(random: &mut Random, left: usize) -> usize {
    match random.below(8) {
        0..=3 => random.below(left.min(40) + 1),
        4 => left,
        5 => left + 1,
        6 => left.saturating_sub(random.below(6)),
        _ => random.below(4096),
    }
}

/// Descriptors, mostly well made, of this many bytes.
fn descriptors(random: &mut Random, size: usize) -> Vec<u8> {
    let mut bytes = random.bytes(size);
    let mut at = 0;
    while at + 2 <= size {
        let length = random.below((size - at).min(12));
        if !random.one_in(8) {
            bytes[at + 1] = length as u8;
        }
        at += 2 + usize::from(bytes[at + 1]);
    }
    bytes
}

pub fn pmt_body(random: &mut Random) -> Vec<u8> {
    let size = match random.below(6) {
        0 => random.between(0, 9),
        1..=3 => random.between(4, 80),
        _ => random.between(4, 1012),
    };
    let mut bytes = random.bytes(size);
    if size < 4 || random.one_in(10) {
        return bytes;
    }
    let reserved = bytes[2] & 0xF0;
    let length = length_near(random, size - 4);
    bytes[2] = reserved | (length >> 8) as u8;
    bytes[3] = length as u8;
    let mut at = 4;
    fill_loop(random, &mut bytes, at, length);
    at += length;
    while at + 5 <= size {
        let length = length_near(random, size - at - 5);
        bytes[at + 3] = (bytes[at + 3] & 0xF0) | (length >> 8) as u8;
        bytes[at + 4] = length as u8;
        fill_loop(random, &mut bytes, at + 5, length);
        at += 5 + length;
    }
    bytes
}

fn fill_loop(random: &mut Random, bytes: &mut [u8], at: usize, length: usize) {
    if at + length <= bytes.len() {
        let made = descriptors(random, length);
        bytes[at..at + length].copy_from_slice(&made);
    }
}

/// A state, sound in about half of the cases and otherwise mostly wrong in one number.
pub fn state(random: &mut Random) -> State {
    let form = random.below(3) as u8;
    let least = if form == COMPACT { 3 } else { 8 };
    let mut state = State {
        form,
        ..State::default()
    };
    if random.one_in(2) {
        let wanted = random.pick(&[least + 1, least + 2, 12, 16, 183, 300, 1023, 1024]);
        state.is_open = 1;
        state.wanted = wanted as u16;
        state.held = random.between(least, wanted - 1) as u16;
    }
    match random.below(20) {
        0 => state.form = random.pick(&[3, 4, 127, 255]),
        1 => state.is_open = random.pick(&[0, 1, 2, 3, 255]),
        2 => state.held = random.pick(&[0, 1, 2, 3, 7, 8, 1023, 1024, 65535]),
        3 => state.wanted = random.pick(&[0, 1, 3, 4, 8, 9, 1024, 1025, 65535]),
        4 => state.held = state.wanted,
        5 => state.held = state.held.wrapping_sub(1),
        6 => state.form = random.below(3) as u8,
        7 => {
            state.is_open = random.byte() & 1;
            state.held = random.number() as u16;
            state.wanted = random.number() as u16;
        }
        8 => state.reserved = random.pick(&[1, 2, 255, 256, 32768, 65535]),
        _ => {}
    }
    state
}

/// The words beside a state: mostly none, or those of a few sections of one table; some wrong in one word, or in their count.
pub fn memory(random: &mut Random, form: u8) -> Vec<u64> {
    let mut memory = NONE;
    if random.one_in(2) {
        memory = random_label(random).memory();
        for _ in 0..random.below(3) {
            mark(&mut memory, random.pick(&NUMBERS));
        }
    }
    match random.below(16) {
        0 => memory[0] = random.pick(&[0, 0xFF, 0xFFFF << 8, 1 << 24, 31 << 25, 32 << 25]),
        1 => memory[0] = random.pick(&[(1 << 30) - 1, 1 << 30, 1 << 33, 1 << 63, u64::MAX]),
        2 => memory[0] ^= 1 << random.below(30),
        3 => memory[0] |= 1 << random.between(30, 63),
        4 => memory[1..].fill(0),
        5 => memory[1..].fill(u64::MAX),
        _ => {}
    }
    let count = match random.below(16) {
        0 => random.pick(&[0, 1, 4, 5, 6, 8]),
        _ => words(form),
    };
    let mut memory = memory.to_vec();
    memory.resize(count, 0);
    memory
}

/// A place, mostly near the ends of packet and buffer.
pub fn place(random: &mut Random) -> Place {
    let edges = [0, 1, 5, 187, 188, 189, 1023, 1024, 1025, 65535];
    Place {
        holder: random.pick(&[0, 1, 1, 1, 2, 2, 2, 3, 255]),
        start: random.pick(&edges),
        length: match random.below(3) {
            0 => random.pick(&edges),
            1 => random.number() as u16,
            _ => random.below(200) as u16,
        },
    }
}
