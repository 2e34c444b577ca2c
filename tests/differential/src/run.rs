//! The stages of a run: everything that can be gone through whole, then random inputs.

use crate::answers::*;
use crate::compare::{differ, Comparison, CRATE};
use crate::gathering::{sequence, smallest, Reading};
use crate::inputs;
use crate::random::Random;
use crate::random_inputs;
use crate::report::*;
use crate::rust_crate::panics;

/// How much of everything.
#[derive(Clone, Copy)]
pub struct Amount {
    pub seed: u64,
    /// random packets, each worked by a reader of every form
    pub packets: u64,
    /// random inputs of the calls that only read
    pub cases: u64,
    /// the length of the sequences of awkward packets
    pub depth: usize,
    /// whether everything else that can be gone through whole is
    pub whole: bool,
}

pub fn run(comparison: &mut Comparison<'_>, amount: Amount, say: &dyn Fn(&str)) -> Outcome {
    say("panics of the crate where document 01 answers");
    panics(comparison)?;
    say("sizes and first bytes");
    sizes(comparison)?;
    say("memories that are not sound");
    memories(comparison)?;
    if amount.whole {
        say("all header bytes");
        headers(comparison)?;
        say("all controls, length bytes and flags");
        adaptation_fields(comparison, amount.seed)?;
        say("all short inputs of CRC, headers and walks");
        short_sections(comparison, amount.seed)?;
        say("all controls, length bytes and pointers, worked");
        pointers(comparison)?;
        say("all section lengths, worked");
        section_lengths(comparison)?;
        say("ONCE: all pairs of versions and of numbers, all ids, worked");
        labels(comparison)?;
    }
    say("sequences of copies");
    sequences(comparison, ONCE, &inputs::copies(), amount.depth)?;
    say("sequences of awkward packets");
    for (form, _) in FORMS {
        sequences(comparison, form, &inputs::awkward(form), amount.depth)?;
    }
    say("random fields, sections, walks and states");
    cases(comparison, amount)?;
    say("random streams");
    streams(comparison, amount)?;
    say("all pairs of counters");
    counters(comparison)
}

/// All sequences of the packets up to a length. The port's and the model's positions are kept; the crate's is reached by feeding it the beginning
/// again.
fn sequences(
    comparison: &mut Comparison<'_>,
    form: u8,
    packets: &[Vec<u8>],
    depth: usize,
) -> Outcome {
    let mut reading = Reading::fresh(comparison, form);
    let mut chosen = Vec::new();
    longer_sequences(comparison, packets, &mut reading, &mut chosen, depth)
}

fn longer_sequences(
    comparison: &mut Comparison<'_>,
    packets: &[Vec<u8>],
    reading: &mut Reading,
    chosen: &mut Vec<usize>,
    depth: usize,
) -> Outcome {
    let from = reading.position.clone();
    let fed: Vec<&[u8]> = chosen.iter().map(|index| &packets[*index][..]).collect();
    for index in 0..packets.len() {
        reading.back_at(comparison, &from, &fed);
        chosen.push(index);
        if let Err(difference) = reading.work(comparison, &packets[index]) {
            let sequence = chosen.iter().map(|index| packets[*index].clone());
            return Err(smallest(
                comparison,
                reading.form,
                sequence.collect(),
                difference,
            ));
        }
        if chosen.len() < depth {
            longer_sequences(comparison, packets, reading, chosen, depth)?;
        }
        chosen.pop();
    }
    Ok(())
}

/// Every control, length byte, unit start and pointer byte, to a fresh reader and to one with an open section.
fn pointers(comparison: &mut Comparison<'_>) -> Outcome {
    for (form, _) in FORMS {
        let wish = inputs::Wish {
            syntax: form != COMPACT,
            size: 40,
            label: inputs::FIRST,
            sealed: true,
        };
        let section = inputs::section(wish, 0);
        let opening = inputs::packet(true, &[&[0], &section[..10]].concat());
        for control_and_start in 0..8u8 {
            let (control, unit_start) = (control_and_start & 3, control_and_start > 3);
            for length in 0..=255 {
                let mut packet = inputs::controlled(unit_start, control, length);
                let start = comparison.model.payload(&packet);
                let pointers = if start.answer == 0 && unit_start {
                    255
                } else {
                    0
                };
                for pointer in 0..=pointers {
                    if start.answer == 0 {
                        lay(&mut packet[start.start..], pointer, &section);
                    }
                    sequence(comparison, form, &[&packet])?;
                    sequence(comparison, form, &[&opening, &packet])?;
                }
            }
        }
    }
    Ok(())
}

/// A pointer byte, the end of the section before the pointer's target and its beginning from there on, as far as there is room.
fn lay(payload: &mut [u8], pointer: u8, section: &[u8]) {
    let (first, rest) = payload.split_at_mut(1);
    first[0] = pointer;
    let target = usize::from(pointer).min(rest.len());
    let (tail, head) = rest.split_at_mut(target);
    tail.iter_mut()
        .zip(&section[10..])
        .for_each(|(to, from)| *to = *from);
    head.iter_mut()
        .zip(section)
        .for_each(|(to, from)| *to = *from);
}

/// Every section_length, with few and with many bytes in the first packet, until the section is whole and one packet beyond.
fn section_lengths(comparison: &mut Comparison<'_>) -> Outcome {
    for (form, _) in FORMS {
        for length in 0..4096 {
            let wish = inputs::Wish {
                syntax: form != COMPACT,
                size: 3 + length,
                label: inputs::Label {
                    version: (length % 32) as u8,
                    ..inputs::FIRST
                },
                sealed: length % 8 != 7,
            };
            let section = inputs::section(wish, length as u8);
            for first in [3, 8, 11, 12, 183] {
                let size = first.min(section.len());
                let start = inputs::packet(true, &[&[0], &section[..size]].concat());
                let mut packets = vec![start];
                if length <= 1021 {
                    let later = section[size..].chunks(184);
                    packets.extend(later.map(|part| inputs::packet(false, part)));
                }
                packets.push(inputs::packet(false, &[0x47; 184]));
                sequence(comparison, form, &packets)?;
            }
        }
    }
    Ok(())
}

/// ONCE: every remembered version and number beside every one that comes, each version again after each kind of refusal, and every table id and id
/// beside one other.
fn labels(comparison: &mut Comparison<'_>) -> Outcome {
    let label = inputs::FIRST;
    let between = inputs::awkward(ONCE);
    for first in 0..32 {
        let first = inputs::Label {
            version: first,
            ..label
        };
        for version in 0..32 {
            for current in [false, true] {
                let second = inputs::Label {
                    version,
                    current,
                    ..label
                };
                repeated(comparison, first, second)?;
            }
        }
        for packet in &between {
            let whole = inputs::whole(first);
            sequence(comparison, ONCE, &[&whole, packet, &whole])?;
        }
    }
    for first in 0..=255 {
        let first = inputs::Label {
            number: first,
            ..label
        };
        for number in 0..=255 {
            repeated(comparison, first, inputs::Label { number, ..label })?;
        }
        repeated(
            comparison,
            label,
            inputs::Label {
                table_id: first.number,
                ..label
            },
        )?;
    }
    for id in 0..=65535 {
        repeated(comparison, label, inputs::Label { id, ..label })?;
    }
    Ok(())
}

/// Both, and both again.
fn repeated(
    comparison: &mut Comparison<'_>,
    first: inputs::Label,
    second: inputs::Label,
) -> Outcome {
    let (first, second) = (inputs::whole(first), inputs::whole(second));
    sequence(comparison, ONCE, &[&first, &second, &first, &second])
}

fn headers(comparison: &mut Comparison<'_>) -> Outcome {
    let mut packet = [0; PACKET_BYTES];
    packet[0] = 0x47;
    for number in 0..1u32 << 24 {
        packet[1..4].copy_from_slice(&number.to_be_bytes()[1..]);
        comparison.header(&packet)?;
    }
    Ok(())
}

fn adaptation_fields(comparison: &mut Comparison<'_>, seed: u64) -> Outcome {
    let mut random = Random::new(seed ^ 1);
    let mut packet = random.bytes(PACKET_BYTES);
    packet[0] = 0x47;
    for control in 0..4 {
        for length in 0..=255 {
            random.fill(&mut packet[6..]);
            for flags in 0..=255 {
                packet[3] = control << 4;
                packet[4] = length;
                packet[5] = flags;
                // a private data length that may fit the field
                packet[6 + random.below(14)] = random.byte() & 15;
                comparison.fields(&packet)?;
            }
        }
    }
    Ok(())
}

fn short_sections(comparison: &mut Comparison<'_>, seed: u64) -> Outcome {
    let mut random = Random::new(seed ^ 2);
    for number in 0..=0xFFFFu16 {
        let bytes = number.to_be_bytes();
        comparison.section(&bytes)?;
        comparison.section(&[&[bytes[0] ^ bytes[1]], &bytes[..]].concat())?;
        comparison.section(&[&[0, 0xB0, 13, bytes[0], bytes[1]][..], &bytes, &bytes].concat())?;
        comparison.pat(&[&bytes[..], &bytes].concat(), &[])?;
        // the PMT's own loop, then a stream's
        let start = [0xE1, bytes[1], bytes[0], bytes[1]];
        comparison.pmt(&[&start[..], &random.bytes(40)].concat(), &[])?;
        let stream = [
            0xE1, 0x00, 0xF0, 0x00, bytes[0], bytes[1], 0xE1, bytes[0], bytes[1],
        ];
        comparison.pmt(&[&stream[..], &random.bytes(40)].concat(), &[4])?;
    }
    for length in 0..=40 {
        let bytes = random.bytes(length);
        let mut positions: Vec<_> = (0..=length + 6).collect();
        positions.push(usize::MAX);
        comparison.section(&bytes)?;
        comparison.pat(&bytes, &positions)?;
        comparison.pmt(&bytes, &positions)?;
    }
    Ok(())
}

fn counters(comparison: &mut Comparison<'_>) -> Outcome {
    for counter in 0..=255 {
        for other in 0..=255 {
            comparison.follows(counter, other)?;
        }
    }
    Ok(())
}

/// Packets of every size up to 400 and with every first byte, to the calls that only read and to the steps; buffers of other sizes; forms
/// that are none.
fn sizes(comparison: &mut Comparison<'_>) -> Outcome {
    let packet = inputs::packet(true, &[0; 184]);
    let buffer = [0x11; 1030];
    let mut others: Vec<Vec<u8>> = Vec::new();
    for size in (0..=400).filter(|size| *size != PACKET_BYTES) {
        let mut other = packet.clone();
        other.resize(size, 0xFF);
        others.push(other);
    }
    for first in (0..=255).filter(|first| *first != 0x47) {
        let mut other = packet.clone();
        other[0] = first;
        others.push(other);
    }
    for other in &others {
        comparison.fields(other)?;
        for (form, _) in FORMS {
            let state = comparison.model.fresh(form);
            let memory = &NONE[..words(form)];
            comparison.steps_from(state, memory, other, &buffer[..1024])?;
            comparison.steps_from(state, memory, other, &buffer[..1023])?;
        }
    }
    for form in 0..=255 {
        let state = comparison.model.fresh(form);
        let memory = &NONE[..words(form)];
        comparison.states(form, state, memory)?;
        for size in [0, 1, 1023, 1024, 1025, 1030] {
            comparison.steps_from(state, memory, &packet, &buffer[..size])?;
        }
        for (control, length) in [(0, 0), (2, 183), (3, 183), (3, 184)] {
            let without = inputs::controlled(true, control, length);
            comparison.steps_from(state, memory, &without, &buffer[..1024])?;
        }
    }
    Ok(())
}

/// Every count of words up to 16 for every form. Each word with one bit alone, with one bit changed, with all below a bit and with all from it on; and
/// each version of eight bits beside the other numbers: each number at its limit, and above.
fn memories(comparison: &mut Comparison<'_>) -> Outcome {
    let once = inputs::FIRST.memory();
    for (form, _) in FORMS {
        for count in 0..=16 {
            any_words(comparison, form, &vec![0; count])?;
            let many: Vec<u64> = once.iter().copied().cycle().take(count).collect();
            any_words(comparison, form, &many)?;
        }
    }
    for memory in [NONE, once, inputs::MOST.memory()] {
        for word in 0..NONE.len() {
            for bit in 0..64 {
                let one: u64 = 1 << bit;
                for number in [one, memory[word] ^ one, one - 1, !(one - 1)] {
                    let mut memory = memory;
                    memory[word] = number;
                    any_words(comparison, ONCE, &memory)?;
                }
            }
        }
        for version in 0..=255 {
            let mut memory = memory;
            memory[0] = memory[0] & 0x1FF_FFFF | version << 25;
            any_words(comparison, ONCE, &memory)?;
        }
    }
    Ok(())
}

/// A reader of the form with these words, and packets that deliver, repeat, forget and have no payload.
fn any_words(comparison: &mut Comparison<'_>, form: u8, memory: &[u64]) -> Outcome {
    let state = comparison.model.fresh(form);
    comparison.states(form, state, memory)?;
    let label = inputs::FIRST;
    let packets = [
        inputs::whole(label),
        inputs::whole(inputs::Label {
            number: 65,
            ..label
        }),
        inputs::whole(inputs::MOST),
        inputs::packet(true, &[5]),
        inputs::controlled(true, 0, 0),
    ];
    for packet in &packets {
        comparison.steps_from(state, memory, packet, &[0x11; BUFFER_BYTES])?;
    }
    Ok(())
}

/// The crate panics exactly where document 01 answers 3, 4, or refuses a short header; `try_new` gives no packet for 4.
fn panics(comparison: &Comparison<'_>) -> Outcome {
    if !comparison.beside_crate {
        return Ok(());
    }
    for size in 0..=400 {
        let bytes = vec![0x47; size];
        let not_188 = size != PACKET_BYTES;
        listed("Packet::new", size, not_188, panics::packet_new(&bytes))?;
        let try_new = panics::packet_try_new(&bytes) == Some(true);
        listed("Packet::try_new", size, not_188, try_new)?;
        let header = panics::section_header(&bytes);
        listed("SectionCommonHeader::new", size, size != 3, header)?;
        let header = panics::table_header(&bytes);
        listed("TableSyntaxHeader::new", size, size < 5, header)?;
    }
    let mut bytes = [0; PACKET_BYTES];
    for first in 0..=255 {
        bytes[0] = first;
        let (number, other) = (usize::from(first), first != 0x47);
        let new = panics::packet_new(&bytes);
        listed("Packet::new, first byte", number, other, new)?;
        let none = panics::packet_try_new(&bytes) == Some(false);
        listed(
            "Packet::try_new without a packet, first byte",
            number,
            other,
            none,
        )?;
    }
    Ok(())
}

fn listed(what: &str, number: usize, expected: bool, found: bool) -> Outcome {
    if expected == found {
        return Ok(());
    }
    let what = format!("{what}, {number}");
    Err(differ(&what, ("listed", expected), (CRATE, found)))
}

fn cases(comparison: &mut Comparison<'_>, amount: Amount) -> Outcome {
    let mut random = Random::new(amount.seed);
    for number in 0..amount.cases {
        match number % 8 {
            0..=2 => comparison.fields(&random_inputs::field_packet(&mut random))?,
            3 => comparison.section(&random_inputs::any_section(&mut random))?,
            4 => {
                let body = random_inputs::pat_body(&mut random);
                let positions = random_inputs::positions(&mut random, &body);
                comparison.pat(&body, &positions)?;
            }
            5 | 6 => {
                let body = random_inputs::pmt_body(&mut random);
                let positions = random_inputs::positions(&mut random, &body);
                comparison.pmt(&body, &positions)?;
            }
            _ => any_state(comparison, &mut random)?,
        }
    }
    Ok(())
}

/// A state, a step from it with words, a packet and a buffer that may have any size, and a place.
fn any_state(comparison: &mut Comparison<'_>, random: &mut Random) -> Outcome {
    let state = random_inputs::state(random);
    let memory = random_inputs::memory(random, state.form);
    comparison.states(state.form, state, &memory)?;
    let packets = random_inputs::stream(random);
    let packet = &packets[random.below(packets.len())];
    let size = if random.one_in(10) {
        random.pick(&[0, 1, 188, 1023, 1025, 2048])
    } else {
        BUFFER_BYTES
    };
    let buffer = random.bytes(size);
    comparison.steps_from(state, &memory, packet, &buffer)?;
    let place = random_inputs::place(random);
    let answer = random.pick(&[2, 2, 2, 0, 1, 16, 17, 255]);
    comparison.delivered(packet, &buffer, answer, place)
}

/// Random streams, each read by all three forms.
fn streams(comparison: &mut Comparison<'_>, amount: Amount) -> Outcome {
    let mut random = Random::new(amount.seed.wrapping_add(0x5EED));
    let mut made = 0;
    while made < amount.packets {
        let packets = random_inputs::stream(&mut random);
        made += packets.len() as u64;
        for (form, _) in FORMS {
            sequence(comparison, form, &packets)?;
        }
    }
    Ok(())
}
