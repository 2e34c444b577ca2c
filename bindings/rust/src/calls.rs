//! The library's calls with slices for pointers and lengths: all of the crate's unsafe code.
//!
//! What a call needs is that each pointer lends as many bytes, or words, as its length says, and that nothing else writes them
//! meanwhile; with length 0 the pointer is not used. A slice is that: `&[u8]` lends bytes that nobody writes, `&mut [u8]`
//! bytes that only the call writes and that overlap no other slice.
use crate::ffi::*;

pub fn header(packet: &[u8]) -> JambpepperHeader {
    // SAFETY: a slice lends its bytes.
    unsafe { jambpepper_header(packet.as_ptr(), packet.len()) }
}

pub fn payload(packet: &[u8]) -> JambpepperPayload {
    // SAFETY: a slice lends its bytes.
    unsafe { jambpepper_payload(packet.as_ptr(), packet.len()) }
}

pub fn adaptation_field(packet: &[u8]) -> JambpepperAdaptationField {
    // SAFETY: a slice lends its bytes.
    unsafe { jambpepper_adaptation_field(packet.as_ptr(), packet.len()) }
}

pub fn pcr(packet: &[u8]) -> JambpepperClock {
    // SAFETY: a slice lends its bytes.
    unsafe { jambpepper_pcr(packet.as_ptr(), packet.len()) }
}

pub fn opcr(packet: &[u8]) -> JambpepperClock {
    // SAFETY: a slice lends its bytes.
    unsafe { jambpepper_opcr(packet.as_ptr(), packet.len()) }
}

pub fn splice_countdown(packet: &[u8]) -> JambpepperSpliceCountdown {
    // SAFETY: a slice lends its bytes.
    unsafe { jambpepper_splice_countdown(packet.as_ptr(), packet.len()) }
}

pub fn transport_private_data(packet: &[u8]) -> JambpepperPart {
    // SAFETY: a slice lends its bytes.
    unsafe { jambpepper_transport_private_data(packet.as_ptr(), packet.len()) }
}

pub fn section_header(section: &[u8]) -> JambpepperSectionHeader {
    // SAFETY: a slice lends its bytes.
    unsafe { jambpepper_section_header(section.as_ptr(), section.len()) }
}

pub fn table_header(section: &[u8]) -> JambpepperTableHeader {
    // SAFETY: a slice lends its bytes.
    unsafe { jambpepper_table_header(section.as_ptr(), section.len()) }
}

pub fn body(section: &[u8]) -> JambpepperPart {
    // SAFETY: a slice lends its bytes.
    unsafe { jambpepper_body(section.as_ptr(), section.len()) }
}

pub fn sum32(data: &[u8]) -> u32 {
    // SAFETY: a slice lends its bytes.
    unsafe { jambpepper_sum32(data.as_ptr(), data.len()) }
}

pub fn pmt_start(body: &[u8]) -> JambpepperPmt {
    // SAFETY: a slice lends its bytes.
    unsafe { jambpepper_pmt_start(body.as_ptr(), body.len()) }
}

pub fn program_at(body: &[u8], position: usize) -> JambpepperProgram {
    // SAFETY: a slice lends its bytes; any position may be asked for.
    unsafe { jambpepper_program_at(body.as_ptr(), body.len(), position) }
}

pub fn stream_at(body: &[u8], position: usize) -> JambpepperStream {
    // SAFETY: a slice lends its bytes; any position may be asked for.
    unsafe { jambpepper_stream_at(body.as_ptr(), body.len(), position) }
}

pub fn counter_follows(counter: u8, other: u8) -> u8 {
    // SAFETY: numbers alone, and any may be handed in.
    unsafe { jambpepper_counter_follows(counter, other) }
}

pub fn fresh(form: u8) -> JambpepperReader {
    // SAFETY: numbers alone, and any may be handed in.
    unsafe { jambpepper_fresh(form) }
}

pub fn is_sound(reader: JambpepperReader, memory: &[u64]) -> u8 {
    // SAFETY: a slice lends its words; any state may be handed in.
    unsafe { jambpepper_is_sound(reader, memory.as_ptr(), memory.len()) }
}

pub fn tail(
    reader: JambpepperReader,
    memory: &mut [u64],
    packet: &[u8],
    buffer: &mut [u8],
) -> JambpepperStep {
    // SAFETY: slices lend their words and bytes, the memory's and the buffer's to be written; any state may be handed in.
    unsafe {
        jambpepper_tail(
            reader,
            memory.as_mut_ptr(),
            memory.len(),
            packet.as_ptr(),
            packet.len(),
            buffer.as_mut_ptr(),
            buffer.len(),
        )
    }
}

pub fn head(
    reader: JambpepperReader,
    memory: &mut [u64],
    packet: &[u8],
    buffer: &mut [u8],
) -> JambpepperStep {
    // SAFETY: slices lend their words and bytes, the memory's and the buffer's to be written; any state may be handed in.
    unsafe {
        jambpepper_head(
            reader,
            memory.as_mut_ptr(),
            memory.len(),
            packet.as_ptr(),
            packet.len(),
            buffer.as_mut_ptr(),
            buffer.len(),
        )
    }
}

pub fn section(
    packet: &[u8],
    buffer: &[u8],
    answer: u8,
    place: JambpepperPlace,
) -> JambpepperPlace {
    // SAFETY: slices lend their bytes; any answer and place may be handed in.
    unsafe {
        jambpepper_section(
            packet.as_ptr(),
            packet.len(),
            buffer.as_ptr(),
            buffer.len(),
            answer,
            place,
        )
    }
}
