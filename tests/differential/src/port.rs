//! The port, through its C face. Only the fields' names change here.

use crate::answers::*;
use jambpepper::ffi;
use std::ptr::{null, null_mut};

pub struct Port;

fn reader(state: State) -> ffi::JambpepperReader {
    ffi::JambpepperReader {
        form: state.form,
        is_open: state.is_open,
        held: state.held,
        wanted: state.wanted,
        reserved: state.reserved,
    }
}

fn state(reader: ffi::JambpepperReader) -> State {
    State {
        form: reader.form,
        is_open: reader.is_open,
        held: reader.held,
        wanted: reader.wanted,
        reserved: reader.reserved,
    }
}

/// "Null and 0" where no words are lent.
fn lent(memory: &mut [u64]) -> *mut u64 {
    match memory {
        [] => null_mut(),
        words => words.as_mut_ptr(),
    }
}

fn place(place: ffi::JambpepperPlace) -> Place {
    Place {
        holder: place.holder,
        start: place.start,
        length: place.length,
    }
}

fn step(step: ffi::JambpepperStep) -> Step {
    Step {
        answer: step.answer,
        state: state(step.reader),
        place: place(step.place),
    }
}

fn clock(clock: ffi::JambpepperClock) -> Clock {
    Clock {
        answer: clock.answer,
        base: clock.base,
        extension: clock.extension,
    }
}

fn part(part: ffi::JambpepperPart) -> Part {
    Part {
        answer: part.answer,
        start: part.start,
        length: part.length,
    }
}

// In every call below a slice lends its own bytes or words, and neither memory nor buffer overlaps another.
impl Calls for Port {
    fn header(&self, packet: &[u8]) -> Header {
        let header = unsafe { ffi::jambpepper_header(packet.as_ptr(), packet.len()) };
        Header {
            answer: header.answer,
            error: header.transport_error_indicator,
            unit_start: header.payload_unit_start_indicator,
            priority: header.transport_priority,
            pid: header.pid,
            scrambling: header.transport_scrambling_control,
            control: header.adaptation_field_control,
            counter: header.continuity_counter,
        }
    }

    fn payload(&self, packet: &[u8]) -> Payload {
        let payload = unsafe { ffi::jambpepper_payload(packet.as_ptr(), packet.len()) };
        Payload {
            answer: payload.answer,
            start: payload.start,
        }
    }

    fn follows(&self, counter: u8, other: u8) -> u8 {
        unsafe { ffi::jambpepper_counter_follows(counter, other) }
    }

    fn adaptation(&self, packet: &[u8]) -> Adaptation {
        let field = unsafe { ffi::jambpepper_adaptation_field(packet.as_ptr(), packet.len()) };
        Adaptation {
            answer: field.answer,
            length: field.adaptation_field_length,
            flags: [
                field.discontinuity_indicator,
                field.random_access_indicator,
                field.elementary_stream_priority_indicator,
                field.pcr_flag,
                field.opcr_flag,
                field.splicing_point_flag,
                field.transport_private_data_flag,
                field.adaptation_field_extension_flag,
            ],
        }
    }

    fn pcr(&self, packet: &[u8]) -> Clock {
        clock(unsafe { ffi::jambpepper_pcr(packet.as_ptr(), packet.len()) })
    }

    fn opcr(&self, packet: &[u8]) -> Clock {
        clock(unsafe { ffi::jambpepper_opcr(packet.as_ptr(), packet.len()) })
    }

    fn splice(&self, packet: &[u8]) -> Splice {
        let splice = unsafe { ffi::jambpepper_splice_countdown(packet.as_ptr(), packet.len()) };
        Splice {
            answer: splice.answer,
            countdown: splice.splice_countdown,
        }
    }

    fn private_data(&self, packet: &[u8]) -> Part {
        part(unsafe { ffi::jambpepper_transport_private_data(packet.as_ptr(), packet.len()) })
    }

    fn section_header(&self, section: &[u8]) -> SectionHeader {
        let header = unsafe { ffi::jambpepper_section_header(section.as_ptr(), section.len()) };
        SectionHeader {
            answer: header.answer,
            table_id: header.table_id,
            syntax: header.section_syntax_indicator,
            private: header.private_indicator,
            length: header.section_length,
        }
    }

    fn table_header(&self, section: &[u8]) -> TableHeader {
        let header = unsafe { ffi::jambpepper_table_header(section.as_ptr(), section.len()) };
        TableHeader {
            answer: header.answer,
            id: header.id,
            version: header.version,
            current: header.current_next_indicator,
            number: header.section_number,
            last: header.last_section_number,
        }
    }

    fn body(&self, section: &[u8]) -> Part {
        part(unsafe { ffi::jambpepper_body(section.as_ptr(), section.len()) })
    }

    fn crc(&self, bytes: &[u8]) -> u32 {
        unsafe { ffi::jambpepper_sum32(bytes.as_ptr(), bytes.len()) }
    }

    fn program_at(&self, body: &[u8], position: usize) -> Program {
        let program = unsafe { ffi::jambpepper_program_at(body.as_ptr(), body.len(), position) };
        Program {
            answer: program.answer,
            number: program.program_number,
            pid: program.pid,
            next: program.next,
            offset: program.offset,
        }
    }

    fn pmt_start(&self, body: &[u8]) -> Pmt {
        let pmt = unsafe { ffi::jambpepper_pmt_start(body.as_ptr(), body.len()) };
        Pmt {
            answer: pmt.answer,
            needed: pmt.needed,
            actual: pmt.actual,
            pcr_pid: pmt.pcr_pid,
            descriptors_start: pmt.descriptors_start,
            descriptors_length: pmt.descriptors_length,
            streams: pmt.streams,
        }
    }

    fn stream_at(&self, body: &[u8], position: usize) -> Stream {
        let stream = unsafe { ffi::jambpepper_stream_at(body.as_ptr(), body.len(), position) };
        Stream {
            answer: stream.answer,
            stream_type: stream.stream_type,
            pid: stream.elementary_pid,
            info_start: stream.info_start,
            info_length: stream.info_length,
            next: stream.next,
            offset: stream.offset,
        }
    }

    fn fresh(&self, form: u8) -> State {
        state(unsafe { ffi::jambpepper_fresh(form) })
    }

    fn is_sound(&self, state: State, memory: &[u64]) -> u8 {
        let words = match memory {
            [] => null(),
            words => words.as_ptr(),
        };
        unsafe { ffi::jambpepper_is_sound(reader(state), words, memory.len()) }
    }

    fn tail(&self, state: State, memory: &mut [u64], packet: &[u8], buffer: &mut [u8]) -> Step {
        step(unsafe {
            ffi::jambpepper_tail(
                reader(state),
                lent(memory),
                memory.len(),
                packet.as_ptr(),
                packet.len(),
                buffer.as_mut_ptr(),
                buffer.len(),
            )
        })
    }

    fn head(&self, state: State, memory: &mut [u64], packet: &[u8], buffer: &mut [u8]) -> Step {
        step(unsafe {
            ffi::jambpepper_head(
                reader(state),
                lent(memory),
                memory.len(),
                packet.as_ptr(),
                packet.len(),
                buffer.as_mut_ptr(),
                buffer.len(),
            )
        })
    }

    fn section(&self, packet: &[u8], buffer: &[u8], answer: u8, given: Place) -> Place {
        let given = ffi::JambpepperPlace {
            holder: given.holder,
            start: given.start,
            length: given.length,
        };
        place(unsafe {
            ffi::jambpepper_section(
                packet.as_ptr(),
                packet.len(),
                buffer.as_ptr(),
                buffer.len(),
                answer,
                given,
            )
        })
    }
}
