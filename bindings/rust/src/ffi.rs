//! include/jambpepper.h, declaration by declaration: the header says what each is.
//!
//! The functions are unsafe because a pointer and a length must lend that many bytes or words; the crate's own functions see to that.

#[repr(C)]
#[derive(Clone, Copy, Debug, Default, PartialEq, Eq)]
pub struct JambpepperHeader {
    pub pid: u16,
    pub transport_error_indicator: u8,
    pub payload_unit_start_indicator: u8,
    pub transport_priority: u8,
    pub transport_scrambling_control: u8,
    pub adaptation_field_control: u8,
    pub continuity_counter: u8,
    pub answer: u8,
}

#[repr(C)]
#[derive(Clone, Copy, Debug, Default, PartialEq, Eq)]
pub struct JambpepperPayload {
    pub start: usize,
    pub answer: u8,
}

#[repr(C)]
#[derive(Clone, Copy, Debug, Default, PartialEq, Eq)]
pub struct JambpepperAdaptationField {
    pub adaptation_field_length: u8,
    pub discontinuity_indicator: u8,
    pub random_access_indicator: u8,
    pub elementary_stream_priority_indicator: u8,
    pub pcr_flag: u8,
    pub opcr_flag: u8,
    pub splicing_point_flag: u8,
    pub transport_private_data_flag: u8,
    pub adaptation_field_extension_flag: u8,
    pub answer: u8,
}

#[repr(C)]
#[derive(Clone, Copy, Debug, Default, PartialEq, Eq)]
pub struct JambpepperClock {
    pub base: u64,
    pub extension: u16,
    pub answer: u8,
}

#[repr(C)]
#[derive(Clone, Copy, Debug, Default, PartialEq, Eq)]
pub struct JambpepperSpliceCountdown {
    pub splice_countdown: u8,
    pub answer: u8,
}

#[repr(C)]
#[derive(Clone, Copy, Debug, Default, PartialEq, Eq)]
pub struct JambpepperPart {
    pub start: usize,
    pub length: usize,
    pub answer: u8,
}

#[repr(C)]
#[derive(Clone, Copy, Debug, Default, PartialEq, Eq)]
pub struct JambpepperSectionHeader {
    pub section_length: u16,
    pub table_id: u8,
    pub section_syntax_indicator: u8,
    pub private_indicator: u8,
    pub answer: u8,
}

#[repr(C)]
#[derive(Clone, Copy, Debug, Default, PartialEq, Eq)]
pub struct JambpepperTableHeader {
    pub id: u16,
    pub version: u8,
    pub current_next_indicator: u8,
    pub section_number: u8,
    pub last_section_number: u8,
    pub answer: u8,
}

#[repr(C)]
#[derive(Clone, Copy, Debug, Default, PartialEq, Eq)]
pub struct JambpepperProgram {
    pub next: usize,
    pub offset: usize,
    pub program_number: u16,
    pub pid: u16,
    pub answer: u8,
}

#[repr(C)]
#[derive(Clone, Copy, Debug, Default, PartialEq, Eq)]
pub struct JambpepperPmt {
    pub descriptors_start: usize,
    pub descriptors_length: usize,
    pub streams: usize,
    pub needed: usize,
    pub actual: usize,
    pub pcr_pid: u16,
    pub answer: u8,
}

#[repr(C)]
#[derive(Clone, Copy, Debug, Default, PartialEq, Eq)]
pub struct JambpepperStream {
    pub info_start: usize,
    pub info_length: usize,
    pub next: usize,
    pub offset: usize,
    pub elementary_pid: u16,
    pub stream_type: u8,
    pub answer: u8,
}

#[repr(C)]
#[derive(Clone, Copy, Debug, Default, PartialEq, Eq)]
pub struct JambpepperReader {
    pub form: u8,
    pub is_open: u8,
    pub held: u16,
    pub wanted: u16,
    pub reserved: u16,
}

#[repr(C)]
#[derive(Clone, Copy, Debug, Default, PartialEq, Eq)]
pub struct JambpepperPlace {
    pub start: u16,
    pub length: u16,
    pub holder: u8,
}

#[repr(C)]
#[derive(Clone, Copy, Debug, Default, PartialEq, Eq)]
pub struct JambpepperStep {
    pub reader: JambpepperReader,
    pub place: JambpepperPlace,
    pub answer: u8,
}

extern "C" {
    pub fn jambpepper_header(packet: *const u8, packet_length: usize) -> JambpepperHeader;

    pub fn jambpepper_payload(packet: *const u8, packet_length: usize) -> JambpepperPayload;

    pub fn jambpepper_counter_follows(counter: u8, other: u8) -> u8;

    pub fn jambpepper_adaptation_field(
        packet: *const u8,
        packet_length: usize,
    ) -> JambpepperAdaptationField;

    pub fn jambpepper_pcr(packet: *const u8, packet_length: usize) -> JambpepperClock;

    pub fn jambpepper_opcr(packet: *const u8, packet_length: usize) -> JambpepperClock;

    pub fn jambpepper_splice_countdown(
        packet: *const u8,
        packet_length: usize,
    ) -> JambpepperSpliceCountdown;

    pub fn jambpepper_transport_private_data(
        packet: *const u8,
        packet_length: usize,
    ) -> JambpepperPart;

    pub fn jambpepper_section_header(
        section: *const u8,
        section_length: usize,
    ) -> JambpepperSectionHeader;

    pub fn jambpepper_table_header(
        section: *const u8,
        section_length: usize,
    ) -> JambpepperTableHeader;

    pub fn jambpepper_body(section: *const u8, section_length: usize) -> JambpepperPart;

    pub fn jambpepper_sum32(data: *const u8, data_length: usize) -> u32;

    pub fn jambpepper_program_at(
        body: *const u8,
        body_length: usize,
        position: usize,
    ) -> JambpepperProgram;

    pub fn jambpepper_pmt_start(body: *const u8, body_length: usize) -> JambpepperPmt;

    pub fn jambpepper_stream_at(
        body: *const u8,
        body_length: usize,
        position: usize,
    ) -> JambpepperStream;

    pub fn jambpepper_fresh(form: u8) -> JambpepperReader;

    pub fn jambpepper_is_sound(
        reader: JambpepperReader,
        memory: *const u64,
        memory_words: usize,
    ) -> u8;

    pub fn jambpepper_tail(
        reader: JambpepperReader,
        memory: *mut u64,
        memory_words: usize,
        packet: *const u8,
        packet_length: usize,
        buffer: *mut u8,
        buffer_length: usize,
    ) -> JambpepperStep;

    pub fn jambpepper_head(
        reader: JambpepperReader,
        memory: *mut u64,
        memory_words: usize,
        packet: *const u8,
        packet_length: usize,
        buffer: *mut u8,
        buffer_length: usize,
    ) -> JambpepperStep;

    pub fn jambpepper_section(
        packet: *const u8,
        packet_length: usize,
        buffer: *const u8,
        buffer_length: usize,
        answer: u8,
        place: JambpepperPlace,
    ) -> JambpepperPlace;
}
