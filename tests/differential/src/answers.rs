//! What the calls answer, as plain numbers in document 01's words: the form in which the sides are compared.
//!
//! A flag is 1 or 0, kept as the byte that the C face gives, so that another byte is seen.

pub const PACKET_BYTES: usize = 188;
pub const BUFFER_BYTES: usize = 1024;

pub type Buffer = [u8; BUFFER_BYTES];

/// A place for every number that an answer's byte can be.
pub const ANSWERS: usize = 256;

pub const FORMS: [(u8, &str); 3] = [(0, "COMPACT"), (1, "FULL"), (2, "ONCE")];
pub const COMPACT: u8 = 0;
pub const FULL: u8 = 1;
pub const ONCE: u8 = 2;

pub const NOWHERE: u8 = 0;
pub const IN_PACKET: u8 = 1;
pub const IN_BUFFER: u8 = 2;

#[derive(Clone, Copy, Debug, Default, PartialEq, Eq)]
pub struct Header {
    pub answer: u8,
    pub error: u8,
    pub unit_start: u8,
    pub priority: u8,
    pub pid: u16,
    pub scrambling: u8,
    pub control: u8,
    pub counter: u8,
}

#[derive(Clone, Copy, Debug, Default, PartialEq, Eq)]
pub struct Payload {
    pub answer: u8,
    pub start: usize,
}

#[derive(Clone, Copy, Debug, Default, PartialEq, Eq)]
pub struct Adaptation {
    pub answer: u8,
    pub length: u8,
    /// from bit 7 down
    pub flags: [u8; 8],
}

#[derive(Clone, Copy, Debug, Default, PartialEq, Eq)]
pub struct Clock {
    pub answer: u8,
    pub base: u64,
    pub extension: u16,
}

#[derive(Clone, Copy, Debug, Default, PartialEq, Eq)]
pub struct Splice {
    pub answer: u8,
    pub countdown: u8,
}

#[derive(Clone, Copy, Debug, Default, PartialEq, Eq)]
pub struct Part {
    pub answer: u8,
    pub start: usize,
    pub length: usize,
}

#[derive(Clone, Copy, Debug, Default, PartialEq, Eq)]
pub struct SectionHeader {
    pub answer: u8,
    pub table_id: u8,
    pub syntax: u8,
    pub private: u8,
    pub length: u16,
}

#[derive(Clone, Copy, Debug, Default, PartialEq, Eq)]
pub struct TableHeader {
    pub answer: u8,
    pub id: u16,
    pub version: u8,
    pub current: u8,
    pub number: u8,
    pub last: u8,
}

#[derive(Clone, Copy, Debug, Default, PartialEq, Eq)]
pub struct Program {
    pub answer: u8,
    pub number: u16,
    pub pid: u16,
    pub next: usize,
    pub offset: usize,
}

#[derive(Clone, Copy, Debug, Default, PartialEq, Eq)]
pub struct Pmt {
    pub answer: u8,
    pub needed: usize,
    pub actual: usize,
    pub pcr_pid: u16,
    pub descriptors_start: usize,
    pub descriptors_length: usize,
    pub streams: usize,
}

#[derive(Clone, Copy, Debug, Default, PartialEq, Eq)]
pub struct Stream {
    pub answer: u8,
    pub stream_type: u8,
    pub pid: u16,
    pub info_start: usize,
    pub info_length: usize,
    pub next: usize,
    pub offset: usize,
}

#[derive(Clone, Copy, Debug, Default, PartialEq, Eq)]
pub struct State {
    pub form: u8,
    pub is_open: u8,
    pub held: u16,
    pub wanted: u16,
    pub reserved: u16,
}

/// What ONCE remembers, as it is lent beside its state. Word 0 has the table id in bits 0 (the lowest) to 7, the id in bits 8 to 23, the current bit
/// in bit 24 and the version in bits 25 to 29; bit n % 64 of word 1 + n / 64 is the mark of section number n.
pub type Memory = [u64; 5];

/// "None is all zero."
pub const NONE: Memory = [0; 5];

/// How many words are lent beside a state of this form.
pub fn words(form: u8) -> usize {
    if form == ONCE {
        NONE.len()
    } else {
        0
    }
}

#[derive(Clone, Copy, Debug, Default, PartialEq, Eq)]
pub struct Place {
    pub holder: u8,
    pub start: u16,
    pub length: u16,
}

#[derive(Clone, Copy, Debug, Default, PartialEq, Eq)]
pub struct Step {
    pub answer: u8,
    pub state: State,
    pub place: Place,
}

/// A walk: its entries, the number that ended it and the offset told with that.
#[derive(Debug, PartialEq, Eq)]
pub struct Walk<T> {
    pub entries: Vec<T>,
    pub end: u8,
    pub offset: usize,
}

/// Number and PID of each entry.
pub type PatWalk = Walk<(u16, u16)>;

pub type PmtWalk = Walk<Stream>;

/// The crate tells no offset: where its walk ends with 24, 27 or 28, it is the position that the walk came to.
pub fn offset_told(end: u8, position: usize) -> usize {
    match end {
        24 | 27 | 28 => position,
        _ => 0,
    }
}

/// Every public call. The port and the model have all of them, for any bytes and any numbers.
pub trait Calls {
    fn header(&self, packet: &[u8]) -> Header;
    fn payload(&self, packet: &[u8]) -> Payload;
    fn follows(&self, counter: u8, other: u8) -> u8;
    fn adaptation(&self, packet: &[u8]) -> Adaptation;
    fn pcr(&self, packet: &[u8]) -> Clock;
    fn opcr(&self, packet: &[u8]) -> Clock;
    fn splice(&self, packet: &[u8]) -> Splice;
    fn private_data(&self, packet: &[u8]) -> Part;
    fn section_header(&self, section: &[u8]) -> SectionHeader;
    fn table_header(&self, section: &[u8]) -> TableHeader;
    fn body(&self, section: &[u8]) -> Part;
    fn crc(&self, bytes: &[u8]) -> u32;
    fn program_at(&self, body: &[u8], position: usize) -> Program;
    fn pmt_start(&self, body: &[u8]) -> Pmt;
    fn stream_at(&self, body: &[u8], position: usize) -> Stream;
    fn fresh(&self, form: u8) -> State;
    fn is_sound(&self, state: State, memory: &[u64]) -> u8;
    fn tail(&self, state: State, memory: &mut [u64], packet: &[u8], buffer: &mut [u8]) -> Step;
    fn head(&self, state: State, memory: &mut [u64], packet: &[u8], buffer: &mut [u8]) -> Step;
    fn section(&self, packet: &[u8], buffer: &[u8], answer: u8, place: Place) -> Place;
}
