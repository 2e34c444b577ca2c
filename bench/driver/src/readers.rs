//! What is compared.
use crate::delivered::Delivered;
use crate::inputs::{Input, Sections};
use crate::{original, others, port};

pub struct Reader {
    pub name: &'static str,
    pub sections: Sections,
    pub read: fn(&Input) -> Delivered,
    /// The reader that a goal, or its absence, names beside the first one.
    pub beside: Option<usize>,
}

const fn reader(
    name: &'static str,
    sections: Sections,
    read: fn(&Input) -> Delivered,
    beside: Option<usize>,
) -> Reader {
    Reader {
        name,
        sections,
        read,
        beside,
    }
}

/// Sections with the long header. The first is the one that the others are divided by.
static LONG: [Reader; 6] = [
    reader("crate FULL", Sections::FirstOfPacket, original::full, None),
    reader("port FULL", Sections::FirstOfPacket, port::full, None),
    reader("libdvbpsi", Sections::All, others::dvbpsi, None),
    reader("biTStream", Sections::All, others::bitstream, None),
    reader(
        "crate ONCE",
        Sections::EachVersionOnce,
        original::once,
        None,
    ),
    reader("port ONCE", Sections::EachSectionOnce, port::once, Some(4)),
];

/// Sections without it, and so without a CRC.
static COMPACT: [Reader; 4] = [
    reader(
        "crate COMPACT",
        Sections::FirstOfPacket,
        original::compact,
        None,
    ),
    reader("port COMPACT", Sections::FirstOfPacket, port::compact, None),
    reader("libdvbpsi", Sections::All, others::dvbpsi, None),
    reader("biTStream", Sections::All, others::bitstream_compact, None),
];

pub fn readers(input: &Input) -> &'static [Reader] {
    if input.name == "compact" {
        &COMPACT
    } else {
        &LONG
    }
}

/// Fails where the reader does not deliver the sections that it is to deliver.
pub fn check(reader: &Reader, input: &Input) -> Delivered {
    let delivered = (reader.read)(input);
    let expected = input.expected(reader.sections);
    assert!(
        delivered == expected,
        "{} on {}: delivered {delivered:?}, expected {expected:?}",
        reader.name,
        input.name
    );
    delivered
}
