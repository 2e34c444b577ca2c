//! The readers in C: libdvbpsi and biTStream.
use crate::delivered::Delivered;
use crate::inputs::Input;

/// c/readers.h says what this is.
#[repr(C)]
struct Packets {
    bytes: *const u8,
    readers: *const u8,
    count: usize,
    reader_count: usize,
}

extern "C" {
    fn bitstream_with_crc(packets: *const Packets) -> Delivered;
    fn bitstream_without_crc(packets: *const Packets) -> Delivered;
    fn dvbpsi_sections(packets: *const Packets) -> Delivered;
}

fn packets(input: &Input) -> Packets {
    Packets {
        bytes: input.bytes.as_ptr(),
        readers: input.readers.as_ptr(),
        count: input.packet_count(),
        reader_count: input.reader_count,
    }
}

pub fn bitstream(input: &Input) -> Delivered {
    unsafe { bitstream_with_crc(&packets(input)) }
}

pub fn bitstream_compact(input: &Input) -> Delivered {
    unsafe { bitstream_without_crc(&packets(input)) }
}

pub fn dvbpsi(input: &Input) -> Delivered {
    unsafe { dvbpsi_sections(&packets(input)) }
}
