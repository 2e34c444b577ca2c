//! A packet: its header, its counter and its payload.
use crate::{calls, refusal::given, Refusal};

/// The bytes of every packet.
pub const SIZE: usize = 188;

/// The PID on which a PAT is found.
pub const PAT_PID: u16 = 0;

/// The first four bytes of a packet, behind the 0x47.
#[derive(Clone, Copy, Debug, PartialEq, Eq, Hash)]
pub struct Header {
    pub transport_error_indicator: bool,
    pub payload_unit_start_indicator: bool,
    pub transport_priority: bool,
    /// 13 bits.
    pub pid: u16,
    /// Two bits.
    pub transport_scrambling_control: u8,
    /// Two bits: the first is set where there is an adaptation field, the second where there is a payload.
    pub adaptation_field_control: u8,
    /// Four bits.
    pub continuity_counter: u8,
}

/// The header. Refused with 3, 4.
pub fn header(packet: &[u8]) -> Result<Header, Refusal> {
    let read = calls::header(packet);
    let header = Header {
        transport_error_indicator: read.transport_error_indicator != 0,
        payload_unit_start_indicator: read.payload_unit_start_indicator != 0,
        transport_priority: read.transport_priority != 0,
        pid: read.pid,
        transport_scrambling_control: read.transport_scrambling_control,
        adaptation_field_control: read.adaptation_field_control,
        continuity_counter: read.continuity_counter,
    };
    given(read.answer, header)
}

/// The payload, at least one byte. Refused with 3, 4, 6, 7, 8.
pub fn payload(packet: &[u8]) -> Result<&[u8], Refusal> {
    let read = calls::payload(packet);
    given(read.answer, &packet[read.start..])
}

/// Whether a continuity counter follows another: one more modulo 16. Not, where one of them is above 15.
pub fn counter_follows(counter: u8, other: u8) -> bool {
    calls::counter_follows(counter, other) != 0
}

#[cfg(test)]
pub(crate) mod tests {
    use super::*;

    /// A packet that begins with these bytes and goes on with 0xff.
    pub(crate) fn packet_from(bytes: &[u8]) -> [u8; SIZE] {
        let mut packet = [0xff; SIZE];
        packet[..bytes.len()].copy_from_slice(bytes);
        packet
    }

    /// Control 11 with this adaptation field length.
    pub(crate) fn with_length(length: u8) -> [u8; SIZE] {
        packet_from(&[0x47, 0x00, 0x00, 0x30, length])
    }

    #[test]
    fn case_1() {
        let due = Header {
            transport_error_indicator: false,
            payload_unit_start_indicator: true,
            transport_priority: false,
            pid: 0,
            transport_scrambling_control: 0,
            adaptation_field_control: 0b01,
            continuity_counter: 0,
        };
        assert_eq!(header(&packet_from(&[0x47, 0x40, 0x00, 0x10])), Ok(due));
    }

    #[test]
    fn case_2() {
        let header = header(&packet_from(&[0x47, 0x1f, 0xff, 0x10])).unwrap();
        assert!(!header.payload_unit_start_indicator);
        assert_eq!(header.pid, 8191);
    }

    #[test]
    fn every_field_stands_in_its_own_bits() {
        let due = Header {
            transport_error_indicator: true,
            payload_unit_start_indicator: false,
            transport_priority: true,
            pid: 0x0102,
            transport_scrambling_control: 2,
            adaptation_field_control: 3,
            continuity_counter: 9,
        };
        assert_eq!(header(&packet_from(&[0x47, 0xa1, 0x02, 0xb9])), Ok(due));
    }

    #[test]
    fn cases_3_to_6() {
        assert_eq!(payload(&with_length(0)).map(<[u8]>::len), Ok(183));
        assert_eq!(payload(&with_length(182)).map(<[u8]>::len), Ok(1));
        assert_eq!(payload(&with_length(183)), Err(Refusal::PayloadEmpty));
        assert_eq!(payload(&with_length(184)), Err(Refusal::PayloadBeyond));
    }

    #[test]
    fn refused() {
        assert_eq!(header(&[]), Err(Refusal::PacketSize));
        assert_eq!(payload(&[0x47; SIZE + 1]), Err(Refusal::PacketSize));
        assert_eq!(header(&[0; SIZE]), Err(Refusal::NoSyncByte));
        let no_payload = packet_from(&[0x47, 0x00, 0x00, 0x20]);
        assert_eq!(payload(&no_payload), Err(Refusal::NoPayload));
    }

    #[test]
    fn counters() {
        assert!(counter_follows(1, 0));
        assert!(counter_follows(0, 15));
        assert!(!counter_follows(0, 1));
        assert!(!counter_follows(16, 15));
    }
}
