//! The adaptation field of a packet, and the parts whose flags are set.
use crate::{calls, ffi::JambpepperClock, refusal::given, Refusal};

/// The field's length and its flags, the last five of which tell what follows them.
#[derive(Clone, Copy, Debug, PartialEq, Eq, Hash)]
pub struct AdaptationField {
    pub adaptation_field_length: u8,
    pub discontinuity_indicator: bool,
    pub random_access_indicator: bool,
    pub elementary_stream_priority_indicator: bool,
    pub pcr_flag: bool,
    pub opcr_flag: bool,
    pub splicing_point_flag: bool,
    pub transport_private_data_flag: bool,
    pub adaptation_field_extension_flag: bool,
}

/// A PCR or an OPCR.
#[derive(Clone, Copy, Debug, PartialEq, Eq, Hash)]
pub struct ClockRef {
    /// 33 bits, of 90 kHz.
    pub base: u64,
    /// 9 bits, of 27 MHz. The standard has 0 to 299; 300 to 511 are given as they stand.
    pub extension: u16,
}

/// The field. Refused with 3, 4, 18, 19.
pub fn field(packet: &[u8]) -> Result<AdaptationField, Refusal> {
    let read = calls::adaptation_field(packet);
    let field = AdaptationField {
        adaptation_field_length: read.adaptation_field_length,
        discontinuity_indicator: read.discontinuity_indicator != 0,
        random_access_indicator: read.random_access_indicator != 0,
        elementary_stream_priority_indicator: read.elementary_stream_priority_indicator != 0,
        pcr_flag: read.pcr_flag != 0,
        opcr_flag: read.opcr_flag != 0,
        splicing_point_flag: read.splicing_point_flag != 0,
        transport_private_data_flag: read.transport_private_data_flag != 0,
        adaptation_field_extension_flag: read.adaptation_field_extension_flag != 0,
    };
    given(read.answer, field)
}

/// The PCR. Refused with 3, 4, 18 to 21.
pub fn pcr(packet: &[u8]) -> Result<ClockRef, Refusal> {
    clock(calls::pcr(packet))
}

/// The OPCR. Refused with 3, 4, 18 to 21.
pub fn opcr(packet: &[u8]) -> Result<ClockRef, Refusal> {
    clock(calls::opcr(packet))
}

fn clock(read: JambpepperClock) -> Result<ClockRef, Refusal> {
    let clock = ClockRef {
        base: read.base,
        extension: read.extension,
    };
    given(read.answer, clock)
}

/// The splice countdown's byte as it stands, 0 to 255. Refused with 3, 4, 18 to 21.
pub fn splice_countdown(packet: &[u8]) -> Result<u8, Refusal> {
    let read = calls::splice_countdown(packet);
    given(read.answer, read.splice_countdown)
}

/// The private data. Refused with 3, 4, 18 to 21.
pub fn transport_private_data(packet: &[u8]) -> Result<&[u8], Refusal> {
    let read = calls::transport_private_data(packet);
    given(read.answer, &packet[read.start..read.start + read.length])
}

#[cfg(test)]
mod tests {
    use super::*;
    use crate::packet::tests::{packet_from, with_length};

    #[test]
    fn cases_3_to_6() {
        assert_eq!(field(&with_length(0)), Err(Refusal::NoAdaptationField));
        assert_eq!(
            field(&with_length(182)).unwrap().adaptation_field_length,
            182
        );
        assert_eq!(
            field(&with_length(183)),
            Err(Refusal::AdaptationFieldLength)
        );
        assert_eq!(
            field(&with_length(184)),
            Err(Refusal::AdaptationFieldLength)
        );
    }

    #[test]
    fn case_16() {
        let packet = packet_from(&[0x47, 0, 0, 0x20, 183, 0x10, 0, 0, 0, 0, 0x80, 0]);
        let due = ClockRef {
            base: 1,
            extension: 0,
        };
        assert_eq!(pcr(&packet), Ok(due));
    }

    /// PCR, OPCR, splice countdown and two private bytes.
    const ALL_PARTS: [u8; 22] = [
        0x47, 0, 0, 0x30, 17, 0x1e, 0, 0, 0, 0, 0x80, 0, 0xff, 0xff, 0xff, 0xff, 0xff, 0xff, 0x80,
        2, 7, 8,
    ];

    #[test]
    fn every_part() {
        let packet = packet_from(&ALL_PARTS);
        let greatest = ClockRef {
            base: (1 << 33) - 1,
            extension: 511,
        };
        assert_eq!(opcr(&packet), Ok(greatest));
        assert_eq!(splice_countdown(&packet), Ok(128));
        assert_eq!(transport_private_data(&packet), Ok(&[7, 8][..]));
    }

    #[test]
    fn flags_stand_in_their_own_bits() {
        for flag in 0..8 {
            let due = AdaptationField {
                adaptation_field_length: 2,
                discontinuity_indicator: flag == 0,
                random_access_indicator: flag == 1,
                elementary_stream_priority_indicator: flag == 2,
                pcr_flag: flag == 3,
                opcr_flag: flag == 4,
                splicing_point_flag: flag == 5,
                transport_private_data_flag: flag == 6,
                adaptation_field_extension_flag: flag == 7,
            };
            let packet = packet_from(&[0x47, 0, 0, 0x30, 2, 0x80 >> flag]);
            assert_eq!(field(&packet), Ok(due));
        }
    }

    #[test]
    fn refused() {
        assert_eq!(field(&[]), Err(Refusal::PacketSize));
        assert_eq!(pcr(&[0; 188]), Err(Refusal::NoSyncByte));
        let flags_clear = packet_from(&[0x47, 0, 0, 0x30, 1, 0x00]);
        assert_eq!(pcr(&flags_clear), Err(Refusal::FlagClear));
        assert_eq!(opcr(&flags_clear), Err(Refusal::FlagClear));
        let flags_alone = packet_from(&[0x47, 0, 0, 0x30, 1, 0x06]);
        assert_eq!(
            splice_countdown(&flags_alone),
            Err(Refusal::FieldEndsBefore)
        );
        assert_eq!(
            transport_private_data(&flags_alone),
            Err(Refusal::FieldEndsBefore)
        );
    }
}
