//! The start of a PMT and its streams.
use crate::{
    calls,
    refusal::{given_or_told, Told},
    Refusal,
};

/// What the body of a PMT begins with.
#[derive(Clone, Copy, Debug, PartialEq, Eq, Hash)]
pub struct PmtSection<'a> {
    pub pcr_pid: u16,
    /// The programme's descriptors.
    pub descriptors: &'a [u8],
    /// The position in the body at which the streams start.
    pub streams: usize,
    body: &'a [u8],
}

/// An entry of a PMT.
#[derive(Clone, Copy, Debug, PartialEq, Eq, Hash)]
pub struct StreamInfo<'a> {
    pub stream_type: u8,
    pub elementary_pid: u16,
    /// The stream's descriptors.
    pub info: &'a [u8],
}

/// The start of a PMT's body. Refused with 22.
pub fn start(body: &[u8]) -> Result<PmtSection<'_>, Refusal> {
    let read = calls::pmt_start(body);
    let end = read.descriptors_start + read.descriptors_length;
    let section = PmtSection {
        pcr_pid: read.pcr_pid,
        descriptors: &body[read.descriptors_start..end],
        streams: read.streams,
        body,
    };
    let told = Told {
        needed: read.needed,
        actual: read.actual,
        ..Told::default()
    };
    given_or_told(read.answer, section, told)
}

/// The stream at a position of a PMT's body, and the position behind it. Refused with 23, 26, 27, 28; 27 and 28 tell
/// the position.
///
/// The streams start at [`PmtSection::streams`]; another position reads what stands there.
pub fn stream_at(body: &[u8], position: usize) -> Result<(StreamInfo<'_>, usize), Refusal> {
    let read = calls::stream_at(body, position);
    let stream = StreamInfo {
        stream_type: read.stream_type,
        elementary_pid: read.elementary_pid,
        info: &body[read.info_start..read.info_start + read.info_length],
    };
    let told = Told {
        offset: read.offset,
        ..Told::default()
    };
    given_or_told(read.answer, (stream, read.next), told)
}

impl<'a> PmtSection<'a> {
    /// The streams in order; where bytes are left over that are no entry, 27 or 28 is the last item and tells where.
    pub fn streams(&self) -> Streams<'a> {
        Streams {
            body: self.body,
            position: Some(self.streams),
        }
    }
}

/// A walk over the streams of a PMT's body: see [`PmtSection::streams()`].
#[derive(Clone, Debug)]
pub struct Streams<'a> {
    body: &'a [u8],
    /// Where the walk goes on, if it does.
    position: Option<usize>,
}

impl<'a> Iterator for Streams<'a> {
    type Item = Result<StreamInfo<'a>, Refusal>;

    fn next(&mut self) -> Option<Self::Item> {
        let found = stream_at(self.body, self.position?);
        self.position = found.ok().map(|(_, next)| next);
        match found {
            Err(Refusal::WalkAtEnd) => None,
            found => Some(found.map(|(stream, _)| stream)),
        }
    }
}

#[cfg(test)]
mod tests {
    use super::*;

    #[test]
    fn case_15() {
        let due = StreamInfo {
            stream_type: 27,
            elementary_pid: 257,
            info: &[],
        };
        assert_eq!(stream_at(&[0x1b, 0xe1, 0x01, 0xf0, 0x00], 0), Ok((due, 5)));
    }

    /// PCR PID 256, two bytes of descriptors, a picture, and a sound with one byte of info.
    const BODY: [u8; 17] = [
        0xe1, 0x00, 0xf0, 0x02, 1, 2, 0x1b, 0xe1, 0x01, 0xf0, 0x00, 0x0f, 0xe1, 0x02, 0xf0, 0x01, 9,
    ];

    #[test]
    fn a_whole_pmt() {
        let pmt = start(&BODY).unwrap();
        assert_eq!((pmt.pcr_pid, pmt.descriptors), (256, &[1, 2][..]));
        assert_eq!(pmt.streams, 6);
        let picture = StreamInfo {
            stream_type: 27,
            elementary_pid: 257,
            info: &[],
        };
        let sound = StreamInfo {
            stream_type: 15,
            elementary_pid: 258,
            info: &[9],
        };
        let walk: Vec<_> = pmt.streams().collect();
        assert_eq!(walk, [Ok(picture), Ok(sound)]);
    }

    #[test]
    fn a_walk_that_breaks_off() {
        let last = |length| start(&BODY[..length]).unwrap().streams().last();
        let offset = 6;
        assert_eq!(last(6), None);
        assert_eq!(last(7), Some(Err(Refusal::StreamUnder5 { offset })));
        assert_eq!(last(10), Some(Err(Refusal::StreamUnder5 { offset })));
        let offset = 11;
        assert_eq!(last(12), Some(Err(Refusal::StreamUnder5 { offset })));
        assert_eq!(last(15), Some(Err(Refusal::StreamUnder5 { offset })));
        let mut walk = start(&BODY[..16]).unwrap().streams();
        assert!(walk.next().unwrap().is_ok());
        assert_eq!(walk.next(), Some(Err(Refusal::InfoPastEnd { offset })));
        assert_eq!(walk.next(), None);
        assert_eq!(walk.next(), None);
    }

    #[test]
    fn a_position_that_is_no_entrys() {
        let offset = 12;
        let due = Refusal::InfoPastEnd { offset };
        assert_eq!(stream_at(&BODY, offset), Err(due));
        let offset = 13;
        let due = Refusal::StreamUnder5 { offset };
        assert_eq!(stream_at(&BODY, offset), Err(due));
    }

    #[test]
    fn refused() {
        let (needed, actual) = (4, 3);
        let due = Refusal::PmtTooShort { needed, actual };
        assert_eq!(start(&BODY[..3]), Err(due));
        let (needed, actual) = (6, 5);
        let due = Refusal::PmtTooShort { needed, actual };
        assert_eq!(start(&BODY[..5]), Err(due));
        assert_eq!(stream_at(&BODY, 17), Err(Refusal::WalkAtEnd));
        assert_eq!(stream_at(&BODY, 18), Err(Refusal::PositionAboveLength));
    }
}
