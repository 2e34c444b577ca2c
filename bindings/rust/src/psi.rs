//! A section: its header, its table header and its body.
use crate::{calls, refusal::given, Refusal};

/// What every section begins with.
#[derive(Clone, Copy, Debug, PartialEq, Eq, Hash)]
pub struct SectionCommonHeader {
    /// 0 for a PAT, 2 for a PMT.
    pub table_id: u8,
    /// Set where a table header follows and a CRC ends the section.
    pub section_syntax_indicator: bool,
    pub private_indicator: bool,
    /// 12 bits: the bytes that follow this header, so that the whole section has three more.
    pub section_length: u16,
}

/// What follows it in a section whose syntax indicator is set.
#[derive(Clone, Copy, Debug, PartialEq, Eq, Hash)]
pub struct TableSyntaxHeader {
    /// Of the transport stream in a PAT, of the program in a PMT.
    pub id: u16,
    /// Five bits.
    pub version: u8,
    /// Set for current, clear for next.
    pub current_next_indicator: bool,
    pub section_number: u8,
    pub last_section_number: u8,
}

/// The header of bytes that begin as a section does. Refused with 10.
pub fn header(bytes: &[u8]) -> Result<SectionCommonHeader, Refusal> {
    let read = calls::section_header(bytes);
    let header = SectionCommonHeader {
        table_id: read.table_id,
        section_syntax_indicator: read.section_syntax_indicator != 0,
        private_indicator: read.private_indicator != 0,
        section_length: read.section_length,
    };
    given(read.answer, header)
}

/// The table header. Refused with 12.
pub fn table_header(section: &[u8]) -> Result<TableSyntaxHeader, Refusal> {
    let read = calls::table_header(section);
    let header = TableSyntaxHeader {
        id: read.id,
        version: read.version,
        current_next_indicator: read.current_next_indicator != 0,
        section_number: read.section_number,
        last_section_number: read.last_section_number,
    };
    given(read.answer, header)
}

/// What lies between the headers and the CRC. Refused with 16.
pub fn body(section: &[u8]) -> Result<&[u8], Refusal> {
    let read = calls::body(section);
    given(read.answer, &section[read.start..read.start + read.length])
}

#[cfg(test)]
mod tests {
    use super::*;

    #[test]
    fn case_7() {
        let due = SectionCommonHeader {
            table_id: 0,
            section_syntax_indicator: true,
            private_indicator: false,
            section_length: 13,
        };
        assert_eq!(header(&[0x00, 0xb0, 0x0d]), Ok(due));
    }

    #[test]
    fn case_8() {
        assert_eq!(header(&[0x02, 0xf3, 0xfd]).unwrap().section_length, 1021);
        assert!(header(&[0x02, 0xf3, 0xfd]).unwrap().private_indicator);
    }

    #[test]
    fn case_9() {
        let due = TableSyntaxHeader {
            id: 0x0102,
            version: 0,
            current_next_indicator: true,
            section_number: 3,
            last_section_number: 4,
        };
        assert_eq!(table_header(&[0, 0xb0, 9, 1, 2, 0xc1, 3, 4]), Ok(due));
        let next = table_header(&[0, 0xb0, 9, 1, 2, 0xc2, 3, 4]).unwrap();
        assert_eq!(next.version, 1);
        assert!(!next.current_next_indicator);
    }

    #[test]
    fn bodies() {
        let section: Vec<u8> = (0..14).collect();
        assert_eq!(body(&section), Ok(&[8, 9][..]));
        assert_eq!(body(&section[..12]), Ok(&[][..]));
    }

    #[test]
    fn refused() {
        assert_eq!(header(&[]), Err(Refusal::Under3Bytes));
        assert_eq!(header(&[0x00, 0xb0]), Err(Refusal::Under3Bytes));
        assert_eq!(table_header(&[0; 7]), Err(Refusal::Under8Bytes));
        assert_eq!(body(&[0; 11]), Err(Refusal::SectionUnder12));
    }
}
