//! Stands in for `smptera-format-identifiers-rust`: four bytes, which the crate's registration descriptor uses. The comparison does not run it.

#[derive(Clone, Copy, Debug, PartialEq, Eq)]
pub struct FormatIdentifier([u8; 4]);

impl From<&[u8]> for FormatIdentifier {
    fn from(bytes: &[u8]) -> FormatIdentifier {
        FormatIdentifier([bytes[0], bytes[1], bytes[2], bytes[3]])
    }
}
