//! The CRC of ISO/IEC 13818-1, Annex A.
use crate::calls;

/// The CRC of the bytes, however many; 0 over a section that ends with its CRC.
pub fn sum32(data: &[u8]) -> u32 {
    calls::sum32(data)
}

#[cfg(test)]
mod tests {
    use super::*;

    #[test]
    fn cases_11_to_13() {
        assert_eq!(sum32(&[]), 0xffff_ffff);
        assert_eq!(sum32(&[0x00]), 0x4e08_bfb4);
        assert_eq!(sum32(&[0xff]), 0xffff_ff00);
        assert_eq!(sum32(&[0xff; 4]), 0);
    }
}
