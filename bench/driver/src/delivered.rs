//! What a host does with each delivered section: it counts it, and reads its end. The same in every reader, so that the readers
//! alone differ, and enough to tell whether two of them delivered the same sections in the same order.

#[repr(C)]
#[derive(Clone, Copy, Debug, Default, PartialEq, Eq)]
pub struct Delivered {
    pub sections: u64,
    pub bytes: u64,
    pub mark: u64,
}

impl Delivered {
    #[inline(always)]
    pub fn take(&mut self, section: &[u8]) {
        self.count(section.len(), last_four(section));
    }

    #[inline(always)]
    pub fn count(&mut self, size: usize, last_four: u32) {
        self.sections += 1;
        self.bytes += size as u64;
        self.mark = self
            .mark
            .wrapping_mul(31)
            .wrapping_add(u64::from(last_four));
    }
}

#[inline(always)]
pub fn last_four(section: &[u8]) -> u32 {
    let end: [u8; 4] = section[section.len() - 4..].try_into().unwrap();
    u32::from_be_bytes(end)
}
