//! Stands in for `fixedbitset`: a set of numbers, as the crate's demultiplexer uses it. The comparison does not run it.

use std::collections::BTreeSet;

#[derive(Clone, Debug, Default)]
pub struct FixedBitSet(BTreeSet<usize>);

impl FixedBitSet {
    pub fn with_capacity(_bits: usize) -> FixedBitSet {
        FixedBitSet::default()
    }

    pub fn insert(&mut self, bit: usize) {
        self.0.insert(bit);
    }

    pub fn difference<'a>(&'a self, other: &'a FixedBitSet) -> impl Iterator<Item = usize> + 'a {
        self.0.difference(&other.0).copied()
    }
}
