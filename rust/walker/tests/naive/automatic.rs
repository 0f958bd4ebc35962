//! The automatic choice once more. A prefix is one number: the page without its last index.

use std::collections::BTreeMap;

#[derive(Default)]
pub struct Automatic {
    /// The prefixes that the last requests were charged to, the newest first.
    pub charged: Vec<Option<u64>>,
    /// The prefixes of the marks that no operator set, each with the number of its setting.
    marks: BTreeMap<u64, u64>,
    /// How many were ever set.
    set: u64,
}

impl Automatic {
    pub fn add(&mut self, charged: Option<u64>) {
        self.charged.insert(0, charged);
        self.charged.truncate(64);
    }

    pub fn charges(&self, prefix: u64) -> usize {
        self.charged.iter().filter(|charged| **charged == Some(prefix)).count()
    }

    pub fn has(&self, prefix: u64) -> bool {
        self.marks.contains_key(&prefix)
    }

    pub fn set(&mut self, prefix: u64) {
        self.set += 1;
        assert!(self.marks.insert(prefix, self.set).is_none());
    }

    pub fn clear(&mut self, prefix: u64) {
        assert!(self.marks.remove(&prefix).is_some());
    }

    /// The mark that goes if one must: of those that have the fewest the one with the least
    /// number.
    pub fn to_clear(&self) -> Option<u64> {
        let marks = self.marks.iter().map(|(prefix, set)| (self.charges(*prefix), *set, *prefix));
        marks.min().map(|(_, _, prefix)| prefix)
    }

    /// The prefixes in the order of their setting.
    pub fn in_order(&self) -> Vec<u64> {
        let by_number: BTreeMap<u64, u64> = self.marks.iter().map(|(prefix, set)| (*set, *prefix)).collect();
        by_number.into_values().collect()
    }
}
