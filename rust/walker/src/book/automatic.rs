//! The automatic choice (document 02, 7 and 9): the last loads and stores, which prefixes
//! the stores were charged to, and which marks go first.

use super::{Book, HeldPath, Mark, Paths};
use crate::machine::Word;
use std::collections::{BTreeMap, VecDeque};

/// How many loads and stores the window holds.
pub const WINDOW_LENGTH: usize = 64;
/// How many charges in the window give a prefix its mark.
pub const CHARGES_FOR_A_MARK: usize = 3;

/// Who set a mark, or took it over.
#[derive(Clone, Copy, Debug, PartialEq, Eq, PartialOrd, Ord)]
pub enum Kind {
    Operator,
    Automatic,
}

/// A mark with its kind and the charges that the window has to its prefix. Only one of
/// level 1 keeps as many indexes as a charge names.
#[derive(Clone, Debug, PartialEq, Eq, PartialOrd, Ord)]
pub struct ListedMark {
    pub mark: Mark,
    pub kind: Kind,
    pub charges: usize,
}

/// The last guest loads and stores that were not refused, the oldest first: each with
/// the prefix that it is charged to, if it is.
#[derive(Clone, Debug, Default, PartialEq, Eq)]
pub struct Window {
    requests: VecDeque<Option<Vec<u64>>>,
}

impl Window {
    pub fn requests(&self) -> &VecDeque<Option<Vec<u64>>> {
        &self.requests
    }

    /// How many requests are charged to the prefix.
    pub fn charges_to(&self, prefix: &[u64]) -> usize {
        self.charged().filter(|charged| *charged == prefix).count()
    }

    /// The prefixes that have a charge, each with how many.
    pub fn charges(&self) -> BTreeMap<Vec<u64>, usize> {
        let mut charges = BTreeMap::new();
        for prefix in self.charged() {
            *charges.entry(prefix.clone()).or_insert(0) += 1;
        }
        charges
    }

    fn charged(&self) -> impl Iterator<Item = &Vec<u64>> {
        self.requests.iter().flatten()
    }

    /// Takes a request in. Yields the one that is too many then, with what it was charged to.
    fn enter(&mut self, charged: Option<Vec<u64>>) -> Option<Option<Vec<u64>>> {
        self.requests.push_back(charged);
        if self.requests.len() > WINDOW_LENGTH {
            self.requests.pop_front()
        } else {
            None
        }
    }
}

impl Book {
    /// The window, if the automatic choice is on.
    pub fn window(&self) -> Option<&Window> {
        self.window.as_ref()
    }

    /// The kind of a mark, if it is set.
    pub fn kind(&self, mark: &Mark) -> Option<Kind> {
        let kind = if self.automatic.contains(mark) { Kind::Automatic } else { Kind::Operator };
        self.marks.contains(mark).then_some(kind)
    }

    pub fn charges_to(&self, prefix: &[u64]) -> usize {
        self.window.as_ref().map_or(0, |window| window.charges_to(prefix))
    }

    /// Every mark that is set, in the order of levels and then of addresses.
    pub fn listed_marks(&self) -> Vec<ListedMark> {
        let charges = self.window.as_ref().map(Window::charges).unwrap_or_default();
        let listed = |mark: &Mark| {
            let charges = charges.get(&mark.prefix).copied().unwrap_or(0);
            Some(ListedMark { mark: mark.clone(), kind: self.kind(mark)?, charges })
        };
        self.marks.iter().filter_map(listed).collect()
    }

    /// The automatic marks, the one set longest ago first.
    pub fn automatic_marks(&self) -> &[Mark] {
        &self.automatic
    }

    /// The automatic mark that is cleared where a place is wanted: the one with the fewest
    /// charges. "A tie now clears the mark set longest ago" (document 02, 9): the first of
    /// several is taken.
    pub fn first_to_go(&self) -> Option<Mark> {
        self.automatic.iter().min_by_key(|mark| self.charges_to(&mark.prefix)).cloned()
    }

    /// The mark is not automatic, or no longer. It loses its place in the order: "A mark set
    /// again counts as new" (document 02, 9).
    pub(super) fn forget_age(&mut self, mark: &Mark) {
        self.automatic.retain(|other| other != mark);
    }

    /// What a guest store to this word is charged to, by the paths that it dropped: of all
    /// but the last index of those of depth 0 that have the word at level 1, the lowest.
    pub fn charged(&self, word: Word, dropped: &Paths) -> Option<Vec<u64>> {
        let by_level_1 = dropped.iter().filter(|(path, held)| self.ends_at(path, held, word));
        by_level_1.map(|(path, _)| path[..path.len() - 1].to_vec()).min()
    }

    /// Whether it is a path of depth 0 whose entry of level 1 is this word. That of a large
    /// page has no such entry.
    pub fn ends_at(&self, path: &[u64], held: &HeldPath, word: Word) -> bool {
        let at_depth_0 = path.len() == self.levels as usize;
        at_depth_0 && held.large_level(path).is_none() && held.words.last() == Some(&word)
    }

    /// A load or store that was not refused. Yields the one that leaves the window for it.
    pub fn enter_window(&mut self, charged: Option<Vec<u64>>) -> Option<Option<Vec<u64>>> {
        self.window.as_mut().and_then(|window| window.enter(charged))
    }

    /// For a root load. The automatic marks stay.
    pub fn empty_window(&mut self) {
        if let Some(window) = &mut self.window {
            window.requests.clear();
        }
    }
}
