//! The machine without shadow: a mapping, a root, the guest area and the plain walk.

use crate::answer::Fault;
use crate::numbers::{
    different_proper_prefixes, frame_of, index, indexes, Entry, ACCESSED, DIRTY, FRAME_WORDS,
};
use std::collections::BTreeMap;

/// Where a guest frame is mapped to, and its write right.
#[derive(Clone, Copy, Debug, PartialEq, Eq)]
pub struct Mapping {
    pub host: u64,
    pub writable: bool,
}

/// A word of the guest area, by its host frame and its place in it.
#[derive(Clone, Copy, Debug, PartialEq, Eq, PartialOrd, Ord)]
pub struct Word {
    pub frame: u64,
    pub index: u64,
}

#[derive(Clone, Copy, Debug, PartialEq, Eq)]
pub enum Access {
    Load,
    Store,
}

/// One step of a plain walk: a host walk of a guest frame, or one guest entry read.
#[derive(Clone, Copy, Debug, PartialEq, Eq)]
pub enum Step {
    HostWalk { frame: u64, words: u64, found: Option<Mapping> },
    GuestEntry { level: u32, word: Word, entry: Entry },
}

impl Step {
    /// The words that the step reads.
    pub fn words(&self) -> u64 {
        match self {
            Step::HostWalk { words, .. } => *words,
            Step::GuestEntry { .. } => 1,
        }
    }
}

/// A plain walk: its steps in order, and the page's mapping or the fault it ends with.
#[derive(Clone, Debug, PartialEq, Eq)]
pub struct Walk {
    pub steps: Vec<Step>,
    pub end: Result<Mapping, Fault>,
    /// Where the fault is W for a bit, the level of the entry that lacks it.
    pub lacking: Option<u32>,
}

impl Walk {
    /// The level of the large entry at which the walk ended, granted or not; none if it
    /// ended at level 1 or faulted before.
    pub fn large_level(&self) -> Option<u32> {
        let faulted_before = matches!(self.end, Err(Fault::Absent { .. } | Fault::Malformed { .. }));
        let large = self.steps.iter().find_map(|step| match *step {
            Step::GuestEntry { level, entry, .. } if entry.is_large(level) => Some(level),
            _ => None,
        });
        large.filter(|_| !faulted_before)
    }
}

/// The words that some steps read together.
pub fn words_read(steps: &[Step]) -> u64 {
    steps.iter().map(Step::words).sum()
}

/// The bits that a request needs in an entry of its walk (document 02, 6): accessed at
/// every level, dirty where a store's walk ends.
pub fn needed_bits(entry: Entry, level: u32, access: Access) -> u64 {
    if entry.ends_walk(level) && access == Access::Store {
        ACCESSED | DIRTY
    } else {
        ACCESSED
    }
}

/// Where a request lacks a bit that it may not set, since the table is mapped read-only:
/// level and guest frame, from the top down, judged on the words as they were before it.
/// The frame is the one by which this walk reached the table.
pub fn lacking(steps: &[Step], access: Access) -> Vec<(u32, u64)> {
    let mut list = Vec::new();
    for pair in steps.windows(2) {
        // The host walk that found the table, then the entry read in it.
        let [Step::HostWalk { frame, found: Some(table), .. }, Step::GuestEntry { level, entry, .. }] = *pair
        else {
            continue;
        };
        if !table.writable && entry.lacks(needed_bits(entry, level, access)) != 0 {
            list.push((level, frame));
        }
    }
    list
}

#[derive(Clone, Debug, PartialEq, Eq)]
pub struct Machine {
    pub levels: u32,
    pub host_frames: u64,
    pub shadow_frames: u64,
    pub guest_area: Vec<u64>,
    pub mapping: BTreeMap<u64, Mapping>,
    pub root: u64,
    /// Whether accessed and dirty bits are set, as the opening chose.
    pub bits: bool,
}

impl Machine {
    /// "It starts with the opening's H, S and guest area, nothing mapped, root 0."
    pub fn new(
        levels: u32,
        host_frames: u64,
        shadow_frames: u64,
        guest_area: Vec<u64>,
        bits: bool,
    ) -> Machine {
        Machine { levels, host_frames, shadow_frames, guest_area, mapping: BTreeMap::new(), root: 0, bits }
    }

    /// "first H host frames, then S shadow frames, then the guest area"
    pub fn first_guest_frame(&self) -> u64 {
        self.host_frames + self.shadow_frames
    }

    pub fn in_guest_area(&self, host: u64) -> bool {
        let frames = self.guest_area.len() as u64 / FRAME_WORDS;
        host >= self.first_guest_frame() && host - self.first_guest_frame() < frames
    }

    fn place(&self, word: Word) -> usize {
        ((word.frame - self.first_guest_frame()) * FRAME_WORDS + word.index) as usize
    }

    pub fn read(&self, word: Word) -> u64 {
        self.guest_area[self.place(word)]
    }

    pub fn write(&mut self, word: Word, value: u64) {
        let place = self.place(word);
        self.guest_area[place] = value;
    }

    /// "A mapped frame's host walk reads one word a level; an unmapped one is H
    /// after 1 word and one more for each proper, not empty prefix of it that
    /// some mapped frame has."
    pub fn host_walk(&self, frame: u64) -> Step {
        match self.mapping.get(&frame) {
            Some(found) => Step::HostWalk { frame, words: self.levels as u64, found: Some(*found) },
            None => Step::HostWalk { frame, words: 1 + self.tables_met(frame), found: None },
        }
    }

    /// How many "proper, not empty" prefixes of the frame some mapped frame has.
    fn tables_met(&self, frame: u64) -> u64 {
        let sought = indexes(frame, self.levels);
        let mapped: Vec<Vec<u64>> = self.mapping.keys().map(|other| indexes(*other, self.levels)).collect();
        let has = |prefix: &[u64]| mapped.iter().any(|other| other.starts_with(prefix));
        (1..sought.len()).filter(|length| has(&sought[..*length])).count() as u64
    }

    /// "the host tables, counted as different proper prefixes of mapped frames,"
    /// if this frame were mapped too.
    pub fn host_tables_with(&self, frame: u64) -> u64 {
        let frames = self.mapping.keys().chain([&frame]);
        let lists: Vec<Vec<u64>> = frames.map(|frame| indexes(*frame, self.levels)).collect();
        different_proper_prefixes(lists.iter())
    }

    pub fn plain_walk(&self, address: u64, access: Access) -> Walk {
        let mut steps = Vec::new();
        let end = self.walk_down(address, access, &mut steps);
        // W for a bit is judged last, when the walk itself has found no fault.
        let lacking = if self.bits && end.is_ok() { lacking(&steps, access) } else { Vec::new() };
        match lacking.first() {
            Some((level, frame)) => {
                Walk { steps, end: Err(Fault::HostReadOnly { frame: *frame }), lacking: Some(*level) }
            }
            None => Walk { steps, end, lacking: None },
        }
    }

    /// Sets the bits that a granted request needs. The walk may have read a word twice.
    pub fn set_bits(&mut self, walk: &Walk, access: Access) {
        for step in &walk.steps {
            if let Step::GuestEntry { level, word, entry } = *step {
                self.write(word, self.read(word) | needed_bits(entry, level, access));
            }
        }
    }

    fn walk_down(&self, address: u64, access: Access, steps: &mut Vec<Step>) -> Result<Mapping, Fault> {
        let page = frame_of(address);
        // "Host-walk the root's frame."
        let mut frame = self.root;
        let mut found = self.take_host_walk(frame, steps)?;
        let mut all_writable = true;
        for level in (1..=self.levels).rev() {
            // "At each level 4 to 1 read the guest entry: not present is fault A,
            // else malformed is fault M, with that level."
            let word = Word { frame: found.host, index: index(page, level) };
            let entry = Entry(self.read(word));
            steps.push(Step::GuestEntry { level, word, entry });
            if !entry.present() {
                return Err(Fault::Absent { level });
            }
            if entry.malformed(level, self.levels) {
                return Err(Fault::Malformed { level });
            }
            all_writable = all_writable && entry.writable();
            // "For a store, once level 1 is read, any unset writable bit among
            // the four guest entries is fault P, with level 1." A large page has the
            // level of its entry in place of level 1.
            let ends = entry.ends_walk(level);
            if ends && access == Access::Store && !all_writable {
                return Err(Fault::Protected { level });
            }
            // "Host-walk the entry's frame before the next level."
            // At the last: "Then host-walk the page", "of the single guest frame".
            frame = entry.next_frame(level, page);
            found = self.take_host_walk(frame, steps)?;
            if ends {
                break;
            }
        }
        // "for a store, a page whose level 1 host entry is not writable is fault W"
        if access == Access::Store && !found.writable {
            return Err(Fault::HostReadOnly { frame });
        }
        Ok(found)
    }

    fn take_host_walk(&self, frame: u64, steps: &mut Vec<Step>) -> Result<Mapping, Fault> {
        let step = self.host_walk(frame);
        steps.push(step);
        match step {
            Step::HostWalk { found: Some(mapping), .. } => Ok(mapping),
            _ => Err(Fault::HostAbsent { frame }),
        }
    }
}
