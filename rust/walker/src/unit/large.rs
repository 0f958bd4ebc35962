//! What calls meet of large pages (document 02, 8), as events. They read the state and
//! change only the counters.

use super::{Met, Request, Unit};
use crate::answer::Fault;
use crate::book::Paths;
use crate::machine::{Step, Walk, Word};
use crate::numbers::{frame_of, index, pages_at, Entry, LARGE, LARGE_LEVELS};

/// What a large page of this level is called.
pub fn size(level: u32) -> &'static str {
    if level == 2 {
        "2 MiB"
    } else {
        "1 GiB"
    }
}

/// The last guest entry of a walk, with its level.
fn last_entry(walk: &Walk) -> Option<(u32, Entry)> {
    walk.steps.iter().rev().find_map(|step| match *step {
        Step::GuestEntry { level, entry, .. } => Some((level, entry)),
        Step::HostWalk { .. } => None,
    })
}

impl Unit {
    /// A load or store: the large page that it met, or what bit 7 meant to it.
    pub(super) fn note_large(&mut self, walk: &Walk, request: Request, met: Met) {
        let Some((level, entry)) = last_entry(walk) else { return };
        if let Err(Fault::Malformed { .. }) = walk.end {
            return self.note_malformed(level, entry);
        }
        if walk.large_level().is_none() {
            let ignored = level == 1 && walk.end.is_ok() && entry.lacks(LARGE) == 0;
            return self.events.add_if(ignored, "bit 7 ignored at level 1");
        }
        let (access, way, size) = (request.access, self.way(met), size(level));
        let depth = format!("depth {}, marks {}, {way}", met.depth, self.book.depth(request.address));
        match walk.end {
            Ok(_) => self.events.add(format!("{size} page, granted {access:?} at {depth}")),
            Err(fault) => self.events.add(format!("{size} page, fault {} at {depth}", fault.letter())),
        }
        for lower in (1..level).filter(|lower| index(frame_of(request.address), *lower) != 0) {
            self.events.add(format!("{size} page, index {lower} not 0"));
        }
    }

    fn note_malformed(&mut self, level: u32, entry: Entry) {
        let high = entry.frame() >> 36 != 0 && self.levels() == 4;
        let low = entry.frame() % pages_at(level);
        if high {
            return;
        }
        if entry.misaligned(level) {
            self.events.add(format!("malformed by low frame bits at level {level}"));
            if low.is_power_of_two() {
                self.events.add(format!("malformed by bit {} alone at level {level}", 12 + low.ilog2()));
            }
        } else {
            self.events.add(format!("malformed by bit 7 at level {level}"));
        }
    }

    /// Paths of large pages that were dropped.
    pub(super) fn note_large_drops(&mut self, by: &str, dropped: &Paths) {
        for level in dropped.iter().filter_map(|(path, held)| held.large_level(path)) {
            self.events.add(format!("held {} path dropped by {by}", size(level)));
        }
    }

    /// A frame that was mapped or unmapped: that of a held large page, of a table above one,
    /// or another of the same large page, whose mapping no held path used.
    pub(super) fn note_mapping_of_large(&mut self, name: &str, guest: u64, dropped: &Paths) {
        for (path, held) in dropped {
            let Some(level) = held.large_level(path) else { continue };
            let whose = if held.frames.last() == Some(&guest) { "its page" } else { "a table" };
            self.events.add(format!("held {} path dropped by {name} of {whose}", size(level)));
        }
        if !dropped.is_empty() {
            return;
        }
        for large in LARGE_LEVELS {
            let beside = self.book.held.iter().any(|(path, held)| {
                let of_size = held.large_level(path) == Some(large);
                of_size
                    && held.frames.last().is_some_and(|own| own / pages_at(large) == guest / pages_at(large))
            });
            let name = format!("{name} of another frame of a held {} page drops nothing", size(large));
            self.events.add_if(beside, &name);
        }
    }

    /// A store or device store to a word that held paths read: by those of large pages, and
    /// where it makes a table of a large page or a large page of a table.
    pub(super) fn note_large_entry(&mut self, name: &str, word: Word, entries: [Entry; 2], dropped: &Paths) {
        let [before, after] = entries;
        for (path, held) in dropped {
            if let Some(level) = held.large_level(path) {
                let which = if held.words.last() == Some(&word) { "its entry" } else { "an upper entry" };
                self.events.add(format!("held {} path dropped by {name} to {which}", size(level)));
            }
            let Some(place) = held.words.iter().position(|read| *read == word) else { continue };
            let level = self.levels() - place as u32;
            if !LARGE_LEVELS.contains(&level) || !after.present() || after.malformed(level, self.levels()) {
                continue;
            }
            match (before.is_large(level), after.is_large(level)) {
                (true, false) => self.events.add(format!("{} page stored over by a table", size(level))),
                (false, true) => self.events.add(format!("table stored over by a {} page", size(level))),
                _ => {}
            }
        }
    }

    /// A path that was filled, and those that were dropped for it.
    pub(super) fn note_large_fill(&mut self, walk: &Walk, overflowed: &Paths) {
        self.note_large_drops("overflow", overflowed);
        let Some(level) = walk.large_level() else { return };
        self.events.add_if(!overflowed.is_empty(), &format!("overflow by a {} page", size(level)));
    }

    /// With the automatic choice: a guest store that is charged to nobody, or to others, though
    /// it dropped the path of a large page by its last word.
    pub(super) fn note_large_not_charged(&mut self, word: Word, dropped: &Paths, charge: &str) {
        for (path, held) in dropped.iter().filter(|(_, held)| held.words.last() == Some(&word)) {
            if let Some(level) = held.large_level(path) {
                self.events.add(format!("{charge}, {} path dropped by its entry", size(level)));
            }
        }
    }
}
