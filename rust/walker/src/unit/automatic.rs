//! The automatic choice (document 02, 7 and 9) where calls meet it. The notes of events
//! read the state and change only the counters, and what only events rest on.

use super::{Met, Request, Served, Unit, Written};
use crate::book::{Kind, Mark, Paths, CHARGES_FOR_A_MARK, WINDOW_LENGTH};
use crate::events::OF_TIES;
use crate::machine::Walk;
use crate::numbers::{address_of, page_from, WORD_BYTES};
use std::collections::BTreeSet;

/// The automatic marks by ages that they do not have, since one set again is new: in the
/// order of their first setting, but for those that lost their age in the other way.
#[derive(Clone, Debug, Default)]
pub(super) struct KeptAges {
    /// As if one that was cleared for room kept its age.
    cleared: Vec<Mark>,
    /// As if one that the operator took over and cleared did.
    taken_over: Vec<Mark>,
}

impl KeptAges {
    fn set(&mut self, mark: &Mark) {
        for ages in [&mut self.cleared, &mut self.taken_over] {
            if !ages.contains(mark) {
                ages.push(mark.clone());
            }
        }
    }
}

impl Unit {
    /// A granted store, when its own drops are done.
    pub(super) fn charge(&mut self, request: Request, served: &Served, written: &Written) {
        let charged = self.book.charged(written.word, &written.dropped);
        self.note_store(request, served, written);
        self.enter_window(charged);
    }

    /// A load or store that was not refused enters the window. If it is charged to a
    /// prefix, that one may get its mark now.
    pub(super) fn enter_window(&mut self, charged: Option<Vec<u64>>) {
        let left = self.book.enter_window(charged.clone());
        self.note_window(charged.as_ref(), left);
        if let Some(prefix) = charged {
            if self.book.charges_to(&prefix) >= CHARGES_FOR_A_MARK {
                self.set_automatic_mark(prefix);
            }
        }
    }

    /// No mark of level 1 is at the prefix yet: a path of depth 0 was held there.
    fn set_automatic_mark(&mut self, prefix: Vec<u64>) {
        let full = self.book.marks_full();
        if !self.make_room("a store") {
            return self.events.add("no automatic mark set, all marks are the operator's");
        }
        let half = self.half(address_of(page_from(&prefix, self.levels()), self.levels()));
        let mark = Mark { level: 1, prefix };
        self.kept_ages.set(&mark);
        let dropped = self.book.set_mark(mark, Kind::Automatic);
        self.events.add(format!("automatic mark set, {half}"));
        self.events
            .add(format!("automatic mark set, {}", if full { "another cleared" } else { "place free" }));
        self.events.add_many("paths dropped by setting an automatic mark", dropped.len());
        self.note_large_drops("setting an automatic mark", &dropped);
    }

    /// Whether a mark has a place. If all are set, an automatic one is cleared for it.
    pub(super) fn make_room(&mut self, by: &str) -> bool {
        if !self.book.marks_full() {
            return true;
        }
        let Some(mark) = self.book.first_to_go() else { return false };
        self.note_first_to_go(&mark, by);
        let dropped = self.book.clear_mark(&mark);
        self.events.add_many("paths dropped by clearing an automatic mark", dropped.len());
        self.note_large_drops("clearing an automatic mark", &dropped);
        true
    }

    // Notes of events.

    /// A granted store: what it is charged to, or why to nobody though paths were dropped.
    fn note_store(&mut self, request: Request, served: &Served, written: &Written) {
        if self.book.window().is_none() {
            return;
        }
        let Written { word, dropped, .. } = written;
        let by_fill = self.prefixes_charged(written, &served.overflowed);
        match self.book.charged(*word, dropped) {
            Some(prefix) => {
                self.note_charge(request, served.depth, written, &prefix);
                self.note_large_not_charged(*word, dropped, "charge to another");
                let lower = by_fill.first().is_some_and(|other| *other < prefix);
                self.events.add_if(lower, "charge, a lower path dropped by the store's own fill");
            }
            None => {
                let depth_0 = dropped.iter().any(|(path, _)| path.len() == self.levels() as usize);
                let deeper = !dropped.is_empty() && !depth_0;
                self.note_large_not_charged(*word, dropped, "no charge");
                self.events.add_if(depth_0, "no charge, depth 0 dropped by upper entries alone");
                self.events.add_if(deeper, "no charge, no path of depth 0 dropped");
                self.events.add_if(!by_fill.is_empty(), "no charge, the store's own fill dropped the paths");
            }
        }
    }

    /// The prefixes of those paths that would be charged if the store dropped them.
    fn prefixes_charged(&self, written: &Written, paths: &Paths) -> BTreeSet<Vec<u64>> {
        let by_level_1 = paths.iter().filter(|(path, held)| self.book.ends_at(path, held, written.word));
        by_level_1.map(|(path, _)| path[..path.len() - 1].to_vec()).collect()
    }

    fn note_charge(&mut self, request: Request, depth: u32, written: &Written, prefix: &[u64]) {
        let Written { word, dropped, .. } = written;
        let levels = self.levels();
        let half = self.half(address_of(page_from(prefix, levels), levels));
        self.events.add("charge");
        self.events.add(format!("charge, {half}"));
        self.events.add(format!("charge by a store at depth {depth}"));
        self.events.add_if(request.width < WORD_BYTES, "charge by a narrow store");
        let several = self.prefixes_charged(written, dropped).len() > 1;
        self.events.add_if(several, "charge, several prefixes");
        // Paths of depth 0: those that count, and the others.
        let (counted, others): (Vec<_>, Vec<_>) = dropped
            .iter()
            .filter(|(path, _)| path.len() == levels as usize)
            .partition(|(path, held)| self.book.ends_at(path, held, *word));
        let own = self.book.path(request.address, depth);
        let own_counts = counted.iter().any(|(path, _)| Some(path) == own.as_ref());
        let own_is_lowest = own.is_some_and(|own| own.starts_with(prefix));
        let twice =
            counted.iter().any(|(_, held)| held.words.iter().filter(|read| *read == word).count() > 1);
        let lower = others.iter().any(|(path, _)| path[..] < *prefix);
        self.events.add_if(own_counts && counted.len() == 1, "charge by the store's own path alone");
        self.events.add_if(own_counts && counted.len() > 1, "charge, the store's own path among others");
        self.events.add_if(own_counts && !own_is_lowest, "charge, the store's own path not the lowest");
        self.events.add_if(twice, "charge, a path has the word at level 1 and above");
        self.events.add_if(lower, "charge, a lower path dropped by an upper entry");
    }

    /// A granted device store.
    pub(super) fn note_device_drops(&mut self, written: &Written) {
        let would =
            self.book.window().is_some() && self.book.charged(written.word, &written.dropped).is_some();
        self.events.add_if(would, "no charge, dropped by a device store");
    }

    /// A request that has entered the window, and the one that left for it.
    fn note_window(&mut self, charged: Option<&Vec<u64>>, left: Option<Option<Vec<u64>>>) {
        let Some(window) = self.book.window() else { return };
        let full = window.requests().len() == WINDOW_LENGTH;
        let oldest = window.requests().front().and_then(Option::as_ref);
        let met_by_charge = charged.map(|prefix| {
            let charges = window.charges_to(prefix);
            let just_left = left.as_ref().is_some_and(|left| left.as_ref() == charged);
            (charges, just_left, full && oldest == charged)
        });
        self.events.add_if(left.is_some(), "window full, the oldest leaves");
        self.events.add_if(left.is_some_and(|left| left.is_some()), "window full, a charge leaves");
        if let Some((charges, just_left, is_oldest)) = met_by_charge {
            match charges {
                1..=3 => self.events.add(format!("charge, {charges} in the window")),
                _ => self.events.add("charge, 4 in the window or more"),
            }
            self.events.add_if(charges == 2 && just_left, "third charge, the first has just left");
            self.events.add_if(charges == 3 && is_oldest, "third charge, the first is about to leave");
        }
    }

    /// A granted root load.
    pub(super) fn note_emptied_window(&mut self) {
        let Some(window) = self.book.window() else { return };
        let charges = !window.charges().is_empty();
        let marks = self.book.first_to_go().is_some();
        self.events.add_if(charges, "root load, charges in the window");
        self.events.add_if(marks, "root load, automatic marks stay");
    }

    /// An automatic mark that is cleared for room.
    fn note_first_to_go(&mut self, mark: &Mark, by: &str) {
        let marks = self.book.automatic_marks().to_vec();
        let charges = self.book.charges_to(&mark.prefix);
        let (tie, more): (Vec<&Mark>, Vec<&Mark>) =
            marks.iter().partition(|other| self.book.charges_to(&other.prefix) == charges);
        let lower = more.iter().any(|other| *other < mark);
        let older = marks.first() != Some(mark);
        self.events.add(format!("automatic mark cleared for {by}"));
        self.events.add(format!("automatic mark cleared, {charges} charges"));
        self.events.add_if(more.is_empty() && tie.len() == 1, "automatic mark cleared, the only one");
        self.events.add_if(!more.is_empty() && tie.len() == 1, "automatic mark cleared, fewest charges");
        self.events.add_if(lower, "automatic mark cleared, a lower one has more charges");
        self.events.add_if(older, "automatic mark cleared, an older one has more charges");
        if tie.len() > 1 {
            self.note_tie(mark, by, &tie);
            self.events.add(format!("automatic mark cleared, a tie at {charges} charges"));
        }
        self.kept_ages.taken_over.retain(|other| other != mark);
    }

    /// The oldest of several automatic marks that have the fewest charges.
    fn note_tie(&mut self, mark: &Mark, by: &str, tie: &[&Mark]) {
        // By ages that are kept, another one would be the oldest.
        let another = |ages: &[Mark]| ages.iter().find(|other| tie.contains(other)) != Some(mark);
        let met = [
            tie.len() == 2,
            tie.len() > 2,
            tie.iter().any(|other| *other < mark) && tie.iter().any(|other| *other > mark),
            another(&self.kept_ages.cleared),
            another(&self.kept_ages.taken_over),
        ];
        for (what, _) in OF_TIES.iter().zip(met).filter(|(_, is_met)| *is_met) {
            self.events.add(format!("automatic mark cleared for {by}, {what}"));
        }
    }

    /// An automatic mark that the operator set.
    pub(super) fn note_taken_over(&mut self, mark: &Mark, full: bool, dropped: usize) {
        self.kept_ages.cleared.retain(|other| other != mark);
        self.events.add("automatic mark taken over");
        self.events.add_if(full, "automatic mark taken over, all marks set");
        self.events.add_many("paths dropped by taking an automatic mark over", dropped);
    }

    /// A request at an automatic mark.
    pub(super) fn note_automatic_mark(&mut self, walk: &Walk, request: Request, met: Met) {
        if self.book.kind(&self.book.mark(request.address, 1)) != Some(Kind::Automatic) {
            return;
        }
        let (access, way) = (request.access, self.way(met));
        match (met.depth, walk.end) {
            (1, Ok(_)) => self.events.add(format!("granted {access:?} at an automatic mark, {way}")),
            (1, Err(_)) => self.events.add(format!("fault of a {access:?} at an automatic mark, {way}")),
            (0, _) => self.events.add("large page at an automatic mark"),
            _ => self.events.add("automatic mark below a deeper one"),
        }
    }
}
