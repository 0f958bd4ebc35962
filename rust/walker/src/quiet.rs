//! A quiet stretch of a run (document 02, 5): which calls may stand in it, which paths
//! they touch, and how many exits it costs. Nothing here looks at the exits of an
//! answer, for these are what the figure is compared with. It is for bits off. The
//! automatic choice does not matter to it: what drops no path is charged to nobody.

use crate::answer::{Answer, Call};
use crate::book::{depth_of_request, note_shadow_part, Book};
use crate::machine::{Access, Walk};
use crate::numbers::different_proper_prefixes;
use crate::unit::Unit;
use std::collections::BTreeSet;

/// What a call that may stand in a stretch does there.
#[derive(Clone, Debug, PartialEq, Eq)]
pub enum Part {
    /// "granted loads and stores", each with the path that it touches. "At d = 5
    /// nothing is shadowed": with N levels depth N + 1 touches none.
    Request { path: Option<Vec<u64>> },
    /// "A refused call changes nothing", of whatever kind it is, nor does a forecast: a
    /// stretch is the same without them.
    Nothing,
}

/// Why a call may not stand in a stretch.
#[derive(Clone, Copy, Debug, PartialEq, Eq, PartialOrd, Ord)]
pub enum End {
    /// A load or store that was not granted.
    Fault,
    /// "no root load, map, unmap or mark change", "no device store"
    OtherCall,
    /// "no store into a watched frame"
    WatchedFrame,
    /// Not one of the "paths whose shadow tables fit S with those already held".
    NoRoom,
}

/// What a call is to a stretch, by the unit before it. Of its answer only the kind is
/// asked for. Whether its path fits is for the stretch to say.
pub fn part(before: &Unit, call: &Call, answer: &Answer) -> Result<Part, End> {
    match (call, answer) {
        (_, Answer::No(_)) | (Call::Forecast { .. }, _) => Ok(Part::Nothing),
        (Call::Load { .. } | Call::Store { .. }, Answer::Fault { .. }) => Err(End::Fault),
        (Call::Store { address, .. }, _) if into_watched(before, *address) => Err(End::WatchedFrame),
        (Call::Load { address, .. } | Call::Store { address, .. }, _) => {
            Ok(Part::Request { path: before.path_of(*address) })
        }
        _ => Err(End::OtherCall),
    }
}

/// Whether a granted store goes into a watched frame. It is asked when the store's own
/// exit is: "for a store into a frame that is watched once the store is translated".
fn into_watched(before: &Unit, address: u64) -> bool {
    let walk = before.machine().plain_walk(address, Access::Store);
    walk.end.is_ok_and(|page| once_translated(before, address, &walk).watched(page.host))
}

/// The book when a granted request is translated, and nothing is written yet: "a store
/// fills first, then writes, then drops".
pub fn once_translated(before: &Unit, address: u64, walk: &Walk) -> Book {
    let mut book = before.book().clone();
    let depth = depth_of_request(book.depth(address), walk);
    match book.path(address, depth) {
        Some(path) if !book.held.contains_key(&path) => {
            // Quiet stretches are found in runs without bits (document 02, 6).
            book.fill(path, note_shadow_part(walk, before.machine().levels, depth, false));
        }
        _ => {}
    }
    book
}

/// A stretch: what was held at its start, and what it touched so far.
#[derive(Clone, Debug)]
pub struct Stretch {
    shadow_frames: u64,
    pub held: BTreeSet<Vec<u64>>,
    pub touched: BTreeSet<Vec<u64>>,
}

impl Stretch {
    /// One that starts with the unit's next call.
    pub fn start(unit: &Unit) -> Stretch {
        let held = unit.book().held.keys().cloned().collect();
        Stretch { shadow_frames: unit.machine().shadow_frames, held, touched: BTreeSet::new() }
    }

    /// Takes the next call, unless its path does not fit: then the stretch ends before it.
    pub fn take(&mut self, part: &Part) -> Result<(), End> {
        let Part::Request { path: Some(path) } = part else { return Ok(()) };
        let is_new = self.touched.insert(path.clone());
        if is_new && self.tables() > self.shadow_frames {
            self.touched.remove(path);
            return Err(End::NoRoom);
        }
        Ok(())
    }

    /// "one exit for each different path touched that was not held at the start, and no
    /// other; depth 5 costs none"
    pub fn figure(&self) -> u64 {
        self.touched.difference(&self.held).count() as u64
    }

    /// What is held after it. No call of a stretch drops a path: each store is into a
    /// frame in which no shadow part reads, and every fill fits.
    pub fn held_after(&self) -> BTreeSet<Vec<u64>> {
        &self.held | &self.touched
    }

    /// The shadow tables of the paths touched "with those already held".
    pub fn tables(&self) -> u64 {
        different_proper_prefixes(self.held.union(&self.touched))
    }
}
