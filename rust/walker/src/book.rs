//! The book: the marks and the held paths, "each with the guest words and
//! mappings its shadow part used and its writable bit; none at opening". With the
//! automatic choice also which marks are automatic, and the window.

mod automatic;

pub use automatic::{Kind, ListedMark, Window, CHARGES_FOR_A_MARK, WINDOW_LENGTH};

use crate::machine::{Step, Walk, Word};
use crate::numbers::{different_proper_prefixes, frame_of, indexes, DIRTY};
use std::collections::{BTreeMap, BTreeSet};

/// "At most 64 marks are set."
pub const MOST_MARKS: usize = 64;

/// "A mark is a level n from 1 to 5 and a prefix."
#[derive(Clone, Debug, PartialEq, Eq, PartialOrd, Ord)]
pub struct Mark {
    pub level: u32,
    pub prefix: Vec<u64>,
}

/// What the depth search yields: the depth, and "how many marks it read".
#[derive(Clone, Copy, Debug, PartialEq, Eq)]
pub struct Lookup {
    pub depth: u32,
    pub read: usize,
}

/// Some paths, each with what the book has of it.
pub type Paths = Vec<(Vec<u64>, HeldPath)>;

/// What the shadow part of a held path used, and its writable bit.
#[derive(Clone, Debug, PartialEq, Eq)]
pub struct HeldPath {
    pub words: Vec<Word>,
    pub frames: Vec<u64>,
    pub writable: bool,
}

impl HeldPath {
    /// The level of the large page that this is the path of, if it is one: fewer words than
    /// indexes were read.
    pub fn large_level(&self, path: &[u64]) -> Option<u32> {
        let not_read = (path.len() - self.words.len()) as u32;
        (not_read > 0).then_some(not_read + 1)
    }
}

#[derive(Clone, Debug, PartialEq, Eq)]
pub struct Book {
    levels: u32,
    shadow_frames: u64,
    /// All that are set, automatic ones too.
    pub marks: BTreeSet<Mark>,
    /// Those of them that are automatic, the one set longest ago first. All are of level 1.
    automatic: Vec<Mark>,
    /// None if the automatic choice is off.
    window: Option<Window>,
    /// A path is the first N - d indexes of an address.
    pub held: BTreeMap<Vec<u64>, HeldPath>,
}

impl Book {
    /// One without the automatic choice.
    pub fn new(levels: u32, shadow_frames: u64) -> Book {
        Book {
            levels,
            shadow_frames,
            marks: BTreeSet::new(),
            automatic: Vec::new(),
            window: None,
            held: BTreeMap::new(),
        }
    }

    /// The same book with the automatic choice on or off.
    pub fn with_automatic_choice(self, on: bool) -> Book {
        Book { window: on.then(Window::default), ..self }
    }

    fn indexes(&self, address: u64) -> Vec<u64> {
        indexes(frame_of(address), self.levels)
    }

    /// "Levels 1 to 3 keep the first 4 - n indexes of the address given; 4 and 5 keep none."
    pub fn mark(&self, address: u64, level: u32) -> Mark {
        let kept = self.levels.saturating_sub(level) as usize;
        Mark { level, prefix: self.indexes(address)[..kept].to_vec() }
    }

    /// Sets a mark of this kind, or makes one that is set one of this kind. Yields the
    /// dropped paths.
    pub fn set_mark(&mut self, mark: Mark, kind: Kind) -> Paths {
        let dropped = self.drop_by_prefix(&mark.prefix);
        self.forget_age(&mark);
        if kind == Kind::Automatic {
            self.automatic.push(mark.clone());
        }
        self.marks.insert(mark);
        dropped
    }

    /// Clears a mark, whosever it is. Yields the dropped paths.
    pub fn clear_mark(&mut self, mark: &Mark) -> Paths {
        self.marks.remove(mark);
        self.forget_age(mark);
        self.drop_by_prefix(&mark.prefix)
    }

    pub fn marks_full(&self) -> bool {
        self.marks.len() >= MOST_MARKS
    }

    /// "The depth d of an address is the greatest level among marks whose prefix
    /// it begins with, or 0." A request's own may be another: `depth_of_request`.
    pub fn depth(&self, address: u64) -> u32 {
        let indexes = self.indexes(address);
        let begun_with = self.marks.iter().filter(|mark| indexes.starts_with(&mark.prefix));
        begun_with.map(|mark| mark.level).max().unwrap_or(0)
    }

    /// The depth, which stays as it was, and how many marks are read to find it: "in
    /// the order of their places, those up to and with that one" of level 5, "or else
    /// all that are set". With N levels that one has level N + 1.
    ///
    /// Which place a mark has is the unit's own affair. So its places are given, in
    /// order and with none where no mark is set; if they do not hold the book's marks,
    /// there is no lookup.
    pub fn lookup(&self, places: &[Option<Mark>], address: u64) -> Option<Lookup> {
        let in_order: Vec<&Mark> = places.iter().flatten().collect();
        let ending = in_order.iter().position(|mark| mark.level == self.levels + 1);
        let read = ending.map_or(in_order.len(), |before| before + 1);
        self.has_just(in_order).then(|| Lookup { depth: self.depth(address), read })
    }

    /// Whether these are the book's marks, each once.
    fn has_just(&self, mut marks: Vec<&Mark>) -> bool {
        marks.sort();
        marks.into_iter().eq(&self.marks)
    }

    /// "A path is the first 4 - d indexes of an address (none for d = 4)."
    /// "At d = 5 nothing is shadowed": no path.
    pub fn path(&self, address: u64, depth: u32) -> Option<Vec<u64>> {
        let length = self.levels.checked_sub(depth)? as usize;
        Some(self.indexes(address)[..length].to_vec())
    }

    /// "Shadow tables in use are the different proper prefixes of held paths."
    pub fn tables_in_use(&self) -> u64 {
        different_proper_prefixes(self.held.keys())
    }

    /// "If a new path would make them more than S, all held paths are dropped
    /// first." Yields the dropped paths. A path that is held is filled anew and needs
    /// no table more.
    pub fn fill(&mut self, path: Vec<u64>, held: HeldPath) -> Paths {
        let tables = different_proper_prefixes(self.held.keys().chain([&path]));
        let overflows = tables > self.shadow_frames;
        let dropped = self.drop_where(|_, _| overflows);
        self.held.insert(path, held);
        dropped
    }

    /// "A host frame is watched while the shadow part of some held path reads a
    /// guest entry in it."
    pub fn watched(&self, host: u64) -> bool {
        self.held.values().any(|held| held.words.iter().any(|word| word.frame == host))
    }

    /// "A guest or device store drops every held path whose shadow part read the
    /// word stored to, and no other, even if the value is the same."
    /// Yields the dropped paths.
    pub fn drop_by_word(&mut self, word: Word) -> Paths {
        self.drop_where(|_, held| held.words.contains(&word))
    }

    /// "Mapping or unmapping a guest frame drops every held path whose shadow
    /// part used its mapping."
    pub fn drop_by_mapping(&mut self, guest: u64) -> Paths {
        self.drop_where(|_, held| held.frames.contains(&guest))
    }

    /// "A mark set or cleared drops the paths that begin with its prefix." Those of large
    /// pages are among them, though their depth may stay 0.
    pub fn drop_by_prefix(&mut self, prefix: &[u64]) -> Paths {
        self.drop_where(|path, _| path.starts_with(prefix))
    }

    /// "A root load drops all."
    pub fn drop_all(&mut self) -> usize {
        self.drop_where(|_, _| true).len()
    }

    fn drop_where(&mut self, drops: impl Fn(&[u64], &HeldPath) -> bool) -> Paths {
        let paths: Vec<Vec<u64>> =
            self.held.iter().filter(|(path, held)| drops(path, held)).map(|(path, _)| path.clone()).collect();
        paths.into_iter().filter_map(|path| self.held.remove_entry(&path)).collect()
    }
}

/// The depth of a request, by the marks' depth and its walk: "If the large entry lies above
/// the marked levels", which are those up to the marks' depth, "the request has depth 0 and a
/// path of four indexes."
pub fn depth_of_request(by_marks: u32, walk: &Walk) -> u32 {
    match walk.large_level() {
        Some(level) if level > by_marks => 0,
        _ => by_marks,
    }
}

/// How many steps of a plain walk the shadow part has: the root's host walk, and
/// for each level above d the guest entry and the host walk of its frame ("the
/// plain walk up to the host frame of the guest table at level d, or of the page
/// when d = 0"). "At d = 5 nothing is shadowed."
fn shadow_steps(levels: u32, depth: u32) -> usize {
    match levels.checked_sub(depth) {
        Some(shadowed) => 1 + 2 * shadowed as usize,
        None => 0,
    }
}

/// The steps of the shadow part, and those of the direct part. The walk of a large page at
/// depth 0 has fewer steps, and the shadow part is all of it.
pub fn parts(walk: &Walk, levels: u32, depth: u32) -> (&[Step], &[Step]) {
    walk.steps.split_at(shadow_steps(levels, depth).min(walk.steps.len()))
}

/// Whether a walk meets its fault in the shadow part. "At d = 0 that includes P and W."
/// W for a bit is the fault of whichever part reads its entry (document 02, 6): the direct
/// part reads those of level d and below.
pub fn faults_in_shadow_part(walk: &Walk, levels: u32, depth: u32) -> bool {
    if walk.end.is_ok() || depth > levels {
        return false;
    }
    match walk.lacking {
        Some(level) => level > depth,
        None => depth == 0 || !shadow_part_complete(walk, levels, depth),
    }
}

/// Whether the walk found the host frame at which its shadow part ends.
fn shadow_part_complete(walk: &Walk, levels: u32, depth: u32) -> bool {
    let last = walk.steps.get(shadow_steps(levels, depth) - 1);
    matches!(last, Some(Step::HostWalk { found: Some(_), .. }))
}

/// The book's note of a shadow part that met no fault. "Its writable bit is the
/// and of the guest bits it covers, and at d = 0 of the host bit too."
///
/// If bit 6 counts, as for a load with bits on, it is among them: such a path must not let
/// a store by that owes the bit. A depth-0 path alone covers the entry where the walk ends.
pub fn note_shadow_part(walk: &Walk, levels: u32, depth: u32, dirty_counts: bool) -> HeldPath {
    let mut note = HeldPath { words: Vec::new(), frames: Vec::new(), writable: true };
    let (steps, _) = parts(walk, levels, depth);
    for step in steps {
        match step {
            Step::GuestEntry { level, word, entry } => {
                note.words.push(*word);
                let clean = dirty_counts && entry.ends_walk(*level) && entry.lacks(DIRTY) != 0;
                note.writable = note.writable && entry.writable() && !clean;
            }
            Step::HostWalk { frame, .. } => note.frames.push(*frame),
        }
    }
    if let (0, Some(Step::HostWalk { found: Some(page), .. })) = (depth, steps.last()) {
        note.writable = note.writable && page.writable;
    }
    note
}
