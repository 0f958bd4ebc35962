//! Counters of what happened in a run, by name. They show what random runs reach;
//! nothing in the answers rests on them.

use crate::book::{Lookup, Mark};
use crate::numbers::{
    device_limit, frame_of, in_upper_half, indexes, is_legal, sign_bit, LARGE_LEVELS, WIDTHS, WORD_BYTES,
};
use crate::unit::large::size;
use std::collections::BTreeMap;

#[derive(Clone, Debug, Default)]
pub struct Events {
    pub counts: BTreeMap<String, u64>,
}

impl Events {
    pub fn add(&mut self, name: impl Into<String>) {
        self.add_many(name, 1);
    }

    pub fn add_many(&mut self, name: impl Into<String>, many: usize) {
        if many > 0 {
            *self.counts.entry(name.into()).or_insert(0) += many as u64;
        }
    }

    /// Counts under the name only if the condition holds.
    pub fn add_if(&mut self, condition: bool, name: &str) {
        self.add_many(name, condition as usize);
    }

    pub fn count(&self, name: &str) -> u64 {
        self.counts.get(name).copied().unwrap_or(0)
    }

    /// Takes over all counts of another run.
    pub fn join(&mut self, other: &Events) {
        self.join_as("", other);
    }

    /// Takes over all counts, with these words before their names.
    pub fn join_as(&mut self, words: &str, other: &Events) {
        for (name, many) in &other.counts {
            *self.counts.entry(format!("{words}{name}")).or_insert(0) += many;
        }
    }

    /// How often a fill dropped all paths, at whatever depth.
    pub fn overflows(&self) -> u64 {
        let named = self.counts.iter().filter(|(name, _)| name.starts_with("overflow at depth "));
        named.map(|(_, many)| many).sum()
    }

    /// A width that was refused, and what else would have been, by the names of
    /// `of_widths`. The address is in range if it is legal, or a device's below the limit.
    pub fn add_refused_width(&mut self, name: &str, in_range: bool, address: u64, width: u64) {
        let place = match (in_range, address % WORD_BYTES) {
            (false, _) => "address out of range",
            (true, 0) => "address of a word",
            (true, _) => "address within a word",
        };
        self.add(format!("refusal 15 of {name}, {place}"));
        for (_, what) in met_by_width(width).iter().filter(|(is_met, _)| *is_met) {
            self.add(format!("refusal 15, {what}"));
        }
    }

    /// A lookup at the unit's places, by the names of `of_lookups`.
    pub fn add_lookup(&mut self, levels: u32, places: &[Option<Mark>], address: u64, lookup: Lookup) {
        let half = if in_upper_half(address, levels) { "upper half" } else { "lower half" };
        self.add("lookup");
        self.add(format!("lookup, depth {}, {half}", lookup.depth));
        let set: Vec<usize> = (0..places.len()).filter(|place| places[*place].is_some()).collect();
        let read: Vec<&Mark> = places.iter().flatten().take(lookup.read).collect();
        let Some(last) = read.last() else { return self.add("lookup, no mark set") };
        let way = if last.level == levels + 1 { "ended" } else { "all read" };
        let at_places = met_at_places(&set, places.len(), read.len());
        let by_address = met_by_address(levels, &read, address);
        for (_, what) in at_places.iter().chain(&by_address).filter(|(is_met, _)| *is_met) {
            self.add(format!("lookup {way}, {what}"));
        }
        if way == "ended" {
            self.add(format!("lookup ended, {} read", read.len()));
            let behind = read.iter().any(|mark| mark.level == levels);
            self.add_if(behind, &format!("lookup ended, behind one of level {levels}"));
        }
    }
}

/// What a width that was refused is like.
fn met_by_width(width: u64) -> [(bool, &'static str); 12] {
    let low_bits = |bits: u32| WIDTHS.contains(&(width % (1 << bits)));
    [
        (width == 0, "width 0"),
        (width == 3, "width 3"),
        (width == 5, "width 5"),
        (width == 6, "width 6"),
        (width == 7, "width 7"),
        (width == 9, "width 9"),
        (width == 16, "width 16"),
        // A number cut to fewer bits would be another one.
        (low_bits(8), "right by its low 8 bits"),
        (low_bits(32), "right by its low 32 bits"),
        (WIDTHS.contains(&width.wrapping_neg()), "right but for its sign"),
        (width >= 1 << 32, "width of 2^32 or more"),
        (width >= 1 << 63, "width of 2^63 or more"),
    ]
}

/// What a lookup met, by the places that are set and how many of them it read.
fn met_at_places(set: &[usize], places: usize, read: usize) -> [(bool, &'static str); 10] {
    let (first, last) = (set[0], set[read - 1]);
    let several = set.len() > 1;
    [
        (!several, "one mark set"),
        (several, "several marks set"),
        (set.len() >= 40, "40 marks set or more"),
        (set.len() == places, "every place set"),
        (first > 0, "unset place before the first mark"),
        (last - first >= read, "unset place between marks read"),
        (several && read == 1, "at the first mark"),
        (read > 1, "behind other marks"),
        (several && read == set.len(), "at the last mark"),
        (read < set.len(), "marks left unread"),
    ]
}

/// What a lookup met, by its address and the marks that it read.
fn met_by_address(levels: u32, read: &[&Mark], address: u64) -> [(bool, &'static str); 5] {
    let indexes = indexes(frame_of(address), levels);
    let hold = read.iter().filter(|mark| indexes.starts_with(&mark.prefix));
    let hold: Vec<u32> = hold.map(|mark| mark.level).collect();
    [
        (hold.len() < read.len(), "mark read that does not hold"),
        (hold.windows(2).any(|two| two[0] < two[1]), "mark that holds before a deeper one"),
        (hold.windows(2).any(|two| two[0] > two[1]), "mark that holds behind a deeper one"),
        (address % 8 != 0, "address no multiple of 8"),
        (!is_legal(address, levels), "address between the halves"),
    ]
}

/// What many runs of so many levels must have had in each half of the addresses,
/// between the halves, and at the limit of device addresses.
pub fn of_halves(levels: u32) -> Vec<String> {
    let mut names = Vec::new();
    let mut add = |name: String| names.push(name);
    for half in ["lower half", "upper half"] {
        for depth in 0..=levels + 1 {
            add(format!("granted Load at depth {depth}, {half}"));
            add(format!("granted Store at depth {depth}, {half}"));
        }
        for letter in ["A", "M", "P", "H", "W"] {
            add(format!("fault {letter}, {half}"));
        }
        for level in 1..=levels + 1 {
            add(format!("mark of level {level} set, {half}"));
            add(format!("mark of level {level} cleared, {half}"));
        }
        for place in sign_bit(levels)..64 {
            add(format!("refusal 4, {half} but for bit {place}"));
        }
    }
    for name in ["Load", "Store", "SetMark", "ClearMark"] {
        add(format!("refusal 4 of {name}, between the halves"));
    }
    add("refusal 4 of DeviceStore, at or above the limit".into());
    add("refusal 4 of DeviceStore, legal for a load".into());
    // With five levels the limit lies in the lower half.
    if device_limit(levels) > 1 << sign_bit(levels) {
        add("device store, not legal for a load".into());
    }
    add("depth unlike the other half's".into());
    add("like paths of both halves held".into());
    names
}

/// What loads, stores and device stores of each width must have had in many runs of
/// so many levels (document 02, 4).
pub fn of_widths(levels: u32) -> Vec<String> {
    let mut names = Vec::new();
    let mut add = |name: String| names.push(name);
    for name in ["Load", "Store", "DeviceStore"] {
        for place in ["address of a word", "address within a word", "address out of range"] {
            add(format!("refusal 15 of {name}, {place}"));
        }
        for width in WIDTHS {
            for first in (0..WORD_BYTES).step_by(width as usize) {
                add(format!("granted {name}, width {width} at byte {first}"));
                if name != "Load" {
                    add(format!("drop by {name}, width {width} at byte {first}"));
                }
            }
            // Every address is a multiple of 1, and a word has no bytes but its own.
            if width > 1 {
                add(format!("refusal 4 of {name}, no multiple of {width}"));
            }
            if width < WORD_BYTES {
                add(format!("granted {name}, width {width}, other bytes not 0"));
                if name != "Load" {
                    add(format!("granted {name}, width {width}, value with more bits"));
                }
            }
        }
    }
    met_by_width(0).iter().for_each(|(_, what)| add(format!("refusal 15, {what}")));
    for access in ["Load", "Store"] {
        for depth in 0..=levels {
            for way in ["path held", "path not held"] {
                add(format!("granted narrow {access} at depth {depth}, {way}"));
            }
        }
        add(format!("granted narrow {access} at depth {}, no path", levels + 1));
    }
    for (name, letters) in [("Load", "AMH"), ("Store", "AMPHW"), ("DeviceStore", "HW")] {
        letters.chars().for_each(|letter| add(format!("fault {letter} of a narrow {name}")));
    }
    for what in ["present bit", "writable bit", "frame", "form"] {
        add(format!("walk by an entry whose {what} was changed by bytes"));
    }
    add("narrow drop though the bytes are the same".into());
    add("narrow store, watched frame, no path dropped".into());
    names
}

/// What many runs of so many levels with accessed and dirty bits must have had
/// (document 02, 6); `overflows` if the shadow tables are few.
pub fn of_bits(levels: u32, overflows: bool) -> Vec<String> {
    let mut names = Vec::new();
    let mut add = |name: String| names.push(name);
    for depth in 0..=levels + 1 {
        let ways = if depth > levels { &["no path"][..] } else { &["path held", "path not held"] };
        for way in ways {
            for level in 1..=levels {
                // The entries above depth d that a held path read have bit 5.
                if *way != "path held" || level <= depth {
                    add(format!("bit 5 set at level {level}, depth {depth}, {way}"));
                }
                let part = if level > depth { "shadow" } else { "direct" };
                // At depth 0 bit 6 may be lacking.
                if *way != "path held" || level <= depth.max(1) {
                    add(format!("W for a bit of level {level} at depth {depth}, {part} part, {way}"));
                }
            }
            add(format!("bit 6 set at depth {depth}, {way}"));
            add(format!("W for bit 6 alone at depth {depth}, {way}"));
            add(format!("no bit set, granted Load at depth {depth}, {way}"));
            add(format!("no bit set, granted Store at depth {depth}, {way}"));
            // Faults behind the shadow part: the plain count if the path is not held.
            if depth > 0 {
                for letter in ["A", "M", "P", "H", "W"] {
                    // With five levels no entry of level 1 is malformed.
                    if letter != "M" || levels == 4 || depth > 1 {
                        add(format!("fault {letter} at depth {depth}, direct part, {way}"));
                    }
                }
            }
        }
    }
    for level in 1..=levels {
        add(format!("granted, table of level {level} read-only, its bits set before"));
    }
    for letter in ["A", "M", "P", "H", "W"] {
        add(format!("fault {letter} before W for a bit"));
    }
    let others = [
        "W for a bit by a path that forbids stores",
        "W for a bit, a lower table lacks one too",
        "W for a bit, table writable by another name",
        "W for a bit, word reached above too",
        "W for a bit, word reached below too",
        "bit set in a watched frame",
        "bit set in a word that a held path read",
        "bit set, table read-only by another name",
        "bits set in a walk that reads a word twice",
        "drop by a store that clears bit 5",
        "drop by a store that clears bit 6",
        "fault P by a path that forbids stores",
        "fault W by a path that forbids stores",
        "fill by a load, bit 6 clear",
        "fill by a load, bit 6 set",
        "fill by a store",
        "load by a path that forbids stores, bit 6 set by another",
        "path still not held after a fault behind its shadow part",
        "refill by a store into a watched frame",
        "refill, bit 6 clear",
        "refill, bit 6 set by another",
        "refill, other paths held",
        "Load of an entry of its own, with a bit just set",
        "narrow Load of an entry of its own, with a bit just set",
        "Load beside a bit just set",
        "Store over a bit just set",
        "narrow Store over a bit just set",
        "Store beside a bit just set",
        "refusal 16",
        "refusal 16 of more than 256 addresses",
    ];
    others.iter().for_each(|name| add((*name).into()));
    if overflows {
        add("refill, every shadow table in use".into());
        add("fault behind the shadow part, a fill would overflow".into());
    }
    names
}

/// What happens where automatic marks tie and the oldest is cleared (document 02, 9). By
/// each but the first two, some other rule clears another one: by address, or by an age that
/// is kept when a mark is set again.
pub const OF_TIES: [&str; 5] = [
    "older of two in a tie",
    "oldest of three or more in a tie",
    "lower and higher ones of the tie stay",
    "one older but for being cleared stays",
    "one older but for being taken over stays",
];

/// What many runs of so many levels with tables that are written often must have had
/// (document 02, 7 and 9); `several` if paths of several prefixes fit at depth 0, `overflows`
/// if the shadow tables are few.
pub fn of_automatic(levels: u32, several: bool, overflows: bool) -> Vec<String> {
    let mut names = Vec::new();
    let mut add = |name: String| names.push(name);
    for half in ["lower half", "upper half"] {
        add(format!("charge, {half}"));
        add(format!("automatic mark set, {half}"));
    }
    // Marks of level N and N + 1 leave no address at depth 0.
    (0..levels).for_each(|depth| add(format!("charge by a store at depth {depth}")));
    (0..=3).for_each(|charges| add(format!("automatic mark cleared, {charges} charges")));
    // None is left, or a mark was just set for the first time, or again.
    for charges in [0, 3, 4] {
        add(format!("automatic mark cleared, a tie at {charges} charges"));
    }
    of_ties().into_iter().for_each(&mut add);
    for access in ["Load", "Store"] {
        for way in ["path held", "path not held"] {
            add(format!("granted {access} at an automatic mark, {way}"));
            add(format!("fault of a {access} at an automatic mark, {way}"));
        }
    }
    let others = [
        "charge",
        "charge, 1 in the window",
        "charge, 2 in the window",
        "charge, 3 in the window",
        "charge, 4 in the window or more",
        "charge by a narrow store",
        "charge by the store's own path alone",
        "charge, a path has the word at level 1 and above",
        "no charge, depth 0 dropped by upper entries alone",
        "no charge, no path of depth 0 dropped",
        "no charge, dropped by a device store",
        "window full, the oldest leaves",
        "window full, a charge leaves",
        "third charge, the first has just left",
        "third charge, the first is about to leave",
        "root load, charges in the window",
        "root load, automatic marks stay",
        "automatic mark set, place free",
        "automatic mark set, another cleared",
        "no automatic mark set, all marks are the operator's",
        "paths dropped by setting an automatic mark",
        "paths dropped by clearing an automatic mark",
        "automatic mark cleared for a store",
        "automatic mark cleared for the operator",
        "automatic mark cleared, the only one",
        "automatic mark cleared, fewest charges",
        "automatic mark cleared, a lower one has more charges",
        "automatic mark cleared, an older one has more charges",
        "automatic mark taken over",
        "automatic mark taken over, all marks set",
        "paths dropped by taking an automatic mark over",
        "refusal 6 of clearing an automatic mark",
        "refusal 7",
        "automatic mark below a deeper one",
        "forecast: granted Load at an automatic mark, path held",
        "forecast: granted Load at an automatic mark, path not held",
    ];
    others.iter().for_each(|name| add((*name).into()));
    if several {
        add("charge, several prefixes".into());
        add("charge, the store's own path among others".into());
        add("charge, the store's own path not the lowest".into());
        add("charge, a lower path dropped by an upper entry".into());
    }
    if overflows {
        add("no charge, the store's own fill dropped the paths".into());
        add("charge, a lower path dropped by the store's own fill".into());
    }
    names
}

/// The same where a charge needs room, and where the operator does.
pub fn of_ties() -> Vec<String> {
    let for_each_need = |what: &&str| {
        ["a store", "the operator"].map(|by| format!("automatic mark cleared for {by}, {what}"))
    };
    OF_TIES.iter().flat_map(for_each_need).collect()
}

/// What many runs of so many levels with large pages must have had (document 02, 8);
/// `overflows` if the shadow tables are few.
pub fn of_large(levels: u32, overflows: bool) -> Vec<String> {
    let mut names = Vec::new();
    let mut add = |name: String| names.push(name);
    for level in LARGE_LEVELS {
        let size = size(level);
        for marks in 0..=levels + 1 {
            // "above the marked levels" or not.
            let depth = if level > marks { 0 } else { marks };
            let at = format!("depth {depth}, marks {marks}");
            let ways = if depth > levels { &["no path"][..] } else { &["path held", "path not held"] };
            for way in ways {
                for access in ["Load", "Store"] {
                    add(format!("{size} page, granted {access} at {at}, {way}"));
                }
                add(format!("forecast: {size} page, granted Load at {at}, {way}"));
                add(format!("{size} page, fault P at {at}, {way}"));
                add(format!("{size} page, fault W at {at}, {way}"));
                // A held path of depth 0 has a page that is mapped.
                if depth > 0 || *way == "path not held" {
                    add(format!("{size} page, fault H at {at}, {way}"));
                }
            }
            if marks > 0 {
                add(format!("held {size} path dropped by setting a mark of level {marks}"));
            }
            // Under a mark of its level or above it no large page has a path of its own.
            if (1..level).contains(&marks) {
                add(format!("held {size} path dropped by clearing a mark of level {marks}"));
            }
        }
        (1..level).for_each(|lower| add(format!("{size} page, index {lower} not 0")));
        add(format!("fault P of level {level}"));
        add(format!("malformed by low frame bits at level {level}"));
        (0..9 * (level - 1))
            .for_each(|bit| add(format!("malformed by bit {} alone at level {level}", 12 + bit)));
        for name in ["map", "unmap"] {
            add(format!("held {size} path dropped by {name} of its page"));
            add(format!("held {size} path dropped by {name} of a table"));
            add(format!("{name} of another frame of a held {size} page drops nothing"));
        }
        for name in ["Store", "DeviceStore"] {
            add(format!("held {size} path dropped by {name} to its entry"));
            add(format!("held {size} path dropped by {name} to an upper entry"));
        }
        add(format!("{size} page stored over by a table"));
        add(format!("table stored over by a {size} page"));
        add(format!("no charge, {size} path dropped by its entry"));
        if overflows {
            add(format!("overflow by a {size} page"));
            add(format!("held {size} path dropped by overflow"));
        }
        // With accessed and dirty bits.
        for depth in [0].into_iter().chain(level..=levels + 1) {
            let ways = if depth > levels { &["no path"][..] } else { &["path held", "path not held"] };
            ways.iter().for_each(|way| add(format!("bit 6 set at level {level}, depth {depth}, {way}")));
        }
        add(format!("W for bit 6 alone of level {level}"));
        (level..=levels).for_each(|other| add(format!("W for a bit of level {other}, {size} page")));
        let fills = ["fill by a load, bit 6 set", "fill by a load, bit 6 clear", "fill by a store"];
        let again = [
            "refill, bit 6 clear",
            "refill, bit 6 set by another",
            "load by a path that forbids stores, bit 6 set by another",
        ];
        fills.iter().chain(&again).for_each(|name| add(format!("{name}, {size} page")));
    }
    (4..=levels).for_each(|level| add(format!("malformed by bit 7 at level {level}")));
    add("bit 7 ignored at level 1".into());
    names
}

/// What the forecasts of many runs of so many levels must have had; `overflows` if
/// the shadow tables are few.
pub fn of_forecasts(levels: u32, overflows: bool) -> Vec<String> {
    let mut names = Vec::new();
    let mut add = |name: String| names.push(name);
    for length in [0, 1, 255, 256] {
        add(format!("forecast of {length} addresses"));
    }
    add("refusal 14".into());
    add("refusal 14, each address would meet 4".into());
    // What its list meets, by the names that a load has them under.
    for why in ["between the halves", "no multiple of 8"] {
        add(format!("forecast: refusal 4 of Load, {why}"));
    }
    for half in ["lower half", "upper half"] {
        (0..=levels + 1).for_each(|depth| add(format!("forecast: granted Load at depth {depth}, {half}")));
        ["A", "M", "H"].iter().for_each(|letter| add(format!("forecast: fault {letter}, {half}")));
    }
    for depth in 0..=levels {
        for way in ["path held", "path not held"] {
            add(format!("forecast: granted Load at depth {depth}, {way}"));
        }
        // A and M need an entry in the shadow part.
        for letter in if depth < levels { &["A", "M", "H"][..] } else { &["H"] } {
            add(format!("forecast: fault {letter} at depth {depth}, shadow part, path not held"));
        }
    }
    for letter in ["A", "M", "H"] {
        // With five levels no entry of level 1 is malformed.
        let least = if letter == "M" && levels > 4 { 2 } else { 1 };
        for depth in least..=levels {
            for way in ["path held", "path not held"] {
                add(format!("forecast: fault {letter} at depth {depth}, direct part, {way}"));
            }
        }
        add(format!("forecast: fault {letter} at depth {}, direct part, no path", levels + 1));
    }
    add("forecast, path held before".into());
    add("forecast, path held by its list alone".into());
    add("forecast, most tables at the end".into());
    if overflows {
        (0..=2).for_each(|depth| add(format!("forecast: overflow at depth {depth}")));
        add("forecast, several overflows".into());
        add("forecast, path held before, dropped by its list".into());
        add("forecast, most tables at the start".into());
        add("forecast, most tables in between".into());
    }
    names
}

/// What the lookups of many runs of so many levels must have had.
pub fn of_lookups(levels: u32) -> Vec<String> {
    let mut names = vec!["lookup".into(), "lookup, no mark set".into()];
    let mut add = |name: String| names.push(name);
    for half in ["lower half", "upper half"] {
        (0..=levels + 1).for_each(|depth| add(format!("lookup, depth {depth}, {half}")));
    }
    for way in ["all read", "ended"] {
        let of_both = [
            "one mark set",
            "several marks set",
            "40 marks set or more",
            "every place set",
            // The number of places up to the last mark read is another one.
            "unset place before the first mark",
            "unset place between marks read",
            "mark read that does not hold",
            "mark that holds before a deeper one",
            "address no multiple of 8",
            "address between the halves",
        ];
        of_both.iter().for_each(|what| add(format!("lookup {way}, {what}")));
    }
    add("lookup all read, mark that holds behind a deeper one".into());
    for what in ["at the first mark", "behind other marks", "at the last mark", "marks left unread"] {
        add(format!("lookup ended, {what}"));
    }
    // A search that ended at level N would end too early.
    add(format!("lookup ended, behind one of level {levels}"));
    names
}
