//! Requests 7 and 9 of document 02, tables that are written often and the oldest automatic
//! mark. The numbers are worked out by hand from the papers.
//!
//! The guest is like document 01's, with more entries. Frames 0 to 2 are the tables of
//! levels 4 to 2. Entries 0 to 3 of frame 2 name frame 3, entry 4 names frame 6, and entry
//! 5 names frame 2 itself. So of the prefixes 0, 0, n those with n up to 3 hang on one table
//! of level 1, n = 4 has its own, and for n = 5 the table of level 2 is that of level 1 too.
//! Entry 256 of frame 0 is as its entry 0: the same once more in the upper half.
//!
//! Frame 3 has the pages 0 (frame 4), 1 (frame 5, not writable), 2 (frame 8, not mapped),
//! 3 (none), 4 (frame 3 itself), 5 (frame 6), 6 (frame 2) and 7 (frame 4 again). Frame 6 has
//! the pages 0 (frame 7), 1 (frame 3) and 2 (frame 6 itself).
//!
//! Depth 0 is 4 references, depth 1 is 8. With S shadow frames a guest has paths of
//! different prefixes 0, 0, n held together as long as 3 and their number is at most S.

mod guest;

use guest::*;
use walker::answer::{Answer, Call, Choices, Fault};
use walker::book::Kind;
use walker::random::{automatic_run, bits_run, mark_run, quiet_run, run, Random, Run, Sizes};
use walker::Unit;

const ON: Choices = Choices { bits: false, automatic: true };
const OFF: Choices = Choices { bits: false, automatic: false };
const WITH_BITS: Choices = Choices { bits: true, automatic: true };

/// The first address of the upper half, whose top index is 256.
const UPPER: u64 = 0xFFFF_8000_0000_0000;

/// Page 4 of a prefix that hangs on frame 3: the table itself.
const TABLE: u64 = 0x4000;

fn guest_with(shadows: u64, choices: Choices) -> Unit {
    let first = 4 + shadows;
    let mut words = memory(first as usize + 8);
    let mut put = |frame: u64, entries: &[(usize, u64)]| {
        entries.iter().for_each(|(index, entry)| words[(first + frame) as usize * 512 + index] = *entry);
    };
    put(0, &[(0, 0x1003), (256, 0x1003)]);
    put(1, &[(0, 0x2003)]);
    put(2, &[(0, 0x3003), (1, 0x3003), (2, 0x3003), (3, 0x3003), (4, 0x6003), (5, 0x2003)]);
    put(3, &[(0, 0x4003), (1, 0x5001), (2, 0x8003), (4, 0x3003), (5, 0x6003), (6, 0x2003), (7, 0x4003)]);
    put(6, &[(0, 0x7003), (1, 0x3003), (2, 0x6003)]);
    let mut unit = Unit::open_with(LEVELS, words, 4, shadows, choices).unwrap();
    (0..8).for_each(|frame| assert_eq!(map(&mut unit, frame, first + frame), Answer::Ok));
    unit
}

/// With room for the paths of all prefixes of the lower half.
fn guest() -> Unit {
    guest_with(12, ON)
}

/// The first address of the prefix 0, 0, n.
fn at(prefix: u64) -> u64 {
    prefix << 21
}

fn clear_mark(unit: &mut Unit, address: u64, level: u64) -> Answer {
    unit.call(&Call::ClearMark { address, level })
}

fn load_root(unit: &mut Unit) {
    assert_eq!(unit.call(&Call::Root { frame: 0 }), Answer::Ok);
}

fn device_store(unit: &mut Unit, address: u64, value: u64) -> Answer {
    unit.call(&Call::device_store_word(address, value))
}

/// Loads page 0 of the prefix and stores its entry as it is: one charge to the prefix, and
/// two requests in the window. The page of the table is another path, which stays.
fn charge(unit: &mut Unit, prefix: u64) {
    assert!(matches!(load(unit, at(prefix)), Answer::Value { references: 4, .. }));
    assert!(matches!(store(unit, at(prefix) + TABLE, 0x4003), Answer::Done { references: 4, .. }));
}

fn charge_times(unit: &mut Unit, prefix: u64, times: usize) {
    (0..times).for_each(|_| charge(unit, prefix));
}

/// So many loads that are granted, of a path that no store drops.
fn loads(unit: &mut Unit, many: usize) {
    (0..many).for_each(|_| assert!(matches!(load(unit, at(4)), Answer::Value { .. })));
}

/// The operator sets so many marks of level 3 that hold for no address used here.
fn set_others(unit: &mut Unit, many: u64) {
    (1..=many).for_each(|index| assert_eq!(set_mark(unit, index << 39, 3), Answer::Ok));
}

/// All marks are set, those of these prefixes automatic: in this order, with three charges each.
fn all_set(prefixes: &[u64]) -> Unit {
    let mut unit = guest();
    set_others(&mut unit, 64 - prefixes.len() as u64);
    prefixes.iter().for_each(|prefix| charge_times(&mut unit, *prefix, 3));
    unit
}

/// The operator sets one more mark, which needs a place.
fn set_another(unit: &mut Unit, index: u64) {
    assert_eq!(set_mark(unit, index << 39, 3), Answer::Ok);
    assert_eq!(unit.listed_marks().len(), 64);
}

/// The last indexes of the automatic marks below 0, 0, each with its charges.
fn automatic(unit: &Unit) -> Vec<(u64, usize)> {
    let listed = unit.listed_marks().into_iter().filter(|listed| listed.kind == Kind::Automatic);
    let mut list = Vec::new();
    for listed in listed {
        assert_eq!((listed.mark.level, &listed.mark.prefix[..2]), (1, &[0, 0][..]));
        list.push((listed.mark.prefix[2], listed.charges));
    }
    list
}

/// How many charges the window has to 0, 0, n.
fn charges(unit: &Unit, prefix: u64) -> usize {
    unit.book().charges_to(&[0, 0, prefix])
}

fn all_charges(unit: &Unit) -> usize {
    unit.book().window().unwrap().charges().values().sum()
}

fn in_window(unit: &Unit) -> usize {
    unit.book().window().unwrap().requests().len()
}

// ---- the third charge

/// Document 01's line for a store into a watched table, again and again.
#[test]
fn the_third_charge_sets_a_mark() {
    let mut unit = sixteen_frame_guest(ON);
    assert_eq!(load(&mut unit, 0), value(0, 4, 1));
    assert_eq!(store(&mut unit, 0x4000, 0x4003), done(4, 2));
    assert_eq!(load(&mut unit, 0), value(0, 4, 1));
    assert_eq!(store(&mut unit, 0x4000, 0x4003), done(4, 1));
    assert_eq!((automatic(&unit), charges(&unit, 0)), (vec![], 2));
    assert_eq!(load(&mut unit, 0), value(0, 4, 1));
    // The store that sets it costs what it did. Then it is the line of mark 1 at 0.
    assert_eq!(store(&mut unit, 0x4000, 0x4003), done(4, 1));
    assert_eq!(automatic(&unit), [(0, 3)]);
    assert!(unit.book().held.is_empty());
    assert_eq!(load(&mut unit, 0), value(0, 8, 1));
    assert_eq!(store(&mut unit, 0x4000, 0x7003), done(8, 0));
    assert_eq!(load(&mut unit, 0x2000), fault(Fault::HostAbsent { frame: 8 }, 8, 1));
    assert_eq!((page(&unit, 0), word(&unit, 3, 0), charges(&unit, 0)), (15, 0x7003, 3));
}

#[test]
fn off_no_mark_is_set() {
    let mut unit = guest_with(12, OFF);
    (0..10).for_each(|_| charge(&mut unit, 0));
    assert!(unit.listed_marks().is_empty() && unit.book().window().is_none());
    assert_eq!(charges(&unit, 0), 0);
    // An operator's mark is as it was.
    assert_eq!(set_mark(&mut unit, 0, 1), Answer::Ok);
    assert_eq!(unit.listed_marks()[0].kind, Kind::Operator);
    assert_eq!(set_mark(&mut unit, 0, 1), Answer::No(6));
    assert_eq!(clear_mark(&mut unit, 0, 1), Answer::Ok);
}

/// A job's opening chooses nothing.
#[test]
fn open_chooses_nothing() {
    let unit = Unit::open(LEVELS, memory(16), 4, 4).unwrap();
    assert!(unit.book().window().is_none());
    assert_eq!(Choices::default(), OFF);
}

/// The mark holds for its prefix alone, and drops the paths there, the store's own too.
#[test]
fn the_mark_drops_the_paths_of_its_prefix_alone() {
    let mut unit = guest();
    charge_times(&mut unit, 1, 2);
    for address in [at(0) + 0x7000, at(1) + 0x7000, at(1)] {
        assert_eq!(load(&mut unit, address), value(0, 4, 1));
    }
    assert_eq!(store(&mut unit, at(1) + TABLE, 0x4003), done(4, 1));
    assert_eq!(automatic(&unit), [(1, 3)]);
    assert_eq!(load(&mut unit, at(0) + 0x7000), value(0, 4, 0));
    assert_eq!(load(&mut unit, at(1) + 0x7000), value(0, 8, 1));
    assert_eq!(load(&mut unit, at(1) + TABLE), value(0x4003, 8, 0));
}

/// Any value, and any bytes of the word.
#[test]
fn the_same_value_and_single_bytes_are_charged() {
    let mut unit = guest();
    for (byte, what) in [(7, 0), (0, 3), (2, 0)] {
        load_bytes(&mut unit, byte, 1);
        assert_eq!(all_charges(&unit), in_window(&unit) / 2);
        assert!(matches!(store_bytes(&mut unit, TABLE + byte, 1, what), Answer::Done { .. }));
    }
    assert_eq!(automatic(&unit), [(0, 3)]);
}

/// A store that drops nothing is not charged, even if its frame is watched.
#[test]
fn a_store_that_drops_nothing_is_not_charged() {
    let mut unit = guest();
    load(&mut unit, 0);
    assert_eq!(store(&mut unit, TABLE + 8 * 100, 1), done(4, 2));
    assert_eq!(store(&mut unit, TABLE + 8 * 7, 0x4003), done(4, 1));
    assert_eq!(store(&mut unit, 8, 1), done(4, 0));
    assert_eq!((all_charges(&unit), in_window(&unit)), (0, 4));
}

// ---- the window

/// Four requests up to the second charge, and a load and a store at the end. The first
/// charge is the second request: with 60 loads behind the second charge, the last one of
/// page 0, it is the 64th from the end, with 61 the 65th.
#[test]
fn the_first_charge_leaves_the_window_for_the_65th_request() {
    for (between, sets) in [(1, true), (59, true), (60, true), (61, false), (62, false), (200, false)] {
        let mut unit = guest();
        charge_times(&mut unit, 0, 2);
        loads(&mut unit, between - 1);
        charge(&mut unit, 0);
        let marks = if sets { vec![(0, 3)] } else { vec![] };
        assert_eq!(automatic(&unit), marks, "{between}");
        assert_eq!(in_window(&unit), (between + 5).min(64), "{between}");
    }
}

/// The same with requests of other sorts in between.
fn with_calls_between(many: usize, call: &Call) -> Unit {
    let mut unit = guest();
    charge_times(&mut unit, 0, 2);
    for _ in 0..many {
        unit.call(call);
    }
    charge(&mut unit, 0);
    unit
}

#[test]
fn faults_and_stores_are_in_the_window() {
    let requests = [
        Call::load_word(0x3000),
        Call::load_word(0x2000),
        Call::load_word(0x7FFF_FFFF_FFF8),
        Call::store_word(0x1000, 1),
        Call::store_word(0x2000, 1),
        Call::store_word(0x7000, 1),
        Call::Load { address: 0x7003, width: 1 },
        Call::Store { address: 0x7004, width: 2, value: 9 },
    ];
    for call in requests {
        assert_eq!(automatic(&with_calls_between(59, &call)), [(0, 3)], "{call:?}");
        assert_eq!(automatic(&with_calls_between(60, &call)), [], "{call:?}");
    }
}

#[test]
fn refused_calls_and_others_are_not_in_the_window() {
    let calls = [
        Call::load_word(4),
        Call::load_word(1 << 48),
        Call::Load { address: 0, width: 3 },
        Call::store_word(4, 0),
        Call::Store { address: 0x7000, width: 16, value: 0 },
        Call::device_store_word(0x7000, 1),
        Call::device_store_word(0x9000, 1),
        Call::device_store_word(4, 1),
        Call::Forecast { addresses: vec![0; 100] },
        Call::Forecast { addresses: vec![0; 257] },
        Call::Map { guest: 7, host: 16 + 7, writable: true },
        Call::Unmap { guest: 9 },
        Call::Root { frame: 1 << 36 },
        Call::SetMark { address: at(3), level: 1 },
        Call::ClearMark { address: at(3), level: 1 },
    ];
    for call in calls {
        let unit = with_calls_between(200, &call);
        assert_eq!((automatic(&unit), in_window(&unit)), (vec![(0, 3)], 6), "{call:?}");
    }
}

/// A granted one alone, of the same root too. The marks stay, then without a charge.
#[test]
fn a_root_load_empties_the_window() {
    let mut unit = guest();
    charge_times(&mut unit, 1, 3);
    charge_times(&mut unit, 0, 2);
    assert_eq!(unit.call(&Call::Root { frame: 1 << 36 }), Answer::No(8));
    assert_eq!((in_window(&unit), charges(&unit, 0)), (10, 2));
    load_root(&mut unit);
    assert_eq!((in_window(&unit), all_charges(&unit), automatic(&unit)), (0, 0, vec![(1, 0)]));
    charge_times(&mut unit, 0, 2);
    assert_eq!((automatic(&unit), charges(&unit, 0)), (vec![(1, 0)], 2));
    assert_eq!(load(&mut unit, at(1)), value(0, 8, 1));
    charge(&mut unit, 0);
    assert_eq!(automatic(&unit), [(0, 3), (1, 0)]);
    // A root that is not mapped, too.
    assert_eq!(unit.call(&Call::Root { frame: 9 }), Answer::Ok);
    assert_eq!((in_window(&unit), automatic(&unit)), (0, vec![(0, 0), (1, 0)]));
}

/// Charges to a mark that stays leave the window with time.
#[test]
fn charges_grow_old_under_their_mark() {
    let mut unit = guest();
    charge_times(&mut unit, 0, 3);
    // The charges are requests 2, 4 and 6.
    for (more, left) in [(59, 3), (1, 2), (1, 2), (1, 1), (1, 1), (1, 0)] {
        loads(&mut unit, more);
        assert_eq!(automatic(&unit), [(0, left)]);
    }
}

// ---- whom a store is charged to

/// Paths of three prefixes have the entry; the store goes by a fourth.
#[test]
fn the_lowest_prefix_is_charged_alone() {
    let mut unit = guest();
    for round in 1..=3 {
        for prefix in [2, 1, 3] {
            assert!(matches!(load(&mut unit, at(prefix)), Answer::Value { exits: 1, .. }), "{round}");
        }
        store(&mut unit, at(0) + TABLE, 0x4003);
        assert_eq!([0, 1, 2, 3].map(|prefix| charges(&unit, prefix)), [0, round, 0, 0]);
    }
    assert_eq!(automatic(&unit), [(1, 3)]);
    // With its mark set, that prefix has no path of depth 0.
    for prefix in [2, 1, 3] {
        load(&mut unit, at(prefix));
    }
    store(&mut unit, at(0) + TABLE, 0x4003);
    assert_eq!([0, 1, 2, 3].map(|prefix| charges(&unit, prefix)), [0, 3, 1, 0]);
}

/// Two entries for one frame are two words: page 7 has another one than page 0.
#[test]
fn the_word_counts_and_not_the_page() {
    let mut unit = guest();
    load(&mut unit, at(0) + 0x7000);
    load(&mut unit, at(1));
    store(&mut unit, at(2) + TABLE, 0x4003);
    assert_eq!([0, 1, 2].map(|prefix| charges(&unit, prefix)), [0, 1, 0]);
}

/// The upper half is higher, though its addresses are negative as signed numbers.
#[test]
fn the_lower_half_is_lower() {
    let mut unit = guest();
    for _ in 0..3 {
        load(&mut unit, UPPER);
        load(&mut unit, at(3));
        store(&mut unit, at(2) + TABLE, 0x4003);
    }
    assert_eq!(automatic(&unit), [(3, 3)]);
    load(&mut unit, UPPER);
    store(&mut unit, at(2) + TABLE, 0x4003);
    assert_eq!(unit.book().charges_to(&[256, 0, 0]), 1);
}

/// By another name of the table, and through a page of another table.
#[test]
fn by_whatever_way_the_store_comes() {
    let mut unit = guest();
    load(&mut unit, at(1));
    // Page 1 of frame 6 is frame 3.
    assert_eq!(store(&mut unit, at(4) + 0x1000, 0x4003), done(4, 2));
    assert_eq!((charges(&unit, 1), charges(&unit, 4)), (1, 0));
    // By a second name of frame 3 that no path used.
    assert_eq!(map(&mut unit, 9, 16 + 3), Answer::Ok);
    assert_eq!(device_store(&mut unit, 0x6018, 0x9003), done(4, 1));
    load(&mut unit, at(1));
    assert_eq!(store(&mut unit, at(4) + 0x3000, 0x4003), done(4, 2));
    assert_eq!((charges(&unit, 1), charges(&unit, 4)), (2, 0));
    // By a path of another depth. Nothing is charged to the store's own prefix.
    assert_eq!(set_mark(&mut unit, at(4), 1), Answer::Ok);
    load(&mut unit, at(1));
    assert_eq!(store(&mut unit, at(4) + 0x1000, 0x4003), done(8, 2));
    assert_eq!((automatic(&unit), charges(&unit, 4)), (vec![(1, 3)], 0));
}

/// Page 4 has entry 4, a word of page 4. Two exits each time: the path is dropped again.
#[test]
fn the_stores_own_path_counts() {
    let mut unit = guest_with(4, ON);
    for round in 1..=3 {
        assert_eq!(store(&mut unit, at(1) + TABLE + 0x20, 0x3003), done(4, 2));
        assert_eq!(charges(&unit, 1), round);
    }
    assert_eq!(automatic(&unit), [(1, 3)]);
    assert_eq!(store(&mut unit, at(1) + TABLE + 0x20, 0x3003), done(8, 1));
    assert_eq!(store(&mut unit, at(1) + TABLE + 0x20, 0x3003), done(8, 0));
    // Beside another path that has the entry: the lower of the two.
    let mut unit = guest();
    load(&mut unit, at(2) + TABLE);
    store(&mut unit, at(1) + TABLE + 0x20, 0x3003);
    assert_eq!([0, 1, 2].map(|prefix| charges(&unit, prefix)), [0, 1, 0]);
    load(&mut unit, at(0) + TABLE);
    store(&mut unit, at(1) + TABLE + 0x20, 0x3003);
    assert_eq!([0, 1, 2].map(|prefix| charges(&unit, prefix)), [1, 1, 0]);
}

/// Five tables do not fit four: the store's own fill drops what was loaded.
#[test]
fn what_the_stores_own_fill_dropped_does_not_count() {
    let mut unit = guest_with(4, ON);
    for _ in 0..5 {
        assert_eq!(load(&mut unit, at(0)), value(0, 4, 1));
        assert_eq!(store(&mut unit, at(1) + TABLE, 0x4003), done(4, 2));
        assert_eq!(all_charges(&unit), 0);
    }
    // The lower path is dropped by the fill, and the store's own path by its word.
    assert_eq!(load(&mut unit, at(0) + TABLE), value(0x4003, 4, 1));
    assert_eq!(store(&mut unit, at(1) + TABLE + 0x20, 0x3003), done(4, 2));
    assert_eq!([0, 1].map(|prefix| charges(&unit, prefix)), [0, 1]);
    // With five they fit.
    let mut unit = guest_with(5, ON);
    load(&mut unit, at(0));
    assert_eq!(store(&mut unit, at(1) + TABLE, 0x4003), done(4, 2));
    assert_eq!([0, 1].map(|prefix| charges(&unit, prefix)), [1, 0]);
}

/// Page 6 is the table of level 2. Its entry drops all paths of the prefix.
#[test]
fn entries_of_upper_levels_charge_nobody() {
    let mut unit = guest();
    for _ in 0..5 {
        load(&mut unit, at(1));
        assert_eq!(store(&mut unit, at(0) + 0x6000 + 8, 0x3003).counts().0, 4);
        assert_eq!(load(&mut unit, at(1)), value(0, 4, 1));
        // The one of the store's own path, too.
        assert_eq!(store(&mut unit, at(0) + 0x6000, 0x3003).counts().0, 4);
    }
    assert_eq!((all_charges(&unit), in_window(&unit)), (0, 20));
}

/// At prefix 5 the table of level 2 has the entries of level 1: page n there is the table
/// that entry n names, and page 5 is the table itself.
#[test]
fn a_word_of_level_1_and_above() {
    let page_5 = at(5) + 0x5000;
    let mut unit = guest();
    // Entry 0 is of level 2 for prefix 0, and of level 1 for page 0 of prefix 5.
    for round in 1..=2 {
        assert_eq!(load(&mut unit, at(0)), value(0, 4, 1));
        assert_eq!(load(&mut unit, at(5)), value(0x4003, 4, 1));
        store(&mut unit, page_5, 0x3003);
        assert_eq!([0, 5].map(|prefix| charges(&unit, prefix)), [0, round]);
    }
    assert_eq!(load(&mut unit, at(0)), value(0, 4, 1));
    // Entry 5 is of level 2 for all of prefix 5, and of level 1 for the store's own path.
    load(&mut unit, at(5));
    assert_eq!(store(&mut unit, page_5 + 0x28, 0x2003).counts().0, 4);
    assert_eq!((automatic(&unit), charges(&unit, 0)), (vec![(5, 3)], 0));
    // Without a path that has it at level 1.
    let mut unit = guest();
    load(&mut unit, at(5));
    assert_eq!(store(&mut unit, at(0) + 0x6000 + 0x28, 0x2003), done(4, 2));
    assert_eq!(load(&mut unit, at(5)), value(0x4003, 4, 1));
    assert_eq!(all_charges(&unit), 0);
}

/// A path of depth 1 has no entry of level 1. The word is that of level 2.
#[test]
fn paths_of_other_depths_charge_nobody() {
    for depth in 1..=3 {
        let mut unit = guest();
        set_mark(&mut unit, at(1), depth);
        for level in depth + 1..=4 {
            assert_eq!(load(&mut unit, at(1)).counts(), (4 + 4 * depth, 1));
            // The entry of that level: 0 in frames 0 and 1, and 1 in frame 2.
            let word = if level == 2 { 0x2008 } else { (4 - level) << 12 };
            assert_eq!(device_store(&mut unit, word, (5 - level) << 12 | 3), done(4, 1));
        }
        assert_eq!(load(&mut unit, at(1)).counts(), (4 + 4 * depth, 1));
        // By the guest, where its page of frame 2 has depth 0.
        if depth == 1 {
            assert_eq!(store(&mut unit, at(0) + 0x6000 + 8, 0x3003), done(4, 2));
            assert_eq!(load(&mut unit, at(1)).counts(), (8, 1));
        }
        assert_eq!(all_charges(&unit), 0);
    }
}

#[test]
fn device_stores_charge_nobody() {
    let mut unit = guest();
    for _ in 0..5 {
        assert_eq!(load(&mut unit, 0), value(0, 4, 1));
        assert_eq!(device_store(&mut unit, 0x3000, 0x4003), done(4, 1));
    }
    assert_eq!((all_charges(&unit), in_window(&unit)), (0, 5));
    charge_times(&mut unit, 0, 2);
    load(&mut unit, 0);
    assert_eq!(device_store_bytes(&mut unit, 0x3000, 1, 3), done(4, 1));
    assert_eq!((automatic(&unit), charges(&unit, 0)), (vec![], 2));
    charge(&mut unit, 0);
    assert_eq!(automatic(&unit), [(0, 3)]);
}

/// Maps drop the paths before the store finds them.
#[test]
fn what_other_calls_dropped_is_not_charged() {
    let mut unit = guest();
    let drops: [&dyn Fn(&mut Unit); 3] = [
        &|unit| assert_eq!(map(unit, 4, 16 + 4), Answer::Ok),
        &|unit| assert_eq!((set_mark(unit, 0, 1), clear_mark(unit, 0, 1)), (Answer::Ok, Answer::Ok)),
        &load_root,
    ];
    for drop in drops {
        load(&mut unit, 0);
        drop(&mut unit);
        assert!(matches!(store(&mut unit, at(1) + TABLE, 0x4003), Answer::Done { .. }));
        assert_eq!(all_charges(&unit), 0);
    }
}

// ---- the operator

#[test]
fn the_operator_takes_an_automatic_mark_over() {
    let mut unit = guest();
    charge_times(&mut unit, 0, 3);
    assert_eq!(load(&mut unit, 0), value(0, 8, 1));
    // By any address of the prefix. Its paths drop, and no others.
    assert_eq!(load(&mut unit, at(1)), value(0, 4, 1));
    assert_eq!(set_mark(&mut unit, 0x1F_FFFF, 1), Answer::Ok);
    assert_eq!(load(&mut unit, 0), value(0, 8, 1));
    assert_eq!(load(&mut unit, at(1)), value(0, 4, 0));
    let listed = unit.listed_marks();
    assert_eq!((listed.len(), listed[0].kind, listed[0].charges), (1, Kind::Operator, 3));
    assert_eq!(set_mark(&mut unit, 0, 1), Answer::No(6));
    assert_eq!(clear_mark(&mut unit, 0, 1), Answer::Ok);
    assert_eq!(clear_mark(&mut unit, 0, 1), Answer::No(6));
    assert_eq!(load(&mut unit, 0), value(0, 4, 1));
    // The charges stayed: one more sets it again.
    charge(&mut unit, 0);
    assert_eq!(automatic(&unit), [(0, 4)]);
}

#[test]
fn clearing_an_automatic_mark_is_6_and_it_stays() {
    let mut unit = guest();
    charge_times(&mut unit, 0, 3);
    load(&mut unit, 0);
    assert_eq!(clear_mark(&mut unit, 0, 1), Answer::No(6));
    assert_eq!((automatic(&unit), load(&mut unit, 0)), (vec![(0, 3)], value(0, 8, 0)));
    assert_eq!(clear_mark(&mut unit, 1 << 48, 1), Answer::No(4));
    assert_eq!(clear_mark(&mut unit, 0, 0), Answer::No(5));
    // Marks of other levels at the address are others.
    assert_eq!(clear_mark(&mut unit, 0, 2), Answer::No(6));
    assert_eq!(set_mark(&mut unit, 0, 2), Answer::Ok);
    assert_eq!(automatic(&unit), [(0, 3)]);
    assert_eq!(load(&mut unit, 0), value(0, 12, 1));
    assert_eq!(clear_mark(&mut unit, 0, 2), Answer::Ok);
    assert_eq!(load(&mut unit, 0), value(0, 8, 1));
}

/// Under the operator's mark of level 1 no path of depth 0 is held.
#[test]
fn no_charge_at_the_operators_mark() {
    let mut unit = guest();
    set_mark(&mut unit, 0, 1);
    for _ in 0..5 {
        load(&mut unit, 0);
        assert_eq!(store(&mut unit, TABLE, 0x4003), done(8, 0));
    }
    assert_eq!(all_charges(&unit), 0);
    // Nor does setting one take charges away.
    charge_times(&mut unit, 1, 2);
    assert_eq!((set_mark(&mut unit, at(1), 1), charges(&unit, 1)), (Answer::Ok, 2));
    assert_eq!(clear_mark(&mut unit, at(1), 1), Answer::Ok);
    charge(&mut unit, 1);
    assert_eq!(automatic(&unit), [(1, 3)]);
}

// ---- all marks set

/// With 64 marks of the operator's none is set, and no other is cleared.
#[test]
fn with_no_automatic_mark_to_clear_none_is_set() {
    let mut unit = guest();
    set_others(&mut unit, 64);
    charge_times(&mut unit, 0, 5);
    assert_eq!((automatic(&unit), charges(&unit, 0), unit.listed_marks().len()), (vec![], 5, 64));
    assert_eq!(set_mark(&mut unit, 0, 1), Answer::No(7));
    assert_eq!(set_mark(&mut unit, 1 << 39, 3), Answer::No(6));
    assert_eq!(load(&mut unit, 0), value(0, 4, 1));
    // A place is free: a mark is set at the next charge, and not before.
    assert_eq!(clear_mark(&mut unit, 1 << 39, 3), Answer::Ok);
    assert_eq!(load(&mut unit, 0), value(0, 4, 0));
    charge(&mut unit, 0);
    assert_eq!((automatic(&unit), unit.listed_marks().len()), (vec![(0, 6)], 64));
}

/// The one place changes hands: the mark of the first prefix goes though it has as many
/// charges, and the new one is not among those that can go.
#[test]
fn a_charge_clears_the_only_automatic_mark() {
    let mut unit = guest();
    set_others(&mut unit, 63);
    charge_times(&mut unit, 0, 3);
    assert_eq!(load(&mut unit, 0), value(0, 8, 1));
    charge_times(&mut unit, 1, 2);
    assert_eq!(load(&mut unit, 0), value(0, 8, 0));
    assert_eq!(load(&mut unit, at(1)), value(0, 4, 1));
    assert_eq!(store(&mut unit, at(1) + TABLE, 0x4003), done(4, 1));
    assert_eq!(automatic(&unit), [(1, 3)]);
    // The paths of both prefixes dropped. The first one is at depth 0 again, and its
    // charges stayed.
    assert!(unit.book().held.is_empty());
    assert_eq!(load(&mut unit, at(1)), value(0, 8, 1));
    assert_eq!((load(&mut unit, 0), charges(&unit, 0)), (value(0, 4, 1), 3));
    charge(&mut unit, 0);
    assert_eq!(automatic(&unit), [(0, 4)]);
    assert_eq!(charges(&unit, 1), 3);
    charge(&mut unit, 1);
    assert_eq!(automatic(&unit), [(1, 4)]);
}

/// Whether its address is lower or higher.
#[test]
fn of_two_in_a_tie_the_older_goes() {
    for (older, newer) in [(0, 1), (1, 0)] {
        let mut unit = all_set(&[older, newer]);
        assert_eq!(automatic(&unit), [(0, 3), (1, 3)]);
        charge_times(&mut unit, 2, 3);
        assert_eq!(automatic(&unit), [(newer, 3), (2, 3)]);
        // For the operator by the same choice.
        let mut unit = all_set(&[older, newer]);
        set_another(&mut unit, 100);
        assert_eq!(automatic(&unit), [(newer, 3)]);
    }
    // The half says nothing, either.
    for (older, newer) in [(UPPER, at(3)), (at(3), UPPER)] {
        let mut unit = guest();
        set_others(&mut unit, 62);
        for address in [older, newer, at(2)] {
            for _ in 0..3 {
                load(&mut unit, address);
                store(&mut unit, address + TABLE, 0x4003);
            }
        }
        let in_order = unit.book().automatic_marks().iter().map(|mark| mark.prefix.clone());
        let newer = if newer == UPPER { vec![256, 0, 0] } else { vec![0, 0, 3] };
        assert_eq!(in_order.collect::<Vec<_>>(), [newer, vec![0, 0, 2]]);
    }
}

#[test]
fn of_three_in_a_tie_the_oldest_goes() {
    for order in [[0, 1, 2], [0, 2, 1], [1, 0, 2], [1, 2, 0], [2, 0, 1], [2, 1, 0]] {
        let mut unit = all_set(&order);
        assert_eq!(automatic(&unit), [(0, 3), (1, 3), (2, 3)]);
        charge_times(&mut unit, 3, 3);
        let [_, second, third] = order;
        let two = [second.min(third), second.max(third)];
        assert_eq!(automatic(&unit), [(two[0], 3), (two[1], 3), (3, 3)]);
        // The oldest of these for the operator, and with no charge left the same.
        set_another(&mut unit, 100);
        assert_eq!(automatic(&unit), [(third, 3), (3, 3)]);
        load_root(&mut unit);
        set_another(&mut unit, 101);
        assert_eq!(automatic(&unit), [(3, 0)]);
    }
}

/// The first of three is withdrawn: for a mark of the operator's that is then cleared, or as
/// the operator takes it over and clears it. Its charges are in the window still, so that one
/// more sets it again.
#[test]
fn a_mark_set_again_is_new() {
    let far = 100 << 39;
    for (address, level) in [(far, 3), (at(1), 1)] {
        let mut unit = all_set(&[1, 0, 2]);
        assert_eq!(set_mark(&mut unit, address, level), Answer::Ok);
        assert_eq!(automatic(&unit), [(0, 3), (2, 3)]);
        assert_eq!(clear_mark(&mut unit, address, level), Answer::Ok);
        charge(&mut unit, 1);
        assert_eq!(automatic(&unit), [(0, 3), (1, 4), (2, 3)]);
        // With no charges left the others are older.
        load_root(&mut unit);
        charge_times(&mut unit, 3, 3);
        assert_eq!(automatic(&unit), [(1, 0), (2, 0), (3, 3)]);
        set_another(&mut unit, 101);
        assert_eq!(automatic(&unit), [(1, 0), (3, 3)]);
    }
}

/// Three prefixes and two places: each charge sets the mark that was cleared before it.
#[test]
fn marks_leave_by_turns() {
    let mut unit = all_set(&[0, 1]);
    charge_times(&mut unit, 2, 3);
    assert_eq!(automatic(&unit), [(1, 3), (2, 3)]);
    charge(&mut unit, 0);
    assert_eq!(automatic(&unit), [(0, 4), (2, 3)]);
    // Prefix 2 has the fewest.
    charge(&mut unit, 1);
    assert_eq!(automatic(&unit), [(0, 4), (1, 4)]);
    charge(&mut unit, 2);
    assert_eq!(automatic(&unit), [(1, 4), (2, 4)]);
    charge(&mut unit, 0);
    assert_eq!(automatic(&unit), [(0, 5), (2, 4)]);
}

/// All marks are set. Requests 2, 4 and 12 are charged to prefix 1, and 6, 8 and 10 to prefix
/// 0: so its mark is the older.
fn older_with_later_charges() -> Unit {
    let mut unit = guest();
    set_others(&mut unit, 62);
    charge_times(&mut unit, 1, 2);
    charge_times(&mut unit, 0, 3);
    charge(&mut unit, 1);
    assert_eq!(automatic(&unit), [(0, 3), (1, 3)]);
    unit
}

/// The third charge to prefix 2 is 18 requests and those in between: with 48 in between the
/// 66th, for which request 2 leaves. The older mark goes only where the two have as many, or
/// it has fewer.
#[test]
fn the_fewest_charges_go_first() {
    let cases = [
        (47, [3, 3], (1, 3)),
        (48, [3, 2], (0, 3)),
        (50, [3, 1], (0, 3)),
        (52, [2, 1], (0, 2)),
        (53, [2, 1], (0, 2)),
        (54, [1, 1], (1, 1)),
        (56, [0, 1], (1, 1)),
        (57, [0, 1], (1, 1)),
        (58, [0, 0], (1, 0)),
    ];
    for (between, left, stays) in cases {
        let mut unit = older_with_later_charges();
        loads(&mut unit, between);
        charge_times(&mut unit, 2, 3);
        assert_eq!([0, 1].map(|prefix| charges(&unit, prefix)), left, "{between}");
        assert_eq!(automatic(&unit), [stays, (2, 3)], "{between}");
    }
}

/// The store enters before the choice is made: the charge that leaves for it is gone.
#[test]
fn the_choice_is_by_the_window_with_the_store_in_it() {
    // Two charges to prefix 2 make 16 requests, and 49 loads more 65: the store is the 66th,
    // for which request 2 leaves.
    let mut unit = older_with_later_charges();
    charge_times(&mut unit, 2, 2);
    loads(&mut unit, 48);
    load(&mut unit, at(2));
    assert_eq!(automatic(&unit), [(0, 3), (1, 3)]);
    store(&mut unit, at(2) + TABLE, 0x4003);
    assert_eq!(automatic(&unit), [(0, 3), (2, 3)]);
    // One request earlier the two have as many, and the older goes.
    let mut unit = older_with_later_charges();
    charge_times(&mut unit, 2, 2);
    loads(&mut unit, 47);
    charge(&mut unit, 2);
    assert_eq!(automatic(&unit), [(1, 3), (2, 3)]);
}

/// Marks of all levels; each finds a place as long as an automatic mark is there.
#[test]
fn the_operators_set_clears_an_automatic_mark() {
    for level in 1..=5 {
        let mut unit = guest();
        set_others(&mut unit, 62);
        charge_times(&mut unit, 1, 3);
        charge_times(&mut unit, 2, 3);
        assert_eq!(load(&mut unit, at(1)), value(0, 8, 1));
        // What is refused clears none.
        assert_eq!(set_mark(&mut unit, 1 << 48, level), Answer::No(4));
        assert_eq!(set_mark(&mut unit, 0, 6), Answer::No(5));
        assert_eq!(set_mark(&mut unit, 1 << 39, 3), Answer::No(6));
        assert_eq!(clear_mark(&mut unit, at(1), 1), Answer::No(6));
        assert_eq!(automatic(&unit), [(1, 3), (2, 3)]);
        assert_eq!(load(&mut unit, at(1)), value(0, 8, 0));
        // Far from the pages, but for levels 4 and 5.
        assert_eq!(set_mark(&mut unit, 200 << 39, level), Answer::Ok);
        assert_eq!((automatic(&unit), unit.listed_marks().len()), (vec![(2, 3)], 64));
        assert!(unit.book().held.is_empty());
        if level < 4 {
            assert_eq!(load(&mut unit, at(1)), value(0, 4, 1));
        }
        assert_eq!(set_mark(&mut unit, 200 << 39, level), Answer::No(6));
        assert_eq!(set_mark(&mut unit, 201 << 39, 2), Answer::Ok);
        assert_eq!(automatic(&unit), []);
        assert_eq!(set_mark(&mut unit, 202 << 39, 2), Answer::No(7));
        assert_eq!(set_mark(&mut unit, 201 << 39, 2), Answer::No(6));
    }
}

/// Taking a mark over needs no place: no other is cleared for it.
#[test]
fn taking_over_clears_no_other() {
    let mut unit = guest();
    set_others(&mut unit, 62);
    charge_times(&mut unit, 0, 3);
    charge_times(&mut unit, 1, 3);
    assert_eq!(load(&mut unit, 0), value(0, 8, 1));
    assert_eq!(load(&mut unit, at(1)), value(0, 8, 1));
    assert_eq!(set_mark(&mut unit, at(1), 1), Answer::Ok);
    assert_eq!((automatic(&unit), unit.listed_marks().len()), (vec![(0, 3)], 64));
    assert_eq!(load(&mut unit, 0), value(0, 8, 0));
    assert_eq!(load(&mut unit, at(1)), value(0, 8, 1));
    assert_eq!(set_mark(&mut unit, 0, 1), Answer::Ok);
    assert_eq!(automatic(&unit), []);
    assert_eq!(set_mark(&mut unit, at(2), 1), Answer::No(7));
    // Both are theirs, and no charge clears one.
    charge_times(&mut unit, 2, 4);
    assert_eq!((automatic(&unit), unit.listed_marks().len()), (vec![], 64));
    assert_eq!(clear_mark(&mut unit, at(1), 1), Answer::Ok);
    assert_eq!(set_mark(&mut unit, at(2), 1), Answer::Ok);
}

// ---- forecasts, bits, five levels

/// It goes by the marks that are set, and enters nothing in the window.
#[test]
fn a_forecast_goes_by_automatic_marks() {
    let mut unit = guest();
    charge_times(&mut unit, 0, 3);
    let figures = |references, exits, tables| Answer::Figures { references, exits, tables };
    assert_eq!(forecast(&mut unit, &[0, 0x7000, at(1)]), figures(20, 2, 4));
    let book = unit.book().clone();
    forecast(&mut unit, &[0; 256]);
    assert_eq!(*unit.book(), book);
    assert_eq!(load(&mut unit, 0), value(0, 8, 1));
    assert_eq!(load(&mut unit, 0x7000), value(0, 8, 0));
    assert_eq!(load(&mut unit, at(1)), value(0, 4, 1));
}

/// The unit's own bit writes drop nothing, so that loads charge nobody; stores are charged
/// as ever, one that refills its path too.
#[test]
fn with_bits_stores_are_charged_as_ever() {
    let mut unit = guest_with(12, WITH_BITS);
    for prefix in [0, 1, 2] {
        assert_eq!(load(&mut unit, at(prefix)), value(0, 4, 1));
    }
    assert_eq!(all_charges(&unit), 0);
    // Page 4 is loaded first, with bit 6 clear: one exit for the refill, one for the frame.
    assert_eq!(load(&mut unit, at(1) + TABLE), value(0x4023, 4, 1));
    assert_eq!(store(&mut unit, at(1) + TABLE, 0x4003), done(4, 2));
    assert_eq!([0, 1, 2].map(|prefix| charges(&unit, prefix)), [1, 0, 0]);
    // Its own entry: the path is dropped though it was just refilled.
    assert_eq!(store(&mut unit, at(1) + TABLE + 0x20, 0x3003), done(4, 1));
    assert_eq!(load(&mut unit, at(1) + TABLE), value(0x4003, 4, 1));
    assert_eq!(store(&mut unit, at(1) + TABLE + 0x20, 0x3003), done(4, 2));
    assert_eq!([0, 1, 2].map(|prefix| charges(&unit, prefix)), [1, 2, 0]);
    assert_eq!(store(&mut unit, at(1) + TABLE + 0x20, 0x3003), done(4, 2));
    assert_eq!(automatic(&unit), [(1, 3)]);
    // W for a bit is a fault, which the window holds and nobody is charged for.
    let before = in_window(&unit);
    assert_eq!(unit.call(&Call::Map { guest: 3, host: 19, writable: false }), Answer::Ok);
    assert_eq!(load(&mut unit, at(0)), fault(Fault::HostReadOnly { frame: 3 }, 24, 1));
    assert_eq!((in_window(&unit), all_charges(&unit)), (before + 1, 4));
    assert_eq!(forecast(&mut unit, &[0]), Answer::No(16));
}

/// A prefix has four indexes then, and no fewer.
#[test]
fn five_levels_charge_four_indexes() {
    let mut words = memory(32);
    for frame in 0..4u64 {
        words[(15 + frame as usize) * 512] = (frame + 1) << 12 | 3;
    }
    // The table of level 2 is frame 3, and entries 0 and 1 name frame 4.
    words[18 * 512 + 1] = 0x4003;
    words[19 * 512] = 0x5003;
    words[19 * 512 + 4] = 0x4003;
    let mut unit = Unit::open_with(5, words, 5, 10, ON).unwrap();
    (0..8).for_each(|frame| assert_eq!(map(&mut unit, frame, 15 + frame), Answer::Ok));
    for _ in 0..3 {
        assert_eq!(load(&mut unit, at(1)), value(0, 5, 1));
        assert_eq!(store(&mut unit, at(0) + TABLE, 0x5003).counts().0, 5);
    }
    let listed = unit.listed_marks();
    assert_eq!((listed.len(), listed[0].kind, listed[0].charges), (1, Kind::Automatic, 3));
    assert_eq!((listed[0].mark.level, &listed[0].mark.prefix[..]), (1, &[0, 0, 0, 1][..]));
    assert_eq!(load(&mut unit, at(1)), value(0, 10, 1));
    assert_eq!(load(&mut unit, at(0)), value(0, 5, 1));
}

// ---- the same calls with the choice off

/// An answer without its counts.
fn said(answer: Answer) -> Answer {
    match answer {
        Answer::Value { value, .. } => Answer::Value { value, references: 0, exits: 0 },
        Answer::Done { .. } => Answer::Done { references: 0, exits: 0 },
        Answer::Fault { fault, .. } => Answer::Fault { fault, references: 0, exits: 0 },
        Answer::Figures { .. } => Answer::Figures { references: 0, exits: 0, tables: 0 },
        other => other,
    }
}

/// Yields how many answers have other counts, and how many automatic marks were set.
fn check_on_and_off(run: &Run) -> (usize, u64) {
    let with = |automatic: bool| Run { choices: Choices { automatic, ..run.choices }, ..run.clone() };
    let (mut on, mut off) = (with(true).open().unwrap(), with(false).open().unwrap());
    let mut other_counts = 0;
    for call in &run.calls {
        let (first, second) = (on.call(call), off.call(call));
        assert_eq!(said(first), said(second), "{call:?}");
        assert_eq!(on.guest_words(), off.guest_words(), "{call:?}");
        other_counts += (first != second) as usize;
        // The operator's marks are those set with the choice off.
        let theirs = on.listed_marks().into_iter().filter(|listed| listed.kind == Kind::Operator);
        assert!(theirs.map(|listed| listed.mark).eq(off.book().marks.iter().cloned()), "{call:?}");
    }
    let marks = ["lower half", "upper half"].map(|half| format!("automatic mark set, {half}"));
    (other_counts, marks.iter().map(|name| on.events().count(name)).sum())
}

#[test]
fn the_choice_changes_counts_alone() {
    let (mut other_counts, mut marks) = (0, 0);
    for seed in 0..100 {
        let levels = 4 + (seed % 3 == 0) as u32;
        let sizes = Sizes::small(&mut Random::new(seed + 1), levels);
        for sort in [automatic_run, automatic_run, run, bits_run, mark_run, quiet_run] {
            let (more_counts, more_marks) = check_on_and_off(&sort(5000 + seed, sizes, 400));
            other_counts += more_counts;
            marks += more_marks;
        }
    }
    println!("{other_counts} answers with other counts, {marks} automatic marks");
    assert!(other_counts > 5000 && marks > 500);
}
