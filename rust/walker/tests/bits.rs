//! Request 6 of document 02, accessed and dirty bits, on document 01's sixteen-frame
//! guest. The numbers are worked out by hand from the papers.
//!
//! The tables of address 0 are frames 0 to 3, for levels 4 to 1, each by its entry 0; the
//! page is frame 4. Page 1 is frame 5, by an entry that is not writable, page 2 is frame
//! 8, which is not mapped, page 3 has no entry, and page 4 is frame 3, the table itself.
//! A plain walk is 24 words; depth d is 4 + 4d.

mod guest;

use guest::*;
use walker::answer::{Answer, Call, Choices, Fault};
use walker::Unit;

const ON: Choices = Choices { bits: true, automatic: false };

/// The guest with bits on.
fn guest_with_bits() -> Unit {
    sixteen_frame_guest(ON)
}

/// The guest with a mark of this level at address 0, or none for 0.
fn guest_at_depth(depth: u64) -> Unit {
    let mut unit = guest_with_bits();
    if depth > 0 {
        assert_eq!(set_mark(&mut unit, 0, depth), Answer::Ok);
    }
    unit
}

/// A device stores the entry of a table. No path is held that reads in it.
fn put(unit: &mut Unit, frame: u64, index: u64, entry: u64) {
    let said = unit.call(&Call::device_store_word(frame << 12 | index << 3, entry));
    assert_eq!(said, done(4, 0));
}

/// Maps a frame of the guest as it was, read-only.
fn forbid(unit: &mut Unit, guest: u64) {
    assert_eq!(unit.call(&Call::Map { guest, host: 8 + guest, writable: false }), Answer::Ok);
}

fn drop_all(unit: &mut Unit) {
    assert_eq!(unit.call(&Call::Root { frame: 0 }), Answer::Ok);
}

fn read_only(frame: u64, references: u64, exits: u64) -> Answer {
    fault(Fault::HostReadOnly { frame }, references, exits)
}

/// The words that are others than those given: frame, index and word.
fn changed(unit: &Unit, before: &[u64]) -> Vec<(usize, usize, u64)> {
    let words = unit.guest_words().iter().zip(before).enumerate();
    let others = words.filter(|(_, (now, before))| now != before);
    others.map(|(place, (now, _))| (place / 512, place % 512, *now)).collect()
}

/// That a call answers so and changes neither a word nor the held paths, twice.
fn changes_nothing(unit: &mut Unit, call: Call, answer: Answer) {
    for _ in 0..2 {
        let (machine, held) = (unit.machine().clone(), unit.book().held.clone());
        assert_eq!(unit.call(&call), answer, "{call:?}");
        assert!(*unit.machine() == machine && unit.book().held == held, "{call:?}");
    }
}

/// The entries of address 0 once they have bit 5, the last one with other bits too.
fn four_entries(last: u64) -> Vec<(usize, usize, u64)> {
    vec![(0, 0, 0x1023), (1, 0, 0x2023), (2, 0, 0x3023), (3, 0, last)]
}

// ---- which bits a granted request sets

#[test]
fn a_load_sets_bit_5_in_four_entries() {
    let mut unit = guest_with_bits();
    let before = unit.guest_words().to_vec();
    assert_eq!(load(&mut unit, 0x8), value(0, 4, 1));
    assert_eq!(changed(&unit, &before), four_entries(0x4023));
    assert_eq!(load(&mut unit, 0x8), value(0, 4, 0));
    assert_eq!(changed(&unit, &before), four_entries(0x4023));
}

#[test]
fn a_store_sets_bit_6_at_level_1_alone() {
    let mut unit = guest_with_bits();
    let before = unit.guest_words().to_vec();
    assert_eq!(store(&mut unit, 0x8, 7), done(4, 1));
    let all = [four_entries(0x4063), vec![(4, 1, 7)]].concat();
    assert_eq!(changed(&unit, &before), all);
    assert_eq!(store(&mut unit, 0x8, 7), done(4, 0));
    assert_eq!(load(&mut unit, 0x8), value(7, 4, 0));
    assert_eq!(changed(&unit, &before), all);
}

#[test]
fn off_no_bit_is_set() {
    for depth in 0..=5 {
        let mut unit = sixteen_frame_guest(Choices::default());
        if depth > 0 {
            set_mark(&mut unit, 0, depth);
        }
        let before = unit.guest_words().to_vec();
        assert_eq!(load(&mut unit, 0x8), value(0, 4 + 4 * depth, (depth < 5) as u64));
        assert_eq!(store(&mut unit, 0x8, 7), done(4 + 4 * depth, 0));
        assert_eq!(changed(&unit, &before), [(4, 1, 7)]);
        // And read-only tables matter to nobody.
        (0..4).for_each(|frame| forbid(&mut unit, frame));
        assert_eq!(store(&mut unit, 0x8, 0), done(4 + 4 * depth, (depth < 5) as u64));
        assert_eq!(changed(&unit, &before), []);
    }
}

/// At depth 1 to 4 a path's writable bit is of the guest entries that it covers: the
/// store after the load costs no exit. At depth 0 it does.
#[test]
fn the_bits_do_not_depend_on_the_depth() {
    for (depth, store_exits) in [(0, 1), (1, 0), (2, 0), (3, 0), (4, 0), (5, 0)] {
        let mut unit = guest_at_depth(depth);
        let before = unit.guest_words().to_vec();
        assert_eq!(load(&mut unit, 0), value(0, 4 + 4 * depth, (depth < 5) as u64));
        assert_eq!(changed(&unit, &before), four_entries(0x4023));
        assert_eq!(store(&mut unit, 0, 0), done(4 + 4 * depth, store_exits));
        assert_eq!(changed(&unit, &before), four_entries(0x4063));
        // Another page of the same path.
        assert_eq!(load(&mut unit, 0x1000), value(0, 4 + 4 * depth, (depth == 0) as u64));
        assert_eq!(changed(&unit, &before), [four_entries(0x4063), vec![(3, 1, 0x5021)]].concat());
    }
}

/// A bit that is set stays, and bit 6 above level 1 means nothing.
#[test]
fn bits_that_are_set_stay() {
    let mut unit = guest_with_bits();
    let entries = [(0, 0x1043), (1, 0x2063), (2, 0x3023), (3, 0x4043)];
    entries.iter().for_each(|(frame, entry)| put(&mut unit, *frame, 0, *entry));
    let before = unit.guest_words().to_vec();
    assert_eq!(load(&mut unit, 0), value(0, 4, 1));
    assert_eq!(changed(&unit, &before), [(0, 0, 0x1063), (3, 0, 0x4063)]);
}

/// Document 01's lines are as they were.
#[test]
fn the_lines_of_document_01() {
    let mut unit = guest_with_bits();
    assert_eq!(load(&mut unit, 0), value(0, 4, 1));
    assert_eq!(store(&mut unit, 0x4000, 0x7003), done(4, 2));
    assert_eq!(load(&mut unit, 0), value(0, 4, 1));
    assert_eq!((page(&unit, 0), word(&unit, 3, 0)), (15, 0x7023));
    let mut unit = guest_at_depth(1);
    assert_eq!(load(&mut unit, 0), value(0, 8, 1));
    assert_eq!(store(&mut unit, 0x4000, 0x7003), done(8, 0));
    assert_eq!(load(&mut unit, 0x2000), fault(Fault::HostAbsent { frame: 8 }, 8, 1));
    assert_eq!(load(&mut guest_at_depth(4), 0), value(0, 20, 1));
    assert_eq!(load(&mut guest_at_depth(5), 0), value(0, 24, 0));
    for (depth, references, exits) in [(0, 4, 1), (1, 8, 0)] {
        let mut unit = guest_at_depth(depth);
        load(&mut unit, 0);
        assert_eq!(map(&mut unit, 4, 13), Answer::Ok);
        assert_eq!(load(&mut unit, 0), value(0, references, exits));
        assert_eq!(page(&unit, 0), 13);
    }
    let mut unit = guest_with_bits();
    for address in [0, 0x200000, 0] {
        assert_eq!(load(&mut unit, address), value(0, 4, 1));
    }
    assert_eq!(load(&mut unit, 0x7FFF_FFFF_FFF8), fault(Fault::Absent { level: 4 }, 5, 1));
    assert_eq!(load(&mut unit, 1 << 48), Answer::No(4));
}

// ---- a fault fills no path, counts as the plain walk does and sets no bit

/// A, M, P, H and W of a page, with its count on a path not held and whether it is one
/// of the host's.
fn faults() -> [(Call, Fault, u64, bool); 5] {
    [
        (Call::load_word(0x3000), Fault::Absent { level: 1 }, 20, false),
        (Call::load_word(0x5000), Fault::Malformed { level: 1 }, 20, false),
        (Call::store_word(0x1000, 1), Fault::Protected { level: 1 }, 20, false),
        (Call::load_word(0x2000), Fault::HostAbsent { frame: 8 }, 24, true),
        (Call::store_word(0x6000, 1), Fault::HostReadOnly { frame: 6 }, 24, true),
    ]
}

/// Page 5 is malformed, and page 6 is frame 6, mapped read-only.
fn guest_with_faults(depth: u64) -> Unit {
    let mut unit = guest_at_depth(depth);
    put(&mut unit, 3, 5, 1 << 48 | 3);
    put(&mut unit, 3, 6, 0x6003);
    forbid(&mut unit, 6);
    unit
}

/// One exit for the path, at depth 1 to 4 one more for H or W; at depth 5 that one alone.
/// Nothing is filled, so that the same is paid again.
#[test]
fn a_fault_on_a_path_not_held_has_the_plain_count() {
    for (call, why, references, of_host) in faults() {
        for depth in 0..=5 {
            let exits = match (depth, of_host) {
                (0, _) => 1,
                (5, _) => of_host as u64,
                _ => 1 + of_host as u64,
            };
            let mut unit = guest_with_faults(depth);
            changes_nothing(&mut unit, call.clone(), fault(why, references, exits));
            assert!(unit.book().held.is_empty());
        }
    }
}

/// At depth d the words of the direct part behind 4 - d entries: up to the entry of level
/// 1 that is 4d in all, with the page's host walk 4 + 4d.
#[test]
fn a_fault_behind_a_held_path_has_the_count_that_it_had() {
    for (call, why, _, of_host) in faults() {
        for depth in 1..=4 {
            let mut unit = guest_with_faults(depth);
            load(&mut unit, 0);
            let references = if of_host { 4 + 4 * depth } else { 4 * depth };
            changes_nothing(&mut unit, call.clone(), fault(why, references, of_host as u64));
            assert_eq!(unit.book().held.len(), 1);
        }
    }
}

/// In a walk that faults above level 1 no bit is set either, and the count is plain.
#[test]
fn faults_of_upper_levels_set_no_bit() {
    for (level, references) in [(4, 5), (3, 10), (2, 15), (1, 20)] {
        for depth in 0..=5 {
            let mut unit = guest_at_depth(depth);
            put(&mut unit, 4 - level, 0, 0x1000);
            let why = Fault::Absent { level: level as u32 };
            let answer = fault(why, references, (depth < 5) as u64);
            changes_nothing(&mut unit, Call::load_word(0), answer);
        }
    }
}

/// The path at the mark needs two tables beside the four in use. Off, the fault fills it,
/// and the overflow drops the path of address 0.
#[test]
fn a_fault_behind_the_shadow_part_overflows_nothing() {
    let there = 1 << 39;
    let absent = Fault::HostAbsent { frame: 8 };
    for (choices, references, exits_after) in [(ON, 24, 0), (Choices::default(), 8, 1)] {
        let mut unit = sixteen_frame_guest(choices);
        put(&mut unit, 0, 1, 0x1003);
        set_mark(&mut unit, there, 1);
        assert_eq!(load(&mut unit, 0), value(0, 4, 1));
        assert_eq!(load(&mut unit, there + 0x2000), fault(absent, references, 2));
        assert_eq!(load(&mut unit, 0), value(0, 4, exits_after));
    }
    // W for a bit of the direct part is such a fault. The other bits are not set.
    let mut unit = guest_with_bits();
    put(&mut unit, 0, 1, 0x1003);
    put(&mut unit, 3, 0, 0x4023);
    forbid(&mut unit, 3);
    set_mark(&mut unit, there, 1);
    assert_eq!(load(&mut unit, 0), value(0, 4, 1));
    changes_nothing(&mut unit, Call::load_word(there + 0x4000), read_only(3, 24, 2));
    assert_eq!(word(&unit, 0, 1), 0x1003);
    assert_eq!(load(&mut unit, 0), value(0, 4, 0));
}

// ---- paths that a load filled with bit 6 clear, and their refill

#[test]
fn the_first_store_after_a_load_refills() {
    let mut unit = guest_with_bits();
    assert_eq!(load(&mut unit, 0), value(0, 4, 1));
    assert_eq!(store(&mut unit, 8, 1), done(4, 1));
    assert_eq!(word(&unit, 3, 0), 0x4063);
    assert_eq!(store(&mut unit, 8, 2), done(4, 0));
    assert_eq!(store(&mut unit, 0, 3), done(4, 0));
    assert_eq!(load(&mut unit, 8), value(2, 4, 0));
}

#[test]
fn a_path_filled_by_a_store_or_while_bit_6_is_set_allows_stores() {
    let mut unit = guest_with_bits();
    assert_eq!(store(&mut unit, 0, 1), done(4, 1));
    assert_eq!(store(&mut unit, 0, 2), done(4, 0));
    drop_all(&mut unit);
    assert_eq!(load(&mut unit, 0), value(2, 4, 1));
    assert_eq!(store(&mut unit, 0, 3), done(4, 0));
    // By the device's hand, and without bit 5.
    let mut unit = guest_with_bits();
    put(&mut unit, 3, 0, 0x4043);
    assert_eq!(load(&mut unit, 0), value(0, 4, 1));
    assert_eq!(word(&unit, 3, 0), 0x4063);
    assert_eq!(store(&mut unit, 0, 1), done(4, 0));
    // Bit 6 of another level does not count.
    let mut unit = guest_with_bits();
    (0..3).for_each(|frame| put(&mut unit, frame, 0, (frame + 1) << 12 | 0x43));
    assert_eq!(load(&mut unit, 0), value(0, 4, 1));
    assert_eq!(store(&mut unit, 0, 1), done(4, 1));
}

/// Entry 0 of frame 3 has two paths: 0, 0, 0, 0 and, by the mark, 0, 0, 1, whose tables
/// the first has too.
#[test]
fn bit_6_set_by_another_path_does_not_let_stores_pass() {
    let mut unit = guest_with_bits();
    set_mark(&mut unit, 0x200000, 1);
    assert_eq!(load(&mut unit, 0), value(0, 4, 1));
    assert_eq!(store(&mut unit, 0x200000, 1), done(8, 1));
    assert_eq!(word(&unit, 3, 0), 0x4063);
    // A load never refills.
    assert_eq!(load(&mut unit, 0), value(1, 4, 0));
    assert_eq!(load(&mut unit, 0), value(1, 4, 0));
    assert_eq!(store(&mut unit, 0, 2), done(4, 1));
    assert_eq!(store(&mut unit, 0, 3), done(4, 0));
}

/// Both at depth 0, where five tables fit.
#[test]
fn bit_6_set_by_another_path_of_depth_0() {
    let mut unit = Unit::open_with(LEVELS, memory(16), 4, 5, ON).unwrap();
    for frame in 0..7 {
        map(&mut unit, frame, 9 + frame);
    }
    let entries = [(0, 0, 0x1003), (1, 0, 0x2003), (2, 0, 0x3003), (2, 1, 0x3003), (3, 0, 0x4003)];
    entries.iter().for_each(|(frame, index, entry)| put(&mut unit, *frame, *index, *entry));
    assert_eq!(load(&mut unit, 0), value(0, 4, 1));
    assert_eq!(store(&mut unit, 0x200000, 1), done(4, 1));
    assert_eq!(load(&mut unit, 0), value(1, 4, 0));
    assert_eq!(store(&mut unit, 0, 2), done(4, 1));
    assert_eq!(store(&mut unit, 0x200000, 3), done(4, 0));
    assert_eq!(store(&mut unit, 0, 4), done(4, 0));
}

/// Two paths with all four tables in use: a refill needs none.
#[test]
fn a_refill_drops_no_path() {
    let mut unit = guest_with_bits();
    assert_eq!(load(&mut unit, 0x1000), value(0, 4, 1));
    assert_eq!(load(&mut unit, 0), value(0, 4, 1));
    assert_eq!(unit.book().tables_in_use(), 4);
    assert_eq!(store(&mut unit, 0, 1), done(4, 1));
    assert_eq!(load(&mut unit, 0x1000), value(0, 4, 0));
    assert_eq!(load(&mut unit, 0), value(1, 4, 0));
}

/// Page 4 is the table that its own path reads: one exit more for the watched frame.
#[test]
fn a_refill_by_a_store_into_a_watched_frame() {
    let mut unit = guest_with_bits();
    assert_eq!(load(&mut unit, 0x4000), value(0x4003, 4, 1));
    assert_eq!(store(&mut unit, 0x4ff8, 1), done(4, 2));
    assert_eq!(store(&mut unit, 0x4ff8, 1), done(4, 1));
    // Into the entry that the path itself reads, which is dropped then.
    let mut unit = guest_with_bits();
    assert_eq!(load(&mut unit, 0x4000), value(0x4003, 4, 1));
    assert_eq!(store(&mut unit, 0x4020, 0x3003), done(4, 2));
    assert_eq!(load(&mut unit, 0x4000), value(0x4003, 4, 1));
}

/// P and W through a path that forbids stores: the plain count, one exit, and the path
/// stays. Bit 6 changes nothing in that.
#[test]
fn faults_by_a_path_that_forbids_stores() {
    for entry in [0x5001, 0x5041] {
        let mut unit = guest_with_bits();
        put(&mut unit, 3, 1, entry);
        assert_eq!(load(&mut unit, 0x1000), value(0, 4, 1));
        changes_nothing(&mut unit, Call::store_word(0x1000, 1), fault(Fault::Protected { level: 1 }, 20, 1));
        assert_eq!(load(&mut unit, 0x1000), value(0, 4, 0));
    }
    for entry in [0x4003, 0x4043] {
        let mut unit = guest_with_bits();
        put(&mut unit, 3, 0, entry);
        forbid(&mut unit, 4);
        assert_eq!(load(&mut unit, 0), value(0, 4, 1));
        changes_nothing(&mut unit, Call::store_word(0, 1), read_only(4, 24, 1));
        assert_eq!(load(&mut unit, 0), value(0, 4, 0));
    }
}

// ---- own bit writes

#[test]
fn own_bit_writes_drop_nothing_and_cost_nothing() {
    let mut unit = guest_with_bits();
    set_mark(&mut unit, 0x200000, 1);
    assert_eq!(load(&mut unit, 0), value(0, 4, 1));
    assert!((8..12).all(|host| unit.book().watched(host)));
    // Bit 5 of an entry beside it, in a watched frame.
    assert_eq!(load(&mut unit, 0x1000), value(0, 4, 1));
    assert_eq!(word(&unit, 3, 1), 0x5021);
    // Bit 6 of the entry that the path of 0 reads.
    assert_eq!(store(&mut unit, 0x200000, 0), done(8, 1));
    assert_eq!(word(&unit, 3, 0), 0x4063);
    assert_eq!(load(&mut unit, 0), value(0, 4, 0));
    assert_eq!(load(&mut unit, 0x1000), value(0, 4, 0));
    // They make no frame watched: at depth 5 none is.
    let mut unit = guest_at_depth(5);
    assert_eq!(store(&mut unit, 0, 0), done(24, 0));
    assert!(!(8..16).any(|host| unit.book().watched(host)));
    assert_eq!(store(&mut unit, 0x4ff8, 0), done(24, 0));
}

/// A guest's or a device's store of an entry does drop, and leaves the bits as it has
/// them.
#[test]
fn stores_of_entries_drop_and_clear_bits() {
    let mut unit = guest_with_bits();
    assert_eq!(store(&mut unit, 0, 1), done(4, 1));
    assert_eq!(unit.call(&Call::device_store_word(0x3000, 0x4003)), done(4, 1));
    assert_eq!(word(&unit, 3, 0), 0x4003);
    assert_eq!(load(&mut unit, 0), value(1, 4, 1));
    assert_eq!(word(&unit, 3, 0), 0x4023);
    assert_eq!(store(&mut unit, 0, 2), done(4, 1));
    // Byte 0 has both bits.
    assert_eq!(store_bytes(&mut unit, 0x4000, 1, 3), done(4, 2));
    assert_eq!(word(&unit, 3, 0), 0x4003);
    assert_eq!(store(&mut unit, 0, 3), done(4, 1));
    assert_eq!(word(&unit, 3, 0), 0x4063);
    // The same entry again, with its bits, drops too.
    assert_eq!(device_store_bytes(&mut unit, 0x3000, 1, 0x63), done(4, 1));
    assert_eq!(store(&mut unit, 0, 4), done(4, 1));
}

// ---- W for a bit: its place among the faults, its frame, count and exits

/// The exits on a path not held, at depths 0 to 5, for the tables of levels 1 to 4: one
/// for the path, one more where the entry is the direct part's; at depth 5 that alone.
const NOT_HELD: [[u64; 6]; 4] =
    [[1, 2, 2, 2, 2, 1], [1, 1, 2, 2, 2, 1], [1, 1, 1, 2, 2, 1], [1, 1, 1, 1, 2, 1]];

#[test]
fn w_for_a_bit_on_a_path_not_held() {
    for level in 1..=4 {
        for depth in 0..=5 {
            let mut unit = guest_at_depth(depth);
            forbid(&mut unit, 4 - level);
            let answer = read_only(4 - level, 24, NOT_HELD[level as usize - 1][depth as usize]);
            changes_nothing(&mut unit, Call::load_word(0), answer);
            changes_nothing(&mut unit, Call::store_word(0, 1), answer);
            assert!(unit.book().held.is_empty());
        }
    }
}

/// Entry 1 of each table names the same as entry 0. The walk of 0 has set its bits when
/// the table becomes read-only; the page that differs in the index of that level has the
/// same path at that depth and deeper, and lacks bit 5 there.
#[test]
fn w_for_a_bit_on_a_held_path() {
    for level in 1..=4 {
        for depth in level..=4 {
            let mut unit = guest_at_depth(depth);
            put(&mut unit, 0, 1, 0x1003);
            put(&mut unit, 1, 1, 0x2003);
            assert_eq!(load(&mut unit, 0), value(0, 4 + 4 * depth, 1));
            // The path used the mapping of its last table, and of none below it.
            forbid(&mut unit, 4 - level);
            assert_eq!(load(&mut unit, 0), value(0, 4 + 4 * depth, (level == depth) as u64));
            let there = Call::load_word(0x1000 << (9 * (level - 1)));
            changes_nothing(&mut unit, there, read_only(4 - level, 4 + 4 * depth, 1));
            assert_eq!(load(&mut unit, 0), value(0, 4 + 4 * depth, 0));
        }
    }
}

/// Bit 5 of level 1 is set, bit 6 is not, and a store needs both.
#[test]
fn w_for_bit_6() {
    for depth in 0..=5 {
        let mut unit = guest_at_depth(depth);
        put(&mut unit, 3, 0, 0x4023);
        forbid(&mut unit, 3);
        let not_held = NOT_HELD[0][depth as usize];
        changes_nothing(&mut unit, Call::store_word(0, 1), read_only(3, 24, not_held));
        assert_eq!(load(&mut unit, 0), value(0, 4 + 4 * depth, (depth < 5) as u64));
        // At depth 0 the held path forbids the store: one exit, and the plain count.
        let held = if depth == 0 { 24 } else { 4 + 4 * depth };
        changes_nothing(&mut unit, Call::store_word(0, 1), read_only(3, held, 1));
        assert_eq!(load(&mut unit, 0), value(0, 4 + 4 * depth, 0));
    }
}

/// A store needs bit 5 of level 1 too, where bit 6 is set.
#[test]
fn w_for_bit_5_alone() {
    let mut unit = guest_with_bits();
    put(&mut unit, 3, 0, 0x4043);
    forbid(&mut unit, 3);
    changes_nothing(&mut unit, Call::store_word(0, 1), read_only(3, 24, 1));
    changes_nothing(&mut unit, Call::load_word(0), read_only(3, 24, 1));
}

#[test]
fn top_level_first() {
    // Levels 3 and 1 lack their bits. Level 3 is in the direct part from depth 3 on.
    for (depth, exits) in [(0, 1), (1, 1), (2, 1), (3, 2), (4, 2), (5, 1)] {
        let mut unit = guest_at_depth(depth);
        forbid(&mut unit, 1);
        forbid(&mut unit, 3);
        changes_nothing(&mut unit, Call::load_word(0), read_only(1, 24, exits));
    }
    // All four lack them, then the lower three, two and one.
    for level in (1..=4).rev() {
        for depth in 0..=5 {
            let mut unit = guest_at_depth(depth);
            for frame in 0..4 - level {
                put(&mut unit, frame, 0, (frame + 1) << 12 | 0x23);
            }
            (0..4).for_each(|frame| forbid(&mut unit, frame));
            let exits = NOT_HELD[level as usize - 1][depth as usize];
            changes_nothing(&mut unit, Call::load_word(0), read_only(4 - level, 24, exits));
        }
    }
}

#[test]
fn a_bit_that_is_set_needs_no_right() {
    for depth in 0..=5 {
        let mut unit = guest_at_depth(depth);
        (0..3).for_each(|frame| put(&mut unit, frame, 0, (frame + 1) << 12 | 0x23));
        put(&mut unit, 3, 0, 0x4063);
        (0..4).for_each(|frame| forbid(&mut unit, frame));
        let before = unit.guest_words().to_vec();
        assert_eq!(load(&mut unit, 0), value(0, 4 + 4 * depth, (depth < 5) as u64));
        assert_eq!(store(&mut unit, 0, 1), done(4 + 4 * depth, 0));
        assert_eq!(changed(&unit, &before), [(4, 0, 1)]);
    }
    // Set by the unit itself, before the table became read-only.
    let mut unit = guest_with_bits();
    assert_eq!(store(&mut unit, 0, 1), done(4, 1));
    (0..4).for_each(|frame| forbid(&mut unit, frame));
    assert_eq!(store(&mut unit, 0, 2), done(4, 1));
    assert_eq!(load(&mut unit, 0), value(2, 4, 0));
}

/// A, M, P, H and W of the page go before, though each table lacks its bit. On a path not
/// held W of the page costs two exits at depth 1, W of the root's table one.
#[test]
fn w_for_a_bit_comes_after_all_others() {
    for (call, why, references, of_host) in faults() {
        for (depth, host_exits) in [(0, 0), (1, 1), (4, 1)] {
            let mut unit = guest_with_faults(depth);
            (0..4).for_each(|frame| forbid(&mut unit, frame));
            let exits = 1 + if of_host { host_exits } else { 0 };
            changes_nothing(&mut unit, call.clone(), fault(why, references, exits));
        }
    }
    // The page itself, then its tables.
    let mut unit = guest_with_bits();
    (0..5).for_each(|frame| forbid(&mut unit, frame));
    changes_nothing(&mut unit, Call::store_word(0, 1), read_only(4, 24, 1));
    changes_nothing(&mut unit, Call::load_word(0), read_only(0, 24, 1));
}

/// A fault leaves the bits of the levels above its own that are not set.
#[test]
fn w_for_a_bit_sets_none_of_the_others() {
    for level in 1..=4 {
        let mut unit = guest_with_bits();
        forbid(&mut unit, 4 - level);
        assert_eq!(store(&mut unit, 0, 1), read_only(4 - level, 24, 1));
        let entries: Vec<u64> = (0..4).map(|frame| word(&unit, frame, 0)).collect();
        assert_eq!(entries, [0x1003, 0x2003, 0x3003, 0x4003]);
        assert_eq!(word(&unit, 4, 0), 0);
    }
}

// ---- one host frame under two guest frames, only one of them read-only

#[test]
fn the_frame_is_the_walks_own() {
    // Frame 9 is a second name of frame 3, read-only, and entry 1 of frame 2 names it.
    let mut unit = guest_with_bits();
    assert_eq!(unit.call(&Call::Map { guest: 9, host: 11, writable: false }), Answer::Ok);
    put(&mut unit, 2, 1, 0x9003);
    changes_nothing(&mut unit, Call::load_word(0x200000), read_only(9, 24, 1));
    assert_eq!(load(&mut unit, 0), value(0, 4, 1));
    assert_eq!(word(&unit, 3, 0), 0x4023);
    // The bit is in the word, whoever set it. Bit 6 is not.
    assert_eq!(load(&mut unit, 0x200000), value(0, 4, 1));
    changes_nothing(&mut unit, Call::store_word(0x200000, 1), read_only(9, 24, 1));
    assert_eq!(store(&mut unit, 0, 1), done(4, 1));
    assert_eq!(store(&mut unit, 0x200000, 2), done(4, 1));
}

#[test]
fn the_roots_frame_is_its_number() {
    // Frame 9 is a second name of frame 0: a load of the root changes who may set bits.
    for depth in [0, 3, 4, 5] {
        let mut unit = guest_at_depth(depth);
        assert_eq!(unit.call(&Call::Map { guest: 9, host: 8, writable: false }), Answer::Ok);
        assert_eq!(unit.call(&Call::Root { frame: 9 }), Answer::Ok);
        let exits = NOT_HELD[3][depth as usize];
        changes_nothing(&mut unit, Call::load_word(0), read_only(9, 24, exits));
        assert_eq!(unit.call(&Call::Root { frame: 0 }), Answer::Ok);
        assert_eq!(load(&mut unit, 0), value(0, 4 + 4 * depth, (depth < 5) as u64));
        // And the other way round: the table's first name is read-only.
        let mut unit = guest_at_depth(depth);
        forbid(&mut unit, 0);
        map(&mut unit, 9, 8);
        changes_nothing(&mut unit, Call::load_word(0), read_only(0, 24, exits));
        assert_eq!(unit.call(&Call::Root { frame: 9 }), Answer::Ok);
        assert_eq!(load(&mut unit, 0), value(0, 4 + 4 * depth, (depth < 5) as u64));
    }
}

// ---- tables that map themselves: judged before any bit is set

/// The address whose four indexes are 1.
const ONES: u64 = 0x80_4020_1000;

/// Entry 1 of frame 0 names frame 9, its second name: the walk of `ONES` reads that word
/// four times, first by the root's frame, then by frame 9, and finds the table as its page.
fn guest_that_maps_itself(depth: u64, writable: bool) -> Unit {
    let mut unit = guest_with_bits();
    assert_eq!(unit.call(&Call::Map { guest: 9, host: 8, writable }), Answer::Ok);
    put(&mut unit, 0, 1, 0x9003);
    if depth > 0 {
        set_mark(&mut unit, ONES, depth);
    }
    unit
}

#[test]
fn a_word_reached_twice_is_judged_as_it_was() {
    // Level 4 could set the bit that level 3 lacks.
    for depth in 0..=5 {
        let mut unit = guest_that_maps_itself(depth, false);
        let exits = NOT_HELD[2][depth as usize];
        changes_nothing(&mut unit, Call::load_word(ONES), read_only(9, 24, exits));
        assert_eq!(word(&unit, 0, 1), 0x9003);
        // Once it is set, nothing is lacking.
        put(&mut unit, 0, 1, 0x9023);
        assert_eq!(load(&mut unit, ONES), value(0x1003, 4 + 4 * depth, (depth < 5) as u64));
    }
    // The root's frame is read-only and the other is not: level 4 lacks it.
    for depth in 0..=5 {
        let mut unit = guest_that_maps_itself(depth, true);
        forbid(&mut unit, 0);
        let exits = NOT_HELD[3][depth as usize];
        changes_nothing(&mut unit, Call::load_word(ONES), read_only(0, 24, exits));
    }
}

#[test]
fn a_word_reached_twice_gets_the_bits_of_all_its_levels() {
    let mut unit = guest_that_maps_itself(0, true);
    let before = unit.guest_words().to_vec();
    assert_eq!(load(&mut unit, ONES), value(0x1003, 4, 1));
    assert_eq!(changed(&unit, &before), [(0, 1, 0x9023)]);
    // Bit 6 is level 1's. The store refills, and the table is watched by its own path.
    assert_eq!(store(&mut unit, ONES + 0x10, 5), done(4, 2));
    assert_eq!(changed(&unit, &before), [(0, 1, 0x9063), (0, 2, 5)]);
    assert_eq!(store(&mut unit, ONES + 0x10, 6), done(4, 1));
    // A load of that word has them at once.
    let mut unit = guest_that_maps_itself(0, true);
    assert_eq!(load(&mut unit, ONES + 8), value(0x9023, 4, 1));
}

// ---- the word is used after its bits are set. That at 0x4020 is the entry of level 1 by
// which it is reached, 0x3003.

#[test]
fn a_load_of_its_own_entry_has_the_bit() {
    for depth in 0..=5 {
        let (references, exits) = (4 + 4 * depth, (depth < 5) as u64);
        assert_eq!(load(&mut guest_at_depth(depth), 0x4020), value(0x3023, references, exits));
        assert_eq!(load_bytes(&mut guest_at_depth(depth), 0x4020, 1), value(0x23, references, exits));
        assert_eq!(load_bytes(&mut guest_at_depth(depth), 0x4021, 1), value(0x30, references, exits));
    }
}

#[test]
fn a_store_into_its_own_entry() {
    // The bytes stored, and what then stands there: both bits are in byte 0.
    let stores = [
        (0x4021, 1, 0x30, 0x3063),
        (0x4027, 1, 0xFF, 0xFF00_0000_0000_3063),
        (0x4022, 2, 0, 0x3063),
        (0x4024, 4, 0, 0x3063),
        (0x4020, 1, 0x03, 0x3003),
        (0x4020, 1, 0x23, 0x3023),
        (0x4020, 2, 0x3003, 0x3003),
        (0x4020, 8, 0x3003, 0x3003),
    ];
    for (address, width, bytes, after) in stores {
        for depth in 0..=5 {
            let mut unit = guest_at_depth(depth);
            // At depth 0 the table is watched once the path is filled, and drops it.
            let exits = if depth == 0 { 2 } else { (depth < 5) as u64 };
            assert_eq!(store_bytes(&mut unit, address, width, bytes), done(4 + 4 * depth, exits));
            assert_eq!(word(&unit, 3, 4), after, "{width} bytes at {address:#x}, depth {depth}");
            let above: Vec<u64> = (0..3).map(|frame| word(&unit, frame, 0)).collect();
            assert_eq!(above, [0x1023, 0x2023, 0x3023]);
            assert_eq!(unit.book().held.len(), (1..5).contains(&depth) as usize);
        }
    }
}

// Devices and forecasts.

#[test]
fn a_device_store_needs_and_sets_no_bit() {
    let mut unit = guest_with_bits();
    (0..4).for_each(|frame| forbid(&mut unit, frame));
    let before = unit.guest_words().to_vec();
    assert_eq!(unit.call(&Call::device_store_word(0x4000, 7)), done(4, 0));
    assert_eq!(device_store_bytes(&mut unit, 0x400F, 1, 7), done(4, 0));
    assert_eq!(changed(&unit, &before), [(4, 0, 7), (4, 1, 7 << 56)]);
    assert_eq!(unit.call(&Call::device_store_word(0x3000, 0)), read_only(3, 4, 1));
    assert_eq!(unit.call(&Call::device_store_word(0x8000, 0)), fault(Fault::HostAbsent { frame: 8 }, 4, 1));
}

/// Before 14: the list is not looked at.
#[test]
fn refusal_16() {
    let mut unit = guest_with_bits();
    load(&mut unit, 0);
    for addresses in [vec![], vec![0], vec![4], vec![0x3000, 1 << 48], vec![0; 256], vec![0; 257]] {
        changes_nothing(&mut unit, Call::Forecast { addresses }, Answer::No(16));
    }
    let mut unit = sixteen_frame_guest(Choices::default());
    assert_eq!(forecast(&mut unit, &[0; 257]), Answer::No(14));
    assert!(matches!(forecast(&mut unit, &[0; 256]), Answer::Figures { .. }));
}

// Request 12: what is said of four entries holds of N.

/// Frame n at host frame 10 + n; frames 0 to 4 are the tables, 5 the page.
fn five_level_guest(depth: u64) -> Unit {
    let mut words = memory(24);
    for frame in 0..5u64 {
        words[(10 + frame as usize) * 512] = (frame + 1) << 12 | 3;
    }
    let mut unit = Unit::open_with(5, words, 5, 5, ON).unwrap();
    for frame in 0..8 {
        assert_eq!(map(&mut unit, frame, 10 + frame), Answer::Ok);
    }
    if depth > 0 {
        assert_eq!(set_mark(&mut unit, 0, depth), Answer::Ok);
    }
    unit
}

/// A plain walk is 35 words, depth d is 5 + 5d, and at depth 6 there is no path.
#[test]
fn five_levels() {
    for depth in 0..=6 {
        let mut unit = five_level_guest(depth);
        assert_eq!(load(&mut unit, 0), value(0, 5 + 5 * depth, (depth < 6) as u64));
        let entries = |unit: &Unit| (0..5).map(|frame| word(unit, frame, 0)).collect::<Vec<u64>>();
        assert_eq!(entries(&unit), [0x1023, 0x2023, 0x3023, 0x4023, 0x5023]);
        assert_eq!(store(&mut unit, 0, 1), done(5 + 5 * depth, (depth == 0) as u64));
        assert_eq!(entries(&unit), [0x1023, 0x2023, 0x3023, 0x4023, 0x5063]);
        for level in 1..=5 {
            let mut unit = five_level_guest(depth);
            let frame = 5 - level;
            assert_eq!(unit.call(&Call::Map { guest: frame, host: 10 + frame, writable: false }), Answer::Ok);
            let exits = match depth {
                0 | 6 => 1,
                _ if level <= depth => 2,
                _ => 1,
            };
            changes_nothing(&mut unit, Call::load_word(0), read_only(frame, 35, exits));
        }
    }
}
