//! Request 8 of document 02, large pages. The numbers are worked out by hand from the papers.
//!
//! Guest frames 0 to 7 are the host frames from 20 on. Frames 0 to 3 are tables of levels 4
//! to 1. The entries of frame 2, of level 2, are: 0 the table 3; 1 a page of 2 MiB from guest
//! frame 512 on; 2 the same, not writable; 3 a page of 2 MiB from frame 0 on, in which page 2
//! is this table. Those of frame 1, of level 3, are: 0 the table 2; 1 a page of 1 GiB from frame
//! 2^18 on; 2 the same, not writable; 3 a page of 1 GiB from frame 0 on. Frame 3 has page 0,
//! which is frame 4, and page 1, which is the table 2.
//!
//! Of frames 512 to 1023 only 513, 514 and 1023 are mapped, to 28, 29 and 30; of those from
//! 2^18 on the first and the one with lower indexes 3 and 5, to 31 and 32. Word 0 of a page
//! is its host frame.
//!
//! A plain walk is 19 words for 2 MiB and 14 for 1 GiB. If the marks' depth d is below the
//! level of the large entry, the depth is 0 and the count 4. Else it is 4 + 4d, less 5 or 10.

mod guest;

use guest::*;
use walker::answer::{Answer, Call, Choices, Fault};
use walker::job::{run_job, write_record, Record};
use walker::quiet::{part, End, Part, Stretch};
use walker::Unit;

const BITS: Choices = Choices { bits: true, automatic: false };
const AUTOMATIC: Choices = Choices { bits: false, automatic: true };

const H: u64 = 8;
/// Host frame of guest frame 0.
const FIRST: u64 = 20;
const GIB_FRAME: u64 = 1 << 18;

/// The address with these indexes of levels 3, 2 and 1.
const fn at(three: u64, two: u64, one: u64) -> u64 {
    three << 30 | two << 21 | one << 12
}

/// Pages 1 of the 2 MiB pages, and the ones of 1 GiB that are mapped.
const TWO: u64 = at(0, 1, 1);
const TWO_READ_ONLY: u64 = at(0, 2, 1);
const ONE: u64 = at(1, 3, 5);
const ONE_FIRST: u64 = at(1, 0, 0);
const ONE_READ_ONLY: u64 = at(2, 3, 5);
/// The table of level 2 as a page in a page of 2 MiB, and of 1 GiB.
const TABLE: u64 = at(0, 3, 2);
const TABLE_BY_ONE: u64 = at(3, 0, 2);

const ENTRY_OF_TWO: u64 = 512 << 12 | 0x83;
const ENTRY_OF_ONE: u64 = GIB_FRAME << 12 | 0x83;

fn entries() -> Vec<(u64, u64, u64)> {
    vec![
        (0, 0, 0x1003),
        (1, 0, 0x2003),
        (1, 1, ENTRY_OF_ONE),
        (1, 2, ENTRY_OF_ONE & !2),
        (1, 3, 0x83),
        (2, 0, 0x3003),
        (2, 1, ENTRY_OF_TWO),
        (2, 2, ENTRY_OF_TWO & !2),
        (2, 3, 0x83),
        (3, 0, 0x4003),
        (3, 1, 0x2003),
    ]
}

fn mapped() -> Vec<(u64, u64)> {
    let small = (0..8).map(|frame| (frame, FIRST + frame));
    let large = [(513, 28), (514, 29), (1023, 30), (GIB_FRAME, 31), (GIB_FRAME + 3 * 512 + 5, 32)];
    small.chain(large).collect()
}

fn guest_with(shadows: u64, choices: Choices) -> Unit {
    let first = H + shadows;
    let mut words = memory(first as usize + 13);
    (4..13).for_each(|frame| words[(first as usize + frame) * 512] = FIRST + frame as u64);
    for (frame, index, entry) in entries() {
        words[((first + frame) * 512 + index) as usize] = entry;
    }
    let mut unit = Unit::open_with(LEVELS, words, H, shadows, choices).unwrap();
    for (guest, host) in mapped() {
        assert_eq!(map(&mut unit, guest, host - FIRST + first), Answer::Ok);
    }
    unit
}

fn guest() -> Unit {
    guest_with(12, Choices::default())
}

/// With a mark of this level at the address, or none for 0.
fn guest_marked(address: u64, level: u64) -> Unit {
    let mut unit = guest();
    if level > 0 {
        assert_eq!(set_mark(&mut unit, address, level), Answer::Ok);
    }
    unit
}

fn clear_mark(unit: &mut Unit, address: u64, level: u64) -> Answer {
    unit.call(&Call::ClearMark { address, level })
}

fn map_read_only(unit: &mut Unit, guest: u64, host: u64) {
    assert_eq!(unit.call(&Call::Map { guest, host, writable: false }), Answer::Ok);
}

/// A device stores an entry of a table.
fn put(unit: &mut Unit, frame: u64, index: u64, entry: u64) -> Answer {
    device_store_bytes(unit, frame << 12 | index << 3, 8, entry)
}

fn malformed(level: u32, references: u64) -> Answer {
    fault(Fault::Malformed { level }, references, 1)
}

fn protected(level: u32, references: u64, exits: u64) -> Answer {
    fault(Fault::Protected { level }, references, exits)
}

fn absent_at(frame: u64, references: u64, exits: u64) -> Answer {
    fault(Fault::HostAbsent { frame }, references, exits)
}

fn read_only(frame: u64, references: u64, exits: u64) -> Answer {
    fault(Fault::HostReadOnly { frame }, references, exits)
}

fn held(unit: &Unit) -> Vec<Vec<u64>> {
    unit.book().held.keys().cloned().collect()
}

// ---- the page and the counts

/// The page's frame is the entry's and the lower indexes.
#[test]
fn each_piece_is_a_frame_of_its_own() {
    let mut unit = guest();
    for (address, host) in [(TWO, 28), (at(0, 1, 2), 29), (at(0, 1, 511), 30), (ONE_FIRST, 31), (ONE, 32)] {
        assert_eq!(load(&mut unit, address), value(host, 4, 1));
        assert_eq!(load(&mut unit, address), value(host, 4, 0));
        assert_eq!(page(&unit, address), host);
    }
    // The table of level 2 by three ways, and a small page beside the large ones.
    for address in [TABLE, TABLE_BY_ONE, at(0, 0, 1)] {
        assert_eq!(load(&mut unit, address + 8), value(ENTRY_OF_TWO, 4, 1));
    }
    assert_eq!(load(&mut unit, 0), value(24, 4, 1));
}

/// At depth 0 to 5, by marks of these levels.
#[test]
fn references_at_each_depth() {
    for (address, host, counts) in [(TWO, 28, [4, 4, 7, 11, 15, 19]), (ONE, 32, [4, 4, 4, 6, 10, 14])] {
        for (level, references) in counts.into_iter().enumerate() {
            let mut unit = guest_marked(address, level as u64);
            assert_eq!(load(&mut unit, address), value(host, references, (level < 5) as u64));
            assert_eq!(load(&mut unit, address), value(host, references, 0));
            assert_eq!(store(&mut unit, address, 7), done(references, 0));
            assert_eq!(load(&mut unit, address), value(7, references, 0));
            // The lookup says the marks' depth all the same.
            assert_eq!(unit.book().depth(address), level as u32);
        }
    }
}

/// In document 01's guest: entry 1 of frame 2 names frames 0 to 511, of which 0 to 7 are mapped.
#[test]
fn a_large_page_of_the_sixteen_frame_guest() {
    let mut unit = sixteen_frame_guest(Choices::default());
    put(&mut unit, 2, 1, 0x83);
    assert_eq!(store_bytes(&mut unit, at(0, 1, 4) + 3, 1, 0x1AB), done(4, 1));
    assert_eq!((word(&unit, 4, 0), page(&unit, at(0, 1, 4))), (0xAB00_0000, 12));
    assert_eq!(load_bytes(&mut unit, at(0, 1, 4) + 2, 2), value(0xAB00, 4, 0));
    // The same page by its small entry: with S = 4 the fifth table drops the first path.
    assert_eq!(load(&mut unit, 0), value(0xAB00_0000, 4, 1));
    assert_eq!(load(&mut unit, at(0, 1, 8)), absent_at(8, 19, 1));
}

/// A small page under the same marks has the counts that it had.
#[test]
fn small_pages_beside_them() {
    for level in 0..=5 {
        let mut unit = guest_marked(0, level);
        assert_eq!(load(&mut unit, 0), value(24, 4 + 4 * level, (level < 5) as u64));
        assert_eq!(load(&mut unit, 0), value(24, 4 + 4 * level, 0));
    }
}

/// Above the marked levels a path of four indexes with their tables, else the marks' path.
#[test]
fn the_paths_that_are_held() {
    let paths: [(u64, u64, &[u64], u64); 12] = [
        (TWO, 0, &[0, 0, 1, 1], 4),
        (TWO, 1, &[0, 0, 1, 1], 4),
        (TWO, 2, &[0, 0], 2),
        (TWO, 3, &[0], 1),
        (TWO, 4, &[], 0),
        (ONE, 0, &[0, 1, 3, 5], 4),
        (ONE, 1, &[0, 1, 3, 5], 4),
        (ONE, 2, &[0, 1, 3, 5], 4),
        (ONE, 3, &[0], 1),
        (ONE, 4, &[], 0),
        (TWO, 5, &[], 0),
        (ONE, 5, &[], 0),
    ];
    for (address, level, path, tables) in paths {
        let mut unit = guest_marked(address, level);
        load(&mut unit, address);
        assert_eq!(held(&unit), if level == 5 { vec![] } else { vec![path.to_vec()] });
        assert_eq!(unit.book().tables_in_use(), tables);
    }
}

/// The guest words of levels 4 to L, and the mappings of the root, the tables and the page.
#[test]
fn what_a_held_path_rests_on() {
    let mut unit = guest();
    load(&mut unit, TWO);
    load(&mut unit, ONE);
    let note = |path: &[u64]| {
        let held = &unit.book().held[path];
        let words: Vec<(u64, u64)> = held.words.iter().map(|word| (word.frame - FIRST, word.index)).collect();
        (words, held.frames.clone())
    };
    assert_eq!(note(&[0, 0, 1, 1]), (vec![(0, 0), (1, 0), (2, 1)], vec![0, 1, 2, 513]));
    assert_eq!(note(&[0, 1, 3, 5]), (vec![(0, 0), (1, 1)], vec![0, 1, GIB_FRAME + 3 * 512 + 5]));
    assert!([20, 21, 22].iter().all(|host| unit.book().watched(*host)));
    assert!(!unit.book().watched(23) && !unit.book().watched(28));
}

// ---- malformed entries

/// Each frame bit below the page size, bit 12 too; the first above it is another page.
#[test]
fn frame_bits_below_the_page_size() {
    for (level, table, address, entry, plain) in
        [(2, 2, TWO, ENTRY_OF_TWO, 15), (3, 1, ONE, ENTRY_OF_ONE, 10)]
    {
        for marks in 0..=5 {
            for bit in 12..12 + 9 * (level - 1) {
                let mut unit = guest_marked(address, marks);
                assert_eq!(put(&mut unit, table, 1, entry | 1 << bit), done(4, 0));
                let said = load(&mut unit, address);
                // In the direct part a path that is not held costs its exit too.
                let references = if marks >= level { direct_to(level, marks) } else { plain };
                assert_eq!(
                    said,
                    fault(Fault::Malformed { level: level as u32 }, references, (marks < 5) as u64)
                );
            }
        }
    }
    // Frame 0 and the lower indexes: the table 1, and a frame that is not mapped.
    let mut unit = guest();
    put(&mut unit, 2, 1, ENTRY_OF_TWO ^ 1 << 21);
    assert_eq!(load(&mut unit, TWO), value(0x2003, 4, 1));
    put(&mut unit, 1, 1, ENTRY_OF_ONE ^ 1 << 30);
    assert_eq!(load(&mut unit, ONE), absent_at(3 * 512 + 5, 13, 1));
}

/// What a fault at the entry of this level carries behind a path of depth d: 4 - d, the
/// entries from level d on and the host walks of the tables in between; at depth 5 the root's.
fn direct_to(level: u64, depth: u64) -> u64 {
    match depth {
        5 => 5 * (4 - level) + 5,
        _ => 4 - depth + 5 * (depth - level) + 1,
    }
}

#[test]
fn bit_7_at_levels_4_and_1_and_bits_48_to_51() {
    let mut unit = guest();
    put(&mut unit, 0, 0, 0x1083);
    assert_eq!(load(&mut unit, TWO), malformed(4, 5));
    put(&mut unit, 0, 0, 0x83);
    assert_eq!(load(&mut unit, TWO), malformed(4, 5));
    put(&mut unit, 0, 0, 0x1003);
    put(&mut unit, 3, 0, 0x4083);
    assert_eq!(load(&mut unit, 0), value(24, 4, 1));
    for bit in 48..52 {
        put(&mut unit, 2, 1, ENTRY_OF_TWO | 1 << bit);
        put(&mut unit, 1, 1, ENTRY_OF_ONE | 1 << bit);
        assert_eq!(load(&mut unit, TWO), malformed(2, 15));
        assert_eq!(load(&mut unit, ONE), malformed(3, 10));
    }
    // Not present goes first, and other bits are ignored.
    put(&mut unit, 2, 1, 0x1082);
    assert_eq!(load(&mut unit, TWO), fault(Fault::Absent { level: 2 }, 15, 1));
    put(&mut unit, 1, 1, ENTRY_OF_ONE | 0xFFF0_0000_0000_0F7C);
    assert_eq!(load(&mut unit, ONE), value(32, 4, 1));
}

// ---- P, H and W

/// At the level where the walk ends: 15 and 10 words. At depth 0 nothing is filled, and a
/// path that a load filled forbids the store. Behind a held path it has the words to there.
#[test]
fn p_names_the_level_where_the_walk_ends() {
    for (address, level, plain) in [(TWO_READ_ONLY, 2, 15), (ONE_READ_ONLY, 3, 10)] {
        for marks in 0..=5 {
            let mut unit = guest_marked(address, marks);
            let direct = marks >= level;
            let references = if direct { direct_to(level, marks) } else { plain };
            let first = protected(level as u32, references, (marks < 5) as u64);
            assert_eq!(store(&mut unit, address, 1), first, "{marks}");
            let again = protected(level as u32, references, !direct as u64);
            assert_eq!(store(&mut unit, address, 1), again, "{marks}");
            assert!(matches!(load(&mut unit, address), Answer::Value { .. }));
            assert_eq!(store(&mut unit, address, 1), again, "{marks}");
        }
    }
}

/// The bit of an upper entry counts too, and is judged at the end: not before A and M below.
#[test]
fn p_by_an_upper_entry() {
    let mut unit = guest();
    put(&mut unit, 0, 0, 0x1001);
    assert_eq!(store(&mut unit, TWO, 1), protected(2, 15, 1));
    assert_eq!(store(&mut unit, ONE, 1), protected(3, 10, 1));
    assert_eq!(store(&mut unit, 0, 1), protected(1, 20, 1));
    put(&mut unit, 2, 1, ENTRY_OF_TWO | 1 << 12);
    assert_eq!(store(&mut unit, TWO, 1), malformed(2, 15));
}

/// P before H; H carries the page's own frame. Frame 512 has its host tables, so that its
/// walk fails at the fourth word, and one in the 1 GiB page without, at the third.
#[test]
fn h_carries_the_pages_frame() {
    let mut unit = guest();
    assert_eq!(load(&mut unit, at(0, 1, 0)), absent_at(512, 19, 1));
    assert_eq!(load(&mut unit, at(1, 7, 1)), absent_at(GIB_FRAME + 7 * 512 + 1, 13, 1));
    assert_eq!(store(&mut unit, at(0, 2, 0), 1), protected(2, 15, 1));
    assert!(held(&unit).is_empty());
    // Direct: an exit for the path that is filled, and one for H each time.
    let mut unit = guest_marked(TWO, 2);
    assert_eq!(load(&mut unit, at(0, 1, 0)), absent_at(512, 7, 2));
    assert_eq!(load(&mut unit, at(0, 1, 0)), absent_at(512, 7, 1));
    let mut unit = guest_marked(ONE, 5);
    assert_eq!(load(&mut unit, at(1, 7, 1)), absent_at(GIB_FRAME + 7 * 512 + 1, 13, 1));
}

/// Of one piece, at depth 0 also by a path that a load filled.
#[test]
fn w_carries_the_pages_frame() {
    let mut unit = guest();
    map_read_only(&mut unit, 513, 28);
    assert_eq!(store(&mut unit, TWO, 1), read_only(513, 19, 1));
    assert_eq!(load(&mut unit, TWO), value(28, 4, 1));
    assert_eq!(store(&mut unit, TWO, 1), read_only(513, 19, 1));
    assert_eq!(store(&mut unit, at(0, 1, 2), 1), done(4, 1));
    let mut unit = guest_marked(ONE, 3);
    map_read_only(&mut unit, GIB_FRAME + 3 * 512 + 5, 32);
    assert_eq!(store(&mut unit, ONE, 1), read_only(GIB_FRAME + 3 * 512 + 5, 6, 2));
    assert_eq!(store(&mut unit, ONE_FIRST, 1), done(6, 0));
}

/// "If the walk faults before a large entry the marks' depth stands."
#[test]
fn a_fault_before_the_large_entry() {
    let mut unit = guest_marked(TWO, 3);
    load(&mut unit, 0);
    put(&mut unit, 1, 0, 0);
    // Behind the held path of depth 3: 3 of the direct part is its first word.
    assert_eq!(load(&mut unit, TWO), fault(Fault::Absent { level: 3 }, 2, 0));
    // With a mark of level 1 the table of level 3 is above it.
    let mut unit = guest_marked(TWO, 1);
    put(&mut unit, 1, 0, 0);
    assert_eq!(load(&mut unit, TWO), fault(Fault::Absent { level: 3 }, 10, 1));
}

// ---- drops

/// A remap of a frame drops the path of that page alone, of another frame none.
#[test]
fn remaps_inside_a_large_page() {
    let mut unit = guest();
    let all = [TWO, at(0, 1, 2), ONE_FIRST, ONE];
    all.iter()
        .for_each(|address| assert!(matches!(load(&mut unit, *address), Answer::Value { exits: 1, .. })));
    // 515 and a frame of the 1 GiB page that no path used, mapped and unmapped.
    for guest in [515, GIB_FRAME + 1] {
        assert_eq!(map(&mut unit, guest, 27), Answer::Ok);
        assert_eq!(unit.call(&Call::Unmap { guest }), Answer::Ok);
    }
    assert_eq!(held(&unit).len(), 4);
    assert_eq!(map(&mut unit, 513, 29), Answer::Ok);
    assert_eq!(held(&unit), [[0, 0, 1, 2], [0, 1, 0, 0], [0, 1, 3, 5]]);
    assert_eq!(load(&mut unit, TWO), value(29, 4, 1));
    assert_eq!(unit.call(&Call::Unmap { guest: GIB_FRAME }), Answer::Ok);
    assert_eq!(held(&unit), [[0, 0, 1, 1], [0, 0, 1, 2], [0, 1, 3, 5]]);
    // A table's mapping drops all that used it: 2 is used by the 2 MiB pages.
    assert_eq!(map(&mut unit, 2, 22), Answer::Ok);
    assert_eq!(held(&unit), [[0, 1, 3, 5]]);
    // Read directly, no path rests on the page.
    let mut unit = guest_marked(TWO, 2);
    load(&mut unit, TWO);
    assert_eq!(map(&mut unit, 513, 29), Answer::Ok);
    assert_eq!(load(&mut unit, TWO), value(29, 7, 0));
}

/// By the guest through another large page, and by a device, even if the value is the same.
#[test]
fn a_store_to_the_large_entry() {
    let mut unit = guest();
    for address in [TWO, at(0, 1, 2), ONE] {
        load(&mut unit, address);
    }
    // The path of TABLE is not held, and its frame is watched.
    assert_eq!(store(&mut unit, TABLE + 8, ENTRY_OF_TWO), done(4, 2));
    assert_eq!(held(&unit), [[0, 0, 3, 2], [0, 1, 3, 5]]);
    assert_eq!(load(&mut unit, TWO), value(28, 4, 1));
    // One byte of it, and its own entry: the path that it goes by is dropped.
    assert_eq!(store_bytes(&mut unit, TABLE + 3 * 8 + 7, 1, 0), done(4, 1));
    assert_eq!(held(&unit), [[0, 0, 1, 1], [0, 1, 3, 5]]);
    assert_eq!(put(&mut unit, 1, 1, ENTRY_OF_ONE), done(4, 1));
    assert_eq!(held(&unit), [[0, 0, 1, 1]]);
    // Another entry of the table, which is watched.
    assert_eq!(put(&mut unit, 2, 9, 1), done(4, 1));
    assert_eq!(held(&unit), [[0, 0, 1, 1]]);
}

/// Under a mark of level 2 the entry is read directly: nothing is dropped and nobody watches.
#[test]
fn a_store_to_a_large_entry_that_is_read_directly() {
    let mut unit = guest_marked(TWO, 2);
    assert_eq!(load(&mut unit, TWO), value(28, 7, 1));
    // TABLE is a page of 2 MiB under the same mark.
    assert_eq!(store(&mut unit, TABLE + 8, ENTRY_OF_TWO | 1 << 12), done(7, 0));
    assert_eq!(load(&mut unit, TWO), fault(Fault::Malformed { level: 2 }, 3, 0));
    assert_eq!(store(&mut unit, TABLE + 8, 0x3003), done(7, 0));
    assert_eq!(load(&mut unit, TWO), value(0x3003, 12, 0));
}

/// A large page becomes a table and a table a large page.
#[test]
fn a_table_in_its_place_and_back() {
    let mut unit = guest();
    assert_eq!(load(&mut unit, at(0, 1, 2)), value(29, 4, 1));
    assert_eq!(load(&mut unit, 0), value(24, 4, 1));
    assert_eq!(put(&mut unit, 2, 1, 0x3003), done(4, 1));
    // Page 2 of frame 3 has no entry; page 0 is frame 4.
    assert_eq!(load(&mut unit, at(0, 1, 2)), fault(Fault::Absent { level: 1 }, 20, 1));
    assert_eq!(load(&mut unit, at(0, 1, 0)), value(24, 4, 1));
    assert_eq!(put(&mut unit, 2, 0, ENTRY_OF_TWO), done(4, 1));
    assert_eq!(load(&mut unit, at(0, 0, 1)), value(28, 4, 1));
    assert_eq!(load(&mut unit, 0), absent_at(512, 19, 1));
    assert_eq!(put(&mut unit, 1, 0, ENTRY_OF_ONE), done(4, 1));
    assert!(held(&unit).is_empty());
    assert_eq!(load(&mut unit, 0), value(31, 4, 1));
}

/// A mark drops the paths under it, though their depth stays 0.
#[test]
fn marks_over_a_large_page() {
    let mut unit = guest();
    load(&mut unit, TWO);
    load(&mut unit, ONE);
    // Of level 1 at TWO, and of levels 1 and 2 at ONE; one elsewhere drops nothing.
    assert_eq!(set_mark(&mut unit, 0, 1), Answer::Ok);
    assert_eq!(set_mark(&mut unit, at(1, 2, 0), 1), Answer::Ok);
    assert_eq!(held(&unit).len(), 2);
    for (address, level) in [(TWO, 1), (ONE, 1), (ONE, 2)] {
        assert_eq!(set_mark(&mut unit, address, level), Answer::Ok);
        assert_eq!(held(&unit).len(), 1);
        assert!(matches!(load(&mut unit, address), Answer::Value { references: 4, exits: 1, .. }));
        assert_eq!(held(&unit).len(), 2);
    }
    for (address, level) in [(TWO, 1), (ONE, 1), (ONE, 2)] {
        assert_eq!(clear_mark(&mut unit, address, level), Answer::Ok);
        assert_eq!(held(&unit).len(), 1);
        assert!(matches!(load(&mut unit, address), Answer::Value { references: 4, exits: 1, .. }));
    }
    // From the level of the entry on the page is read directly.
    assert_eq!(set_mark(&mut unit, TWO, 2), Answer::Ok);
    assert_eq!(held(&unit), [[0, 1, 3, 5]]);
    assert_eq!(load(&mut unit, TWO), value(28, 7, 1));
    assert_eq!(set_mark(&mut unit, ONE, 3), Answer::Ok);
    assert!(held(&unit).is_empty());
    assert_eq!(load(&mut unit, ONE), value(32, 6, 1));
    assert_eq!(load(&mut unit, TWO), value(28, 11, 0));
    assert_eq!(clear_mark(&mut unit, ONE, 3), Answer::Ok);
    assert_eq!(load(&mut unit, ONE), value(32, 4, 1));
    assert_eq!(load(&mut unit, TWO), value(28, 7, 1));
}

/// Two pieces of one 2 MiB page have the same tables, of two 2 MiB pages four and one more.
#[test]
fn shadow_tables_of_four_indexes() {
    let mut unit = guest_with(4, Choices::default());
    for address in [TWO, at(0, 1, 2), TWO] {
        load(&mut unit, address);
    }
    assert_eq!((held(&unit).len(), unit.book().tables_in_use()), (2, 4));
    // Five tables do not fit four.
    assert!(matches!(load(&mut unit, TWO_READ_ONLY), Answer::Value { exits: 1, .. }));
    assert_eq!(held(&unit), [[0, 0, 2, 1]]);
    assert!(matches!(load(&mut unit, TWO), Answer::Value { exits: 1, .. }));
}

// ---- accessed and dirty bits

/// Bit 5 in the entries that are read, bit 6 where the walk ends, at every depth.
#[test]
fn the_dirty_bit_is_the_large_entrys() {
    for marks in 0..=5 {
        for (address, level) in [(TWO, 2), (ONE, 3)] {
            let mut unit = guest_with(12, BITS);
            if marks > 0 {
                set_mark(&mut unit, address, marks);
            }
            let entries =
                |unit: &Unit| [word(unit, 0, 0), word(unit, 1, 0), word(unit, 1, 1), word(unit, 2, 1)];
            load(&mut unit, address);
            let [one, two] = [ENTRY_OF_ONE, ENTRY_OF_TWO];
            let after_load = if level == 2 {
                [0x1023, 0x2023, one, two | 0x20]
            } else {
                [0x1023, 0x2003, one | 0x20, two]
            };
            assert_eq!(entries(&unit), after_load);
            // At depth 0 the load's path forbids the store, which fills it anew.
            let depth_0 = marks < level;
            let references = load(&mut unit, address).counts().0;
            assert_eq!(store(&mut unit, address, 7), done(references, depth_0 as u64));
            let dirty = if level == 2 { [0, 0, 0, 0x40] } else { [0, 0, 0x40, 0] };
            let after_store: Vec<u64> = after_load.iter().zip(dirty).map(|(word, bit)| word | bit).collect();
            assert_eq!(entries(&unit).to_vec(), after_store);
            assert_eq!(store(&mut unit, address, 8), done(references, 0));
        }
    }
}

/// The pieces of a large page share its entry. A path filled while bit 6 was clear forbids
/// stores though a store to another piece has set the bit.
#[test]
fn another_piece_sets_the_bit() {
    let mut unit = guest_with(12, BITS);
    assert_eq!(load(&mut unit, TWO), value(28, 4, 1));
    assert_eq!(store(&mut unit, at(0, 1, 2), 7), done(4, 1));
    assert_eq!(word(&unit, 2, 1), ENTRY_OF_TWO | 0x60);
    assert_eq!(store(&mut unit, TWO, 7), done(4, 1));
    assert_eq!(store(&mut unit, TWO, 7), done(4, 0));
    // A path filled now allows stores at once.
    assert_eq!(load(&mut unit, at(0, 1, 511)), value(30, 4, 1));
    assert_eq!(store(&mut unit, at(0, 1, 511), 7), done(4, 0));
}

/// A table mapped read-only whose entry lacks a bit: W with the table's frame, after all
/// else. The count is a granted request's, at depth 0 or on a path not held the plain one.
#[test]
fn w_for_a_bit_of_a_large_entry() {
    for (address, level, table, plain) in [(TWO, 2, 2, 19), (ONE, 3, 1, 14)] {
        let mut unit = guest_with(12, BITS);
        map_read_only(&mut unit, table, FIRST + table);
        assert_eq!(load(&mut unit, address), read_only(table, plain, 1));
        // With bit 5 in it a load is granted, and a store still lacks bit 6.
        map(&mut unit, table, FIRST + table);
        load(&mut unit, address);
        map_read_only(&mut unit, table, FIRST + table);
        assert!(matches!(load(&mut unit, address), Answer::Value { references: 4, exits: 1, .. }));
        assert_eq!(store(&mut unit, address, 1), read_only(table, plain, 1));
        // Direct, the path not held, then held by the load: two exits, then one.
        set_mark(&mut unit, address, level);
        assert_eq!(store(&mut unit, address, 1), read_only(table, plain, 2));
        let references = load(&mut unit, address).counts().0;
        assert_eq!(references, if level == 2 { 7 } else { 6 });
        assert_eq!(store(&mut unit, address, 1), read_only(table, references, 1));
    }
}

// ---- the automatic choice

/// A store to the large entry drops paths and is charged to nobody, however often.
#[test]
fn a_store_to_a_large_entry_is_not_charged() {
    let mut unit = guest_with(12, AUTOMATIC);
    for _ in 0..5 {
        assert!(matches!(load(&mut unit, TWO), Answer::Value { exits: 1, .. }));
        assert!(matches!(store(&mut unit, TABLE + 8, ENTRY_OF_TWO), Answer::Done { .. }));
        assert!(!held(&unit).contains(&vec![0, 0, 1, 1]));
    }
    assert!(unit.listed_marks().is_empty());
    assert!(unit.book().window().unwrap().charges().is_empty());
}

/// Frame 2 is a table of level 1 too, by entry 4 of its own. Its entry 1 then ends walks of
/// 2 MiB pages and of small ones: only the small ones are charged, though 0, 0, 1 is lower.
#[test]
fn the_same_word_at_level_1_is_charged() {
    let mut unit = guest_with(12, AUTOMATIC);
    put(&mut unit, 2, 4, 0x2003);
    // Page 1 of 0, 0, 4 is the entry's frame 512, which must be mapped.
    map(&mut unit, 512, 28);
    for charges in 1..=3 {
        assert_eq!(load(&mut unit, TWO).counts().0, 4);
        assert_eq!(load(&mut unit, at(0, 4, 1)), value(28, 4, 1));
        assert!(matches!(store(&mut unit, TABLE + 8, ENTRY_OF_TWO), Answer::Done { .. }));
        assert_eq!(unit.book().charges_to(&[0, 0, 4]), charges);
        assert_eq!(unit.book().charges_to(&[0, 0, 1]), 0);
    }
    let listed = unit.listed_marks();
    assert_eq!((listed.len(), &listed[0].mark.prefix[..]), (1, &[0, 0, 4][..]));
}

// ---- forecasts and quiet stretches

fn figures(references: u64, exits: u64, tables: u64) -> Answer {
    Answer::Figures { references, exits, tables }
}

#[test]
fn forecasts_of_large_pages() {
    // Two 2 MiB pieces share four tables; the 1 GiB piece has two more; then a fault of 19 words.
    let list = [TWO, TWO, at(0, 1, 2), ONE, at(0, 1, 0)];
    let mut unit = guest();
    assert_eq!(forecast(&mut unit, &list), figures(4 * 4 + 19, 4, 6));
    assert!(held(&unit).is_empty());
    list.iter().for_each(|address| {
        load(&mut unit, *address);
    });
    assert_eq!(forecast(&mut unit, &list), figures(4 * 4 + 19, 1, 6));
    // Direct under a mark of level 2: one path for all of the 2 MiB pages, and H costs an exit.
    let mut unit = guest_marked(TWO, 2);
    assert_eq!(forecast(&mut unit, &list), figures(3 * 7 + 4 + 7, 1 + 1 + 1, 4));
}

/// Each piece is a path of its own at depth 0; directly one path serves all.
#[test]
fn quiet_stretches_of_large_pages() {
    let calls = [TWO, at(0, 1, 2), TWO, ONE, at(0, 1, 2)].map(Call::load_word);
    for (marks, paths) in [(0, 3), (1, 3), (2, 2), (3, 1), (4, 1), (5, 0)] {
        let mut unit = guest_marked(TWO, marks);
        let mut stretch = Stretch::start(&unit);
        let mut paid = 0;
        for call in &calls {
            let before = unit.clone();
            let answer = unit.call(call);
            stretch.take(&part(&before, call, &answer).unwrap()).unwrap();
            paid += answer.counts().1;
        }
        assert_eq!((paid, stretch.figure(), stretch.touched.len() as u64), (paths, paths, paths));
        assert!(stretch.held_after().iter().eq(unit.book().held.keys()));
    }
    // A store into the table of the large entry is into a watched frame once a path is held.
    let mut unit = guest();
    let store = Call::store_word(TABLE, 0);
    load(&mut unit, TWO);
    let before = unit.clone();
    let answer = unit.call(&store);
    assert_eq!(part(&before, &store, &answer), Err(End::WatchedFrame));
}

/// With a mark of level 1 over a large page its path still has four indexes. Its fill is the
/// fifth table, which drops the one path that read in the table stored to.
#[test]
fn a_frame_that_is_not_watched_once_the_store_is_translated() {
    let mut unit = guest_with(4, Choices::default());
    set_mark(&mut unit, at(0, 3, 0), 1);
    load(&mut unit, 0);
    let store = Call::store_word(at(0, 3, 3) + 9 * 8, 1);
    let before = unit.clone();
    let answer = unit.call(&store);
    assert_eq!(answer, done(4, 1));
    assert_eq!(held(&unit), [[0, 0, 3, 3]]);
    let part = part(&before, &store, &answer);
    assert_eq!(part, Ok(Part::Request { path: Some(vec![0, 0, 3, 3]) }));
    assert_eq!(Stretch::start(&before).take(&part.unwrap()), Err(End::NoRoom));
}

// ---- jobs and five levels

/// Frame 0 is the root, frame 1 the table of level 3. Its entry 0 is a page of 1 GiB from
/// frame 0 on, so that page 1 is this table. Through it entry 1 is stored, the table 2, whose
/// entries are 2 MiB from frame 0 on, not writable, and one that is not aligned.
#[test]
fn jobs_see_large_pages() {
    let records = [
        (Call::Map { guest: 0, host: 8, writable: true }, "ok"),
        (Call::Map { guest: 1, host: 9, writable: true }, "ok"),
        (Call::Map { guest: 2, host: 10, writable: true }, "ok"),
        (Call::device_store_word(0, 0x1003), "done 4 0"),
        (Call::device_store_word(0x1000, 0x83), "done 4 0"),
        (Call::load_word(0x1000), "value 0000000000000083 4 1"),
        (Call::store_word(0x1008, 0x2003), "done 4 1"),
        (Call::device_store_word(0x2000, 0x81), "done 4 0"),
        (Call::device_store_word(0x2008, 0x1083), "done 4 0"),
        (Call::load_word(at(1, 0, 2)), "value 0000000000000081 4 1"),
        (Call::store_word(at(1, 0, 2), 0), "fault P 2 0 15 1"),
        (Call::load_word(at(1, 1, 0)), "fault M 2 0 15 1"),
        (Call::SetMark { address: 0, level: 5 }, "ok"),
        (Call::load_word(at(0, 0, 2)), "value 0000000000000081 14 0"),
        (Call::load_word(at(1, 0, 2) + 8), "value 0000000000001083 19 0"),
        (Call::load_word(at(0, 1, 3)), "fault H 0 515 13 1"),
    ];
    let mut input = write_record(&Record::Open { h: 4, s: 4 });
    let mut lines = "1 ok\n".to_string();
    for (number, (call, line)) in records.into_iter().enumerate() {
        input.extend(write_record(&Record::Call(call)));
        lines += &format!("{} {line}\n", number + 2);
    }
    assert_eq!(run_job(&input), lines);
}

/// "Large pages stay at levels 2 and 3", "a large page saves N + 1 a level": 5 + 5d, less 6 or 12.
#[test]
fn with_five_levels() {
    for (level, counts) in [(2, [5, 5, 9, 14, 19, 24, 29]), (3, [5, 5, 5, 8, 13, 18, 23])] {
        for (marks, references) in counts.into_iter().enumerate() {
            // A table of each level above, whose entry 0 is the next, then the large entry.
            let mut words = memory(24);
            for table in 0..5 - level {
                words[(16 + table) * 512] = (table as u64 + 1) << 12 | 3;
            }
            words[(16 + 5 - level) * 512] = 0x83;
            words[(16 + 7) * 512] = 77;
            let mut unit = Unit::open(5, words, 8, 8).unwrap();
            (0..8).for_each(|frame| assert_eq!(map(&mut unit, frame, 16 + frame), Answer::Ok));
            if marks > 0 {
                set_mark(&mut unit, 0x7000, marks as u64);
            }
            assert_eq!(load(&mut unit, 0x7000), value(77, references, (marks < 6) as u64));
            assert_eq!(load(&mut unit, 0x7000), value(77, references, 0));
        }
    }
    for (level, references) in [(5, 6), (4, 12)] {
        let mut words = memory(24);
        words[16 * 512] = if level == 5 { 0x83 } else { 0x1003 };
        words[17 * 512] = 0x83;
        let mut unit = Unit::open(5, words, 8, 8).unwrap();
        (0..8).for_each(|frame| assert_eq!(map(&mut unit, frame, 16 + frame), Answer::Ok));
        assert_eq!(load(&mut unit, 0), malformed(level, references));
    }
}
