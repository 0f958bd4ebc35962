//! Document 01's own examples and each refusal, by the numbers printed there, with
//! requests 1 to 5 of document 02.

mod guest;

use guest::*;
use std::collections::BTreeSet;
use walker::answer::{Answer, Call, Choices, Fault};
use walker::book::{Lookup, Mark};
use walker::quiet::{part, End, Stretch};
use walker::Unit;

/// The guest with no choice made.
fn sixteen_frame_guest() -> Unit {
    guest::sixteen_frame_guest(Choices::default())
}

fn clear_mark(unit: &mut Unit, address: u64, level: u64) -> Answer {
    unit.call(&Call::ClearMark { address, level })
}

fn figures(references: u64, exits: u64, tables: u64) -> Answer {
    Answer::Figures { references, exits, tables }
}

// A sixteen-frame guest, line by line.

#[test]
fn load_8_and_again() {
    let mut unit = sixteen_frame_guest();
    assert_eq!(load(&mut unit, 0x8), value(0, 4, 1));
    assert_eq!(load(&mut unit, 0x8), value(0, 4, 0));
    assert_eq!(page(&unit, 0x8), 12);
    // Word 1 of frame 12 is the word loaded.
    assert_eq!(unit.call(&Call::device_store_word(0x4008, 0x77)), done(4, 0));
    assert_eq!(unit.guest_words()[(12 - 8) * 512 + 1], 0x77);
    assert_eq!(load(&mut unit, 0x8), value(0x77, 4, 0));
}

#[test]
fn store_1000_load_2000_load_3000() {
    let mut unit = sixteen_frame_guest();
    assert_eq!(store(&mut unit, 0x1000, 1), fault(Fault::Protected { level: 1 }, 20, 1));
    let mut unit = sixteen_frame_guest();
    assert_eq!(load(&mut unit, 0x2000), fault(Fault::HostAbsent { frame: 8 }, 24, 1));
    let mut unit = sixteen_frame_guest();
    assert_eq!(load(&mut unit, 0x3000), fault(Fault::Absent { level: 1 }, 20, 1));
}

#[test]
fn store_into_a_watched_table() {
    let mut unit = sixteen_frame_guest();
    load(&mut unit, 0);
    assert_eq!(store(&mut unit, 0x4000, 0x7003), done(4, 2));
    assert_eq!(load(&mut unit, 0), value(0, 4, 1));
    assert_eq!(page(&unit, 0), 15);
}

#[test]
fn mark_1() {
    let mut unit = sixteen_frame_guest();
    assert_eq!(set_mark(&mut unit, 0, 1), Answer::Ok);
    assert_eq!(load(&mut unit, 0), value(0, 8, 1));
    assert_eq!(store(&mut unit, 0x4000, 0x7003), done(8, 0));
    assert_eq!(load(&mut unit, 0x2000), fault(Fault::HostAbsent { frame: 8 }, 8, 1));
}

#[test]
fn marks_4_and_5() {
    let mut unit = sixteen_frame_guest();
    set_mark(&mut unit, 0, 4);
    assert_eq!(load(&mut unit, 0), value(0, 20, 1));
    let mut unit = sixteen_frame_guest();
    set_mark(&mut unit, 0, 5);
    assert_eq!(load(&mut unit, 0), value(0, 24, 0));
}

#[test]
fn map_4_to_13() {
    let mut unit = sixteen_frame_guest();
    load(&mut unit, 0);
    assert_eq!(map(&mut unit, 4, 13), Answer::Ok);
    assert_eq!(load(&mut unit, 0), value(0, 4, 1));
    assert_eq!(page(&unit, 0), 13);
    let mut unit = sixteen_frame_guest();
    set_mark(&mut unit, 0, 1);
    load(&mut unit, 0);
    assert_eq!(map(&mut unit, 4, 13), Answer::Ok);
    assert_eq!(load(&mut unit, 0), value(0, 8, 0));
    assert_eq!(page(&unit, 0), 13);
}

#[test]
fn five_tables_do_not_fit_four() {
    let mut unit = sixteen_frame_guest();
    assert_eq!(load(&mut unit, 0), value(0, 4, 1));
    assert_eq!(load(&mut unit, 0x200000), value(0, 4, 1));
    assert_eq!(load(&mut unit, 0), value(0, 4, 1));
}

// Request 1: "2^48 is still refused, 0xFFFF800000000000 is now walked, and document
// 01's case 0xFFFFFFFFFFF8 is now refused. Device addresses keep the old limit."

/// The first address of the upper half: its indexes are 256, 0, 0, 0.
const UPPER: u64 = 0xFFFF_8000_0000_0000;

#[test]
fn the_ends_of_the_halves() {
    // Top indexes 255, 256 and 511, whose entries are 0: the root's host walk reads
    // four words, and the entry is the fifth.
    for address in [0x7FFF_FFFF_FFF8, UPPER, 0xFFFF_FFFF_FFFF_FFF8] {
        let mut unit = sixteen_frame_guest();
        assert_eq!(load(&mut unit, address), fault(Fault::Absent { level: 4 }, 5, 1));
    }
    let mut unit = sixteen_frame_guest();
    for address in [0xFFFF_FFFF_FFF8, 1 << 47, 1 << 48, UPPER - 8] {
        assert_eq!(load(&mut unit, address), Answer::No(4));
    }
}

/// The guest with entry 256 of frame 0 as its entry 0: each page of the upper half
/// that differs in the top index alone is the lower one's.
fn guest_with_an_upper_half() -> Unit {
    let mut unit = sixteen_frame_guest();
    assert_eq!(unit.call(&Call::device_store_word(256 * 8, 0x1003)), done(4, 0));
    unit
}

#[test]
fn a_mark_of_the_upper_half_holds_there_alone() {
    let mut unit = guest_with_an_upper_half();
    // The mark keeps index 256. Depth 3 is 1 + 15 words, depth 0 is 4. The paths
    // 256 and 0, 0, 0, 0 have four proper prefixes together, which fit S.
    assert_eq!(set_mark(&mut unit, UPPER + 0x1003, 3), Answer::Ok);
    assert_eq!(load(&mut unit, UPPER), value(0, 16, 1));
    assert_eq!(load(&mut unit, 0), value(0, 4, 1));
    assert_eq!(load(&mut unit, UPPER), value(0, 16, 0));
    assert_eq!(load(&mut unit, 0), value(0, 4, 0));
    // The mark at index 0 is another one; any address of index 256 clears this one,
    // and drops the path 256 alone.
    assert_eq!(clear_mark(&mut unit, 0x1003, 3), Answer::No(6));
    assert_eq!(clear_mark(&mut unit, UPPER + 0x7F_FFFF_FFFF, 3), Answer::Ok);
    assert_eq!(clear_mark(&mut unit, UPPER, 3), Answer::No(6));
    assert_eq!(load(&mut unit, 0), value(0, 4, 0));
    // Now 256, 0, 0, 0: with 0, 0, 0, 0 seven tables, so that each load drops the other.
    assert_eq!(load(&mut unit, UPPER), value(0, 4, 1));
    assert_eq!(load(&mut unit, 0), value(0, 4, 1));
}

#[test]
fn marks_4_and_5_are_of_both_halves() {
    for (level, references, exits) in [(4, 20, 1), (5, 24, 0)] {
        let mut unit = guest_with_an_upper_half();
        assert_eq!(set_mark(&mut unit, UPPER, level), Answer::Ok);
        assert_eq!(set_mark(&mut unit, 0, level), Answer::No(6));
        // At depth 4 the path of every address is the empty one, filled by the first load.
        assert_eq!(load(&mut unit, 0), value(0, references, exits));
        assert_eq!(load(&mut unit, UPPER), value(0, references, 0));
        assert_eq!(clear_mark(&mut unit, 0x7FFF_FFFF_FFFF, level), Answer::Ok);
        assert_eq!(clear_mark(&mut unit, UPPER, level), Answer::No(6));
    }
}

#[test]
fn a_store_in_the_upper_half_drops_in_the_lower() {
    let mut unit = guest_with_an_upper_half();
    set_mark(&mut unit, UPPER, 3);
    assert_eq!(load(&mut unit, 0), value(0, 4, 1));
    // Page 4 is the table of level 1. Its path is not held, and the path of 0 watches it.
    assert_eq!(store(&mut unit, UPPER + 0x4000, 0x7003), done(16, 2));
    assert_eq!(load(&mut unit, 0), value(0, 4, 1));
    assert_eq!(page(&unit, 0), 15);
    assert_eq!(load(&mut unit, UPPER + 0x4000), value(0x7003, 16, 0));
}

#[test]
fn device_addresses_keep_the_old_limit() {
    let mut unit = sixteen_frame_guest();
    let device = |unit: &mut Unit, address| unit.call(&Call::device_store_word(address, 1));
    // Top indexes 511 and 256, which no mapped frame has: H at the first word.
    let absent = |frame| fault(Fault::HostAbsent { frame }, 1, 1);
    assert_eq!(device(&mut unit, 0xFFFF_FFFF_FFF8), absent(0xF_FFFF_FFFF));
    assert_eq!(device(&mut unit, 1 << 47), absent(1 << 35));
    for address in [1 << 48, UPPER, 0xFFFF_FFFF_FFFF_FFF8] {
        assert_eq!(device(&mut unit, address), Answer::No(4));
    }
}

// Request 2: "how many references and exits serving them in order would cost, and
// the greatest number of shadow tables in use from the start on". A page at depth 0
// is four references through four tables.

#[test]
fn a_forecast_of_nothing_has_the_tables_in_use() {
    let mut unit = sixteen_frame_guest();
    assert_eq!(forecast(&mut unit, &[]), figures(0, 0, 0));
    load(&mut unit, 0);
    assert_eq!(forecast(&mut unit, &[]), figures(0, 0, 4));
    // A mark of level 3 leaves one table above the path 256.
    let mut unit = guest_with_an_upper_half();
    set_mark(&mut unit, UPPER, 3);
    load(&mut unit, UPPER);
    assert_eq!(forecast(&mut unit, &[]), figures(0, 0, 1));
}

#[test]
fn the_first_of_a_path_costs_its_exit() {
    let mut unit = sixteen_frame_guest();
    assert_eq!(forecast(&mut unit, &[8]), figures(4, 1, 4));
    assert_eq!(forecast(&mut unit, &[8, 0xff8]), figures(8, 1, 4));
    // Another page of the same tables is another path.
    assert_eq!(forecast(&mut unit, &[0, 0x1000, 8, 0x1008]), figures(16, 2, 4));
    load(&mut unit, 0);
    assert_eq!(forecast(&mut unit, &[0, 0x1000, 8, 0x1008]), figures(16, 1, 4));
    load(&mut unit, 0x1000);
    assert_eq!(forecast(&mut unit, &[0, 0x1000, 8, 0x1008]), figures(16, 0, 4));
}

#[test]
fn a_forecast_overflows_as_its_loads_would() {
    // "each 4, 1, since five tables do not fit four", and five are never in use.
    let mut unit = sixteen_frame_guest();
    assert_eq!(forecast(&mut unit, &[0, 0x200000, 0]), figures(12, 3, 4));
    assert_eq!(forecast(&mut unit, &[0, 0, 0x200000, 0x200008, 0, 8]), figures(24, 3, 4));
    // The overflow drops what was held before, too.
    load(&mut unit, 0);
    load(&mut unit, 0x1000);
    assert_eq!(forecast(&mut unit, &[0, 0x1000, 0x200000]), figures(12, 1, 4));
    assert_eq!(forecast(&mut unit, &[0x200000, 0, 0x1000, 0]), figures(16, 3, 4));
    // All that is for the list alone.
    assert_eq!(load(&mut unit, 0x1000), value(0, 4, 0));
}

#[test]
fn the_greatest_number_of_tables_stands_anywhere() {
    // At the mark the path is 256, 0: below the empty prefix, which 0 has too, it has
    // the table 256. So 0 and it are five tables, and after it alone two stand.
    let mut unit = guest_with_an_upper_half();
    set_mark(&mut unit, UPPER, 2);
    // The end, then in between.
    assert_eq!(forecast(&mut unit, &[UPPER]), figures(12, 1, 2));
    assert_eq!(forecast(&mut unit, &[UPPER, 0]), figures(16, 2, 4));
    assert_eq!(forecast(&mut unit, &[UPPER, 0, UPPER]), figures(28, 3, 4));
    // The start.
    assert_eq!(load(&mut unit, 0), value(0, 4, 1));
    assert_eq!(forecast(&mut unit, &[UPPER]), figures(12, 1, 4));
    assert_eq!(forecast(&mut unit, &[UPPER, UPPER + 0x1000]), figures(24, 1, 4));
    assert_eq!(load(&mut unit, UPPER), value(0, 12, 1));
    assert_eq!(forecast(&mut unit, &[UPPER]), figures(12, 0, 2));
}

#[test]
fn an_address_that_would_meet_4_counts_zero_and_the_list_goes_on() {
    let mut unit = sixteen_frame_guest();
    let refused = [1 << 48, 4, 0xFFFF_FFFF_FFF8, UPPER - 8, 1 << 47, u64::MAX];
    for address in refused {
        assert_eq!(load(&mut unit, address), Answer::No(4));
        assert_eq!(forecast(&mut unit, &[address]), figures(0, 0, 0));
        assert_eq!(forecast(&mut unit, &[address, 0, address, 8]), figures(8, 1, 4));
    }
    load(&mut unit, 0);
    assert_eq!(forecast(&mut unit, &refused), figures(0, 0, 4));
}

#[test]
fn a_fault_costs_what_it_costs_and_the_list_goes_on() {
    let mut unit = sixteen_frame_guest();
    // H: 24, 1. A of level 1: 20, 1. A of level 4: 5, 1. None fills.
    let faults = [0x2000, 0x3000, 0xFFFF_FFFF_FFFF_FFF8];
    assert_eq!(forecast(&mut unit, &faults), figures(49, 3, 0));
    assert_eq!(forecast(&mut unit, &[0x2000, 0x3000, 0, 0x3000, 8]), figures(24 + 20 + 4 + 20 + 4, 4, 4));
    // M of level 1, in an entry that a device stores.
    unit.call(&Call::device_store_word(0x3028, 1 << 48 | 3));
    assert_eq!(forecast(&mut unit, &[0x5000, 0x5000]), figures(40, 2, 0));
    // Page 1 may not be stored to, but loads are granted.
    assert_eq!(forecast(&mut unit, &[0x1000, 0x1000]), figures(8, 1, 4));
    // In the direct part the path is filled; H costs its exit each time, A none. Three
    // entries, then the entry of level 1, and for H the four of a host walk.
    set_mark(&mut unit, 0, 1);
    assert_eq!(forecast(&mut unit, &[0x2000, 0x2000]), figures(8 + 8, 2 + 1, 3));
    assert_eq!(forecast(&mut unit, &[0x3000, 0x3000, 0x2000]), figures(4 + 4 + 8, 1 + 1, 3));
    // The root is not mapped: four words each.
    unit.call(&Call::Root { frame: 9 });
    assert_eq!(forecast(&mut unit, &[0, UPPER]), figures(8, 2, 0));
    // Nothing is: one word each.
    let mut unit = Unit::open(LEVELS, memory(16), 4, 4).unwrap();
    assert_eq!(forecast(&mut unit, &[0, 0]), figures(2, 2, 0));
}

#[test]
fn a_forecast_goes_by_the_marks() {
    // A path of 4 - d indexes has as many tables; at depth 5 there is none.
    for depth in 1..=5 {
        let mut unit = sixteen_frame_guest();
        set_mark(&mut unit, 0, depth);
        let (references, exits, tables) = (4 + 4 * depth, (depth < 5) as u64, 4u64.saturating_sub(depth));
        assert_eq!(forecast(&mut unit, &[0]), figures(references, exits, tables));
        // The pages of one table of level 1 have one path.
        assert_eq!(forecast(&mut unit, &[0, 0x1000, 8]), figures(3 * references, exits, tables));
        load(&mut unit, 0);
        assert_eq!(forecast(&mut unit, &[0, 0x1000, 8]), figures(3 * references, 0, tables));
    }
    // Two depths in one list: 1 + 15 words at the mark, and four tables in all.
    let mut unit = guest_with_an_upper_half();
    set_mark(&mut unit, UPPER, 3);
    assert_eq!(forecast(&mut unit, &[UPPER, 0, UPPER, 0]), figures(40, 2, 4));
}

#[test]
fn refusal_14_looks_at_the_length_alone() {
    let mut unit = sixteen_frame_guest();
    assert_eq!(forecast(&mut unit, &[0; 256]), figures(4 * 256, 1, 4));
    assert_eq!(forecast(&mut unit, &[4; 256]), figures(0, 0, 0));
    for address in [0, 4, 1 << 48, 0x3000] {
        for length in [257, 258, 1000] {
            assert_eq!(forecast(&mut unit, &vec![address; length]), Answer::No(14));
        }
    }
    assert!(unit.book().held.is_empty());
    // 256 different paths of one table of level 1: its entries name one page.
    for entry in 0..256 {
        unit.call(&Call::device_store_word(0x3000 + 8 * entry, 0x4003));
    }
    let pages: Vec<u64> = (0..256).map(|page| page << 12).collect();
    assert_eq!(forecast(&mut unit, &pages), figures(4 * 256, 256, 4));
}

#[test]
fn a_forecast_changes_nothing() {
    let mut unit = sixteen_frame_guest();
    let unchanged = |unit: &mut Unit, addresses: &[u64]| {
        let (book, machine) = (unit.book().clone(), unit.machine().clone());
        let said = forecast(unit, addresses);
        assert!(*unit.book() == book && *unit.machine() == machine);
        assert_eq!(forecast(unit, addresses), said);
    };
    let list = [0, 4, 0x200000, 0x2000, 0x1000, 0];
    unchanged(&mut unit, &list);
    // The load after it costs as if it had not been.
    assert_eq!(load(&mut unit, 0), value(0, 4, 1));
    unchanged(&mut unit, &list);
    unchanged(&mut unit, &[0; 257]);
    assert_eq!(load(&mut unit, 0), value(0, 4, 0));
    assert_eq!(load(&mut unit, 0x200000), value(0, 4, 1));
    set_mark(&mut unit, 0, 1);
    unchanged(&mut unit, &list);
    assert_eq!(load(&mut unit, 0x1000), value(0, 8, 1));
    unchanged(&mut unit, &list);
    assert_eq!(load(&mut unit, 0), value(0, 8, 0));
}

// Request 3: "it also yields how many marks it read: in the order of their places,
// those up to and with that one, or else all that are set." Each line says the places.

/// A place at which a mark is set.
fn at(level: u32, prefix: &[u64]) -> Option<Mark> {
    Some(Mark { level, prefix: prefix.to_vec() })
}

fn lookup(unit: &Unit, places: &[Option<Mark>], address: u64) -> Option<Lookup> {
    unit.book().lookup(places, address)
}

fn found(depth: u32, read: usize) -> Option<Lookup> {
    Some(Lookup { depth, read })
}

#[test]
fn a_lookup_with_no_mark_reads_none() {
    let unit = sixteen_frame_guest();
    for address in [0, 4, UPPER, u64::MAX] {
        assert_eq!(lookup(&unit, &[], address), found(0, 0));
        assert_eq!(lookup(&unit, &vec![None; 64], address), found(0, 0));
    }
}

#[test]
fn a_lookup_without_level_5_reads_all_that_are_set() {
    let mut unit = sixteen_frame_guest();
    set_mark(&mut unit, 0x200000, 1);
    set_mark(&mut unit, 0x40000000, 2);
    set_mark(&mut unit, UPPER, 3);
    let (one, two, three) = (at(1, &[0, 0, 1]), at(2, &[0, 1]), at(3, &[256]));
    // Those that do not hold for the address are read too, and no place that is not set.
    let places = [None, three.clone(), None, None, one.clone(), two.clone(), None];
    let depths = [
        (0, 0),
        (0x1FFFFF, 0),
        (0x200000, 1),
        (0x3FFFFF, 1),
        (0x400000, 0),
        (0x40000000, 2),
        (0x7FFFFFFF, 2),
        (0x80000000, 0),
        (UPPER, 3),
        (UPPER + 0x7F_FFFF_FFFF, 3),
        (UPPER + 0x80_0000_0000, 0),
    ];
    for (address, depth) in depths {
        assert_eq!(lookup(&unit, &places, address), found(depth, 3), "{address:#x}");
    }
    // The first page of 0x200000 now has marks of levels 1 and 3, whichever is read first.
    set_mark(&mut unit, 0, 3);
    let low = at(3, &[0]);
    for places in [[&low, &one, &two, &three], [&one, &two, &three, &low], [&two, &one, &low, &three]] {
        let places = places.map(|place| place.clone());
        assert_eq!(lookup(&unit, &places, 0x200000), found(3, 4));
        assert_eq!(lookup(&unit, &places, 0x80_0000_0000), found(0, 4));
    }
    // One of level 4 holds for all addresses too, but ends nothing.
    set_mark(&mut unit, 0, 4);
    for address in [0, 0x200000, UPPER, u64::MAX] {
        let first = [at(4, &[]), low.clone(), one.clone(), two.clone(), three.clone()];
        assert_eq!(lookup(&unit, &first, address), found(4, 5));
        let last = [low.clone(), one.clone(), two.clone(), three.clone(), None, at(4, &[])];
        assert_eq!(lookup(&unit, &last, address), found(4, 5));
    }
}

#[test]
fn a_lookup_ends_at_the_mark_of_level_5() {
    let mut unit = sixteen_frame_guest();
    for level in [1, 3, 4, 5] {
        set_mark(&mut unit, 0, level);
    }
    let (one, three, four, five) = (at(1, &[0, 0, 0]), at(3, &[0]), at(4, &[]), at(5, &[]));
    let orders = [
        (vec![&five, &one, &three, &four], 1),
        (vec![&None, &None, &five, &None, &one, &three, &four], 1),
        (vec![&one, &five, &three, &four], 2),
        (vec![&four, &five, &one, &three], 2),
        (vec![&None, &one, &None, &None, &five, &three, &four], 2),
        (vec![&four, &three, &None, &five, &one], 3),
        (vec![&one, &three, &four, &five, &None], 4),
    ];
    for (places, read) in orders {
        let places: Vec<Option<Mark>> = places.into_iter().cloned().collect();
        // For some of these only levels 4 and 5 hold. Address 3 is within a word.
        for address in [0, 3, 8, 0x200000, 1 << 40, UPPER, u64::MAX] {
            assert_eq!(lookup(&unit, &places, address), found(5, read), "{address:#x}");
        }
    }
    // Once it is cleared the others are all read, those behind its place too.
    clear_mark(&mut unit, UPPER, 5);
    let places = [one.clone(), None, four, three.clone()];
    assert_eq!(lookup(&unit, &places, 0), found(4, 3));
    assert_eq!(lookup(&unit, &places, UPPER), found(4, 3));
    clear_mark(&mut unit, 0, 4);
    let places = [one, None, None, three];
    assert_eq!(lookup(&unit, &places, 0), found(3, 2));
    assert_eq!(lookup(&unit, &places, 1 << 40), found(0, 2));
    assert_eq!(lookup(&unit, &places, UPPER), found(0, 2));
}

#[test]
fn a_lookup_among_64_marks() {
    let mut unit = sixteen_frame_guest();
    for number in 0..64 {
        set_mark(&mut unit, number << 21, 1);
    }
    let mut places: Vec<Option<Mark>> = (0..64).map(|number| at(1, &[0, 0, number])).collect();
    for (address, depth) in [(0, 1), (63 << 21, 1), (64 << 21, 0), (UPPER, 0)] {
        assert_eq!(lookup(&unit, &places, address), found(depth, 64));
    }
    // The mark of level 5 in each place, in turn.
    for place in 0..64 {
        let before = unit.clone();
        clear_mark(&mut unit, (place as u64) << 21, 1);
        set_mark(&mut unit, 0, 5);
        let one = std::mem::replace(&mut places[place], at(5, &[]));
        assert_eq!(lookup(&unit, &places, 0), found(5, place + 1));
        assert_eq!(lookup(&unit, &places, UPPER), found(5, place + 1));
        (unit, places[place]) = (before, one);
    }
}

#[test]
fn the_places_must_hold_the_books_marks() {
    let mut unit = sixteen_frame_guest();
    set_mark(&mut unit, 0x200000, 1);
    set_mark(&mut unit, 0, 5);
    let (one, five) = (at(1, &[0, 0, 1]), at(5, &[]));
    assert_eq!(lookup(&unit, &[one.clone(), five.clone()], 0), found(5, 2));
    let others = [
        vec![],
        vec![five.clone()],
        vec![five.clone(), five.clone()],
        vec![one.clone(), five.clone(), five.clone()],
        vec![one.clone(), five.clone(), at(4, &[])],
        vec![at(1, &[0, 0, 0]), five.clone()],
        vec![at(2, &[0, 0]), five],
        vec![one, at(4, &[])],
    ];
    for places in others {
        assert_eq!(lookup(&unit, &places, 0), None);
    }
}

// Request 4: loads and stores of some bytes of a word. Address 0 is frame 4's first
// byte, in host frame 12; page 0x4000 is frame 3, the table of level 1.

const WIDTHS: [u64; 4] = [1, 2, 4, 8];

/// Loads, stores and stores by a device at the same place of frame 4.
fn all_three(unit: &mut Unit, address: u64, width: u64) -> [Answer; 3] {
    [
        load_bytes(unit, address, width),
        store_bytes(unit, address, width, 1),
        device_store_bytes(unit, 0x4000 + address, width, 1),
    ]
}

/// The guest with three words of data at address 0, and their path held.
fn guest_with_bytes() -> Unit {
    let mut unit = sixteen_frame_guest();
    for (address, data) in [(0x4000, u64::MAX), (0x4008, 0x8877_6655_4433_2211), (0x4010, u64::MAX)] {
        assert_eq!(unit.call(&Call::device_store_word(address, data)), done(4, 0));
    }
    assert_eq!(load(&mut unit, 0), value(u64::MAX, 4, 1));
    unit
}

#[test]
fn loads_take_the_lowest_byte_first_and_have_zeros_above() {
    let mut unit = guest_with_bytes();
    let loads = [
        (8, 1, 0x11),
        (9, 1, 0x22),
        (10, 1, 0x33),
        (11, 1, 0x44),
        (12, 1, 0x55),
        (13, 1, 0x66),
        (14, 1, 0x77),
        (15, 1, 0x88),
        (8, 2, 0x2211),
        (10, 2, 0x4433),
        (12, 2, 0x6655),
        (14, 2, 0x8877),
        (8, 4, 0x4433_2211),
        (12, 4, 0x8877_6655),
        (8, 8, 0x8877_6655_4433_2211),
    ];
    for (address, width, found) in loads {
        assert_eq!(load_bytes(&mut unit, address, width), value(found, 4, 0), "{width} bytes at {address}");
    }
}

#[test]
fn stores_take_the_low_bytes_and_alter_no_others() {
    // In each value but the last, bits above the width are set, and no byte takes them.
    let stores = [
        (8, 1, 0x8877_6655_4433_2287),
        (9, 1, 0x8877_6655_4433_8711),
        (10, 1, 0x8877_6655_4487_2211),
        (11, 1, 0x8877_6655_8733_2211),
        (12, 1, 0x8877_6687_4433_2211),
        (13, 1, 0x8877_8755_4433_2211),
        (14, 1, 0x8887_6655_4433_2211),
        (15, 1, 0x8777_6655_4433_2211),
        (8, 2, 0x8877_6655_4433_9687),
        (10, 2, 0x8877_6655_9687_2211),
        (12, 2, 0x8877_9687_4433_2211),
        (14, 2, 0x9687_6655_4433_2211),
        (8, 4, 0x8877_6655_B4A5_9687),
        (12, 4, 0xB4A5_9687_4433_2211),
        (8, 8, 0xF0E1_D2C3_B4A5_9687),
    ];
    for (address, width, after) in stores {
        let mut by_guest = guest_with_bytes();
        assert_eq!(store_bytes(&mut by_guest, address, width, 0xF0E1_D2C3_B4A5_9687), done(4, 0));
        let mut by_device = guest_with_bytes();
        let said = device_store_bytes(&mut by_device, 0x4000 + address, width, 0xF0E1_D2C3_B4A5_9687);
        assert_eq!(said, done(4, 0));
        let words = |unit: &Unit| [0, 1, 2].map(|index| word(unit, 4, index));
        assert_eq!(words(&by_guest), [u64::MAX, after, u64::MAX], "{width} bytes at {address}");
        assert_eq!(words(&by_device), [u64::MAX, after, u64::MAX], "{width} bytes at {address}");
        assert_eq!(load(&mut by_guest, 8), value(after, 4, 0));
    }
}

#[test]
fn every_byte_of_an_entry_drops_the_paths_that_read_it() {
    for frame in 0..4 {
        // The entry on the walk of address 0 names the next frame: 0x1003 and so on.
        for (byte, stands) in [3, 0x10 * (frame + 1), 0, 0, 0, 0, 0, 0].into_iter().enumerate() {
            let mut unit = sixteen_frame_guest();
            load(&mut unit, 0);
            let said = device_store_bytes(&mut unit, (frame << 12) + byte as u64, 1, stands);
            assert_eq!(said, done(4, 1));
            assert_eq!(word(&unit, frame as usize, 0), (frame + 1) << 12 | 3);
            assert_eq!(load(&mut unit, 0), value(0, 4, 1), "byte {byte} of frame {frame}");
        }
    }
    // Of entry 1 of frame 3, and of what stands beside it.
    for width in [1, 2, 4] {
        for address in (0x3000..0x3018).step_by(width as usize) {
            let mut unit = sixteen_frame_guest();
            load(&mut unit, 0x1000);
            let bytes = load_bytes(&mut unit, 0x1000 + address, width);
            let Answer::Value { value: stands, .. } = bytes else { panic!("{bytes:?}") };
            assert_eq!(device_store_bytes(&mut unit, address, width, stands), done(4, 1));
            let exits = (0x3008..0x3010).contains(&address) as u64;
            assert_eq!(load(&mut unit, 0x1000), value(0, 4, exits), "{width} bytes at {address:#x}");
        }
    }
}

#[test]
fn byte_7_alone_drops_and_means_nothing_in_an_entry() {
    // Bits 56 to 63 of the entry of level 1. The store's own path is not held, and the
    // table is watched.
    let mut unit = sixteen_frame_guest();
    load(&mut unit, 0);
    assert_eq!(store_bytes(&mut unit, 0x4007, 1, 0), done(4, 2));
    assert_eq!(load(&mut unit, 0), value(0, 4, 1));
    assert_eq!(store_bytes(&mut unit, 0x4007, 1, 0xFF), done(4, 1));
    assert_eq!(word(&unit, 3, 0), 0xFF00_0000_0000_4003);
    assert_eq!(load(&mut unit, 0), value(0, 4, 1));
    assert_eq!(page(&unit, 0), 12);
    // The store's path reads entry 4, which those stores leave.
    assert_eq!(load(&mut unit, 0x4000), value(0xFF00_0000_0000_4003, 4, 0));
    // Entry 4 names its own table: a store to it drops its own path.
    assert_eq!(store_bytes(&mut unit, 0x4027, 1, 0), done(4, 1));
    assert_eq!(load(&mut unit, 0x4000), value(0xFF00_0000_0000_4003, 4, 1));
    assert_eq!(load(&mut unit, 0), value(0, 4, 0));
}

#[test]
fn an_entry_changed_byte_by_byte() {
    let mut unit = sixteen_frame_guest();
    load(&mut unit, 0);
    // 0x4003 becomes 0x7003: "load 0: frame 15".
    assert_eq!(store_bytes(&mut unit, 0x4001, 1, 0x70), done(4, 2));
    assert_eq!(load(&mut unit, 0), value(0, 4, 1));
    assert_eq!(page(&unit, 0), 15);
    // 0x7001: not writable.
    assert_eq!(store_bytes(&mut unit, 0x4000, 1, 1), done(4, 1));
    assert_eq!(store_bytes(&mut unit, 0, 1, 1), fault(Fault::Protected { level: 1 }, 20, 1));
    assert_eq!(load(&mut unit, 0), value(0, 4, 1));
    // Bit 48 is in byte 6.
    assert_eq!(store_bytes(&mut unit, 0x4006, 2, 1), done(4, 1));
    assert_eq!(load(&mut unit, 0), fault(Fault::Malformed { level: 1 }, 20, 1));
    assert_eq!(store_bytes(&mut unit, 0x4004, 4, 0), done(4, 1));
    assert_eq!(load(&mut unit, 0), value(0, 4, 1));
    // Not present, with the rest of the entry as it was.
    assert_eq!(device_store_bytes(&mut unit, 0x3000, 1, 0), done(4, 1));
    assert_eq!(load(&mut unit, 0), fault(Fault::Absent { level: 1 }, 20, 1));
    assert_eq!(word(&unit, 3, 0), 0x7000);
    // Guest frame 9 is a second name of the table.
    map(&mut unit, 9, 11);
    assert_eq!(device_store_bytes(&mut unit, 0x9000, 1, 3), done(4, 1));
    assert_eq!(load(&mut unit, 0), value(0, 4, 1));
    assert_eq!(device_store_bytes(&mut unit, 0x9005, 1, 0), done(4, 1));
    assert_eq!(load(&mut unit, 0), value(0, 4, 1));
}

#[test]
fn a_width_changes_no_count() {
    for depth in 0..=5 {
        for width in WIDTHS {
            let mut unit = sixteen_frame_guest();
            if depth > 0 {
                set_mark(&mut unit, 0, depth);
            }
            let references = 4 + 4 * depth;
            assert_eq!(load_bytes(&mut unit, 8, width), value(0, references, (depth < 5) as u64));
            assert_eq!(load_bytes(&mut unit, 16 - width, width), value(0, references, 0));
            assert_eq!(store_bytes(&mut unit, 16 - width, width, 0x77), done(references, 0));
            assert_eq!(load_bytes(&mut unit, 16 - width, width), value(0x77, references, 0));
        }
    }
}

#[test]
fn a_narrow_request_meets_the_faults_of_its_page() {
    for width in WIDTHS {
        let mut unit = sixteen_frame_guest();
        let words = unit.guest_words().to_vec();
        let last = 0x1000 - width;
        let host_absent = fault(Fault::HostAbsent { frame: 8 }, 24, 1);
        assert_eq!(
            store_bytes(&mut unit, 0x1000 + last, width, 1),
            fault(Fault::Protected { level: 1 }, 20, 1)
        );
        assert_eq!(load_bytes(&mut unit, 0x2000 + last, width), host_absent);
        assert_eq!(load_bytes(&mut unit, 0x3000 + last, width), fault(Fault::Absent { level: 1 }, 20, 1));
        unit.call(&Call::Map { guest: 4, host: 12, writable: false });
        let read_only = |references| fault(Fault::HostReadOnly { frame: 4 }, references, 1);
        assert_eq!(store_bytes(&mut unit, last, width, 1), read_only(24));
        assert_eq!(device_store_bytes(&mut unit, 0x4000 + last, width, 1), read_only(4));
        assert_eq!(
            device_store_bytes(&mut unit, 0x8000, width, 1),
            fault(Fault::HostAbsent { frame: 8 }, 4, 1)
        );
        assert!(unit.book().held.is_empty());
        assert_eq!(unit.guest_words(), words);
    }
}

#[test]
fn refusal_15_looks_at_the_width_alone() {
    let mut unit = guest_with_bytes();
    let (book, machine) = (unit.book().clone(), unit.machine().clone());
    // Small ones, and ones whose low bits are a right width.
    let large = [255, 256, 257, 0x1_0002, 1 << 32, (1 << 32) + 4, 1 << 63, (1 << 63) + 8, u64::MAX - 7];
    let widths = (0..100).filter(|width| !WIDTHS.contains(width)).chain(large).chain([u64::MAX]);
    for width in widths {
        for address in [0, 8, 1, 4, 0x1007, 0x2000, 0x3000, 1 << 47, 1 << 48, UPPER - 8, UPPER, u64::MAX] {
            assert_eq!(load_bytes(&mut unit, address, width), Answer::No(15), "{width} at {address:#x}");
            assert_eq!(store_bytes(&mut unit, address, width, 1), Answer::No(15), "{width} at {address:#x}");
            let said = device_store_bytes(&mut unit, address, width, 1);
            assert_eq!(said, Answer::No(15), "{width} at {address:#x}");
        }
    }
    assert!(*unit.book() == book && *unit.machine() == machine);
}

#[test]
fn refusal_4_by_multiples_of_the_width() {
    let granted: [(u64, &[u64]); 4] =
        [(1, &[0, 1, 2, 3, 4, 5, 6, 7]), (2, &[0, 2, 4, 6]), (4, &[0, 4]), (8, &[0])];
    for (width, bytes) in granted {
        for byte in 0..8 {
            let mut unit = guest_with_bytes();
            let said = all_three(&mut unit, 8 + byte, width);
            if bytes.contains(&byte) {
                assert!(matches!(said[0], Answer::Value { .. }), "{width} bytes at {byte}");
                assert_eq!(said[1..], [done(4, 0), done(4, 0)], "{width} bytes at {byte}");
            } else {
                assert_eq!(said, [Answer::No(4); 3], "{width} bytes at {byte}");
                assert_eq!(word(&unit, 4, 1), 0x8877_6655_4433_2211);
            }
        }
    }
}

#[test]
fn the_ends_of_the_halves_by_bytes() {
    let mut unit = sixteen_frame_guest();
    let absent = fault(Fault::Absent { level: 4 }, 5, 1);
    for width in WIDTHS {
        // The last of a half, and the first of the next or of what is between the two.
        for address in [(1 << 47) - width, UPPER, u64::MAX - width + 1] {
            assert_eq!(load_bytes(&mut unit, address, width), absent, "{width} at {address:#x}");
            assert_eq!(store_bytes(&mut unit, address, width, 1), absent, "{width} at {address:#x}");
        }
        for address in [1 << 47, 1 << 48, UPPER - width] {
            assert_eq!(load_bytes(&mut unit, address, width), Answer::No(4), "{width} at {address:#x}");
            assert_eq!(store_bytes(&mut unit, address, width, 1), Answer::No(4), "{width} at {address:#x}");
        }
        let host_absent = fault(Fault::HostAbsent { frame: 0xF_FFFF_FFFF }, 1, 1);
        assert_eq!(device_store_bytes(&mut unit, (1 << 48) - width, width, 1), host_absent);
        for address in [1 << 48, UPPER, u64::MAX - width + 1] {
            assert_eq!(device_store_bytes(&mut unit, address, width, 1), Answer::No(4));
        }
    }
}

#[test]
fn forecasts_keep_width_8() {
    let mut unit = sixteen_frame_guest();
    assert_eq!(forecast(&mut unit, &[1, 2, 4, 9, 0xFFF]), figures(0, 0, 0));
    assert_eq!(forecast(&mut unit, &[1, 2, 4, 8]), figures(4, 1, 4));
    // A narrow load fills the path that a word's load has.
    assert_eq!(load_bytes(&mut unit, 0xFFF, 1), value(0, 4, 1));
    assert_eq!(forecast(&mut unit, &[1, 2, 4, 8]), figures(4, 0, 4));
}

// Request 5: "It costs one exit for each different path touched that was not held at
// the start, and no other; depth 5 costs none." Pages 0, 1 and 4 of the guest grant
// loads: frames 4 and 5, and frame 3, their table of level 1.

/// Some calls, and the stretch that the first ones of them are.
#[derive(Debug, PartialEq, Eq)]
struct Day {
    /// The exits of all the calls. What a forecast says is not paid.
    exits: u64,
    /// The different paths of all granted loads and stores that were not held at first.
    paths: u64,
    figure: u64,
    tables: u64,
    /// Where the stretch ended, counted from 0, and why.
    end: Option<(usize, End)>,
}

/// The calls from here on, as one stretch.
fn day(unit: &mut Unit, calls: &[Call]) -> Day {
    let mut stretch = Stretch::start(unit);
    let (mut exits, mut paths, mut end) = (0, BTreeSet::new(), None);
    for (number, call) in calls.iter().enumerate() {
        let before = unit.clone();
        let answer = unit.call(call);
        if !matches!(call, Call::Forecast { .. }) {
            exits += answer.counts().1;
        }
        if let Call::Load { address, .. } | Call::Store { address, .. } = call {
            let granted = matches!(answer, Answer::Value { .. } | Answer::Done { .. });
            paths.extend(before.path_of(*address).filter(|_| granted));
        }
        if end.is_none() {
            let taken = part(&before, call, &answer).and_then(|part| stretch.take(&part));
            end = taken.err().map(|why| (number, why));
        }
    }
    if end.is_none() {
        assert!(stretch.held_after().iter().eq(unit.book().held.keys()));
    }
    let paths = paths.difference(&stretch.held).count() as u64;
    Day { exits, paths, figure: stretch.figure(), tables: stretch.tables(), end }
}

/// A day that is all one stretch: its exits are the figure.
fn quiet(exits: u64, tables: u64) -> Day {
    Day { exits, paths: exits, figure: exits, tables, end: None }
}

fn loads(addresses: &[u64]) -> Vec<Call> {
    addresses.iter().map(|address| Call::load_word(*address)).collect()
}

#[test]
fn a_quiet_stretch_costs_its_new_paths() {
    let mut unit = sixteen_frame_guest();
    assert_eq!(day(&mut unit, &[]), quiet(0, 0));
    // Two pages, four tables; the table's page is only loaded.
    let calls = [loads(&[0, 8, 0x4000, 0, 0x4ff8]), vec![Call::store_word(0, 7)], loads(&[0])].concat();
    assert_eq!(day(&mut unit, &calls), quiet(2, 4));
    assert_eq!(day(&mut unit, &calls), quiet(0, 4));
    // One page that was not held, and two that were.
    assert_eq!(day(&mut unit, &[loads(&[0x1000]), calls].concat()), quiet(1, 4));
    assert_eq!(day(&mut unit, &loads(&[0x1000, 0, 0x4000, 0x1008])), quiet(0, 4));
}

#[test]
fn the_pages_of_one_path_cost_one_exit_and_depth_5_none() {
    for depth in 1..=5 {
        let mut unit = sixteen_frame_guest();
        set_mark(&mut unit, 0, depth);
        // At no depth but 0 is the table of level 1 watched: a store into it may stand in
        // a stretch. From depth 2 on the pages of 0x200000 have the same path.
        let calls = [loads(&[0, 0x1000]), vec![Call::store_word(0x4000, 0x7003)], loads(&[0])].concat();
        let tables = 4u64.saturating_sub(depth);
        assert_eq!(day(&mut unit, &calls), quiet((depth < 5) as u64, tables));
        assert_eq!(day(&mut unit, &calls), quiet(0, tables));
        let further = day(&mut unit, &loads(&[0x200000]));
        assert_eq!(further, if depth == 1 { quiet(1, 4) } else { quiet(0, tables) });
    }
    // Two depths: 256, and 0, 0, 0, 0.
    let mut unit = guest_with_an_upper_half();
    set_mark(&mut unit, UPPER, 3);
    assert_eq!(day(&mut unit, &loads(&[UPPER, 0, UPPER + 0x1000, 0])), quiet(2, 4));
}

/// "no store into a watched frame", which is judged "once the store is translated".
#[test]
fn a_stores_own_fill_may_end_a_stretch() {
    // Nothing is held, so that no frame is watched before the store. Its own path reads
    // the table it stores to: two exits for one path. The word stored to is the one
    // that the path reads, or one that nobody reads.
    for address in [0x4020, 0x4ff8] {
        let mut unit = sixteen_frame_guest();
        assert!(!unit.book().watched(11));
        let said = day(&mut unit, &[Call::store_word(address, 0x3003)]);
        assert_eq!(said, Day { exits: 2, paths: 1, figure: 0, tables: 0, end: Some((0, End::WatchedFrame)) });
    }
    // Watched by another path, and in a word that nobody reads: an exit, and no drop.
    let mut unit = sixteen_frame_guest();
    let said = day(&mut unit, &[loads(&[0x4000, 0]), vec![Call::store_word(0x4ff8, 1)]].concat());
    assert_eq!(said, Day { exits: 3, paths: 2, figure: 2, tables: 4, end: Some((2, End::WatchedFrame)) });
    assert_eq!(unit.book().held.len(), 2);
    // A narrow store is into its frame too.
    let said = day(&mut unit, &[Call::Store { address: 0x4fff, width: 1, value: 1 }]);
    assert_eq!(said, Day { exits: 1, paths: 0, figure: 0, tables: 4, end: Some((0, End::WatchedFrame)) });
}

/// "paths whose shadow tables fit S with those already held"
#[test]
fn the_tables_already_held_count_where_paths_must_fit() {
    let mut unit = guest_with_an_upper_half();
    set_mark(&mut unit, UPPER, 3);
    // The paths 256 and 0, 0, 1, 0 have four tables, and so have 256 and 0, 0, 0, 0: the
    // paths touched would fit by themselves. All three have five. The load of 0 drops
    // the other two, so that 256, held at the start, costs an exit again.
    assert_eq!(day(&mut unit, &loads(&[UPPER, 0x200000])), quiet(2, 4));
    let said = day(&mut unit, &loads(&[UPPER, 0, UPPER]));
    assert_eq!(said, Day { exits: 2, paths: 1, figure: 0, tables: 4, end: Some((1, End::NoRoom)) });
    // From there on they fit.
    assert_eq!(day(&mut unit, &loads(&[UPPER, 0, UPPER])), quiet(0, 4));
}

#[test]
fn the_tables_of_all_paths_must_fit_together() {
    // "each 4, 1, since five tables do not fit four": three exits for two paths.
    let mut unit = sixteen_frame_guest();
    let said = day(&mut unit, &loads(&[0, 0x200000, 0]));
    assert_eq!(said, Day { exits: 3, paths: 2, figure: 1, tables: 4, end: Some((1, End::NoRoom)) });
    // One more table, and they do.
    let mut unit = Unit::open(LEVELS, memory(16), 4, 5).unwrap();
    for frame in 0..7 {
        map(&mut unit, frame, 9 + frame);
    }
    let entries = [(0, 0x1003), (0x1000, 0x2003), (0x2000, 0x3003), (0x2008, 0x3003), (0x3000, 0x4003)];
    for (address, entry) in entries {
        unit.call(&Call::device_store_word(address, entry));
    }
    assert_eq!(day(&mut unit, &loads(&[0, 0x200000, 0])), quiet(2, 5));
}

#[test]
fn refused_calls_and_forecasts_may_stand_in_a_stretch() {
    let mut unit = sixteen_frame_guest();
    set_mark(&mut unit, 0x200000, 1);
    let nothing = [
        Call::load_word(4),
        Call::Load { address: 0, width: 3 },
        Call::store_word(1 << 48, 1),
        Call::device_store_word(4, 1),
        Call::DeviceStore { address: 0x3000, width: 16, value: 0 },
        Call::Root { frame: 1 << 36 },
        Call::Map { guest: 4, host: 7, writable: true },
        Call::Map { guest: 512, host: 8, writable: true },
        Call::Unmap { guest: 8 },
        Call::SetMark { address: 0x3fffff, level: 1 },
        Call::ClearMark { address: 0, level: 5 },
        Call::Forecast { addresses: vec![0; 257] },
        // Its two exits are said, not paid.
        Call::Forecast { addresses: vec![0x1000, 0x200000] },
    ];
    let mut calls = vec![Call::load_word(0)];
    for call in nothing {
        calls.extend([call, Call::load_word(0)]);
    }
    assert_eq!(day(&mut unit, &calls), quiet(1, 4));
}

#[test]
fn any_other_call_ends_a_stretch() {
    let others = [
        (Call::Root { frame: 0 }, 0, End::OtherCall),
        (Call::Map { guest: 4, host: 12, writable: true }, 0, End::OtherCall),
        (Call::Unmap { guest: 7 }, 0, End::OtherCall),
        (Call::SetMark { address: 1 << 40, level: 1 }, 0, End::OtherCall),
        (Call::ClearMark { address: UPPER, level: 1 }, 0, End::OtherCall),
        // Device stores: into a frame that is not watched, a watched one, and none.
        (Call::device_store_word(0x4000, 1), 0, End::OtherCall),
        (Call::device_store_word(0x3ff8, 1), 1, End::OtherCall),
        (Call::device_store_word(0x8000, 1), 1, End::OtherCall),
        // A, H and P: at depth 0 not held, each costs an exit and fills nothing.
        (Call::load_word(0x3000), 1, End::Fault),
        (Call::load_word(0x2000), 1, End::Fault),
        (Call::store_word(0x1000, 1), 1, End::Fault),
    ];
    for (call, exits, why) in others {
        let mut unit = sixteen_frame_guest();
        set_mark(&mut unit, UPPER, 1);
        let said = day(&mut unit, &[Call::load_word(0), call.clone()]);
        let day = Day { exits: 1 + exits, paths: 1, figure: 1, tables: 4, end: Some((1, why)) };
        assert_eq!(said, day, "{call:?}");
    }
}

// Openings.

#[test]
fn open_refuses_1_then_2() {
    let open = |words: Vec<u64>, h, s| Unit::open(LEVELS, words, h, s).err();
    assert_eq!(open(vec![0; 16 * 512 + 1], 0, 0), Some(1));
    assert_eq!(open(Vec::new(), 4, 4), Some(1));
    assert_eq!(open(memory(65_537), 4, 4), Some(1));
    assert_eq!(open(memory(65_536), 4, 4), None);
    assert_eq!(open(memory(16), 3, 4), Some(2));
    assert_eq!(open(memory(16), 4, 3), Some(2));
    assert_eq!(open(memory(16), 8, 8), Some(2));
    assert_eq!(open(memory(16), u64::MAX, 4), Some(2));
    assert_eq!(open(memory(16), 8, 7), None);
    assert_eq!(open(memory(9), 4, 4), None);
}

#[test]
fn open_keeps_guest_words() {
    let words: Vec<u64> = (0..16 * 512).collect();
    let unit = Unit::open(LEVELS, words.clone(), 5, 4).unwrap();
    assert_eq!(unit.guest_words(), &words[9 * 512..]);
}

// The other refusals, in their order.

#[test]
fn refusal_4_of_requests() {
    let mut unit = sixteen_frame_guest();
    for address in [1, 4, 0x1007, 1 << 48, (1 << 48) + 8, u64::MAX, UPPER - 8, UPPER + 4] {
        assert_eq!(load(&mut unit, address), Answer::No(4));
        assert_eq!(store(&mut unit, address, 1), Answer::No(4));
        assert_eq!(unit.call(&Call::device_store_word(address, 1)), Answer::No(4));
    }
    // One of bits 47 to 63 unlike the others, in each half.
    for place in 47..64 {
        for address in [0, 0x7FFF_FFFF_FFF8, UPPER, 0xFFFF_FFFF_FFFF_FFF8] {
            assert_eq!(load(&mut unit, address ^ 1 << place), Answer::No(4));
            assert_eq!(store(&mut unit, address ^ 1 << place, 1), Answer::No(4));
        }
    }
    assert!(unit.book().held.is_empty());
}

#[test]
fn refusals_of_marks() {
    let mut unit = sixteen_frame_guest();
    for address in [1 << 47, 0xFFFF_FFFF_FFF8, 1 << 48, UPPER - 1] {
        assert_eq!(set_mark(&mut unit, address, 9), Answer::No(4));
        assert_eq!(clear_mark(&mut unit, address, 9), Answer::No(4));
    }
    for level in [0, 6, 255, u64::MAX] {
        assert_eq!(set_mark(&mut unit, 0, level), Answer::No(5));
        assert_eq!(clear_mark(&mut unit, 0, level), Answer::No(5));
    }
    assert_eq!(clear_mark(&mut unit, 0, 1), Answer::No(6));
    // Mark addresses need not be multiples of 8.
    assert_eq!(set_mark(&mut unit, 0x1FFFFF, 1), Answer::Ok);
    assert_eq!(set_mark(&mut unit, 0, 1), Answer::No(6));
    assert_eq!(set_mark(&mut unit, 0x200000, 1), Answer::Ok);
    assert_eq!(set_mark(&mut unit, UPPER + 0x1FFFFF, 1), Answer::Ok);
    // Levels 4 and 5 keep no index.
    assert_eq!(set_mark(&mut unit, 0, 4), Answer::Ok);
    assert_eq!(set_mark(&mut unit, 1 << 40, 4), Answer::No(6));
    assert_eq!(set_mark(&mut unit, 0, 5), Answer::Ok);
    assert_eq!(clear_mark(&mut unit, 1 << 40, 4), Answer::Ok);
    assert_eq!(clear_mark(&mut unit, 0, 4), Answer::No(6));
}

#[test]
fn refusal_7_after_6() {
    let mut unit = sixteen_frame_guest();
    for number in 0..64 {
        assert_eq!(set_mark(&mut unit, number << 21, 1), Answer::Ok);
    }
    assert_eq!(set_mark(&mut unit, 63 << 21, 1), Answer::No(6));
    assert_eq!(set_mark(&mut unit, 64 << 21, 1), Answer::No(7));
    assert_eq!(clear_mark(&mut unit, 64 << 21, 1), Answer::No(6));
    assert_eq!(clear_mark(&mut unit, 5 << 21, 1), Answer::Ok);
    assert_eq!(set_mark(&mut unit, 64 << 21, 1), Answer::Ok);
}

#[test]
fn refusals_of_root_map_and_unmap() {
    let mut unit = sixteen_frame_guest();
    load(&mut unit, 0);
    assert_eq!(unit.call(&Call::Root { frame: 1 << 36 }), Answer::No(8));
    assert_eq!(map(&mut unit, 1 << 36, 0), Answer::No(8));
    for host in [0, 4, 7, 16, u64::MAX] {
        assert_eq!(map(&mut unit, 512, host), Answer::No(9));
    }
    assert_eq!(map(&mut unit, 512, 8), Answer::No(10));
    assert_eq!(map(&mut unit, (1 << 36) - 1, 8), Answer::No(10));
    assert_eq!(map(&mut unit, 511, 8), Answer::Ok);
    assert_eq!(unit.call(&Call::Unmap { guest: 1 << 36 }), Answer::No(8));
    assert_eq!(unit.call(&Call::Unmap { guest: 8 }), Answer::No(12));
    // Refused calls drop nothing.
    assert_eq!(load(&mut unit, 0), value(0, 4, 0));
}

#[test]
fn emptied_host_tables_can_be_used_again() {
    let mut unit = Unit::open(LEVELS, memory(16), 4, 4).unwrap();
    for guest in [0, 512, 1 << 18, 1 << 27, (1 << 36) - 1] {
        assert_eq!(map(&mut unit, guest, 8), Answer::Ok);
        assert_eq!(map(&mut unit, guest ^ 512, 8), Answer::No(10));
        assert_eq!(unit.call(&Call::Unmap { guest }), Answer::Ok);
    }
    // One more table carries another group of 512, four more another top index.
    let mut unit = Unit::open(LEVELS, memory(16), 7, 4).unwrap();
    assert_eq!(map(&mut unit, 0, 11), Answer::Ok);
    assert_eq!(map(&mut unit, 1 << 27, 11), Answer::Ok);
    assert_eq!(map(&mut unit, 512, 11), Answer::No(10));
}

// Points of the readings.

#[test]
fn host_walk_of_an_unmapped_frame_counts_1_to_4() {
    let mut unit = Unit::open(LEVELS, memory(16), 4, 4).unwrap();
    let device = |unit: &mut Unit, frame: u64| unit.call(&Call::device_store_word(frame << 12, 1));
    let absent = |frame, references| fault(Fault::HostAbsent { frame }, references, 1);
    assert_eq!(device(&mut unit, 0), absent(0, 1));
    assert_eq!(load(&mut unit, 0), absent(0, 1));
    map(&mut unit, 0, 8);
    for (frame, references) in [(1, 4), (512, 3), (1 << 18, 2), (1 << 27, 1), ((1 << 36) - 1, 1)] {
        assert_eq!(device(&mut unit, frame), absent(frame, references));
    }
}

#[test]
fn absent_and_malformed_and_protected_in_their_order() {
    let walk = |entry: u64, level: u64| {
        let mut unit = sixteen_frame_guest();
        // The entry of this level on the walk of address 0 stands in frame 4 - level.
        unit.call(&Call::device_store_word((4 - level) << 12, entry));
        (load(&mut unit, 0), store(&mut unit, 0, 1))
    };
    for level in 1..=4u64 {
        let plain = 9 + 5 * (4 - level) - 4;
        let absent = fault(Fault::Absent { level: level as u32 }, plain, 1);
        let malformed = fault(Fault::Malformed { level: level as u32 }, plain, 1);
        // Not present is A, whatever else is set.
        assert_eq!(walk(0xF_0000_0000_0082, level), (absent, absent));
        for bit in 48..52 {
            assert_eq!(walk(0x1003 | 1 << bit, level), (malformed, malformed));
        }
        // Bit 7 at level 4, and at levels 2 and 3 with frame bits below the page size.
        if level > 1 {
            assert_eq!(walk(0x1083, level), (malformed, malformed));
        }
    }
    // Ignored bits, and bit 7 at level 1.
    assert_eq!(walk(0xFFF0_0000_0000_4FFF, 1), (value(0, 4, 1), done(4, 0)));
    assert_eq!(walk(0xFFF0_0000_0000_1F7F, 4), (value(0, 4, 1), done(4, 0)));
    // P is judged once level 1 is read, wherever the unset bit stands.
    for level in 1..=4 {
        let protected = fault(Fault::Protected { level: 1 }, 20, 1);
        let frame = 5 - level;
        assert_eq!(walk(frame << 12 | 1, level), (value(0, 4, 1), protected));
    }
    // Read-only above and absent at level 1 is A; read-only with an unmapped page is P.
    let mut unit = sixteen_frame_guest();
    unit.call(&Call::device_store_word(0, 0x1001));
    assert_eq!(store(&mut unit, 0x3000, 1), fault(Fault::Absent { level: 1 }, 20, 1));
    assert_eq!(store(&mut unit, 0x2000, 1), fault(Fault::Protected { level: 1 }, 20, 1));
    assert_eq!(load(&mut unit, 0x2000), fault(Fault::HostAbsent { frame: 8 }, 24, 1));
}

#[test]
fn protected_by_a_shadowed_entry_fills_and_costs_no_exit_of_its_own() {
    for depth in 1..=5u64 {
        let mut unit = sixteen_frame_guest();
        unit.call(&Call::device_store_word(0, 0x1001));
        set_mark(&mut unit, 0, depth);
        let references = if depth == 5 { 20 } else { 4 * depth };
        let protected = |exits| fault(Fault::Protected { level: 1 }, references, exits);
        assert_eq!(store(&mut unit, 0, 1), protected((depth < 5) as u64));
        assert_eq!(store(&mut unit, 0, 1), protected(0));
        assert_eq!(unit.book().held.len(), (depth < 5) as usize);
    }
}

#[test]
fn a_held_path_that_forbids_the_store_stays_held() {
    let mut unit = sixteen_frame_guest();
    // P: page 1 is read-only by its guest entry.
    assert_eq!(store(&mut unit, 0x1000, 1), fault(Fault::Protected { level: 1 }, 20, 1));
    assert!(unit.book().held.is_empty());
    assert_eq!(load(&mut unit, 0x1000), value(0, 4, 1));
    assert_eq!(store(&mut unit, 0x1000, 1), fault(Fault::Protected { level: 1 }, 20, 1));
    assert_eq!(load(&mut unit, 0x1000), value(0, 4, 0));
    // W: page 0 is read-only by its mapping.
    unit.call(&Call::Map { guest: 4, host: 12, writable: false });
    let read_only = fault(Fault::HostReadOnly { frame: 4 }, 24, 1);
    assert_eq!(store(&mut unit, 0, 1), read_only);
    assert_eq!(load(&mut unit, 0), value(0, 4, 1));
    assert_eq!(store(&mut unit, 0, 1), read_only);
    assert_eq!(load(&mut unit, 0), value(0, 4, 0));
    // A read-only mapping of a table forbids nothing.
    unit.call(&Call::Map { guest: 4, host: 12, writable: true });
    unit.call(&Call::Map { guest: 3, host: 11, writable: false });
    assert_eq!(store(&mut unit, 0, 1), done(4, 1));
    // W in the direct part: the path is filled, and there are two exits.
    unit.call(&Call::Map { guest: 4, host: 12, writable: false });
    set_mark(&mut unit, 0, 1);
    assert_eq!(store(&mut unit, 0, 1), fault(Fault::HostReadOnly { frame: 4 }, 8, 2));
    assert_eq!(store(&mut unit, 0, 1), fault(Fault::HostReadOnly { frame: 4 }, 8, 1));
}

#[test]
fn the_root_not_mapped() {
    let mut unit = sixteen_frame_guest();
    unit.call(&Call::Root { frame: 9 });
    let absent = |references, exits| fault(Fault::HostAbsent { frame: 9 }, references, exits);
    assert_eq!(load(&mut unit, 0), absent(4, 1));
    set_mark(&mut unit, 0, 4);
    assert_eq!(load(&mut unit, 0), absent(4, 1));
    assert!(unit.book().held.is_empty());
    set_mark(&mut unit, 0, 5);
    assert_eq!(load(&mut unit, 0), absent(4, 1));
}

#[test]
fn marks_drop_what_begins_with_their_prefix() {
    let mut unit = sixteen_frame_guest();
    set_mark(&mut unit, 0, 2);
    assert_eq!(load(&mut unit, 0), value(0, 12, 1));
    // The path is shorter than the prefix of a level 1 mark: it stays.
    assert_eq!(set_mark(&mut unit, 0, 1), Answer::Ok);
    assert_eq!(load(&mut unit, 0), value(0, 12, 0));
    assert_eq!(set_mark(&mut unit, 1 << 39, 2), Answer::Ok);
    assert_eq!(load(&mut unit, 0), value(0, 12, 0));
    assert_eq!(clear_mark(&mut unit, 0, 2), Answer::Ok);
    assert_eq!(load(&mut unit, 0), value(0, 8, 1));
    assert_eq!(clear_mark(&mut unit, 0, 1), Answer::Ok);
    assert_eq!(load(&mut unit, 0), value(0, 4, 1));
}

#[test]
fn watching_is_judged_after_the_fill_and_before_the_drops() {
    // The store's own fill makes its frame watched: two exits, and its path is dropped.
    let mut unit = sixteen_frame_guest();
    assert_eq!(store(&mut unit, 0x4020, 0x3003), done(4, 2));
    assert_eq!(load(&mut unit, 0x4000), value(0x4003, 4, 1));
    // A word that nobody read: an exit and no drop.
    assert_eq!(store(&mut unit, 0x4ff8, 1), done(4, 1));
    assert_eq!(load(&mut unit, 0x4000), value(0x4003, 4, 0));
    // The store's own overflow takes the only path that watched the frame.
    let mut unit = sixteen_frame_guest();
    unit.call(&Call::device_store_word(0x6000, 0x2003));
    unit.call(&Call::device_store_word(0x2008, 0x6003));
    assert_eq!(load(&mut unit, 0), value(0, 4, 1));
    assert!(unit.book().watched(11));
    // Page 0x201000: entry 1 of frame 2, then entry 1 of frame 6, a page in frame 3.
    unit.call(&Call::device_store_word(0x6008, 0x3003));
    assert_eq!(store(&mut unit, 0x201ff8, 1), done(4, 1));
    assert!(!unit.book().watched(11));
}

#[test]
fn stores_drop_by_host_word() {
    // Guest frame 9 is a second name of the level 1 table.
    let mut unit = sixteen_frame_guest();
    map(&mut unit, 9, 11);
    load(&mut unit, 0);
    assert_eq!(unit.call(&Call::device_store_word(0x9000, 0x4003)), done(4, 1));
    assert_eq!(load(&mut unit, 0), value(0, 4, 1));
    assert_eq!(unit.call(&Call::device_store_word(0x9008, 0x5003)), done(4, 1));
    assert_eq!(load(&mut unit, 0), value(0, 4, 0));
    // Mapping the second name anew drops nothing, the first name drops.
    map(&mut unit, 9, 12);
    assert_eq!(load(&mut unit, 0), value(0, 4, 0));
    map(&mut unit, 3, 11);
    assert_eq!(load(&mut unit, 0), value(0, 4, 1));
    unit.call(&Call::Root { frame: 0 });
    assert_eq!(load(&mut unit, 0), value(0, 4, 1));
}

// Five levels.

/// Guest frame n at host frame 10 + n; frames 0 to 4 are the tables, 5 the page.
fn five_level_guest() -> Unit {
    let mut words = memory(24);
    for frame in 0..5u64 {
        words[(10 + frame as usize) * 512] = (frame + 1) << 12 | 3;
    }
    let mut unit = Unit::open(5, words, 5, 5).unwrap();
    for frame in 0..8 {
        assert_eq!(map(&mut unit, frame, 10 + frame), Answer::Ok);
    }
    unit
}

#[test]
fn five_levels() {
    assert_eq!(Unit::open(5, memory(24), 4, 5).err(), Some(2));
    let open = five_level_guest;
    for depth in 0..=6 {
        let mut unit = open();
        if depth > 0 {
            assert_eq!(set_mark(&mut unit, 0, depth), Answer::Ok);
        }
        assert_eq!(load(&mut unit, 8), value(0, 5 + 5 * depth, (depth < 6) as u64));
        assert_eq!(load(&mut unit, 8), value(0, 5 + 5 * depth, 0));
    }
    // The page's byte 3, and byte 7 of the entry that names it.
    let mut unit = open();
    assert_eq!(device_store_bytes(&mut unit, 0x5003, 1, 0x1FF), done(5, 0));
    assert_eq!(load_bytes(&mut unit, 2, 2), value(0xFF00, 5, 1));
    assert_eq!(device_store_bytes(&mut unit, 0x4007, 1, 0), done(5, 1));
    assert_eq!(load(&mut unit, 0), value(0xFF00_0000, 5, 1));
    // A forecast of two pages, the second of which the page's table does not have.
    assert_eq!(forecast(&mut open(), &[8, 0x1000, 0]), figures(5 + 30 + 5, 2, 5));
    let mut unit = open();
    assert_eq!(set_mark(&mut unit, 0, 7), Answer::No(5));
    assert_eq!(unit.call(&Call::Root { frame: 1 << 40 }), Answer::No(8));
    assert_eq!(unit.call(&Call::Root { frame: (1 << 40) - 1 }), Answer::Ok);
    assert_eq!(load(&mut unit, 0), fault(Fault::HostAbsent { frame: (1 << 40) - 1 }, 1, 1));
    assert_eq!(unit.call(&Call::device_store_word(1 << 52, 0)), Answer::No(4));
    // "57-bit addresses legal by bit 56". Entries 255, 256 and 511 of the root are 0:
    // five words of its host walk, then the entry. Bit 47 is of the next index, whose
    // entry is five words of a host walk and one more behind the root's entry 0.
    unit.call(&Call::Root { frame: 0 });
    for address in [1 << 56, 0x1FF_FFFF_FFFF_FFF8, 1 << 57, 0xFEFF_FFFF_FFFF_FFF8] {
        assert_eq!(load(&mut unit, address), Answer::No(4));
        assert_eq!(set_mark(&mut unit, address, 1), Answer::No(4));
    }
    for address in [0xFF_FFFF_FFFF_FFF8, 0xFF00_0000_0000_0000, UPPER] {
        assert_eq!(load(&mut unit, address), fault(Fault::Absent { level: 5 }, 6, 1));
    }
    assert_eq!(load(&mut unit, 1 << 47), fault(Fault::Absent { level: 4 }, 12, 1));
    // Bits 48 to 51 are frame bits.
    unit.call(&Call::device_store_word(0, 1 << 51 | 3));
    assert_eq!(load(&mut unit, 0), fault(Fault::HostAbsent { frame: 1 << 39 }, 7, 1));
}

/// "With five, marks reach 6, the lookup of 3) ends only at one of level 6".
#[test]
fn five_levels_end_a_lookup_at_level_6() {
    let mut unit = Unit::open(5, memory(24), 5, 5).unwrap();
    // Bits 48 to 56 are the first index. Level 4 keeps it, levels 5 and 6 keep none.
    set_mark(&mut unit, 1 << 48, 4);
    set_mark(&mut unit, 0, 5);
    set_mark(&mut unit, 0, 6);
    let (four, five, six) = (at(4, &[1]), at(5, &[]), at(6, &[]));
    for address in [0, 1 << 48, 0xFF00_0000_0000_0000] {
        assert_eq!(lookup(&unit, &[four.clone(), five.clone(), None, six.clone()], address), found(6, 3));
        assert_eq!(lookup(&unit, &[five.clone(), six.clone(), four.clone()], address), found(6, 2));
        assert_eq!(lookup(&unit, &[None, six.clone(), four.clone(), five.clone()], address), found(6, 1));
    }
    clear_mark(&mut unit, 0, 6);
    assert_eq!(lookup(&unit, &[five.clone(), four.clone()], 0), found(5, 2));
    assert_eq!(lookup(&unit, &[four.clone(), five], 1 << 48), found(5, 2));
    clear_mark(&mut unit, 0, 5);
    assert_eq!(lookup(&unit, &[four.clone(), None], 0x1_FFFF_FFFF_FFFF), found(4, 1));
    assert_eq!(lookup(&unit, &[None, four], 0), found(0, 1));
}

/// "What document 01 and requests 5), 6) and 8) say of 4 and 5 as depths or mark levels
/// holds of N and N + 1": depth 5 has a path, without a table, and depth 6 has none.
#[test]
fn five_levels_have_no_path_at_depth_6() {
    for depth in 0..=6 {
        let mut unit = five_level_guest();
        if depth > 0 {
            set_mark(&mut unit, 0, depth);
        }
        let calls = [Call::load_word(0), Call::store_word(8, 1), Call::load_word(8)];
        let tables = 5u64.saturating_sub(depth);
        assert_eq!(day(&mut unit, &calls), quiet((depth < 6) as u64, tables));
        assert_eq!(day(&mut unit, &calls), quiet(0, tables));
    }
}
