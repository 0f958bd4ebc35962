//! Document 01's sixteen-frame guest through the archive, with addresses of both halves, and the edges of the interface.

use cangrieb::{raw, Answer, Choices, Fault, Head, Kind, Lookup, Mark, Record, Refusal};

const BITS: Choices = Choices { bits: true, automatic: false };
const AUTOMATIC: Choices = Choices { bits: false, automatic: true };

fn guest() -> (Record, Vec<u64>) {
    guest_with(Choices::default())
}

/// "H = S = 4; guest frames 0 to 7 at 8 to 15, writable; root 0" and the guest's words.
fn guest_with(choices: Choices) -> (Record, Vec<u64>) {
    let mut memory = vec![0; 16 * 512];
    let entries = [(0, 0, 0x1003), (1, 0, 0x2003), (2, 0, 0x3003), (2, 1, 0x3003)];
    let last =
        [0x4003, 0x5001, 0x8003, 0, 0x3003].into_iter().enumerate().map(|(place, entry)| (3, place, entry));
    for (frame, place, entry) in entries.into_iter().chain(last) {
        memory[(8 + frame) * 512 + place] = entry;
    }
    let mut unit = Record::open_with(&mut memory, 4, 4, choices).unwrap();
    for frame in 0..8 {
        assert_eq!(unit.map(&mut memory, frame, 8 + frame, true), Answer::Ok);
    }
    assert_eq!(unit.root(&mut memory, 0), Answer::Ok);
    (unit, memory)
}

/// The first address of the upper half: its top index is 256.
const UPPER: u64 = 0xFFFF_8000_0000_0000;

fn value(word: u64, references: u64, exits: u64) -> Answer {
    Answer::Value { word, references, exits }
}

fn figures(references: u64, exits: u64, tables: u64) -> Answer {
    Answer::Figures { references, exits, tables }
}

fn refused(number: u64) -> Answer {
    Answer::Refused(Refusal(number))
}

fn fault(fault: Fault, references: u64, exits: u64) -> Answer {
    Answer::Fault { fault, references, exits }
}

#[test]
fn loads() {
    let (mut unit, mut memory) = guest();
    memory[12 * 512 + 1] = 0xC0FFEE;
    assert_eq!(unit.load(&mut memory, 8, 8), value(0xC0FFEE, 4, 1));
    assert_eq!(unit.load(&mut memory, 8, 8), value(0xC0FFEE, 4, 0));
    assert_eq!(unit.load(&mut memory, 0x2000, 8), fault(Fault::HostAbsent { frame: 8 }, 24, 1));
    assert_eq!(unit.load(&mut memory, 0x3000, 8), fault(Fault::Absent { level: 1 }, 20, 1));
    assert_eq!(unit.store(&mut memory, 0x1000, 8, 1), fault(Fault::Protected { level: 1 }, 20, 1));
    // The ends of the halves, where the root has no entry, and what lies between them.
    for address in [0x7FFF_FFFF_FFF8, UPPER, 0xFFFF_FFFF_FFFF_FFF8] {
        assert_eq!(unit.load(&mut memory, address, 8), fault(Fault::Absent { level: 4 }, 5, 1));
    }
    for address in [1 << 47, 0xFFFF_FFFF_FFF8, 1 << 48, UPPER - 8] {
        assert_eq!(unit.load(&mut memory, address, 8), refused(4));
        assert_eq!(unit.store(&mut memory, address, 8, 1), refused(4));
    }
}

/// Entry 1 of frame 2 is a page of 2 MiB, entry 1 of frame 1 one of 1 GiB, both of guest frames 0 on, of which 0 to 7 are mapped.
/// Frame 4 is found in both, as at address 0.
#[test]
fn large_pages() {
    let (two, one) = (1 << 21 | 4 << 12, 1 << 30 | 4 << 12);
    for (address, counts) in [(two, [4, 4, 7, 11, 15, 19]), (one, [4, 4, 4, 6, 10, 14])] {
        for (level, references) in (0..).zip(counts) {
            let (mut unit, mut memory) = guest();
            memory[12 * 512 + 1] = 0xC0FFEE;
            memory[10 * 512 + 1] = 0x83;
            memory[9 * 512 + 1] = 0x83;
            if level > 0 {
                assert_eq!(unit.set_mark(&mut memory, address, level), Answer::Ok);
            }
            let exits = u64::from(level < 5);
            assert_eq!(unit.load(&mut memory, address + 8, 8), value(0xC0FFEE, references, exits));
            assert_eq!(unit.load(&mut memory, address + 8, 8), value(0xC0FFEE, references, 0));
            assert_eq!(unit.depth(address).depth, level);
        }
    }
    let (mut unit, mut memory) = guest();
    let device_store = |unit: &mut Record, memory: &mut [u64], entry| {
        assert!(matches!(unit.device_store(memory, 2 << 12 | 8, 8, entry), Answer::Done { .. }));
    };
    // Not aligned, not writable, and a frame of it that is not mapped.
    device_store(&mut unit, &mut memory, 0x1083);
    assert_eq!(unit.load(&mut memory, two, 8), fault(Fault::Malformed { level: 2 }, 15, 1));
    device_store(&mut unit, &mut memory, 0x81);
    assert_eq!(unit.store(&mut memory, two, 8, 1), fault(Fault::Protected { level: 2 }, 15, 1));
    assert_eq!(unit.load(&mut memory, two + (4 << 12), 8), fault(Fault::HostAbsent { frame: 8 }, 19, 1));
}

/// Entry 256 of the root is as its entry 0, so that a page of the upper half is the lower one's with the same indexes below.
#[test]
fn the_upper_half() {
    let (mut unit, mut memory) = guest();
    memory[12 * 512 + 1] = 0xC0FFEE;
    assert_eq!(unit.device_store(&mut memory, 256 * 8, 8, 0x1003), Answer::Done { references: 4, exits: 0 });
    assert_eq!(unit.load(&mut memory, UPPER + 8, 8), value(0xC0FFEE, 4, 1));
    assert_eq!(unit.load(&mut memory, UPPER + 8, 8), value(0xC0FFEE, 4, 0));
    // A mark that keeps index 256 holds in the upper half alone.
    assert_eq!(unit.set_mark(&mut memory, UPPER + 3, 3), Answer::Ok);
    assert_eq!(unit.load(&mut memory, UPPER + 8, 8), value(0xC0FFEE, 16, 1));
    assert_eq!(unit.load(&mut memory, 8, 8), value(0xC0FFEE, 4, 1));
    assert_eq!(unit.clear_mark(&mut memory, 3, 3), refused(6));
    assert_eq!(unit.clear_mark(&mut memory, UPPER + 0x7F_FFFF_FFFF, 3), Answer::Ok);
    // One that keeps no index holds in both.
    assert_eq!(unit.set_mark(&mut memory, UPPER, 5), Answer::Ok);
    assert_eq!(unit.set_mark(&mut memory, 0, 5), refused(6));
    assert_eq!(unit.store(&mut memory, UPPER + 8, 8, 7), Answer::Done { references: 24, exits: 0 });
    assert_eq!(unit.load(&mut memory, 8, 8), value(7, 24, 0));
}

/// Of the last device address no mapped frame has the first index; an address of the upper half is none of a device.
#[test]
fn device_addresses() {
    let (mut unit, mut memory) = guest();
    let last = Fault::HostAbsent { frame: (1 << 36) - 1 };
    assert_eq!(unit.device_store(&mut memory, 0xFFFF_FFFF_FFF8, 8, 1), fault(last, 1, 1));
    assert_eq!(unit.device_store(&mut memory, 1 << 48, 8, 1), refused(4));
    assert_eq!(unit.device_store(&mut memory, UPPER, 8, 1), refused(4));
}

#[test]
fn a_store_to_a_table_drops() {
    let (mut unit, mut memory) = guest();
    memory[15 * 512] = 15;
    assert_eq!(unit.load(&mut memory, 0, 8), value(0, 4, 1));
    assert_eq!(unit.store(&mut memory, 0x4000, 8, 0x7003), Answer::Done { references: 4, exits: 2 });
    assert_eq!(unit.load(&mut memory, 0, 8), value(15, 4, 1));
}

#[test]
fn marks() {
    let (mut unit, mut memory) = guest();
    assert_eq!(unit.set_mark(&mut memory, 0, 1), Answer::Ok);
    assert_eq!(unit.load(&mut memory, 0, 8), value(0, 8, 1));
    assert_eq!(unit.store(&mut memory, 0x4000, 8, 0x7003), Answer::Done { references: 8, exits: 0 });
    assert_eq!(unit.load(&mut memory, 0x2000, 8), fault(Fault::HostAbsent { frame: 8 }, 8, 1));
    assert_eq!(unit.set_mark(&mut memory, 0, 4), Answer::Ok);
    assert_eq!(unit.load(&mut memory, 0, 8), value(0, 20, 1));
    assert_eq!(unit.set_mark(&mut memory, 0, 5), Answer::Ok);
    assert_eq!(unit.load(&mut memory, 0, 8), value(0, 24, 0));
    assert_eq!(unit.clear_mark(&mut memory, 0, 5), Answer::Ok);
    assert_eq!(unit.clear_mark(&mut memory, 0, 5), refused(6));
}

/// The depth by the marks that are set, and how many were read for it: all, or those up to one of level 5 and with it. The
/// marks stand in the order of the indexes that they keep, as one number, and of their levels.
#[test]
fn lookups() {
    let (mut unit, mut memory) = guest();
    let found = |unit: &Record, address| {
        let Lookup { depth, read } = unit.depth(address);
        (depth, read)
    };
    assert_eq!(found(&unit, 0), (0, 0));
    for (address, level) in [(UPPER, 3), (0x20_0000, 1), (0, 2), (0, 1)] {
        assert_eq!(unit.set_mark(&mut memory, address, level), Answer::Ok);
    }
    // Each is read, also for an address that none holds for. The bits below a page do not matter.
    assert_eq!(found(&unit, 0), (2, 4));
    assert_eq!(found(&unit, 0x20_0FFF), (2, 4));
    assert_eq!(found(&unit, UPPER + 7), (3, 4));
    assert_eq!(found(&unit, 1 << 39), (0, 4));
    // One of level 4 ends nothing; one of level 5 stands behind those of levels 1, 2 and 4 at address 0.
    assert_eq!(unit.set_mark(&mut memory, 0, 4), Answer::Ok);
    assert_eq!(found(&unit, 1 << 39), (4, 5));
    assert_eq!(unit.set_mark(&mut memory, UPPER, 5), Answer::Ok);
    assert_eq!(found(&unit, 0), (5, 4));
    assert_eq!(found(&unit, UPPER), (5, 4));
    // A cleared mark leaves its place empty, and is not read.
    assert_eq!(unit.clear_mark(&mut memory, 0, 1), Answer::Ok);
    assert_eq!(found(&unit, 0), (5, 3));
    assert_eq!(unit.clear_mark(&mut memory, 0, 5), Answer::Ok);
    assert_eq!(found(&unit, 0), (4, 4));
    // Loads go by the same depth.
    assert_eq!(unit.load(&mut memory, 0, 8), value(0, 4 + 4 * 4, 1));
}

/// A lookup of a record that every call refuses ends too: nothing is set; a level that no mark has, and one above other
/// indexes than the address has, at all 64 places.
#[test]
fn lookups_in_broken_records() {
    assert_eq!(Record::zeros().depth(0), Lookup { depth: 0, read: 0 });
    let (unit, _) = guest();
    let full = |key| Record { head: Head { set: u64::MAX, ..unit.head }, place: [key; 64], ..unit };
    assert_eq!(full(7).depth(0), Lookup { depth: 7, read: 1 });
    assert_eq!(full(15).depth(0), Lookup { depth: 0, read: 64 });
    assert_eq!(full(0).depth(0), Lookup { depth: 0, read: 64 });
    // So does a list of its marks, whatever they mean; with more automatic marks than there are places too.
    for key in [0, 7, 15, u64::MAX] {
        let mut record = full(key);
        assert_eq!(record.marks().count(), 64);
        record.head.choice.count = u64::MAX;
        assert_eq!(record.marks().count(), 64);
    }
    assert_eq!(Record::zeros().marks().count(), 0);
}

#[test]
fn mappings() {
    let (mut unit, mut memory) = guest();
    memory[13 * 512] = 13;
    assert_eq!(unit.load(&mut memory, 0, 8), value(0, 4, 1));
    assert_eq!(unit.map(&mut memory, 4, 13, false), Answer::Ok);
    assert_eq!(unit.load(&mut memory, 0, 8), value(13, 4, 1));
    assert_eq!(unit.store(&mut memory, 0, 8, 1), fault(Fault::HostReadOnly { frame: 4 }, 24, 1));
    assert_eq!(unit.unmap(&mut memory, 4), Answer::Ok);
    assert_eq!(unit.unmap(&mut memory, 4), refused(12));
    assert_eq!(unit.map(&mut memory, 1 << 36, 0, true), refused(8));
    assert_eq!(unit.map(&mut memory, 4, 7, true), refused(9));
}

/// Of each list the references and exits of its loads, and the greatest number of tables.
#[test]
fn forecasts() {
    let (mut unit, mut memory) = guest();
    assert_eq!(unit.forecast(&memory, &[]), figures(0, 0, 0));
    assert_eq!(unit.forecast(&memory, &[8, 0]), figures(8, 1, 4));
    // Five tables do not fit four; an address that would meet 4; H, A of level 1, A of level 4.
    assert_eq!(unit.forecast(&memory, &[0, 0x20_0000, 0]), figures(12, 3, 4));
    assert_eq!(unit.forecast(&memory, &[4, 0, 1 << 47, UPPER - 8, 8]), figures(8, 1, 4));
    assert_eq!(unit.forecast(&memory, &[0x2000, 0x3000, UPPER, 0]), figures(24 + 20 + 5 + 4, 4, 4));
    // Nothing was filled. Then the path of 0 is held, till the list itself drops it.
    assert_eq!(unit.load(&mut memory, 0, 8), value(0, 4, 1));
    assert_eq!(unit.forecast(&memory, &[]), figures(0, 0, 4));
    assert_eq!(unit.forecast(&memory, &[0, 0x20_0000, 0]), figures(12, 2, 4));
    assert_eq!(unit.load(&mut memory, 0, 8), value(0, 4, 0));
    // Through a mark, of two tables; four were in use at the start.
    assert_eq!(unit.device_store(&mut memory, 256 * 8, 8, 0x1003), Answer::Done { references: 4, exits: 1 });
    assert_eq!(unit.set_mark(&mut memory, UPPER, 2), Answer::Ok);
    assert_eq!(unit.forecast(&memory, &[UPPER, UPPER]), figures(24, 1, 4));
    assert_eq!(unit.set_mark(&mut memory, UPPER, 5), Answer::Ok);
    assert_eq!(unit.forecast(&memory, &[UPPER, 0]), figures(48, 0, 0));
}

/// 14 is by the length alone, after 3. No list at all may have a null pointer.
#[test]
fn the_length_of_a_list() {
    let (unit, memory) = guest();
    assert_eq!(unit.forecast(&memory, &[0; 256]), figures(4 * 256, 1, 4));
    assert_eq!(unit.forecast(&memory, &[4; 256]), figures(0, 0, 0));
    assert_eq!(unit.forecast(&memory, &[0; 257]), refused(14));
    assert_eq!(unit.forecast(&memory, &[4; 257]), refused(14));
    assert_eq!(unit.forecast(&memory[512..], &[0; 257]), refused(3));
    let null = std::ptr::null();
    let Record { head, place, ring, order } = &unit;
    let (words, count) = (memory.as_ptr(), memory.len());
    let none = unsafe { raw::cangrieb_forecast(head, place, ring, order, words, count, null, 0) };
    assert_eq!((none.kind, none.number, none.references, none.exits), (5, 0, 0, 0));
}

/// A host entry that names a guest frame as its table: 11, with no figures of what came before in the list.
#[test]
fn a_forecast_over_a_damaged_table() {
    let (mut unit, mut memory) = guest();
    assert_eq!(unit.load(&mut memory, 0, 8), value(0, 4, 1));
    memory[0] = memory[0] & !(0xFF_FFFF_FFFF << 12) | 9 << 12;
    let before = memory.clone();
    assert_eq!(unit.forecast(&memory, &[0, 0x1000]), refused(11));
    assert_eq!(unit.forecast(&memory, &[0; 257]), refused(14));
    assert_eq!(memory, before);
    assert_eq!(unit.load(&mut memory, 0x1000, 8), refused(11));
}

/// The bytes of the word at address 8, and others.
const OLD: [u8; 8] = [0x88, 0x77, 0x66, 0x55, 0x44, 0x33, 0x22, 0x11];
const NEW: [u8; 8] = [0xA0, 0xA1, 0xA2, 0xA3, 0xA4, 0xA5, 0xA6, 0xA7];

/// Every width at every place of a word: a load has its own bytes and zeros above, a store changes its own bytes alone.
#[test]
fn widths() {
    for width in [1, 2, 4, 8] {
        for offset in (0..8).step_by(width) {
            let own = offset..offset + width;
            let mut loaded = [0; 8];
            loaded[..width].copy_from_slice(&OLD[own.clone()]);
            let mut stored = OLD;
            stored[own].copy_from_slice(&NEW[..width]);
            let (address, bytes) = (8 + offset as u64, width as u64);

            let (mut unit, mut memory) = guest();
            memory[12 * 512 + 1] = u64::from_le_bytes(OLD);
            assert_eq!(unit.load(&mut memory, address, bytes), value(u64::from_le_bytes(loaded), 4, 1));
            let mut after = memory.clone();
            after[12 * 512 + 1] = u64::from_le_bytes(stored);
            let mut device = (unit, memory.clone());
            let done = Answer::Done { references: 4, exits: 0 };
            assert_eq!(unit.store(&mut memory, address, bytes, u64::from_le_bytes(NEW)), done);
            assert_eq!(memory, after);
            // Guest frame 4 is that page.
            let at = 0x4000 + address;
            assert_eq!(device.0.device_store(&mut device.1, at, bytes, u64::from_le_bytes(NEW)), done);
            assert_eq!(device.1, after);
        }
    }
}

/// Addresses that are no multiples of the width.
#[test]
fn no_multiples() {
    let (mut unit, mut memory) = guest();
    for width in [2, 4, 8] {
        for offset in (0..16).filter(|offset| offset % width != 0) {
            assert_eq!(unit.load(&mut memory, offset, width), refused(4));
            assert_eq!(unit.store(&mut memory, offset, width, 1), refused(4));
            assert_eq!(unit.device_store(&mut memory, 0x4000 + offset, width, 1), refused(4));
        }
    }
}

/// A store to any byte of an entry that a held path read drops the path, also where no walk reads the byte.
#[test]
fn bytes_of_an_entry() {
    for offset in 0..8 {
        let (mut unit, mut memory) = guest();
        let byte = memory[11 * 512].to_le_bytes()[offset as usize];
        assert_eq!(unit.load(&mut memory, 0, 8), value(0, 4, 1));
        assert_eq!(
            unit.store_u8(&mut memory, 0x4000 + offset, byte),
            Answer::Done { references: 4, exits: 2 }
        );
        assert_eq!(unit.load(&mut memory, 0, 8), value(0, 4, 1));
        assert_eq!(
            unit.device_store_u8(&mut memory, 0x3000 + offset, byte),
            Answer::Done { references: 4, exits: 1 }
        );
        assert_eq!(unit.load(&mut memory, 0, 8), value(0, 4, 1));
    }
}

/// The record has the choices, and no call changes them.
#[test]
fn choices() {
    let mut memory = vec![0; 16 * 512];
    assert_eq!(Record::open(&mut memory, 4, 4), Record::open_with(&mut memory, 4, 4, Choices::default()));
    for (bits, automatic) in [(false, false), (true, false), (false, true), (true, true)] {
        let (mut unit, mut memory) = guest_with(Choices { bits, automatic });
        let chosen = (u64::from(bits), u64::from(automatic));
        assert_eq!((unit.head.bits, unit.head.choice.on), chosen);
        unit.set_mark(&mut memory, 0x20_0000, 1);
        unit.store(&mut memory, 0, 8, 1);
        unit.load(&mut memory, 0x20_0000, 8);
        unit.unmap(&mut memory, 4);
        assert_eq!((unit.head.bits, unit.head.choice.on), chosen);
    }
    assert_eq!(Record::open_with(&mut [], 4, 4, BITS), Err(Refusal(1)));
    assert_eq!(Record::open_with(&mut vec![0; 8 * 512], 4, 4, BITS), Err(Refusal(2)));
}

/// The entries of address 0 at their four levels.
fn entries(memory: &[u64]) -> [u64; 4] {
    [8, 9, 10, 11].map(|frame| memory[frame * 512])
}

/// Accessed and dirty bits. A load sets bit 5 at each level, a store bit 6 at level 1; the path that the load filled forbids
/// stores, so that the first one fills it anew.
#[test]
fn bits() {
    let (mut unit, mut memory) = guest_with(BITS);
    assert_eq!(unit.load(&mut memory, 8, 8), value(0, 4, 1));
    assert_eq!(entries(&memory), [0x1023, 0x2023, 0x3023, 0x4023]);
    assert_eq!(unit.store(&mut memory, 8, 8, 7), Answer::Done { references: 4, exits: 1 });
    assert_eq!(entries(&memory), [0x1023, 0x2023, 0x3023, 0x4063]);
    assert_eq!(unit.store(&mut memory, 8, 8, 8), Answer::Done { references: 4, exits: 0 });
    // A fault sets none: P, H, A.
    let before = memory[8 * 512..].to_vec();
    assert_eq!(unit.store(&mut memory, 0x1000, 8, 1), fault(Fault::Protected { level: 1 }, 20, 1));
    assert_eq!(unit.load(&mut memory, 0x2000, 8), fault(Fault::HostAbsent { frame: 8 }, 24, 1));
    assert_eq!(unit.load(&mut memory, 0x3000, 8), fault(Fault::Absent { level: 1 }, 20, 1));
    assert_eq!(memory[8 * 512..], before);
    // Page 4 is the table of level 1, and the word at 0x4020 the entry by which it is found.
    assert_eq!(unit.load(&mut memory, 0x4020, 8), value(0x3023, 4, 1));
    // Of a table that is read-only, entry 1 lacks its bit and entry 0 does not.
    assert_eq!(unit.map(&mut memory, 3, 11, false), Answer::Ok);
    let read_only = |references, exits| fault(Fault::HostReadOnly { frame: 3 }, references, exits);
    assert_eq!(unit.load(&mut memory, 0x1000, 8), read_only(24, 1));
    assert_eq!(unit.store(&mut memory, 8, 8, 9), Answer::Done { references: 4, exits: 1 });
    // At depth 1 that is the direct part's. A fault on a path not held fills nothing.
    assert_eq!(unit.set_mark(&mut memory, 0, 1), Answer::Ok);
    assert_eq!(unit.load(&mut memory, 0x1000, 8), read_only(24, 2));
    assert_eq!(unit.load(&mut memory, 0x1000, 8), read_only(24, 2));
    assert_eq!(unit.load(&mut memory, 8, 8), value(9, 8, 1));
    assert_eq!(unit.load(&mut memory, 0x1000, 8), read_only(8, 1));
    // A device sets none and needs none.
    assert_eq!(unit.device_store(&mut memory, 0x4000, 8, 1), Answer::Done { references: 4, exits: 0 });
    assert_eq!(entries(&memory), [0x1023, 0x2023, 0x3023, 0x4063]);
}

/// One of the operator's, without charges.
fn mark(address: u64, level: u64) -> Mark {
    Mark { address, level, kind: Kind::Operator, charges: 0 }
}

fn automatic(address: u64, charges: u64) -> Mark {
    Mark { kind: Kind::Automatic, charges, ..mark(address, 1) }
}

fn listed(unit: &Record) -> Vec<Mark> {
    unit.marks().collect()
}

/// In the order of their places. The address of each is the lowest that it holds for, and names it.
#[test]
fn marks_listed() {
    let (mut unit, mut memory) = guest();
    assert_eq!(listed(&unit), []);
    let last = 0xFFFF_FFFF_FFFF_FFFF;
    for (address, level) in [(UPPER, 3), (last, 1), (0x20_0FFF, 1), (last, 2), (last, 3), (5, 2), (last, 5)] {
        assert_eq!(unit.set_mark(&mut memory, address, level), Answer::Ok);
    }
    let expected = [
        mark(0, 2),
        mark(0, 5),
        mark(0x20_0000, 1),
        mark(UPPER, 3),
        mark(0xFFFF_FF80_0000_0000, 3),
        mark(0xFFFF_FFFF_C000_0000, 2),
        mark(0xFFFF_FFFF_FFE0_0000, 1),
    ];
    assert_eq!(listed(&unit), expected);
    for Mark { address, level, .. } in expected {
        assert_eq!(unit.set_mark(&mut memory, address, level), refused(6));
        assert_eq!(unit.clear_mark(&mut memory, address, level), Answer::Ok);
    }
    assert_eq!(listed(&unit), []);
}

/// A page is loaded and then its entry stored, as the table of level 1 is page 4. Each store drops the page's path, for an exit;
/// the first one also fills its own. Three times: by the last one the table has a mark, if the choice is on.
fn rewrite_thrice(unit: &mut Record, memory: &mut [u64]) {
    for first in [1, 0, 0] {
        assert_eq!(unit.load(memory, 0, 8), value(0, 4, 1));
        let done = Answer::Done { references: 4, exits: first + 1 };
        assert_eq!(unit.store(memory, 0x4000, 8, 0x4003), done);
    }
}

#[test]
fn a_table_written_often() {
    let (mut unit, mut memory) = guest_with(AUTOMATIC);
    rewrite_thrice(&mut unit, &mut memory);
    assert_eq!(listed(&unit), [automatic(0, 3)]);
    assert_eq!(unit.depth(0x4000), Lookup { depth: 1, read: 1 });
    // A forecast goes by it. A store to the table costs no exit now, and is charged to nobody.
    assert_eq!(unit.forecast(&memory, &[0, 0x4000]), figures(16, 1, 3));
    assert_eq!(unit.load(&mut memory, 0, 8), value(0, 8, 1));
    assert_eq!(unit.store(&mut memory, 0x4000, 8, 0x4003), Answer::Done { references: 8, exits: 0 });
    assert_eq!(unit.load(&mut memory, 0, 8), value(0, 8, 0));
    assert_eq!(listed(&unit), [automatic(0, 3)]);
    // It is not the operator's to clear, until the operator sets it. That drops its path.
    assert_eq!(unit.clear_mark(&mut memory, 0, 1), refused(6));
    assert_eq!(unit.load(&mut memory, 0, 8), value(0, 8, 0));
    assert_eq!(unit.set_mark(&mut memory, 0, 1), Answer::Ok);
    assert_eq!(listed(&unit), [Mark { charges: 3, ..mark(0, 1) }]);
    assert_eq!(unit.load(&mut memory, 0, 8), value(0, 8, 1));
    assert_eq!(unit.set_mark(&mut memory, 0, 1), refused(6));
    assert_eq!(unit.clear_mark(&mut memory, 0, 1), Answer::Ok);
    assert_eq!(unit.clear_mark(&mut memory, 0, 1), refused(6));
    assert_eq!(listed(&unit), []);
    // The charges are in the window still, so that one more is enough.
    assert_eq!(unit.load(&mut memory, 0, 8), value(0, 4, 1));
    assert_eq!(unit.store(&mut memory, 0x4000, 8, 0x4003), Answer::Done { references: 4, exits: 2 });
    assert_eq!(listed(&unit), [automatic(0, 4)]);
    // A root load empties the window, and leaves the mark.
    assert_eq!(unit.root(&mut memory, 0), Answer::Ok);
    assert_eq!(listed(&unit), [automatic(0, 0)]);
}

/// With the choice off each store costs its exits, and the record keeps nothing of them.
#[test]
fn a_table_written_often_without_the_choice() {
    let (mut unit, mut memory) = guest();
    rewrite_thrice(&mut unit, &mut memory);
    for _ in 0..100 {
        assert_eq!(unit.load(&mut memory, 0, 8), value(0, 4, 1));
        assert_eq!(unit.store(&mut memory, 0x4000, 8, 0x4003), Answer::Done { references: 4, exits: 1 });
    }
    assert_eq!(listed(&unit), []);
    assert_eq!((unit.head.choice, unit.ring, unit.order), (Record::zeros().head.choice, [0; 64], [0; 64]));
}

/// The third charge sets a mark only while the first is in the window: so many loads between them. A faulting load is one of
/// them; a refused one, a device store and a forecast are not.
#[test]
fn the_window() {
    for (between, charges) in [(0, 3), (59, 3), (60, 2), (61, 2), (62, 1)] {
        let (mut unit, mut memory) = guest_with(AUTOMATIC);
        let mut charge = |unit: &mut Record| {
            assert!(matches!(unit.load(&mut memory, 0, 8), Answer::Value { .. }));
            assert!(matches!(unit.store(&mut memory, 0x4000, 8, 0x4003), Answer::Done { .. }));
        };
        charge(&mut unit);
        charge(&mut unit);
        let mut others = vec![0; memory.len()];
        for number in 0..between {
            assert_eq!(unit.load(&mut memory, 0x3000, 8), fault(Fault::Absent { level: 1 }, 20, 1));
            assert_eq!(unit.load(&mut memory, 1 << 48, 8), refused(4));
            assert_eq!(unit.load(&mut others[512..], 0, 8), refused(3));
            assert!(matches!(unit.device_store(&mut memory, 0x5000, 8, number), Answer::Done { .. }));
            assert!(matches!(unit.forecast(&memory, &[0; 100]), Answer::Figures { .. }));
        }
        assert!(matches!(unit.load(&mut memory, 0, 8), Answer::Value { .. }));
        assert!(matches!(unit.store(&mut memory, 0x4000, 8, 0x4003), Answer::Done { .. }));
        assert_eq!(unit.head.choice.charged.count_ones(), charges);
        assert_eq!(listed(&unit), if charges == 3 { vec![automatic(0, 3)] } else { vec![] });
    }
}

/// Of 64 marks one is automatic. The operator's next mark takes its place; then none has room, whether the operator or the
/// unit would set it.
#[test]
fn all_marks_set() {
    let (mut unit, mut memory) = guest_with(AUTOMATIC);
    let far = |number: u64| UPPER + (number << 21);
    rewrite_thrice(&mut unit, &mut memory);
    for number in 0..63 {
        assert_eq!(unit.set_mark(&mut memory, far(number), 1), Answer::Ok);
    }
    assert_eq!(listed(&unit)[..2], [automatic(0, 3), mark(far(0), 1)]);
    // One that is set, and one of no level: nothing makes room for them.
    assert_eq!(unit.set_mark(&mut memory, far(5), 1), refused(6));
    assert_eq!(unit.set_mark(&mut memory, far(5), 6), refused(5));
    assert_eq!(listed(&unit).len(), 64);
    assert_eq!(unit.set_mark(&mut memory, far(63), 1), Answer::Ok);
    let all: Vec<Mark> = (0..64).map(|number| mark(far(number), 1)).collect();
    assert_eq!(listed(&unit), all);
    assert_eq!(unit.set_mark(&mut memory, far(64), 1), refused(7));
    rewrite_thrice(&mut unit, &mut memory);
    assert_eq!(listed(&unit), all);
    // With a place free the next charge sets it.
    assert_eq!(unit.clear_mark(&mut memory, far(63), 1), Answer::Ok);
    assert_eq!(unit.load(&mut memory, 0, 8), value(0, 4, 1));
    assert_eq!(unit.store(&mut memory, 0x4000, 8, 0x4003), Answer::Done { references: 4, exits: 1 });
    assert_eq!(listed(&unit)[..2], [automatic(0, 7), mark(far(0), 1)]);
}

/// Of 64 marks three are automatic, and none has a charge. The operator's next ones take their places in the order in which they
/// were set, whatever their addresses; one that was taken over, cleared and set again is the last.
#[test]
fn the_oldest_makes_room() {
    let charge = |unit: &mut Record, memory: &mut [u64], page: u64| {
        assert!(matches!(unit.load(memory, page, 8), Answer::Value { .. }));
        assert!(matches!(unit.store(memory, 0x20_4000, 8, 0x4003), Answer::Done { .. }));
    };
    for again in [false, true] {
        let (mut unit, mut memory) = guest_with(AUTOMATIC);
        assert_eq!(
            unit.device_store(&mut memory, 0x2010, 8, 0x3003),
            Answer::Done { references: 4, exits: 0 }
        );
        let mut order = [0x20_0000, 0, 0x40_0000];
        for page in order {
            (0..3).for_each(|_| charge(&mut unit, &mut memory, page));
        }
        if again {
            assert_eq!(unit.set_mark(&mut memory, order[0], 1), Answer::Ok);
            assert_eq!(unit.clear_mark(&mut memory, order[0], 1), Answer::Ok);
            charge(&mut unit, &mut memory, order[0]);
            order.rotate_left(1);
        }
        assert_eq!(unit.root(&mut memory, 0), Answer::Ok);
        let far = |number: u64| UPPER + (number << 21);
        for number in 0..61 {
            assert_eq!(unit.set_mark(&mut memory, far(number), 1), Answer::Ok);
        }
        for (number, gone) in (61..).zip(0..order.len()) {
            let mut left = order[gone..].to_vec();
            left.sort();
            let left: Vec<Mark> = left.into_iter().map(|page| automatic(page, 0)).collect();
            assert_eq!(listed(&unit)[..left.len()], left);
            assert_eq!(listed(&unit).len(), 64);
            assert_eq!(unit.set_mark(&mut memory, far(number), 1), Answer::Ok);
        }
        assert_eq!(listed(&unit)[0], mark(far(0), 1));
        assert_eq!(unit.set_mark(&mut memory, far(64), 1), refused(7));
    }
}

/// 16 goes before 14 and after 3.
#[test]
fn no_forecast_with_bits() {
    let (unit, memory) = guest_with(BITS);
    for list in [&[][..], &[0], &[4], &[0; 256], &[0; 257]] {
        assert_eq!(unit.forecast(&memory, list), refused(16));
        assert_eq!(unit.forecast(&memory[512..], list), refused(3));
    }
    let mut broken = unit;
    broken.head.bits = 2;
    assert_eq!(broken.forecast(&memory, &[0; 257]), refused(3));
}

/// The calls of one width are the calls with that width.
macro_rules! same_calls {
    ($load:ident, $store:ident, $device_store:ident, $word:ty, $width:literal) => {
        let (unit, memory) = guest();
        let new = u64::from_le_bytes(NEW);
        let low = new as $word;
        let (mut one, mut its) = (unit, memory.clone());
        let (mut other, mut others) = (unit, memory);
        for address in [8, 8 + $width, 0x1000, 0x3000, 1 << 48, 9] {
            assert_eq!(one.$store(&mut its, address, low), other.store(&mut others, address, $width, new));
            assert_eq!(
                one.$device_store(&mut its, 0x4010 + address, low),
                other.device_store(&mut others, 0x4010 + address, $width, new)
            );
            let same = match other.load(&mut others, address, $width) {
                Answer::Value { word, references, exits } => {
                    Answer::Value { word: <$word>::try_from(word).unwrap(), references, exits }
                }
                Answer::Fault { fault, references, exits } => Answer::Fault { fault, references, exits },
                Answer::Refused(refusal) => Answer::Refused(refusal),
                _ => unreachable!("no answer to a load"),
            };
            assert_eq!(one.$load(&mut its, address), same);
        }
        assert_eq!((one, its), (other, others));
    };
}

#[test]
fn calls_of_one_width() {
    same_calls!(load_u8, store_u8, device_store_u8, u8, 1);
    same_calls!(load_u16, store_u16, device_store_u16, u16, 2);
    same_calls!(load_u32, store_u32, device_store_u32, u32, 4);
    same_calls!(load_u64, store_u64, device_store_u64, u64, 8);
}

/// Every call but the opening through the archive's own functions, each on a copy of the record, with an address, a
/// width and a guest frame; a forecast of more addresses than it takes. The record after each, and the kind and number of its answer.
///
/// # Safety
/// The pointer is to so many words, or there are none.
unsafe fn every_call(
    record: &Record,
    memory: *mut u64,
    words: usize,
    address: u64,
    width: u64,
    guest: u64,
) -> [(Record, (u64, u64)); 9] {
    let list = [address; 257];
    // On a copy of the record.
    macro_rules! call {
        ($function:ident($($number:expr),*)) => {{
            let mut after = *record;
            let Record { head, place, ring, order } = &mut after;
            let said = raw::$function(head, place, ring, order, memory, words, $($number),*);
            (after, (said.kind, said.number))
        }};
    }
    [
        call!(cangrieb_load(address, width)),
        call!(cangrieb_store(address, width, 1)),
        call!(cangrieb_device_store(address, width, 1)),
        call!(cangrieb_root(guest)),
        call!(cangrieb_map(guest, 8, true)),
        call!(cangrieb_unmap(guest)),
        call!(cangrieb_set_mark(address, 1)),
        call!(cangrieb_clear_mark(address, 1)),
        call!(cangrieb_forecast(list.as_ptr(), list.len())),
    ]
}

/// A lent memory of no words is refused: with 1 by an opening, with 3 by every other call. The pointer may be null.
#[test]
fn no_memory() {
    let (unit, _) = guest();
    let null = std::ptr::null_mut();
    for record in [unit, Record::zeros()] {
        // No word is lent, so that no pointer is followed.
        for (after, said) in unsafe { every_call(&record, null, 0, 0, 3, 0) } {
            assert_eq!(said, (4, 3));
            assert_eq!(after, record);
        }
    }
}

/// A refused opening sets the record to 0. A granted one leaves nothing of it either.
#[test]
fn any_record_to_open() {
    let (unit, mut memory) = guest();
    for choices in [Choices::default(), BITS, AUTOMATIC] {
        let Choices { bits, automatic } = choices;
        for (words, said) in [(0, (4, 1)), (memory.len(), (0, 0))] {
            let mut after = Record { place: [7; 64], ring: [8; 64], order: [9; 64], ..unit };
            after.head.choice.at = 5;
            let Record { head, place, ring, order } = &mut after;
            let lent = if words == 0 { std::ptr::null_mut() } else { memory.as_mut_ptr() };
            let opened =
                unsafe { raw::cangrieb_open(head, place, ring, order, lent, words, 4, 4, bits, automatic) };
            assert_eq!((opened.kind, opened.number), said);
            let expected = if words == 0 { Ok(Record::zeros()) } else { open_anew(choices) };
            assert_eq!(Ok(after), expected);
        }
    }
}

fn open_anew(choices: Choices) -> Result<Record, Refusal> {
    Record::open_with(&mut vec![0; 16 * 512], 4, 4, choices)
}

/// Any other refusal leaves the record and the memory.
#[test]
fn refused_calls() {
    let (mut unit, mut memory) = guest();
    assert_eq!(unit.set_mark(&mut memory, 0x20_0000, 1), Answer::Ok);
    assert_eq!(unit.load(&mut memory, 0, 8), value(0, 4, 1));
    let before = memory.clone();
    // Neither the address nor the guest frame is one, and the width need not be one either.
    for address in [1 << 48, UPPER - 8] {
        for (width, number) in [(8, 4), (1, 4), (3, 15), (0, 15), (16, 15), (1 << 32 | 8, 15), (u64::MAX, 15)]
        {
            let calls =
                unsafe { every_call(&unit, memory.as_mut_ptr(), memory.len(), address, width, 1 << 36) };
            let numbers = [number, number, number, 8, 8, 8, 4, 4, 14].map(|number| (4, number));
            assert_eq!(calls.map(|(_, said)| said), numbers);
            assert!(calls.iter().all(|(after, _)| *after == unit));
        }
    }
    let mut after = unit;
    assert_eq!(after.set_mark(&mut memory, 0, 6), refused(5));
    assert_eq!(after.set_mark(&mut memory, 0x20_0000, 1), refused(6));
    assert_eq!(after.clear_mark(&mut memory, 0, 1), refused(6));
    assert_eq!(after, unit);
    assert_eq!(memory, before);
}

#[test]
fn refused_openings() {
    assert_eq!(Record::open(&mut [], 4, 4), Err(Refusal(1)));
    assert_eq!(Record::open(&mut [0; 511], 4, 4), Err(Refusal(1)));
    assert_eq!(Record::open(&mut vec![0; 8 * 512], 4, 4), Err(Refusal(2)));
    assert_eq!(Record::open(&mut vec![0; 16 * 512], 3, 4), Err(Refusal(2)));
    assert_eq!(Record::open(&mut vec![0; 16 * 512], u64::MAX, 5), Err(Refusal(2)));
    assert_eq!(Record::open(&mut vec![0; 65_537 * 512], 4, 4), Err(Refusal(1)));
    assert!(Record::open(&mut vec![0; 65_536 * 512], 4, 4).is_ok());
}

/// Every call on these records is refused with 3, and changes nothing.
fn assert_broken(records: &[Record], memory: &mut [u64]) {
    let before = memory.to_vec();
    for record in records {
        for (after, said) in unsafe { every_call(record, memory.as_mut_ptr(), memory.len(), 0, 3, 0) } {
            assert_eq!(said, (4, 3), "{record:?}");
            assert_eq!(after, *record);
        }
    }
    assert_eq!(memory, before);
}

/// A record that nothing opened, a mark out of order, a held frame that is none, other sizes, no top host table, a top
/// shadow table before and after its area, a choice that is neither on nor off, automatic marks and charges with the
/// choice off. Another length of memory.
#[test]
fn broken_records() {
    let (unit, mut memory) = guest();
    let mut broken = [unit; 16];
    broken[0] = Record::zeros();
    broken[1].head.set = 3;
    broken[2].head.held = 3;
    broken[3].head.frames += 1;
    broken[4].head.levels = 5;
    broken[5].head.host.top = 0;
    broken[6].head.shadow.top = 3 << 12 | 1;
    broken[7].head.shadow.top = 8 << 12 | 1;
    broken[8].head.bits = 2;
    broken[9].head.bits = 1 << 63 | 1;
    broken[10].head.choice.on = 2;
    broken[11].head.choice.on = 1 << 63 | 1;
    broken[12].head.choice.charged = 1;
    broken[13].head.choice.charged = 1 << 63;
    broken[14].head.choice.count = 1;
    // Of a mark that could be automatic.
    broken[15].head.set = 1;
    broken[15].place[0] = 1;
    broken[15].head.choice.count = 1;
    assert_broken(&broken, &mut memory);
    let mut after = unit;
    assert_eq!(after.load(&mut memory[512..], 0, 8), refused(3));
    assert_eq!(after, unit);
}

/// With the choice on, the automatic marks must be marks of level 1 that are set, each once. At place 0 is one, at place 1 the
/// operator's of level 2.
#[test]
fn broken_automatic_marks() {
    let (mut unit, mut memory) = guest_with(AUTOMATIC);
    rewrite_thrice(&mut unit, &mut memory);
    assert_eq!(unit.set_mark(&mut memory, UPPER, 2), Answer::Ok);
    assert_eq!(listed(&unit), [automatic(0, 3), mark(UPPER, 2)]);
    assert_eq!((unit.head.choice.count, unit.order[0]), (1, 0));
    // The choice neither on nor off, or off all the same; too many; the first one of another level, not set, no place; the
    // second one the first once more, and of another level.
    let mut broken = [unit; 12];
    broken[0].head.choice.on = 2;
    broken[1].head.choice.on = 0;
    broken[2].head.choice.count = 65;
    broken[3].head.choice.count = 1 << 32 | 1;
    broken[4].head.choice.count = u64::MAX;
    broken[5].order[0] = 1;
    broken[6].order[0] = 2;
    broken[7].order[0] = 64;
    broken[8].order[0] = u64::MAX;
    broken[9].order[0] = 1 << 32;
    broken[10].head.choice.count = 2;
    broken[10].order[1] = 0;
    broken[11].head.choice.count = 2;
    broken[11].order[1] = 1;
    assert_broken(&broken, &mut memory);
    // What is nobody's breaks no rule: the order behind the automatic marks, the ring, where it is written next.
    let mut other = unit;
    other.order[1..].fill(u64::MAX);
    other.ring.iter_mut().for_each(|word| *word ^= u64::MAX << 27);
    other.head.choice.at ^= 64;
    assert_eq!(listed(&other), listed(&unit));
    assert_eq!(other.load(&mut memory, 0, 8), value(0, 8, 1));
    assert_eq!(other.root(&mut memory, 0), Answer::Ok);
    assert_eq!(listed(&other), [automatic(0, 0), mark(UPPER, 2)]);
}

/// What a monitor prints.
#[test]
fn texts() {
    assert_eq!(Refusal(12).to_string(), "refused with 12: the guest frame is not mapped");
    assert_eq!(Fault::HostAbsent { frame: 8 }.to_string(), "H: guest frame 8 is not mapped");
    assert_eq!(Fault::HostReadOnly { frame: 3 }.to_string(), "W: guest frame 3 is mapped read-only");
    let texts: Vec<String> = (1..=12).chain(14..=16).map(|number| Refusal(number).to_string()).collect();
    assert!(texts.iter().all(|text| !text.contains("no number")));
    assert!([13, 17].iter().all(|number| Refusal(*number).to_string().contains("no number")));
}
