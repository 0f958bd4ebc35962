//! Makes one of the main calls so many times, for callgrind to count: `count CASE CALLS`. `count` alone names the cases.
//! tests/counts.rs counts what runs from entry to return of the functions of `counted`, and nothing around them.

use cangrieb::{Answer, Choices, Kind, Lookup, Record};

/// One call of the wrapper each. As they are exported, they are compiled for any arguments and callers, not for those here.
mod counted {
    use cangrieb::{Answer, Lookup, Record};

    #[export_name = "counted_depth"]
    #[inline(never)]
    pub fn depth(unit: &Record, address: u64) -> Lookup {
        unit.depth(address)
    }

    macro_rules! calls {
        ($($call:ident($($argument:ident: $sort:ty),*);)*) => {$(
            #[export_name = concat!("counted_", stringify!($call))]
            #[inline(never)]
            pub fn $call(unit: &mut Record, memory: &mut [u64] $(, $argument: $sort)*) -> Answer {
                unit.$call(memory $(, $argument)*)
            }
        )*};
    }

    calls! {
        load(address: u64, width: u64);
        store(address: u64, width: u64, value: u64);
        device_store(address: u64, width: u64, value: u64);
        root(guest: u64);
        map(guest: u64, frame: u64, writable: bool);
        unmap(guest: u64);
        set_mark(address: u64, level: u64);
        clear_mark(address: u64, level: u64);
        forecast(addresses: &[u64]);
    }
}

/// A case: its name, the guest it begins with, and what it does each time. That leaves the guest as it was, so that each
/// time costs the same.
type Case = (&'static str, fn() -> Guest, fn(&mut Record, &mut [u64]));

const CASES: [Case; 58] = [
    ("load-depth-0", || held(0, 0), load::<0>),
    ("load-depth-0-marks-8", || held(0, 8), load::<0>),
    ("load-depth-0-marks-62", || held(0, 62), load::<0>),
    ("load-depth-1", || held(1, 0), load::<1>),
    ("load-depth-1-marks-8", || held(1, 8), load::<1>),
    ("load-depth-1-marks-62", || held(1, 62), load::<1>),
    ("load-depth-2", || held(2, 0), load::<2>),
    ("load-depth-2-marks-8", || held(2, 8), load::<2>),
    ("load-depth-2-marks-62", || held(2, 62), load::<2>),
    ("load-depth-3", || held(3, 0), load::<3>),
    ("load-depth-3-marks-8", || held(3, 8), load::<3>),
    ("load-depth-3-marks-62", || held(3, 62), load::<3>),
    ("load-depth-4", || held(4, 0), load::<4>),
    ("load-depth-4-marks-8", || held(4, 8), load::<4>),
    ("load-depth-4-marks-62", || held(4, 62), load::<4>),
    ("load-depth-5", || held(5, 0), load::<5>),
    ("load-depth-5-marks-8", || held(5, 8), load::<5>),
    ("load-depth-5-marks-62", || held(5, 62), load::<5>),
    ("load-depth-0-bits", || held_with_bits(0), load::<0>),
    ("load-depth-1-bits", || held_with_bits(1), load::<1>),
    ("load-depth-4-bits", || held_with_bits(4), load::<4>),
    ("load-depth-5-bits", || held_with_bits(5), load::<5>),
    ("load-depth-0-choice", || held_in(guest_with(SHADOWS, AUTOMATIC), 0, 0), load::<0>),
    ("load-2m-depth-0", || held_large(2, 0), load_large::<4>),
    ("load-2m-mark-1", || held_large(2, 1), load_large::<4>),
    ("load-2m-depth-2", || held_large(2, 2), load_large::<7>),
    ("load-1g-depth-0", || held_large(3, 0), load_large::<4>),
    ("load-1g-mark-1", || held_large(3, 1), load_large::<4>),
    ("load-1g-mark-2", || held_large(3, 2), load_large::<4>),
    ("load-1g-depth-3", || held_large(3, 3), load_large::<6>),
    ("depth-no-mark", || held(0, 0), |unit, _| depth(unit, 0, 0)),
    ("depth-marks-8", || held(0, 8), |unit, _| depth(unit, 0, 8)),
    ("depth-marks-62", || held(0, 62), |unit, _| depth(unit, 0, 62)),
    ("depth-top-and-5", || below_top(1), |unit, _| depth(unit, 5, 5)),
    ("depth-top-and-63", || below_top(59), |unit, _| depth(unit, 5, 5)),
    ("store", || held(0, 0), store::<0>),
    ("store-depth-1", || held(1, 0), store::<1>),
    ("store-depth-4", || held(4, 0), store::<4>),
    ("store-bits", || held_with_bits(0), store::<0>),
    ("store-choice", || held_in(guest_with(SHADOWS, AUTOMATIC), 0, 0), store::<0>),
    ("store-drops", || self_mapped(Choices::default()), store_drops),
    ("store-charged", || self_mapped(AUTOMATIC), store_drops),
    ("store-sets-mark", || self_mapped(AUTOMATIC), store_sets_mark),
    ("device-store", || held(0, 0), device_store),
    ("load-byte", || held(0, 0), load_byte),
    ("store-byte", || held(0, 0), store_byte),
    ("device-store-byte", || held(0, 0), device_store_byte),
    ("root", guest, root),
    ("map-anew", guest, map_anew),
    ("map-unmap", guest, map_unmap),
    ("mark-set-clear", guest, mark_set_clear),
    ("mark-makes-room", three_automatic, mark_makes_room),
    ("root-load-fill", || held(0, 0), root_load_fill),
    ("forecast-256-held", || served(guest(), &near()), |unit, memory| forecast(unit, memory, &near(), 0, 4)),
    ("forecast-256-missing", guest, |unit, memory| forecast(unit, memory, &near(), 256, 4)),
    ("serve-256-missing", || served(guest(), &near()), |unit, memory| serve(unit, memory, &near())),
    ("forecast-256-spread", large_guest, |unit, memory| forecast(unit, memory, &spread(), 256, 85)),
    ("serve-256-spread", || served(large_guest(), &spread()), |unit, memory| serve(unit, memory, &spread())),
];

// What a case does. The answers show that the calls are the ones meant.

const WORD: u64 = 7;
/// The word after it, and the address of its fourth byte.
const NEXT: u64 = 0x8877_6655_4433_2211;
const BYTE_AT: u64 = 11;
const BYTE: u64 = 0x44;

fn load<const DEPTH: u64>(unit: &mut Record, memory: &mut [u64]) {
    let said = counted::load(unit, memory, 0, 8);
    assert_eq!(said, Answer::Value { word: WORD, references: 4 + 4 * DEPTH, exits: 0 });
}

/// Of the page in the large page.
fn load_large<const REFERENCES: u64>(unit: &mut Record, memory: &mut [u64]) {
    let said = counted::load(unit, memory, PAGE << 12, 8);
    assert_eq!(said, Answer::Value { word: WORD, references: REFERENCES, exits: 0 });
}

/// The search alone, by its depth and how many marks it reads.
fn depth(unit: &Record, depth: u64, read: u64) {
    assert_eq!(counted::depth(unit, 0), Lookup { depth, read });
}

fn store<const DEPTH: u64>(unit: &mut Record, memory: &mut [u64]) {
    let said = counted::store(unit, memory, 0, 8, WORD);
    assert_eq!(said, Answer::Done { references: 4 + 4 * DEPTH, exits: 0 });
}

/// To the entry of a page whose path is held, with no charge in the window before. Nothing else is counted.
fn store_drops(unit: &mut Record, memory: &mut [u64]) {
    assert_eq!(unit.root(memory, 0), Answer::Ok);
    hold_table(unit, memory);
    let said = counted::store(unit, memory, TABLE, 8, ENTRY);
    assert_eq!(said, Answer::Done { references: 4, exits: 1 });
}

/// The third such store. The mark that it sets is taken away again.
fn store_sets_mark(unit: &mut Record, memory: &mut [u64]) {
    assert_eq!(unit.root(memory, 0), Answer::Ok);
    for _ in 0..2 {
        hold_table(unit, memory);
        assert_eq!(unit.store(memory, TABLE, 8, ENTRY), Answer::Done { references: 4, exits: 1 });
    }
    hold_table(unit, memory);
    let said = counted::store(unit, memory, TABLE, 8, ENTRY);
    assert_eq!(said, Answer::Done { references: 4, exits: 1 });
    assert_eq!(unit.set_mark(memory, 0, 1), Answer::Ok);
    assert_eq!(unit.clear_mark(memory, 0, 1), Answer::Ok);
}

/// The paths of the page and of its table are held.
fn hold_table(unit: &mut Record, memory: &mut [u64]) {
    for (address, value) in [(0, WORD), (TABLE, ENTRY)] {
        assert!(matches!(unit.load(memory, address, 8), Answer::Value { word, .. } if word == value));
    }
}

fn device_store(unit: &mut Record, memory: &mut [u64]) {
    let said = counted::device_store(unit, memory, PAGE << 12, 8, WORD);
    assert_eq!(said, Answer::Done { references: 4, exits: 0 });
}

fn load_byte(unit: &mut Record, memory: &mut [u64]) {
    let said = counted::load(unit, memory, BYTE_AT, 1);
    assert_eq!(said, Answer::Value { word: BYTE, references: 4, exits: 0 });
}

fn store_byte(unit: &mut Record, memory: &mut [u64]) {
    let said = counted::store(unit, memory, BYTE_AT, 1, BYTE);
    assert_eq!(said, Answer::Done { references: 4, exits: 0 });
}

fn device_store_byte(unit: &mut Record, memory: &mut [u64]) {
    let said = counted::device_store(unit, memory, (PAGE << 12) + BYTE_AT, 1, BYTE);
    assert_eq!(said, Answer::Done { references: 4, exits: 0 });
}

fn root(unit: &mut Record, memory: &mut [u64]) {
    assert_eq!(counted::root(unit, memory, 0), Answer::Ok);
}

fn map(unit: &mut Record, memory: &mut [u64], guest: u64) {
    let said = counted::map(unit, memory, guest, BASE + guest, true);
    assert_eq!(said, Answer::Ok);
}

fn map_anew(unit: &mut Record, memory: &mut [u64]) {
    map(unit, memory, PAGE);
}

/// Of the frame after the guest's last: the host tables stand for the others too, so that none is made or given back.
fn map_unmap(unit: &mut Record, memory: &mut [u64]) {
    map(unit, memory, PAGE + 1);
    assert_eq!(counted::unmap(unit, memory, PAGE + 1), Answer::Ok);
}

fn mark_set_clear(unit: &mut Record, memory: &mut [u64]) {
    assert_eq!(counted::set_mark(unit, memory, 0, 1), Answer::Ok);
    assert_eq!(counted::clear_mark(unit, memory, 0, 1), Answer::Ok);
}

/// The operator's mark finds the table full, and the oldest of three automatic marks with three charges each leaves. Then all three
/// are set anew, in their order.
fn mark_makes_room(unit: &mut Record, memory: &mut [u64]) {
    let more = elsewhere(unit.place.len() as u64);
    assert_eq!(counted::set_mark(unit, memory, more, 1), Answer::Ok);
    assert_eq!(unit.depth(MARKED[0]).depth, 0);
    assert_eq!(unit.clear_mark(memory, more, 1), Answer::Ok);
    for address in &MARKED[1..] {
        assert_eq!(unit.set_mark(memory, *address, 1), Answer::Ok);
        assert_eq!(unit.clear_mark(memory, *address, 1), Answer::Ok);
    }
    set_automatic(unit, memory);
}

/// The root load drops all paths, so that the load fills its own, of four tables.
fn root_load_fill(unit: &mut Record, memory: &mut [u64]) {
    root(unit, memory);
    let said = counted::load(unit, memory, 0, 8);
    assert_eq!(said, Answer::Value { word: WORD, references: 4, exits: 1 });
}

fn forecast(unit: &mut Record, memory: &mut [u64], addresses: &[u64], exits: u64, tables: u64) {
    let said = counted::forecast(unit, memory, addresses);
    assert_eq!(said, Answer::Figures { references: 4 * 256, exits, tables });
}

/// Loads of which none finds its path held. The root load that drops all paths is not counted.
fn serve(unit: &mut Record, memory: &mut [u64], addresses: &[u64]) {
    assert_eq!(unit.root(memory, 0), Answer::Ok);
    for address in addresses {
        let said = counted::load(unit, memory, *address, 8);
        assert_eq!(said, Answer::Value { word: WORD, references: 4, exits: 1 });
    }
}

/// 256 pages of one table of level 1.
fn near() -> [u64; 256] {
    std::array::from_fn(|page| (page as u64) << 12)
}

/// 256 pages under 64 tables of level 1, 16 of level 2 and 4 of level 3: the first four indexes of each level.
fn spread() -> [u64; 256] {
    std::array::from_fn(|page| (0..4).map(|place| (page as u64 >> (2 * place) & 3) << (12 + 9 * place)).sum())
}

// The guest.

const HOSTS: u64 = 16;
const SHADOWS: u64 = 16;
const GUESTS: u64 = 32;
const BASE: u64 = HOSTS + SHADOWS;
const PAGE: u64 = 4;

/// Where the table of level 1 is itself a page, if it is, and the entry that each of its pages has.
const TABLE: u64 = 256 << 12;
const ENTRY: u64 = PAGE << 12 | 3;

const BITS: Choices = Choices { bits: true, automatic: false };
const AUTOMATIC: Choices = Choices { bits: false, automatic: true };

/// Aligned, so that neither arguments nor environment move it and the calls' own places on the stack within a page: the
/// instructions of a copy may depend on where it reads and writes.
#[repr(align(4096))]
struct Guest {
    unit: Record,
    memory: Vec<u64>,
}

/// A guest with one page: its frames 0 to 3 are the tables, 4 is the page, at address 0 and wherever else all indexes are
/// below 256. No mark is set and no path held.
fn guest_with(shadows: u64, choices: Choices) -> Guest {
    let base = HOSTS + shadows;
    let mut memory = vec![0; ((base + GUESTS) * 512) as usize];
    let mut unit = Record::open_with(&mut memory, HOSTS, shadows, choices).unwrap();
    for guest in 0..=PAGE {
        assert_eq!(unit.map(&mut memory, guest, base + guest, true), Answer::Ok);
    }
    for table in 0..PAGE {
        let first = ((base + table) * 512) as usize;
        memory[first..first + 256].fill((table + 1) << 12 | 3);
    }
    let page = ((base + PAGE) * 512) as usize;
    memory[page..page + 2].copy_from_slice(&[WORD, NEXT]);
    assert_eq!(unit.root(&mut memory, 0), Answer::Ok);
    Guest { unit, memory }
}

fn guest() -> Guest {
    guest_with(SHADOWS, Choices::default())
}

/// With room for the shadow tables of `spread`.
fn large_guest() -> Guest {
    guest_with(96, Choices::default())
}

/// The guest with the paths of these addresses held.
fn served(guest: Guest, addresses: &[u64]) -> Guest {
    let Guest { mut unit, mut memory } = guest;
    for address in addresses {
        assert!(matches!(unit.load(&mut memory, *address, 8), Answer::Value { word: WORD, exits: 1, .. }));
    }
    Guest { unit, memory }
}

/// The guest with a mark of level `depth` at its page (0: none) and so many marks elsewhere, and with the page's path
/// held; at depth 5 there is none to hold.
fn held(depth: u64, marks: u64) -> Guest {
    held_in(guest(), depth, marks)
}

/// The same with accessed and dirty bits, all of which are set: no request of the page sets one.
fn held_with_bits(depth: u64) -> Guest {
    let Guest { mut unit, mut memory } = held_in(guest_with(SHADOWS, BITS), depth, 0);
    // At depth 0 this fills the path anew, which the load before it filled while the page was not dirty.
    let exits = u64::from(depth == 0);
    let said = unit.store(&mut memory, 0, 8, WORD);
    assert_eq!(said, Answer::Done { references: 4 + 4 * depth, exits });
    Guest { unit, memory }
}

/// The guest with an entry more, by which the table of level 1 is a page.
fn self_mapped(choices: Choices) -> Guest {
    let Guest { unit, mut memory } = guest_with(SHADOWS, choices);
    let table = PAGE - 1;
    memory[((BASE + table) * 512 + 256) as usize] = table << 12 | 3;
    Guest { unit, memory }
}

/// Where its automatic marks are, the first that is set first.
const MARKED: [u64; 3] = [2 << 21, 1 << 21, 3 << 21];

/// Three charges to each, and none before.
fn set_automatic(unit: &mut Record, memory: &mut [u64]) {
    assert_eq!(unit.root(memory, 0), Answer::Ok);
    for address in MARKED {
        for _ in 0..3 {
            assert!(matches!(unit.load(memory, address, 8), Answer::Value { word: WORD, .. }));
            assert!(matches!(unit.store(memory, TABLE, 8, ENTRY), Answer::Done { .. }));
        }
    }
    assert_eq!(unit.marks().filter(|mark| mark.kind == Kind::Automatic).count(), MARKED.len());
}

/// That guest with these marks and as many of the operator's as there is room for.
fn three_automatic() -> Guest {
    let Guest { mut unit, mut memory } = self_mapped(AUTOMATIC);
    set_automatic(&mut unit, &mut memory);
    for number in MARKED.len()..unit.place.len() {
        assert_eq!(unit.set_mark(&mut memory, elsewhere(number as u64), 1), Answer::Ok);
    }
    Guest { unit, memory }
}

/// Where marks that hold for none of the guest's pages are.
fn elsewhere(number: u64) -> u64 {
    (1 << 40) + (number << 21)
}

/// The guest with large pages of guest frames 0 on in place of the tables below this level, 2 or 3: its page is found at the address
/// that it has as a frame. A mark of level `mark` is there (0: none), and the path is held.
fn held_large(level: u64, mark: u64) -> Guest {
    let Guest { mut unit, mut memory } = guest();
    let first = ((BASE + 4 - level) * 512) as usize;
    memory[first..first + 256].fill(0x83);
    if mark > 0 {
        assert_eq!(unit.set_mark(&mut memory, 0, mark), Answer::Ok);
    }
    assert!(matches!(unit.load(&mut memory, PAGE << 12, 8), Answer::Value { word: WORD, exits: 1, .. }));
    Guest { unit, memory }
}

fn held_in(guest: Guest, depth: u64, marks: u64) -> Guest {
    let Guest { mut unit, mut memory } = guest;
    if depth > 0 {
        assert_eq!(unit.set_mark(&mut memory, 0, depth), Answer::Ok);
    }
    for number in 0..marks {
        assert_eq!(unit.set_mark(&mut memory, elsewhere(number), 1), Answer::Ok);
    }
    assert!(matches!(unit.load(&mut memory, 0, 8), Answer::Value { word: WORD, .. }));
    Guest { unit, memory }
}

/// The guest with marks of all five levels at its page and so many elsewhere. The four lower ones are all that can stand
/// before the one of level 5.
fn below_top(marks: u64) -> Guest {
    let Guest { mut unit, mut memory } = held(5, marks);
    for level in 1..5 {
        assert_eq!(unit.set_mark(&mut memory, 0, level), Answer::Ok);
    }
    Guest { unit, memory }
}

fn main() {
    let arguments: Vec<String> = std::env::args().skip(1).collect();
    let [name, calls] = &arguments[..] else {
        CASES.iter().for_each(|(name, ..)| println!("{name}"));
        return;
    };
    let calls: u64 = calls.parse().expect("a number of calls");
    let (_, guest, step) = CASES.iter().find(|case| case.0 == name).expect("a case");
    let mut guest = guest();
    for _ in 0..calls {
        step(&mut guest.unit, &mut guest.memory);
    }
}
