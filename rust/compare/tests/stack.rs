//! How much stack a call takes, for who links the unit into a kernel: each call runs on a stack of its own that was painted
//! before, and the deepest word that changed is looked up. What a thread takes for itself is measured first.

use std::ffi::c_void;

use cangrieb::{Choices, Kind, Record};

/// The bound that the C header names.
const MOST: usize = 8 * 1024;

const PAINT: u64 = 0xa5a5_5a5a_a5a5_5a5a;
const WORDS: usize = 64 * 1024;

#[repr(C, align(16))]
struct Attributes([u64; 8]);

extern "C" {
    fn pthread_attr_init(attributes: *mut Attributes) -> i32;
    fn pthread_attr_setstack(attributes: *mut Attributes, stack: *mut c_void, size: usize) -> i32;
    fn pthread_create(
        thread: *mut usize,
        attributes: *const Attributes,
        start: extern "C" fn(*mut c_void) -> *mut c_void,
        argument: *mut c_void,
    ) -> i32;
    fn pthread_join(thread: usize, value: *mut *mut c_void) -> i32;
}

extern "C" fn start(argument: *mut c_void) -> *mut c_void {
    let run = unsafe { &mut *(argument as *mut &mut dyn FnMut()) };
    run();
    std::ptr::null_mut()
}

/// Bytes of stack used by a thread that runs this.
fn used(mut run: &mut dyn FnMut()) -> usize {
    let mut stack = vec![PAINT; WORDS + 512];
    let from = stack.as_ptr().align_offset(4096);
    unsafe {
        let mut attributes = Attributes([0; 8]);
        let mut thread = 0;
        assert_eq!(pthread_attr_init(&mut attributes), 0);
        assert_eq!(pthread_attr_setstack(&mut attributes, stack[from..].as_mut_ptr().cast(), WORDS * 8), 0);
        let argument: *mut &mut dyn FnMut() = &mut run;
        assert_eq!(pthread_create(&mut thread, &attributes, start, argument.cast()), 0);
        assert_eq!(pthread_join(thread, std::ptr::null_mut()), 0);
    }
    let untouched = stack[from..].iter().take_while(|word| **word == PAINT).count();
    assert!(untouched > 0, "the stack was too small");
    (WORDS - untouched) * 8
}

#[test]
fn calls_stay_within_the_bound() {
    let mut most = most_used(Choices::default());
    println!("With accessed and dirty bits:");
    most = most.max(most_used(Choices { bits: true, ..Choices::default() }));
    println!("With the automatic choice:");
    most = most.max(most_used(Choices { automatic: true, ..Choices::default() }));
    println!("With both:");
    most = most.max(most_used(Choices { bits: true, automatic: true }));
    assert!(most > 0 && most <= MOST, "{most} bytes of stack");
}

/// Where marks are set that fill the places, and another prefix that is charged.
const UPPER: u64 = 0xFFFF_8000_0000_0000;
const FAR: u64 = 1 << 39;
/// In a page of 1 GiB, by index 256 of level 3.
const LARGE: u64 = 256 << 30;

/// The addresses of the automatic marks.
fn automatic(unit: &Record) -> impl Iterator<Item = u64> + '_ {
    unit.marks().filter(|mark| mark.kind == Kind::Automatic).map(|mark| mark.address)
}

/// The most that any of the calls takes.
fn most_used(choices: Choices) -> usize {
    let thread = used(&mut || ());
    let mut memory = vec![0; 64 * 512];
    // Each entry of the guest's one table names it again, so that every address has its word.
    memory[16 * 512..17 * 512].fill(3);
    let near: Vec<u64> = (0..256).map(|page| page << 12).collect();
    // Of these any three need more than eight shadow tables.
    let far: Vec<u64> = (0..256).map(|index| (index % 128) << 39).collect();
    let mut unit = None;
    let mut most = 0;
    let mut take = |name: &str, bytes: usize| {
        println!("{name} {}", bytes - thread);
        most = most.max(bytes - thread);
    };
    take("open", used(&mut || unit = Record::open_with(&mut memory, 8, 8, choices).ok()));
    let mut unit = unit.unwrap();
    take(
        "map",
        used(&mut || {
            unit.map(&mut memory, 0, 16, true);
        }),
    );
    take(
        "root",
        used(&mut || {
            unit.root(&mut memory, 0);
        }),
    );
    take(
        "device store",
        used(&mut || {
            unit.device_store(&mut memory, 0, 8, 3);
        }),
    );
    take(
        "load, filled",
        used(&mut || {
            unit.load(&mut memory, 0, 8);
        }),
    );
    take(
        "load, held",
        used(&mut || {
            unit.load(&mut memory, 0, 8);
        }),
    );
    take(
        "load of a byte, held",
        used(&mut || {
            unit.load(&mut memory, 7, 1);
        }),
    );
    // With bits the first one fills the path anew; each is into a frame that is watched.
    for name in ["store, held", "store, held, once more"] {
        take(
            name,
            used(&mut || {
                unit.store(&mut memory, 8, 8, 3);
            }),
        );
    }
    take(
        "forecast",
        used(&mut || {
            unit.forecast(&memory, &near);
        }),
    );
    take(
        "forecast that overflows",
        used(&mut || {
            unit.forecast(&memory, &far);
        }),
    );
    take(
        "set mark",
        used(&mut || {
            unit.set_mark(&mut memory, 0, 2);
        }),
    );
    take(
        "depth",
        used(&mut || {
            unit.depth(0);
        }),
    );
    take(
        "load, at depth 2",
        used(&mut || {
            unit.load(&mut memory, 0, 8);
        }),
    );
    take(
        "forecast, at depth 2",
        used(&mut || {
            unit.forecast(&memory, &near);
        }),
    );
    take(
        "clear mark",
        used(&mut || {
            unit.clear_mark(&mut memory, 0, 2);
        }),
    );
    take(
        "load",
        used(&mut || {
            unit.load(&mut memory, 0, 8);
        }),
    );
    take(
        "store that drops",
        used(&mut || {
            unit.store(&mut memory, 0, 8, 3);
        }),
    );
    take(
        "load, filled again",
        used(&mut || {
            unit.load(&mut memory, 0, 8);
        }),
    );
    take(
        "device store of a byte that drops",
        used(&mut || {
            unit.device_store(&mut memory, 7, 1, 0);
        }),
    );
    take(
        "store of a byte that fills and drops",
        used(&mut || {
            unit.store(&mut memory, 7, 1, 0);
        }),
    );
    // With the automatic choice this is the third charge, and sets a mark.
    take(
        "store that fills, drops and sets a mark",
        used(&mut || {
            unit.store(&mut memory, 0, 8, 3);
        }),
    );
    assert!(automatic(&unit).eq(choices.automatic.then_some(0)));
    // The operator's marks take the other places. The third charge of another prefix clears the first one's mark, and a mark of
    // the operator's clears this one.
    for number in 0..63 {
        unit.set_mark(&mut memory, UPPER + (number << 21), 1);
    }
    for name in ["store that drops", "the same, second charge", "the same, which clears and sets marks"] {
        take(
            name,
            used(&mut || {
                unit.store(&mut memory, FAR, 8, 3);
            }),
        );
    }
    assert!(automatic(&unit).eq(choices.automatic.then_some(FAR)));
    take(
        "set mark that clears another",
        used(&mut || {
            unit.set_mark(&mut memory, UPPER + (63 << 21), 1);
        }),
    );
    assert_eq!(automatic(&unit).count(), 0);
    take(
        "marks, 64 of them",
        used(&mut || {
            unit.marks().count();
        }),
    );
    // The one table is also of large pages then, by all but its first entries: 1 GiB from frame 0 on.
    memory[16 * 512 + 256..17 * 512].fill(0x83);
    for index in [0, 62] {
        unit.clear_mark(&mut memory, UPPER + (index << 21), 1);
    }
    for (name, level) in [("load of a large page, filled", 1), ("load of a large page, direct", 3)] {
        unit.set_mark(&mut memory, LARGE, level);
        take(
            name,
            used(&mut || {
                unit.load(&mut memory, LARGE, 8);
            }),
        );
    }
    take(
        "store to a large page",
        used(&mut || {
            unit.store(&mut memory, LARGE, 8, 3);
        }),
    );
    take(
        "unmap",
        used(&mut || {
            unit.unmap(&mut memory, 0);
        }),
    );
    most
}
