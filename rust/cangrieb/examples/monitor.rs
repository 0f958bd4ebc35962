//! A monitor in a few lines: a guest of eight frames, its tables, and what its processor asks for; then the same guest with
//! accessed and dirty bits, which its pager looks at; and with the automatic choice, while it writes a table again and again.

use cangrieb::{Answer, Choices, Record};

/// The guest's tables: each a device address and the entry there. The table of level 1 is also the page at 0x8000.
const ENTRIES: [(u64, u64); 5] =
    [(0x0000, 0x1003), (0x1000, 0x2003), (0x2000, 0x3003), (0x3000, 0x4003), (0x3040, 0x3003)];

fn main() {
    let mut memory = vec![0; 16 * 512];
    let mut unit = opened(&mut memory, Choices::default());
    unit.root(&mut memory, 0);
    for (address, entry) in ENTRIES {
        unit.device_store(&mut memory, address, 8, entry);
    }
    let lookup = unit.depth(0);
    println!("address 0 has depth {}, by {} marks", lookup.depth, lookup.read);
    let addresses = [0, 0, 0x1000];
    if let Answer::Figures { references, exits, tables } = unit.forecast(&memory, &addresses) {
        println!("forecast: {references} references, {exits} exits, {tables} shadow tables");
    }
    for address in addresses {
        match unit.load(&mut memory, address, 8) {
            Answer::Value { word, references, exits } => {
                println!("{address:#x}: {word:#x}, {references} references, {exits} exits")
            }
            Answer::Fault { fault, .. } => println!("{address:#x}: {fault}"),
            Answer::Refused(refusal) => println!("{address:#x}: {refusal}"),
            Answer::Ok | Answer::Done { .. } | Answer::Figures { .. } => {
                unreachable!("no answer to a load")
            }
        }
    }
    pager(&mut memory);
    written_often(&mut memory);
}

/// Sixteen frames, four for host tables, four for shadow tables, eight for the guest.
fn opened(memory: &mut [u64], choices: Choices) -> Record {
    let mut unit = Record::open_with(memory, 4, 4, choices).expect("sixteen frames");
    for guest in 0..8 {
        unit.map(memory, guest, 8 + guest, true);
    }
    unit
}

/// The entry of level 1 before any request, after a load and after a store.
fn pager(memory: &mut [u64]) {
    let mut unit = opened(memory, Choices { bits: true, ..Choices::default() });
    let entry = |memory: &[u64]| memory[11 * 512];
    println!("the page's entry: {:#x}", entry(memory));
    unit.load(memory, 0, 8);
    println!("after a load: {:#x}, accessed", entry(memory));
    unit.store(memory, 0, 8, 1);
    println!("after a store: {:#x}, accessed and dirty", entry(memory));
}

/// Page 0 is loaded and its entry stored, again and again: each time the page's path is dropped, until with the third store the
/// table gets a mark. A store to it costs no exit then.
fn written_often(memory: &mut [u64]) {
    let mut unit = opened(memory, Choices { automatic: true, ..Choices::default() });
    for round in 1..=5 {
        let loaded = unit.load(memory, 0, 8);
        let stored = unit.store(memory, 0x8000, 8, 0x4003);
        if let (Answer::Value { exits: first, .. }, Answer::Done { exits: second, .. }) = (loaded, stored) {
            println!("round {round}: {first} exits of the load, {second} of the store");
        }
    }
    for mark in unit.marks() {
        println!("{mark:x?}");
    }
}
