//! Document 01's sixteen-frame guest, calls on it and their answers.

use walker::answer::{Answer, Call, Choices, Fault};
use walker::machine::Access;
use walker::Unit;

pub const LEVELS: u32 = 4;

pub fn memory(frames: usize) -> Vec<u64> {
    vec![0; frames * 512]
}

/// "H = S = 4; guest frames 0 to 7 at 8 to 15, writable; root 0. Entry 0 of frame 0
/// is 0x1003, of 1 is 0x2003, of 2 is 0x3003. Frame 3 holds 0x4003, 0x5001, 0x8003,
/// 0, 0x3003. Entry 1 of frame 2 is 0x3003. All other guest words are 0."
pub fn sixteen_frame_guest(choices: Choices) -> Unit {
    let mut words = memory(16);
    let guest = |frame: usize, index: usize| (8 + frame) * 512 + index;
    words[guest(0, 0)] = 0x1003;
    words[guest(1, 0)] = 0x2003;
    words[guest(2, 0)] = 0x3003;
    words[guest(2, 1)] = 0x3003;
    for (index, entry) in [0x4003, 0x5001, 0x8003, 0, 0x3003].into_iter().enumerate() {
        words[guest(3, index)] = entry;
    }
    let mut unit = Unit::open_with(LEVELS, words, 4, 4, choices).unwrap();
    for frame in 0..8 {
        assert_eq!(map(&mut unit, frame, 8 + frame), Answer::Ok);
    }
    assert_eq!(unit.call(&Call::Root { frame: 0 }), Answer::Ok);
    unit
}

/// A word of a guest frame.
pub fn word(unit: &Unit, frame: usize, index: usize) -> u64 {
    unit.guest_words()[frame * 512 + index]
}

pub fn map(unit: &mut Unit, guest: u64, host: u64) -> Answer {
    unit.call(&Call::Map { guest, host, writable: true })
}

pub fn load(unit: &mut Unit, address: u64) -> Answer {
    unit.call(&Call::load_word(address))
}

pub fn store(unit: &mut Unit, address: u64, value: u64) -> Answer {
    unit.call(&Call::store_word(address, value))
}

pub fn load_bytes(unit: &mut Unit, address: u64, width: u64) -> Answer {
    unit.call(&Call::Load { address, width })
}

pub fn store_bytes(unit: &mut Unit, address: u64, width: u64, value: u64) -> Answer {
    unit.call(&Call::Store { address, width, value })
}

pub fn device_store_bytes(unit: &mut Unit, address: u64, width: u64, value: u64) -> Answer {
    unit.call(&Call::DeviceStore { address, width, value })
}

pub fn set_mark(unit: &mut Unit, address: u64, level: u64) -> Answer {
    unit.call(&Call::SetMark { address, level })
}

pub fn forecast(unit: &mut Unit, addresses: &[u64]) -> Answer {
    unit.call(&Call::Forecast { addresses: addresses.to_vec() })
}

pub fn value(value: u64, references: u64, exits: u64) -> Answer {
    Answer::Value { value, references, exits }
}

pub fn done(references: u64, exits: u64) -> Answer {
    Answer::Done { references, exits }
}

pub fn fault(fault: Fault, references: u64, exits: u64) -> Answer {
    Answer::Fault { fault, references, exits }
}

/// The host frame that an address's page is found in.
pub fn page(unit: &Unit, address: u64) -> u64 {
    unit.machine().plain_walk(address, Access::Load).end.unwrap().host
}
