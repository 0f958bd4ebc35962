//! The load that anyone can repeat (document 02, 10). What is expected was worked out by hand
//! from the paper; with seed 1 the generator is the well-known example of ANSI C.

use walker::job::{read_record, write_record, Record};
use walker::load::{load_bytes, load_of, Draws};
use walker::{run_job, Call};

fn input(seed: u64, count: u64) -> Vec<u8> {
    [seed.to_le_bytes(), count.to_le_bytes()].concat()
}

/// The calls of a load, behind its open 4 4.
fn calls(seed: u64, count: u64) -> Vec<Call> {
    let bytes = load_bytes(seed, count);
    let (first, mut rest) = read_record(&bytes).unwrap();
    assert_eq!(first, Record::Open { h: 4, s: 4 });
    let mut calls = Vec::new();
    while !rest.is_empty() {
        match read_record(rest) {
            Some((Record::Call(call), after)) => {
                calls.push(call);
                rest = after;
            }
            other => panic!("{other:?}"),
        }
    }
    calls
}

#[test]
fn draws_of_seed_1() {
    let mut draws = Draws::new(1);
    let divided: Vec<u64> = (0..10).map(|_| draws.draw() / 65_536).collect();
    assert_eq!(divided, [16838, 5758, 10113, 17515, 31051, 5627, 23010, 7419, 16212, 4086]);
}

/// Whole draws: 0 × 1,103,515,245 + 12,345; then 12,345 × 1,103,515,246 = 6,343 × 2^31 + 1,406,932,606;
/// and with 2^31 - 1, which is -1 by this modulus, 2^31 - 1,103,515,245 + 12,345.
#[test]
fn draws_at_the_ends_of_the_range() {
    let mut draws = Draws::new(0);
    assert_eq!([draws.draw(), draws.draw()], [12_345, 1_406_932_606]);
    assert_eq!(Draws::new((1 << 31) - 1).draw(), 1_043_980_748);
}

/// 16838 is 6 by 8: a store. 5758 is 1662 by 4,096, so address 13,296 = 0x33f0; 10113 is 1 by 16, so value 0x1003.
/// 17515 is 3: a mark. 31051 is 2379, so address 19,032 = 0x4a58; 5627 is 2 by 5, so level 3.
/// 23010 is 2: an unmap. 7419 is 11 by 16.
#[test]
fn the_bytes_of_seed_1() {
    let expected = [
        &[6, 0, 1, 0, 4, 0, 4, 0][..],
        &[18, 0, 8, 0, 0xf0, 0x33, 0, 0, 0, 0, 0, 0, 0x03, 0x10, 0, 0, 0, 0, 0, 0],
        &[11, 0, 5, 0, 0x58, 0x4a, 0, 0, 0, 0, 0, 0, 3],
        &[10, 0, 4, 0, 11, 0, 0, 0, 0, 0, 0, 0],
    ];
    for count in 0..=3 {
        assert_eq!(load_bytes(1, count), expected[..=count as usize].concat(), "count {count}");
    }
}

/// Until each kind was met. The draws after the tenth are 2749, 12767, 9084, 12060, 32225, 17543, 25089, 21183, 25137, 25566,
/// 26966, 4978, 20495, 10311, 11367, 30054, 17031, 13145, 19882, 25736, 30524, 28505, 28394, 22102, 24851, 19067, 12754, 11653,
/// 6561, 27096, 13628, 15188, 32085, 4143, 6967, 31406, 24165, 13403, 25562, 24834, 31353, 920, 10444, 24803, 7962, 19318, 1422,
/// 31327, 10457, 1945, 14479, 29983, 18751, 3894, 18670, 8259, 16248, 7757, each divided by 65,536.
#[test]
fn twenty_three_calls_of_seed_1() {
    let map = |guest, host, writable| Call::Map { guest, host, writable };
    let expected = [
        Call::store_word(8 * 1662, 0x1003),
        Call::SetMark { address: 8 * 2379, level: 3 },
        Call::Unmap { guest: 11 },
        Call::ClearMark { address: 8 * 4086, level: 5 },
        Call::device_store_word(8 * 892, 0xc003),
        map(7, 9, true),
        map(14, 14, false),
        Call::device_store_word(8 * 2119, 0x7003),
        Call::store_word(8 * 647, 0x9003),
        Call::Unmap { guest: 8 },
        Call::ClearMark { address: 8 * 3929, level: 5 },
        Call::store_word(8 * 275, 0xb003),
        Call::Unmap { guest: 5 },
        map(8, 12, false),
        Call::load_word(8 * 47),
        Call::device_store_word(8 * 2734, 0x5003),
        Call::SetMark { address: 8 * 986, level: 5 },
        map(8, 12, true),
        Call::Unmap { guest: 6 },
        Call::store_word(8 * 2655, 0x9003),
        map(15, 15, true),
        Call::store_word(8 * 2286, 0x3003),
        Call::Root { frame: 13 },
    ];
    assert_eq!(calls(1, 23), expected);
}

/// Seed 0: 0 and 21468, then 9988, 22117, 3498. Seed 2^31 - 1: 15929, 4409, 9862, 26718.
#[test]
fn first_calls_at_the_ends_of_the_range() {
    let expected = [Call::Root { frame: 12 }, Call::ClearMark { address: 8 * 1637, level: 4 }];
    assert_eq!(calls(0, 2), expected);
    assert_eq!(calls((1 << 31) - 1, 1), [Call::Map { guest: 9, host: 14, writable: false }]);
}

#[test]
fn a_longer_load_goes_on_as_the_shorter_one() {
    let longest = calls(1, 65_535);
    assert_eq!(longest.len(), 65_535);
    assert_eq!(longest[..1000], calls(1, 1000));
}

#[test]
fn out_of_range_or_cut() {
    let open = write_record(&Record::Open { h: 4, s: 4 });
    for seed in [0, 1, (1 << 31) - 1] {
        assert_eq!(load_of(&input(seed, 0)), open, "seed {seed}");
    }
    for seed in [1 << 31, 1 << 32, 1 << 63, u64::MAX] {
        assert_eq!(load_of(&input(seed, 1)), [], "seed {seed}");
    }
    for count in [65_536, 1 << 32, 1 << 63, u64::MAX] {
        assert_eq!(load_of(&input(1, count)), [], "count {count}");
    }
    // What is missing would be zeros.
    for length in 0..16 {
        assert_eq!(load_of(&input(1, 3)[..length]), [], "{length} bytes");
    }
}

#[test]
fn later_bytes_are_ignored() {
    let whole = [input(1, 3), vec![255; 9]].concat();
    for length in 16..=whole.len() {
        assert_eq!(load_of(&whole[..length]), load_bytes(1, 3), "{length} bytes");
    }
}

/// The second byte of each number counts 256: 0x0102 = 258 calls of seed 0x0304 = 772.
#[test]
fn the_input_is_little_endian() {
    let bytes = [4, 3, 0, 0, 0, 0, 0, 0, 2, 1, 0, 0, 0, 0, 0, 0];
    assert_eq!(load_of(&bytes), load_bytes(772, 258));
    assert_eq!(calls(772, 258).len(), 258);
}

#[test]
fn no_job_says_13() {
    for seed in [0, 1, 2, 3, 1 << 30, (1 << 31) - 1] {
        let output = run_job(&load_bytes(seed, 3000));
        assert_eq!(output.lines().count(), 3001, "seed {seed}");
        assert!(!output.lines().any(|line| line.ends_with(" no 13")), "seed {seed}");
    }
}
