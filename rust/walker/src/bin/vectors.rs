//! Prints random runs as lines of text:
//! `vectors [bits|automatic|large] SEED CALLS [LEVELS [FRAMES H S]]`. Without sizes the seed
//! chooses small ones. With `bits` the run has accessed and dirty bits, with `automatic`
//! its tables are written often, with `large` it goes to large pages.

use walker::random::{named_sort, Random, Sizes};
use walker::vectors::lines;
use walker::Unit;

fn main() {
    let sort = named_sort(&std::env::args().nth(1).unwrap_or_default());
    let numbers: Vec<u64> = std::env::args().skip(1).filter_map(|word| word.parse().ok()).collect();
    let (seed, calls, levels, sizes) = match numbers[..] {
        [seed, calls] => (seed, calls, 4, None),
        [seed, calls, levels] => (seed, calls, levels as u32, None),
        [seed, calls, levels, frames, h, s] => (seed, calls, levels as u32, Some((frames, h, s))),
        _ => {
            eprintln!("vectors [bits|automatic|large] SEED CALLS [LEVELS [FRAMES H S]]");
            std::process::exit(2);
        }
    };
    let sizes = match sizes {
        Some((frames, h, s)) => Sizes { levels, frames, h, s },
        None => Sizes::small(&mut Random::new(seed.wrapping_add(1)), levels),
    };
    let memory = vec![0; (sizes.frames * 512) as usize];
    if let Err(number) = Unit::open(levels, memory, sizes.h, sizes.s) {
        eprintln!("the opening is refused with {number}");
        std::process::exit(1);
    }
    if let Ok((lines, _)) = lines(&sort(seed, sizes, calls as usize)) {
        println!("{}", lines.join("\n"));
    }
}
