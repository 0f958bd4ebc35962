//! Prints what random small runs reach, and a few seeds that reach it all:
//! `events [bits|automatic|large] RUNS CALLS [LEVELS [FRAMES H S]]`. With `bits` the runs have
//! accessed and dirty bits, with `automatic` their tables are written often, with `large` they
//! go to large pages, and what they must reach is marked.

use std::collections::BTreeSet;
use walker::events::{of_automatic, of_bits, of_large, Events};
use walker::random::{named_sort, Random, Sizes};
use walker::vectors::lines;

fn main() {
    let name = std::env::args().nth(1).unwrap_or_default();
    let sort = named_sort(&name);
    let numbers: Vec<u64> = std::env::args().skip(1).filter_map(|word| word.parse().ok()).collect();
    let (runs, calls, levels, fixed) = match numbers[..] {
        [runs, calls] => (runs, calls, 4, None),
        [runs, calls, levels] => (runs, calls, levels as u32, None),
        [runs, calls, levels, frames, h, s] => (runs, calls, levels as u32, Some((frames, h, s))),
        _ => {
            eprintln!("events [bits|automatic|large] RUNS CALLS [LEVELS [FRAMES H S]]");
            std::process::exit(2);
        }
    };
    let mut all = Events::default();
    let mut by_seed = Vec::new();
    for seed in 0..runs {
        let sizes = match fixed {
            Some((frames, h, s)) => Sizes { levels, frames, h, s },
            None => Sizes::small(&mut Random::new(seed.wrapping_add(1)), levels),
        };
        if let Ok((_, events)) = lines(&sort(seed, sizes, calls as usize)) {
            all.join(&events);
            by_seed.push((seed, events.counts.keys().cloned().collect()));
        }
    }
    let sought: BTreeSet<String> = match name.as_str() {
        "bits" => of_bits(levels, true).into_iter().collect(),
        "automatic" => of_automatic(levels, true, true).into_iter().collect(),
        "large" => of_large(levels, true).into_iter().collect(),
        _ => BTreeSet::new(),
    };
    for (name, many) in &all.counts {
        println!("{many:>9} {} {name}", if sought.contains(name) { '*' } else { ' ' });
    }
    sought.iter().filter(|name| all.count(name) == 0).for_each(|name| println!("{:>9} * {name}", 0));
    println!("seeds that reach it all: {:?}", covering_seeds(&by_seed, all.counts.keys().cloned().collect()));
}

/// Takes again and again the seed that reaches the most names not yet reached.
fn covering_seeds(by_seed: &[(u64, BTreeSet<String>)], mut names: BTreeSet<String>) -> Vec<u64> {
    let mut seeds = Vec::new();
    while !names.is_empty() {
        let best = by_seed.iter().max_by_key(|(_, reached)| reached.intersection(&names).count());
        let Some((seed, reached)) = best else { break };
        seeds.push(*seed);
        names = names.difference(reached).cloned().collect();
    }
    seeds
}
