//! What a guest that rewrites its page tables costs with the automatic choice off and on: `rewrites [ROUNDS]`.
//! In each round an entry of level 1 is stored through the guest's self map, and then its page is used some times.

use compare::rewrites::{run, served, Habit};

const HABITS: [(u64, u64); 5] = [(1, 4), (4, 4), (4, 16), (1, 32), (12, 1)];

fn main() {
    let rounds = std::env::args().nth(1).map_or(10_000, |text| text.parse().expect("a number of rounds"));
    println!("{rounds} rounds, each an entry stored and its page used");
    println!("| tables | uses | choice | references | exits | automatic marks |");
    println!("|---|---|---|---|---|---|");
    for (tables, uses) in HABITS {
        for automatic in [false, true] {
            let (_, costs) = served(&run(Habit { tables, uses }, rounds, automatic));
            let choice = if automatic { "on" } else { "off" };
            println!(
                "| {tables} | {uses} | {choice} | {} | {} | {} |",
                costs.references, costs.exits, costs.marks
            );
        }
    }
}
