//! Writes the bytes of a random job to standard output: `job_records SEED CALLS`.

use std::io::Write;

fn main() -> std::io::Result<()> {
    let numbers: Vec<u64> = std::env::args().skip(1).filter_map(|word| word.parse().ok()).collect();
    let [seed, calls] = numbers[..] else {
        eprintln!("job_records SEED CALLS");
        std::process::exit(2);
    };
    std::io::stdout().write_all(&walker::random::job(seed, calls as usize))
}
