//! The job program as this reading has it: records from standard input, lines to
//! standard output.

use std::io::{Read, Write};

fn main() -> std::io::Result<()> {
    let mut input = Vec::new();
    std::io::stdin().read_to_end(&mut input)?;
    std::io::stdout().write_all(walker::run_job(&input).as_bytes())
}
