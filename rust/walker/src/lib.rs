//! A second reading of document 01 and of requests 1 to 10 of document 02, written
//! from the papers alone: the machine without shadow, its book, the job program's
//! records, and the load. It is meant to be plainly right and is compared with the
//! unit on many runs.

pub mod answer;
pub mod book;
pub mod events;
pub mod job;
pub mod load;
pub mod machine;
pub mod numbers;
pub mod quiet;
pub mod random;
pub mod unit;
pub mod vectors;

pub use answer::{Answer, Call, Choices, Fault};
pub use job::run_job;
pub use unit::Unit;
