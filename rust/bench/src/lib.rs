//! What the library costs: beside the same in plain Rust, over growing input, and
//! beside SAT solvers. `rust/bench/run` runs all of it.

pub mod figure;
pub mod follow;
pub mod growth;
pub mod judge;
pub mod judges;
pub mod lengths;
pub mod machine;
pub mod merging;
mod pace;
pub mod page;
pub mod plain;
pub mod plots;
pub mod problems;
pub mod ratios;
pub mod read;
pub mod relevance;
pub mod sat;
pub mod search;
pub mod solvers;
pub mod stack;
pub mod timing;
pub mod versions;
