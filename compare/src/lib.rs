//! Everything the comparison needs but the library itself, so that the tests
//! run without it.

pub mod arena;
pub mod bare;
pub mod boundary;
pub mod cases;
pub mod counts;
pub mod decisions;
pub mod geometry;
pub mod granules;
pub mod harvest;
pub mod limits;
pub mod orders;
pub mod promises;
pub mod random;
pub mod reference;
pub mod refusals;
pub mod reversed;
pub mod rule3;
pub mod scripts;
pub mod session;
pub mod spoil;
pub mod stepwise;
pub mod tally;
pub mod vectors;

#[cfg(test)]
mod tests;
