//! The independent comparison: two planners written from docs/ alone, and the product's library.

pub mod bench;
pub mod cases;
pub mod cpu_time;
pub mod fast;
pub mod ft06;
pub mod library;
pub mod literal;
pub mod plan;
pub mod random;
pub mod runner;

#[cfg(test)]
mod tests;
