//! Differential tests of two readers: files that are good, files that are broken on purpose, and what both answer.

#![forbid(unsafe_code)]

pub mod compare;
pub mod generate;
pub mod glb;
pub mod hull;
pub mod mutate;
pub mod recipes;
pub mod report;
pub mod rng;
pub mod samples;
pub mod shrink;
pub mod tree;
