//! Host tools for call tapes: readable text, runs as tables and pictures,
//! comparison with the proved library, fuzzing, and measurement.

pub mod bench;
pub mod check;
pub mod cli;
pub mod compare;
pub mod ended;
pub mod exercises;
pub mod fuzz;
pub mod generate;
pub mod lanes;
pub mod library;
pub mod names;
pub mod rng;
pub mod show;
pub mod shrink;
pub mod text;
