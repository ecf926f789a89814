//! The job of the program `folders` in ordinary Rust, written from the documents alone. It is what the proved program is measured
//! against.

pub mod circuit;
pub mod cone;
pub mod faults;
pub mod folder;
pub mod program;
pub mod reader;
pub mod refusals;
pub mod session;
pub mod simulation;
pub mod values;
pub mod visit;
pub mod words;
