//! The comparison of the port with the Rust original: cases are written as
//! lines, both sides answer each with a line, and the lines are compared.
#![forbid(unsafe_code)]

pub mod answer;
pub mod args;
pub mod bytes;
pub mod case;
pub mod cli;
pub mod differ;
pub mod domain;
pub mod fields;
pub mod groups;
pub mod oracle;
pub mod original;
pub mod port;
pub mod progress;
pub mod reading;
pub mod rights;
pub mod rng;
pub mod run;
pub mod session;
pub mod table;
pub mod vectors;
