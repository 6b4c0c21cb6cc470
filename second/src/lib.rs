//! A second implementation of the simulated AT88SC1608 and its session log.
//!
//! It was written from the paper alone and serves as the measure for the first
//! one: in the differential tests and in the benchmark.

pub mod access;
pub mod author;
pub mod busy;
pub mod card;
pub mod command;
pub mod edges;
pub mod encoded;
pub mod examples;
pub mod gen;
pub mod layout;
pub mod listing;
pub mod log;
pub mod mender;
pub mod record;
pub mod refusal;
pub mod samples;
pub mod session;
pub mod staging;
pub mod state;
pub mod writer;

#[cfg(test)]
mod tests;
