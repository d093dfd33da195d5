//! X-10 messages, frames, the receiver, stations, radio bytes and the tables of modules and shutters in
//! plain Rust.
//!
//! Written from the scope paper, requests A1 to A3 and A5, docs/receiver.md and include/x10.h without the
//! Rattle code, so that it can be held against the proved library: where the two differ, one of
//! them misreads the paper. Two changes were made with the Rattle code known: the array of 124 for
//! a burst, and the awaited half-cycle that goes to the hunt.
//!
//! For a reader of the times: both tables, a receiver and a single station are judged once in a call, every
//! station and draw at each call of a bench. Receivers, stations and tables are changed in place.

pub mod bench;
pub mod burst;
pub mod bytes;
#[cfg(test)]
mod drawn;
pub mod message;
pub mod radio;
pub mod receiver;
pub mod routes;
pub mod shutters;
pub mod station;
pub mod table;
pub mod tables;
