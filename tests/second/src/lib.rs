//! The shared coding frame a second time, written from document 01 and the landed requests of document 02 alone.
//!
//! The proved engine is compared with this one: its answers are the expected
//! output of the gate's programs, of the random comparison and of the benchmark.

#![forbid(unsafe_code)]
#![warn(missing_docs)]

pub mod archive;
pub mod calls;
pub mod earlier;
pub mod elect;
pub mod fold;
pub mod forecast;
pub mod generate;
pub mod lines;
pub mod message;
pub mod outcome;
pub mod random;
pub mod record;
pub mod rehearsal;
pub mod samples;
pub mod sheet;
pub mod shrink;
pub mod standing;
pub mod survey;
pub mod tables;
pub mod take;
pub mod trial;
pub mod trials;
