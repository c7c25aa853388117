//! Tests against 01, one file per subject.

mod any_values;
mod bench_program;
mod changes;
mod filtering;
mod impossible_states;
mod message_text;
mod opening;
mod printing;
mod raising;
mod reading;
mod records;
mod rig;
mod sending;
mod sites;
mod transmitting;
mod xorshift;
