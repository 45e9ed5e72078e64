//! A second model of document 01 in versions 1 and 2, and of editions 1 to 3, written from the documents' words; and
//! uncontended latency by the equations of source document 001, which shares nothing with it.
//!
//! It is the partner of every comparison: it makes the expected outputs and the single event cases, and it
//! is the baseline of speed figures. One `State` holds every place in flat arrays and is changed in place.
//! A place has one number: input `p` of site `s` is place `5 * s + p`, output `p` is place `6 * s + p`.

pub mod apart;
pub mod archive;
pub mod coverage;
pub mod draws;
pub mod faults;
pub mod format;
pub mod latency;
pub mod making;
pub mod moves;
pub mod network;
pub mod owing;
pub mod player;
pub mod print;
pub mod range;
pub mod rational;
pub mod refusal;
pub mod router;
pub mod sets;
pub mod single;
pub mod state;
pub mod step;
pub mod text;
pub mod trace;
pub mod watch;
pub mod why;
