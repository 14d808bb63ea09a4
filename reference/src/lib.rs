//! The unproved twin of the Thrummisk session program.
//!
//! It is a second program of the same rules, those of docs/RULES.md, and shares no line with the
//! proved one: where the two differ on a session, one of them has a rule wrong. It is also what
//! the proved program's instruction counts are measured against.

pub mod circles;
pub mod engine;
pub mod frames;
pub mod lines;
pub mod ranks;
pub mod ready;
pub mod refusal;
pub mod rows;
pub mod session;
pub mod sets;
pub mod table;
pub mod tree;
pub mod wiring;
