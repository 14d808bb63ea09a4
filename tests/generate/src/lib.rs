//! Random sessions from a seed: sound and damaged, small and at the limits.

pub mod chance;
pub mod climb;
pub mod commands;
pub mod damage;
pub mod day;
pub mod growth;
pub mod orders;
pub mod points;
pub mod rules;
pub mod seeds;
pub mod session;
pub mod survey;
pub mod text;
pub mod trial;
pub mod waivers;
