//! Generated inputs: request streams, section blocks, replay scripts.

pub mod blocks;
pub mod drafts;
pub mod random;
pub mod schedule;
pub mod streams;
