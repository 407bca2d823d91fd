//! What the programs `differential` and `bench` are made of.

pub mod archives;
pub mod calls;
pub mod fixes;
pub mod formula;
pub mod lanes;
pub mod model;
pub mod pairs;
pub mod peers;
pub mod players;
pub mod prime;
pub mod random;
pub mod same_method;
pub mod samples;
pub mod trail;

/// The proved library.
pub use noonpasture::raw as library;
