//! resvg 0.49.0's filters as the judge of every byte, and an independent reading of the refusals.

pub mod bench;
#[cfg(bridged)]
pub mod bridge;
pub mod case;
pub mod compare;
pub mod dirty;
pub mod exact;
pub mod filter;
pub mod floats;
pub mod header;
pub mod leaves;
pub mod lend;
pub mod lowest_seed;
pub mod message;
pub mod nasty;
pub mod ours;
pub mod patterns;
pub mod places;
pub mod primitives;
pub mod recipe;
pub mod rng;
pub mod shrink;
pub mod stored;
pub mod table;
pub mod unproved;
