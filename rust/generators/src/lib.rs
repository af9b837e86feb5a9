//! Generators of cases, good and bad. A case depends on a seed and an index alone, so that a case
//! that shows a difference can be made again from these two numbers.

pub mod blocks;
pub mod bodies;
pub mod books;
pub mod floats;
pub mod footprints;
pub mod obj;
pub mod rng;

pub use rng::Rng;
