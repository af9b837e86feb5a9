//! The shadow baker a second time, written from the rules alone and by another method than the
//! proved code: slow, wide (`i128`) and as near to the definitions as it can be. It is the referee
//! that the proved code and its plain counterpart are compared with.

pub mod block;
pub mod book;
pub mod footprint;
pub mod fraction;
pub mod intake;
pub mod obj;
pub mod place;
pub mod reach;
pub mod refusal;
pub mod room;
pub mod shade;
pub mod verdict;

pub use refusal::Refusal;

/// A point with a position, a velocity and a length in ticks.
#[derive(Clone, Copy, Debug, PartialEq, Eq)]
pub struct Run {
    pub position: [i32; 3],
    pub velocity: [i32; 3],
    pub ticks: u32,
}

/// A footprint with a height band and one velocity. The corners stand as x, y, x, y and so on.
#[derive(Clone, Debug, PartialEq, Eq)]
pub struct Piece {
    pub bottom: i32,
    pub top: i32,
    pub velocity: [i32; 3],
    pub corners: Vec<i32>,
}
