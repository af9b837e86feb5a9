//! The plain counterpart of the proved baker: the same algorithms in ordinary Rust, in `i64`, with
//! no proof. It is there to compare speed with, and is held to the second implementation by tests.

pub mod block;
pub mod book;
pub mod footprint;
pub mod intake;
pub mod obj;
pub mod refusal;
pub mod room;
pub mod verdict;

pub use book::{ask, Asked};
pub use footprint::{check_piece, check_run, place, Place};
pub use intake::{intake, take, Taken};
pub use refusal::Refusal;
pub use room::{room_piece, room_verdicts};
pub use verdict::{verdict, CLEAR};

#[derive(Clone, Copy, Debug)]
pub struct Run {
    pub x: i32,
    pub y: i32,
    pub z: i32,
    pub vx: i32,
    pub vy: i32,
    pub vz: i32,
    pub ticks: u32,
}

#[derive(Clone, Copy, Debug)]
pub struct Piece<'a> {
    pub bottom: i32,
    pub top: i32,
    pub vx: i32,
    pub vy: i32,
    pub vz: i32,
    pub corners: &'a [i32],
}
