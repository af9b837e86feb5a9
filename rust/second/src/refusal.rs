//! What comes back when it can't be done.

use std::fmt;

/// A refusal: its number, the block (i + 1 where piece block i of a room is refused, otherwise 0)
/// and two places, zero unless the table names them.
#[derive(Clone, Copy, Debug, PartialEq, Eq)]
pub struct Refusal {
    pub number: u8,
    pub block: u16,
    pub a: u32,
    pub b: u16,
}

pub const LENGTH: u8 = 1;
pub const CHECK: u8 = 2;
pub const KIND: u8 = 3;
pub const REACH: u8 = 4;
pub const CORNERS: u8 = 5;
pub const SAME: u8 = 6;
pub const FOLD: u8 = 7;
pub const MEETING: u8 = 8;
pub const CLOCKWISE: u8 = 9;
pub const SHORT: u8 = 10;
pub const NOT_A_NUMBER: u8 = 11;
pub const OUT_OF_REACH: u8 = 12;
pub const OFF_GRID: u8 = 13;
pub const LINE: u8 = 14;
pub const INDEX: u8 = 15;
pub const FACE: u8 = 16;

impl Refusal {
    /// A refusal that names no place.
    pub fn plain(number: u8) -> Self {
        Self::at(number, 0)
    }

    /// A refusal with the place a.
    pub fn at(number: u8, a: usize) -> Self {
        Self::between(number, a, 0)
    }

    /// A refusal with the places a and b.
    pub fn between(number: u8, a: usize, b: usize) -> Self {
        Refusal { number, block: 0, a: a as u32, b: b as u16 }
    }

    /// The same refusal, said of piece block `piece` of a room.
    pub fn of_piece(self, piece: usize) -> Self {
        Refusal { block: piece as u16 + 1, ..self }
    }
}

/// As `shade` prints a refused room.
impl fmt::Display for Refusal {
    fn fmt(&self, f: &mut fmt::Formatter) -> fmt::Result {
        write!(f, "refused {} block {} at {} {}", self.number, self.block, self.a, self.b)
    }
}
