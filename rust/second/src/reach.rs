//! Which numbers are within reach, looked at by rising offset in the block layout.

use crate::refusal::{Refusal, CORNERS, REACH};
use crate::{Piece, Run};

pub const FARTHEST: i32 = 16_384;
pub const FASTEST: i32 = 255;
pub const LONGEST: u32 = 4_096;

fn position(value: i32, offset: usize) -> Result<(), Refusal> {
    within(value, FARTHEST, offset)
}

fn velocity(value: i32, offset: usize) -> Result<(), Refusal> {
    within(value, FASTEST, offset)
}

fn within(value: i32, most: i32, offset: usize) -> Result<(), Refusal> {
    if -most <= value && value <= most {
        Ok(())
    } else {
        Err(Refusal::at(REACH, offset))
    }
}

/// Is every number of the run within reach?
pub fn check_run(run: &Run) -> Result<(), Refusal> {
    for k in 0..3 {
        position(run.position[k], 2 + 2 * k)?;
    }
    for k in 0..3 {
        velocity(run.velocity[k], 8 + 2 * k)?;
    }
    if run.ticks > LONGEST {
        return Err(Refusal::at(REACH, 14));
    }
    Ok(())
}

/// The x and y of a point, with their offsets in a run block.
pub fn check_point(x: i32, y: i32) -> Result<(), Refusal> {
    position(x, 2)?;
    position(y, 4)
}

/// Is the length of a list of x and y even, and the corner count 3 to 64?
pub fn check_count(length: usize) -> Result<(), Refusal> {
    if length % 2 == 0 && (3..=64).contains(&(length / 2)) {
        Ok(())
    } else {
        Err(Refusal::plain(CORNERS))
    }
}

/// Band and velocity of a piece.
pub fn check_body(piece: &Piece) -> Result<(), Refusal> {
    position(piece.bottom, 2)?;
    position(piece.top, 4)?;
    if piece.bottom > piece.top {
        return Err(Refusal::at(REACH, 4));
    }
    for k in 0..3 {
        velocity(piece.velocity[k], 6 + 2 * k)?;
    }
    Ok(())
}

/// The corners of a piece.
pub fn check_corners(corners: &[i32]) -> Result<(), Refusal> {
    for (k, &value) in corners.iter().enumerate() {
        position(value, 12 + 2 * k)?;
    }
    Ok(())
}
