//! One exported number, asked of the proved baker and of the second implementation.

use second::intake::Taken;

/// The answer's number, and the bits of what it carries.
pub type Told = (u64, u32);

pub fn second(x: f32) -> Told {
    match second::intake::take(x) {
        Taken::Grid(k) => (0, k as u32),
        Taken::OffGrid(w) => (1, w.to_bits()),
        Taken::NotANumber => (2, 0),
        Taken::OutOfReach => (3, 0),
    }
}

pub fn proved(x: f32) -> Told {
    let (mut grid, mut floor) = (0, 0.0);
    match baker::coded::take(x, &mut grid, &mut floor) {
        0 => (0, grid as u32),
        1 => (1, floor.to_bits()),
        other => (other, 0),
    }
}
