//! Corners as exported: binary32 numbers, read from their bits by whole-number arithmetic.

use crate::reach::check_count;
use crate::refusal::{Refusal, NOT_A_NUMBER, OFF_GRID, OUT_OF_REACH, SHORT};

/// The answer for one exported number.
#[derive(Clone, Copy, Debug)]
pub enum Taken {
    /// its whole grid number
    Grid(i32),
    /// the grid value at or below it, in the export's unit
    OffGrid(f32),
    NotANumber,
    OutOfReach,
}

/// Answers one number.
pub fn take(x: f32) -> Taken {
    let bits = x.to_bits();
    let exponent = (bits >> 23) & 0xff;
    let fraction = (bits & 0x7f_ffff) as i128;
    if exponent == 255 {
        return if fraction != 0 { Taken::NotANumber } else { Taken::OutOfReach };
    }
    // The value is significand * 2^power, and 16 of it are significand / 2^below.
    let (significand, power) =
        if exponent == 0 { (fraction, -149) } else { (fraction + (1 << 23), exponent as i32 - 150) };
    let below = -(power + 4);
    if below <= 0 {
        return Taken::OutOfReach; // at least 2^23 grid units
    }
    // A significand is below 2^24: from 2^24 on the size of the divisor no longer matters.
    let divisor = 1i128 << below.min(60);
    let signed = if bits >> 31 == 1 { -significand } else { significand };
    if signed.abs() > 16_384 * divisor {
        return Taken::OutOfReach;
    }
    let grid = signed.div_euclid(divisor) as i32;
    if signed.rem_euclid(divisor) == 0 {
        Taken::Grid(grid)
    } else {
        Taken::OffGrid(exported(grid))
    }
}

/// A sixteenth of a grid number within reach, as binary32, put together from its bits.
fn exported(grid: i32) -> f32 {
    if grid == 0 {
        return f32::from_bits(0);
    }
    let sign = (grid < 0) as u32;
    let size = grid.unsigned_abs();
    let highest = 31 - size.leading_zeros(); // size is 1.… * 2^highest, highest at most 14
    let exponent = 127 + highest - 4;
    let fraction = (size << (23 - highest)) & 0x7f_ffff;
    f32::from_bits(sign << 31 | exponent << 23 | fraction)
}

/// Takes a whole footprint, x then y, into a lent list; elements past the corners stay.
pub fn intake(numbers: &[f32], list: &mut [i32]) -> Result<(), Refusal> {
    check_count(numbers.len())?;
    if list.len() < numbers.len() {
        return Err(Refusal::plain(SHORT));
    }
    let mut taken = Vec::new();
    for (k, &number) in numbers.iter().enumerate() {
        let refused = |why| Err(Refusal::between(why, k / 2, k % 2));
        match take(number) {
            Taken::Grid(grid) => taken.push(grid),
            Taken::NotANumber => return refused(NOT_A_NUMBER),
            Taken::OutOfReach => return refused(OUT_OF_REACH),
            Taken::OffGrid(_) => return refused(OFF_GRID),
        }
    }
    list[..taken.len()].copy_from_slice(&taken);
    Ok(())
}
