//! Exported numbers: on the grid, just beside it, out of reach and not numbers at all.

use crate::rng::Rng;

/// Any number.
pub fn any(rng: &mut Rng) -> f32 {
    match rng.below(8) {
        0 => f32::from_bits(rng.bits() as u32),
        1 => special(rng),
        2 | 3 => beside(rng),
        // an exponent within reach and any bits below it
        4 => f32::from_bits((rng.bits() as u32 & 0x807f_ffff) | (rng.range(100, 138) as u32) << 23),
        // halves and quarters of a grid unit
        5 => rng.range(-70_000, 70_000) as f32 / 64.0,
        _ => on_grid(rng),
    }
}

pub fn on_grid(rng: &mut Rng) -> f32 {
    let limit = rng.pick(&[16_384, 16_384, 64]);
    rng.range(-limit, limit) as f32 / 16.0
}

/// One step of the format beside a grid value, or beside a limit of reach.
fn beside(rng: &mut Rng) -> f32 {
    let bits = if rng.once_in(4) { 1024f32.to_bits() } else { on_grid(rng).to_bits() };
    let sign = (rng.below(2) as u32) << 31;
    f32::from_bits(bits.wrapping_add(rng.range(-2, 2) as u32) ^ sign)
}

fn special(rng: &mut Rng) -> f32 {
    let bits = rng.pick(&[
        0x0000_0000, // zero
        0x0000_0001, // the least above it
        0x007f_ffff, // the greatest without a leading one
        0x0080_0000, // the least with one
        0x7f7f_ffff, // the greatest
        0x7f80_0000, // infinity
        0x7f80_0001, // not numbers
        0x7fc0_0000,
        0x7fff_ffff,
        0x4480_0000, // 1024
        0x4480_0001,
        0x447f_ffff,
        0x4480_0800, // 1024.0625
        0x3d80_0000, // 0.0625
        0x3d00_0000, // 0.03125
    ]);
    f32::from_bits(bits | (rng.below(2) as u32) << 31)
}

/// The numbers of a footprint: mostly all on the grid, often with one that is not.
pub fn footprint(rng: &mut Rng) -> Vec<f32> {
    let length = match rng.below(12) {
        0 => rng.below(7),
        1 => rng.pick(&[7, 127, 128, 129, 130, 131, 256, 65_542]),
        _ => 2 * rng.range(3, 64) as usize,
    };
    let mut numbers: Vec<f32> = (0..length).map(|_| on_grid(rng)).collect();
    if length > 0 && !rng.once_in(3) {
        for _ in 0..rng.range(1, 3) {
            let k = rng.below(length);
            numbers[k] = any(rng);
        }
    }
    numbers
}
