//! A sample of the 2^32 bit patterns, with all boundaries: the intake of one number.

use differ::floats::{proved, second};

fn agree(bits: u32) {
    let x = f32::from_bits(bits);
    assert_eq!(proved(x), second(x), "{bits:#010x}");
}

/// Patterns beside those of grid values, of the ends of reach, of zeros, infinities and NaNs.
#[test]
fn boundaries() {
    if !baker::PRESENT {
        return;
    }
    for grid in -16_500..=16_500i32 {
        let bits = (grid as f32 / 16.0).to_bits();
        for near in [bits.wrapping_sub(1), bits, bits.wrapping_add(1)] {
            agree(near);
            agree(near ^ 0x8000_0000);
        }
    }
    for exponent in 0..=511u32 {
        for fraction in [0, 1, 2, 0x40_0000, 0x7f_fffe, 0x7f_ffff] {
            agree(exponent << 23 | fraction);
        }
    }
}

/// Every 2,039th pattern: more than 2^21 of them, with all exponents.
#[test]
fn sample() {
    if !baker::PRESENT {
        return;
    }
    (0..=u32::MAX).step_by(2_039).for_each(agree);
}
