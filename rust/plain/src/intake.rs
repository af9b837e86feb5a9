//! Exported corners to grid numbers.

use crate::footprint::check_count;
use crate::Refusal;

#[derive(Clone, Copy, Debug)]
pub enum Taken {
    Grid(i32),
    OffGrid(f32),
    NotANumber,
    OutOfReach,
}

pub fn take(x: f32) -> Taken {
    if x.is_nan() {
        return Taken::NotANumber;
    }
    if x.abs() > 1024.0 {
        return Taken::OutOfReach;
    }
    let scaled = x * 16.0;
    let floor = scaled.floor();
    if floor == scaled {
        Taken::Grid(floor as i32)
    } else {
        Taken::OffGrid(floor / 16.0)
    }
}

pub fn intake(numbers: &[f32], list: &mut [i32]) -> Result<(), Refusal> {
    check_count(numbers.len())?;
    if list.len() < numbers.len() {
        return Err(Refusal::short());
    }
    let mut taken = [0; 128];
    for (k, &number) in numbers.iter().enumerate() {
        let refused = |why| Err(Refusal::new(why, k / 2, k % 2));
        match take(number) {
            Taken::Grid(grid) => taken[k] = grid,
            Taken::NotANumber => return refused(11),
            Taken::OutOfReach => return refused(12),
            Taken::OffGrid(_) => return refused(13),
        }
    }
    list[..numbers.len()].copy_from_slice(&taken[..numbers.len()]);
    Ok(())
}
