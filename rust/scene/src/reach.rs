//! The numbers of runs and pieces: how each is called, and from where to where it may go.

use crate::told::with_places;
use baker::{Refusal, Refused, MOST_REACH, MOST_SPEED, MOST_TICKS};

/// A refused run in words, by its numbers in the order of its block, from offset 2.
pub fn told_of_run(numbers: &[i32], refused: &Refused) -> String {
    const NAMES: [&str; 7] = ["x", "y", "z", "vx", "vy", "vz", "ticks"];
    let Some(k) = named(numbers, refused) else {
        return refused.to_string();
    };
    let (least, most) = match k {
        0..=2 => (-MOST_REACH, MOST_REACH),
        3..=5 => (-MOST_SPEED, MOST_SPEED),
        _ => (0, MOST_TICKS as i32),
    };
    with_places(refused, &out_of_reach(&format!("{} {}", NAMES[k], numbers[k]), least, most))
}

/// A refused piece in words, by its numbers in the order of its block: band, velocity, corners.
pub fn told_of_piece(numbers: &[i32], refused: &Refused) -> String {
    const NAMES: [&str; 5] = ["bottom", "top", "vx", "vy", "vz"];
    let Some(k) = named(numbers, refused) else {
        return refused.to_string();
    };
    let number = numbers[k];
    let words = match k {
        1 if (-MOST_REACH..=MOST_REACH).contains(&number) => {
            format!("top {number} is below bottom {}", numbers[0])
        }
        0 | 1 => out_of_reach(&format!("{} {number}", NAMES[k]), -MOST_REACH, MOST_REACH),
        2..=4 => out_of_reach(&format!("{} {number}", NAMES[k]), -MOST_SPEED, MOST_SPEED),
        _ => {
            let (axis, corner) = (if k % 2 == 1 { "x" } else { "y" }, (k - 5) / 2);
            let number = format!("{axis} {number} of corner {corner}");
            out_of_reach(&number, -MOST_REACH, MOST_REACH)
        }
    };
    with_places(refused, &words)
}

/// Which of the numbers a refusal of reach names: from offset 2 on each has two bytes.
fn named(numbers: &[i32], refused: &Refused) -> Option<usize> {
    let k = (refused.a as usize).checked_sub(2)? / 2;
    (refused.refusal == Refusal::Reach && k < numbers.len()).then_some(k)
}

fn out_of_reach(number: &str, least: i32, most: i32) -> String {
    format!("{number} is out of reach, {least} to {most}")
}
