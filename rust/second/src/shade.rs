//! The printing program: bytes in, text out.

use crate::block::{read_run, SIZE};
use crate::refusal::{Refusal, LENGTH};
use crate::room::room_verdicts;
use crate::verdict::CLEAR;

/// What `shade` writes for an input: a run block and then a room image.
pub fn shade(input: &[u8]) -> String {
    if input.len() % SIZE != 0 || input.len() < 1_024 || input.len() > 65_536 {
        return format!("{}\n", Refusal::plain(LENGTH));
    }
    let (block, image) = input.split_at(SIZE);
    let run = match read_run(block) {
        Ok(run) => run,
        Err(refusal) => return format!("refused run {}\n", refusal.number),
    };
    let mut list = [0; 126];
    let count = match room_verdicts(&run, image, &mut list) {
        Ok(count) => count,
        Err(refusal) => return format!("{refusal}\n"),
    };
    let mut text = format!("pieces {count}\n");
    for (i, &verdict) in list[..count].iter().enumerate() {
        text += &match verdict {
            CLEAR => format!("{i} clear\n"),
            mark => format!("{i} blocked {mark}\n"),
        };
    }
    text
}
