//! The book of remembered verdicts.

use crate::block::{check_bytes, put_piece, put_run, seal, BODY, SIZE};
use crate::footprint::{check_piece, check_run};
use crate::verdict::{verdict_of_good, CLEAR};
use crate::{Piece, Refusal, Run};

#[derive(Clone, Copy, Debug, PartialEq, Eq)]
pub struct Asked {
    pub verdict: u32,
    pub remembered: bool,
}

pub fn ask(book: &mut [u8], run: &Run, piece: &Piece) -> Result<Asked, Refusal> {
    if book.len() % SIZE != 0 || !(SIZE..=128 * SIZE).contains(&book.len()) {
        return Err(Refusal::length());
    }
    check_run(run)?;
    check_piece(piece)?;
    let mut entry = [0; SIZE];
    entry[0] = 3;
    put_run(&mut entry, run);
    put_piece(&mut entry[16..], piece);
    let sum: usize = entry[2..283].iter().map(|&byte| byte as usize).sum();
    let home = sum % (book.len() / SIZE);
    let slot = &mut book[home * SIZE..(home + 1) * SIZE];
    if let Some(verdict) = remembered(slot, &entry, run.ticks) {
        return Ok(Asked { verdict, remembered: true });
    }
    let verdict = verdict_of_good(run, piece);
    entry[283..287].copy_from_slice(&verdict.to_le_bytes());
    seal(&mut entry);
    slot.copy_from_slice(&entry);
    Ok(Asked { verdict, remembered: false })
}

/// The verdict of a slot that is a hit; the cheap tests come first.
fn remembered(slot: &[u8], entry: &[u8], ticks: u32) -> Option<u32> {
    let verdict = u32::from_le_bytes([slot[283], slot[284], slot[285], slot[286]]);
    let hit = slot[..283] == entry[..283]
        && (verdict == CLEAR || verdict <= 256 * ticks)
        && slot[287..BODY].iter().all(|&byte| byte == 0)
        && slot[BODY..] == check_bytes(slot);
    hit.then_some(verdict)
}
