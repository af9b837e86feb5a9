//! The book of remembered verdicts.

use crate::block::{check_bytes, piece_block, put_run, seal, BODY, SIZE};
use crate::footprint::check_piece;
use crate::reach::check_run;
use crate::refusal::{Refusal, LENGTH};
use crate::verdict::{verdict_of_good, CLEAR};
use crate::{Piece, Run};

pub const ENTRY_KIND: u8 = 3;

#[derive(Clone, Copy, Debug, PartialEq, Eq)]
pub struct Asked {
    pub verdict: u32,
    pub remembered: bool,
}

/// The entry for a question and its verdict.
pub fn entry(run: &Run, piece: &Piece, verdict: u32) -> [u8; SIZE] {
    let mut entry = [0; SIZE];
    entry[0] = ENTRY_KIND;
    put_run(&mut entry, run);
    entry[16..=282].copy_from_slice(&piece_block(piece)[1..=267]);
    entry[283..=286].copy_from_slice(&verdict.to_le_bytes());
    seal(&mut entry);
    entry
}

/// The slot of a question: entry bytes 2 to 282 added up, modulo the number of slots.
pub fn home(entry: &[u8], slots: usize) -> usize {
    entry[2..=282].iter().map(|&byte| byte as usize).sum::<usize>() % slots
}

/// The verdict in a slot, where it is a hit for the question that this entry is made from.
fn hit(slot: &[u8], question: &[u8], ticks: u32) -> Option<u32> {
    let verdict = u32::from_le_bytes([slot[283], slot[284], slot[285], slot[286]]);
    let sound = slot[BODY..] == check_bytes(slot)
        && slot[0] == ENTRY_KIND
        && slot[2..=282] == question[2..=282]
        && (verdict == CLEAR || verdict <= 256 * ticks)
        && slot[1] == 0
        && slot[287..BODY].iter().all(|&byte| byte == 0);
    sound.then_some(verdict)
}

/// Answers from the book, or works the verdict out and enters it in its home slot.
pub fn ask(book: &mut [u8], run: &Run, piece: &Piece) -> Result<Asked, Refusal> {
    if book.len() % SIZE != 0 || book.len() < SIZE || book.len() > 128 * SIZE {
        return Err(Refusal::plain(LENGTH));
    }
    check_run(run)?;
    check_piece(piece)?;
    let question = entry(run, piece, 0);
    let from = SIZE * home(&question, book.len() / SIZE);
    let slot = &mut book[from..from + SIZE];
    if let Some(verdict) = hit(slot, &question, run.ticks) {
        return Ok(Asked { verdict, remembered: true });
    }
    let verdict = verdict_of_good(run, piece);
    slot.copy_from_slice(&entry(run, piece, verdict));
    Ok(Asked { verdict, remembered: false })
}
