//! Books: empty, filled, forged and damaged, each with a question.

use crate::bodies;
use crate::rng::Rng;
use second::block::{seal, SIZE};
use second::book::{ask, entry, home};
use second::footprint::check_piece;
use second::reach::check_run;
use second::verdict::CLEAR;
use second::{Piece, Run};

/// A book and a question to ask of it.
pub fn any_book(rng: &mut Rng, index: u64) -> (Vec<u8>, Run, Piece) {
    let (run, piece) = bodies::question(rng);
    let slots = match rng.below(40) {
        0 => 128,
        1 => rng.range(1, 128) as usize,
        _ => rng.range(1, 4) as usize,
    };
    let mut book = vec![0; SIZE * slots];
    if rng.once_in(2) {
        for _ in 0..rng.below(3) {
            let (run, piece) = bodies::question(rng);
            let _ = ask(&mut book, &run, &piece);
        }
    }
    let good = check_run(&run).is_ok() && check_piece(&piece).is_ok();
    if good && !rng.once_in(3) {
        forge(rng, &mut book, index, &run, &piece);
    }
    if rng.once_in(30) {
        let length = rng.pick(&[0, 1, 511, 513, 65_535, 65_537, 66_048]);
        book.resize(length, 0);
    }
    (book, run, piece)
}

/// Puts into the home slot an entry that looks like the question's: true, untrue, for another
/// question of the same sum, with a byte changed, or in the wrong slot.
fn forge(rng: &mut Rng, book: &mut [u8], index: u64, run: &Run, piece: &Piece) {
    let slots = book.len() / SIZE;
    let most = 256 * run.ticks;
    let verdict = rng.pick(&[CLEAR, 0, most, most + 1, most / 2, CLEAR - 1, 1 << 31]);
    let mut forged = entry(run, piece, verdict);
    let mut slot = home(&forged, slots);
    match rng.below(8) {
        0 | 1 => {
            let at = (index % SIZE as u64) as usize;
            forged[at] = if rng.once_in(2) { forged[at] ^ 255 } else { rng.bits() as u8 };
            if !rng.once_in(4) {
                seal(&mut forged);
            }
        }
        2 => {
            // the same bytes in another order: same sum, same slot, another question
            let (i, j) = (rng.range(2, 60) as usize, rng.range(2, 60) as usize);
            forged.swap(i, j);
            seal(&mut forged);
        }
        3 => {
            // an entry in every respect but its kind or its unnamed bytes
            let unnamed = 287 + rng.below(223);
            let at = rng.pick(&[0, 1, 287, 509, unnamed]);
            forged[at] = rng.bits() as u8;
            seal(&mut forged);
        }
        4 => slot = rng.below(slots),
        5 => {
            let at = rng.pick(&[510, 511]);
            forged[at] = forged[at].wrapping_add(rng.pick(&[1, 255]));
        }
        _ => {}
    }
    book[slot * SIZE..(slot + 1) * SIZE].copy_from_slice(&forged);
}
