//! Blocks and room images, good and damaged.

use crate::bodies;
use crate::rng::Rng;
use second::block::{self, SIZE};
use second::{Piece, Run};

/// The right block for a piece, good or not, as long as its numbers can be laid out at all.
fn laid_out(piece: &Piece) -> Vec<u8> {
    if piece.corners.len() <= 248 {
        block::piece_block(piece).to_vec()
    } else {
        vec![0; SIZE]
    }
}

pub fn header(pieces: u32) -> Vec<u8> {
    let mut block = vec![0; SIZE];
    block::write_header(pieces, &mut block).expect("a good count");
    block
}

/// Header, run or piece block, nearly always of the wanted kind (0, 2 and 1), often damaged.
pub fn any_block(rng: &mut Rng, index: u64, kind: u8) -> Vec<u8> {
    let kind = if rng.once_in(40) { rng.pick(&[0, 1, 2]) } else { kind };
    let mut block = match kind {
        0 => header(rng.range(0, 126) as u32),
        1 => {
            let bad = rng.once_in(4);
            laid_out(&if bad { bodies::bad_piece(rng) } else { bodies::good_piece(rng) })
        }
        _ => {
            let mut block = vec![0; SIZE];
            block[0] = block::RUN_KIND;
            let bad = rng.once_in(4);
            block::put_run(&mut block, &if bad { bodies::bad_run(rng) } else { bodies::good_run(rng) });
            block::seal(&mut block);
            block
        }
    };
    if !rng.once_in(3) {
        damage(rng, &mut block, index);
    }
    if rng.once_in(30) {
        let length = rng.pick(&[0, 1, 510, 511, 513, 1_024]);
        block.resize(length, 0);
    }
    block
}

/// Changes a byte, at times more. The index goes through all bytes of the block in turn; the check
/// is made right again three times in four, so that what comes after it is reached.
pub fn damage(rng: &mut Rng, block: &mut [u8], index: u64) {
    let at = (index % SIZE as u64) as usize;
    change(rng, block, at);
    while rng.once_in(3) {
        // Most of what a block says stands in its first bytes.
        let at = if rng.once_in(2) { rng.below(16) } else { rng.below(SIZE) };
        change(rng, block, at);
    }
    if !rng.once_in(4) {
        block::seal(block);
    }
}

fn change(rng: &mut Rng, block: &mut [u8], at: usize) {
    block[at] = match rng.below(4) {
        0 => block[at].wrapping_add(1),
        1 => 255 - block[at],
        2 => rng.pick(&[0, 1, 2, 3, 64, 65, 126, 127, 128, 255]),
        _ => rng.bits() as u8,
    };
}

/// The image of a room of good pieces.
pub fn image(pieces: &[Piece]) -> Vec<u8> {
    let mut image = header(pieces.len() as u32);
    for piece in pieces {
        image.extend(laid_out(piece));
    }
    image
}

/// Some good pieces: mostly few, seldom as many as a room can have.
pub fn pieces(rng: &mut Rng) -> Vec<Piece> {
    let count = match rng.below(400) {
        0 => 126,
        1 => rng.below(127),
        _ => rng.below(5),
    };
    (0..count).map(|_| bodies::good_piece(rng)).collect()
}

/// A run and a room image. The run is good three times in four and aimed at one of the pieces; the
/// image is good, or spoilt in one of its blocks, its count or its length.
pub fn any_room(rng: &mut Rng, index: u64) -> (Run, Vec<u8>) {
    let mut pieces = pieces(rng);
    let count = pieces.len();
    let run = match rng.below(8) {
        0 => bodies::bad_run(rng),
        _ if count == 0 => bodies::good_run(rng),
        _ => bodies::aimed_run(rng, &pieces[index as usize % count]),
    };
    if count > 0 && rng.once_in(6) {
        let k = rng.below(count);
        pieces[k] = bodies::bad_piece(rng);
    }
    let mut image = image(&pieces);
    match rng.below(8) {
        0 | 1 => {
            let k = if rng.once_in(4) { 0 } else { rng.below(count + 1) };
            damage(rng, &mut image[k * SIZE..(k + 1) * SIZE], index);
        }
        2 => {
            // another count than the pieces that follow
            image[5] = rng.range(0, 130) as u8;
            block::seal(&mut image[..SIZE]);
        }
        3 => {
            let length = rng.pick(&[0, 1, 511, 512, 513, 1_024, 65_024, 65_025, 65_536]);
            image.resize(length, 0);
        }
        _ => {}
    }
    (run, image)
}

/// The input of the printing program: a run block and an image, or something spoilt.
pub fn any_input(rng: &mut Rng, index: u64) -> Vec<u8> {
    let (run, image) = any_room(rng, index);
    let mut input = vec![0; SIZE];
    if block::write_run(&run, &mut input).is_err() || rng.once_in(8) {
        input = any_block(rng, index, 2);
    }
    input.extend(image);
    if rng.once_in(30) {
        let length = rng.pick(&[0, 1, 512, 1_023, 1_024, 65_535, 65_536, 65_537, 66_048]);
        input.resize(length, 0);
    }
    input
}
