//! Blocks of 512 bytes: header, piece and run, written and read.

use crate::footprint::{check_piece, check_shape};
use crate::reach::{check_body, check_corners, check_count, check_run};
use crate::refusal::{Refusal, CHECK, KIND, LENGTH};
use crate::{Piece, Run};

pub const SIZE: usize = 512;
/// Where the two bytes of the check stand; the bytes before them are the body.
pub const BODY: usize = 510;
pub const NAME: [u8; 4] = [0x52, 0x4f, 0x4f, 0x4d];
pub const EDITION: u8 = 1;
pub const MOST_PIECES: u32 = 126;
pub const PIECE_KIND: u8 = 1;
pub const RUN_KIND: u8 = 2;
pub const CORNERS_FROM: usize = 12;

/// The two check bytes of a block, whatever stands in their places.
pub fn check_bytes(block: &[u8]) -> [u8; 2] {
    let body = || block[..BODY].iter().enumerate();
    let sum: u64 = body().map(|(_, &byte)| byte as u64).sum();
    let weighed: u64 = body().map(|(i, &byte)| (510 - i as u64) * byte as u64).sum();
    [(sum % 255) as u8, (weighed % 255) as u8]
}

/// Puts the right check into a block.
pub fn seal(block: &mut [u8]) {
    let check = check_bytes(block);
    block[BODY..].copy_from_slice(&check);
}

/// Is this a block with a right check?
pub fn check_sound(block: &[u8]) -> Result<(), Refusal> {
    check_length(block)?;
    if block[BODY..] != check_bytes(block) {
        return Err(Refusal::plain(CHECK));
    }
    Ok(())
}

fn check_length(block: &[u8]) -> Result<(), Refusal> {
    if block.len() != SIZE {
        return Err(Refusal::plain(LENGTH));
    }
    Ok(())
}

/// Refuses at the first of these bytes that is not zero.
fn check_zero(block: &[u8], mut offsets: impl Iterator<Item = usize>) -> Result<(), Refusal> {
    match offsets.find(|&i| block[i] != 0) {
        Some(i) => Err(Refusal::at(KIND, i)),
        None => Ok(()),
    }
}

fn signed(block: &[u8], offset: usize) -> i32 {
    i16::from_le_bytes([block[offset], block[offset + 1]]) as i32
}

fn put(block: &mut [u8], offset: usize, value: i32) {
    // Within reach the low 16 bits are all of a number.
    block[offset..offset + 2].copy_from_slice(&(value as u16).to_le_bytes());
}

/// The body of a run block or of a book entry shares these bytes: 2 to 15.
pub fn put_run(block: &mut [u8], run: &Run) {
    for k in 0..3 {
        put(block, 2 + 2 * k, run.position[k]);
        put(block, 8 + 2 * k, run.velocity[k]);
    }
    put(block, 14, run.ticks as i32);
}

/// A whole piece block made from a good piece.
pub fn piece_block(piece: &Piece) -> [u8; SIZE] {
    let mut block = [0; SIZE];
    block[0] = PIECE_KIND;
    block[1] = (piece.corners.len() / 2) as u8;
    put(&mut block, 2, piece.bottom);
    put(&mut block, 4, piece.top);
    for k in 0..3 {
        put(&mut block, 6 + 2 * k, piece.velocity[k]);
    }
    for (k, &value) in piece.corners.iter().enumerate() {
        put(&mut block, CORNERS_FROM + 2 * k, value);
    }
    seal(&mut block);
    block
}

pub fn write_header(pieces: u32, block: &mut [u8]) -> Result<(), Refusal> {
    check_length(block)?;
    if pieces > MOST_PIECES {
        return Err(Refusal::at(KIND, 5));
    }
    block.fill(0);
    block[..4].copy_from_slice(&NAME);
    block[4] = EDITION;
    block[5] = pieces as u8;
    seal(block);
    Ok(())
}

pub fn write_run(run: &Run, block: &mut [u8]) -> Result<(), Refusal> {
    check_length(block)?;
    check_run(run)?;
    block.fill(0);
    block[0] = RUN_KIND;
    put_run(block, run);
    seal(block);
    Ok(())
}

pub fn write_piece(piece: &Piece, block: &mut [u8]) -> Result<(), Refusal> {
    check_length(block)?;
    check_piece(piece)?;
    block.copy_from_slice(&piece_block(piece));
    Ok(())
}

/// The piece count of a header.
pub fn read_header(block: &[u8]) -> Result<u32, Refusal> {
    check_sound(block)?;
    for i in 0..BODY {
        let right = match i {
            0..=3 => block[i] == NAME[i],
            4 => block[i] == EDITION,
            5 => block[i] as u32 <= MOST_PIECES,
            _ => block[i] == 0,
        };
        if !right {
            return Err(Refusal::at(KIND, i));
        }
    }
    Ok(block[5] as u32)
}

pub fn read_run(block: &[u8]) -> Result<Run, Refusal> {
    check_sound(block)?;
    if block[0] != RUN_KIND {
        return Err(Refusal::at(KIND, 0));
    }
    check_zero(block, (1..2).chain(16..BODY))?;
    let run = Run {
        position: [2, 4, 6].map(|i| signed(block, i)),
        velocity: [8, 10, 12].map(|i| signed(block, i)),
        ticks: u16::from_le_bytes([block[14], block[15]]) as u32,
    };
    check_run(&run)?;
    Ok(run)
}

pub fn read_piece(block: &[u8]) -> Result<Piece, Refusal> {
    check_sound(block)?;
    if block[0] != PIECE_KIND {
        return Err(Refusal::at(KIND, 0));
    }
    let count = block[1] as usize;
    check_count(2 * count)?;
    let end = CORNERS_FROM + 4 * count;
    check_zero(block, end..BODY)?;
    let piece = Piece {
        bottom: signed(block, 2),
        top: signed(block, 4),
        velocity: [6, 8, 10].map(|i| signed(block, i)),
        corners: (CORNERS_FROM..end).step_by(2).map(|i| signed(block, i)).collect(),
    };
    check_body(&piece)?;
    check_corners(&piece.corners)?;
    check_shape(&piece.corners)?;
    Ok(piece)
}
