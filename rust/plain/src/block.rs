//! Blocks of 512 bytes.

use crate::footprint::{check_count, check_numbers, check_piece, check_run, MOST_CORNERS};
use crate::{Piece, Refusal, Run};

pub const SIZE: usize = 512;
pub(crate) const BODY: usize = 510;
const NAME: [u8; 4] = *b"ROOM";

/// A piece as read, with its corners inside.
#[derive(Clone, Copy, Debug)]
pub struct Read {
    pub bottom: i32,
    pub top: i32,
    pub velocity: [i32; 3],
    pub count: usize,
    corners: [i32; 2 * MOST_CORNERS],
}

impl Read {
    pub fn corners(&self) -> &[i32] {
        &self.corners[..2 * self.count]
    }

    pub fn piece(&self) -> Piece<'_> {
        let [vx, vy, vz] = self.velocity;
        Piece { bottom: self.bottom, top: self.top, vx, vy, vz, corners: self.corners() }
    }
}

/// The two check bytes: a Fletcher sum that is reduced once, at the end.
pub(crate) fn check_bytes(block: &[u8]) -> [u8; 2] {
    let (mut sum, mut sums) = (0u32, 0u32);
    for &byte in &block[..BODY] {
        sum += byte as u32;
        sums += sum;
    }
    [(sum % 255) as u8, (sums % 255) as u8]
}

pub(crate) fn seal(block: &mut [u8]) {
    let check = check_bytes(block);
    block[BODY..].copy_from_slice(&check);
}

fn check_length(block: &[u8]) -> Result<(), Refusal> {
    if block.len() != SIZE {
        return Err(Refusal::length());
    }
    Ok(())
}

fn check_sound(block: &[u8]) -> Result<(), Refusal> {
    check_length(block)?;
    if block[BODY..] != check_bytes(block) {
        return Err(Refusal::new(2, 0, 0));
    }
    Ok(())
}

fn check_zero(block: &[u8], from: usize) -> Result<(), Refusal> {
    match block[from..BODY].iter().position(|&byte| byte != 0) {
        Some(i) => Err(Refusal::kind(from + i)),
        None => Ok(()),
    }
}

fn get(block: &[u8], at: usize) -> i32 {
    i16::from_le_bytes([block[at], block[at + 1]]) as i32
}

fn put(block: &mut [u8], at: usize, value: i32) {
    block[at..at + 2].copy_from_slice(&(value as i16).to_le_bytes());
}

pub(crate) fn put_run(block: &mut [u8], run: &Run) {
    let numbers = [run.x, run.y, run.z, run.vx, run.vy, run.vz, run.ticks as i32];
    for (k, value) in numbers.into_iter().enumerate() {
        put(block, 2 + 2 * k, value);
    }
}

/// Bytes 1 and on of a piece block.
pub(crate) fn put_piece(bytes: &mut [u8], piece: &Piece) {
    bytes[0] = (piece.corners.len() / 2) as u8;
    for (k, value) in [piece.bottom, piece.top, piece.vx, piece.vy, piece.vz].into_iter().enumerate() {
        put(bytes, 1 + 2 * k, value);
    }
    for (k, &value) in piece.corners.iter().enumerate() {
        put(bytes, 11 + 2 * k, value);
    }
}

pub fn write_header(pieces: u32, block: &mut [u8]) -> Result<(), Refusal> {
    check_length(block)?;
    if pieces > 126 {
        return Err(Refusal::kind(5));
    }
    block.fill(0);
    block[..4].copy_from_slice(&NAME);
    block[4] = 1;
    block[5] = pieces as u8;
    seal(block);
    Ok(())
}

pub fn write_run(run: &Run, block: &mut [u8]) -> Result<(), Refusal> {
    check_length(block)?;
    check_run(run)?;
    block.fill(0);
    block[0] = 2;
    put_run(block, run);
    seal(block);
    Ok(())
}

pub fn write_piece(piece: &Piece, block: &mut [u8]) -> Result<(), Refusal> {
    check_length(block)?;
    check_piece(piece)?;
    block.fill(0);
    block[0] = 1;
    put_piece(&mut block[1..], piece);
    seal(block);
    Ok(())
}

pub fn read_header(block: &[u8]) -> Result<u32, Refusal> {
    check_sound(block)?;
    if let Some(i) = (0..4).find(|&i| block[i] != NAME[i]) {
        return Err(Refusal::kind(i));
    }
    if block[4] != 1 {
        return Err(Refusal::kind(4));
    }
    if block[5] > 126 {
        return Err(Refusal::kind(5));
    }
    check_zero(block, 6)?;
    Ok(block[5] as u32)
}

pub fn read_run(block: &[u8]) -> Result<Run, Refusal> {
    check_sound(block)?;
    if block[0] != 2 {
        return Err(Refusal::kind(0));
    }
    if block[1] != 0 {
        return Err(Refusal::kind(1));
    }
    check_zero(block, 16)?;
    let run = Run {
        x: get(block, 2),
        y: get(block, 4),
        z: get(block, 6),
        vx: get(block, 8),
        vy: get(block, 10),
        vz: get(block, 12),
        ticks: u16::from_le_bytes([block[14], block[15]]) as u32,
    };
    check_run(&run)?;
    Ok(run)
}

pub fn read_piece(block: &[u8]) -> Result<Read, Refusal> {
    check_sound(block)?;
    if block[0] != 1 {
        return Err(Refusal::kind(0));
    }
    let count = block[1] as usize;
    check_count(2 * count)?;
    check_zero(block, 12 + 4 * count)?;
    let mut corners = [0; 2 * MOST_CORNERS];
    for (k, corner) in corners[..2 * count].iter_mut().enumerate() {
        *corner = get(block, 12 + 2 * k);
    }
    let velocity = [get(block, 6), get(block, 8), get(block, 10)];
    let read = Read { bottom: get(block, 2), top: get(block, 4), velocity, count, corners };
    check_numbers(&read.piece())?;
    Ok(read)
}
