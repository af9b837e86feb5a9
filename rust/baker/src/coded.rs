//! The calls with their slices, safe, and their answers still coded as one `u64`.

use crate::sys;
use crate::{Piece, Run};

pub const REFUSED: u64 = 1 << 63;
pub const REMEMBERED: u64 = 1 << 32;

pub fn check_run(run: &Run) -> u64 {
    let [x, y, z] = run.position;
    let [vx, vy, vz] = run.velocity;
    // SAFETY: numbers only.
    unsafe { sys::baker_check_run(x, y, z, vx, vy, vz, run.ticks) }
}

pub fn check_piece(piece: &Piece) -> u64 {
    let Piece { bottom, top, velocity: [vx, vy, vz], corners } = *piece;
    // SAFETY: pointer and length are those of a slice that is borrowed through the call; so below.
    unsafe { sys::baker_check_piece(bottom, top, vx, vy, vz, corners.as_ptr(), corners.len()) }
}

pub fn place(x: i32, y: i32, corners: &[i32]) -> u64 {
    // SAFETY: as in `check_piece`.
    unsafe { sys::baker_place(x, y, corners.as_ptr(), corners.len()) }
}

pub fn verdict(run: &Run, piece: &Piece) -> u64 {
    let Run { position: [x, y, z], velocity: [vx, vy, vz], ticks } = *run;
    let Piece { bottom, top, velocity: [ux, uy, uz], corners } = *piece;
    let (list, length) = (corners.as_ptr(), corners.len());
    // SAFETY: as in `check_piece`.
    unsafe { sys::baker_verdict(x, y, z, vx, vy, vz, ticks, bottom, top, ux, uy, uz, list, length) }
}

pub fn write_header(pieces: u32, block: &mut [u8]) -> u64 {
    // SAFETY: as in `check_piece`; a lent slice is borrowed for writing, so nothing overlaps it.
    unsafe { sys::baker_write_header(pieces, block.as_mut_ptr(), block.len()) }
}

pub fn read_header(block: &[u8]) -> u64 {
    // SAFETY: as in `check_piece`.
    unsafe { sys::baker_read_header(block.as_ptr(), block.len()) }
}

pub fn write_run(run: &Run, block: &mut [u8]) -> u64 {
    let Run { position: [x, y, z], velocity: [vx, vy, vz], ticks } = *run;
    // SAFETY: as in `write_header`.
    unsafe { sys::baker_write_run(x, y, z, vx, vy, vz, ticks, block.as_mut_ptr(), block.len()) }
}

pub fn read_run(block: &[u8], numbers: &mut [i32]) -> u64 {
    // SAFETY: as in `write_header`.
    unsafe { sys::baker_read_run(block.as_ptr(), block.len(), numbers.as_mut_ptr(), numbers.len()) }
}

pub fn write_piece(piece: &Piece, block: &mut [u8]) -> u64 {
    let Piece { bottom, top, velocity: [vx, vy, vz], corners } = *piece;
    let (list, length) = (corners.as_ptr(), corners.len());
    // SAFETY: as in `write_header`.
    unsafe { sys::baker_write_piece(bottom, top, vx, vy, vz, list, length, block.as_mut_ptr(), block.len()) }
}

pub fn read_piece(block: &[u8], numbers: &mut [i32]) -> u64 {
    // SAFETY: as in `write_header`.
    unsafe { sys::baker_read_piece(block.as_ptr(), block.len(), numbers.as_mut_ptr(), numbers.len()) }
}

pub fn room_piece(image: &[u8], place: usize, numbers: &mut [i32]) -> u64 {
    // SAFETY: as in `write_header`.
    unsafe { sys::baker_room_piece(image.as_ptr(), image.len(), place, numbers.as_mut_ptr(), numbers.len()) }
}

pub fn room_verdicts(run: &Run, image: &[u8], list: &mut [u32]) -> u64 {
    let Run { position: [x, y, z], velocity: [vx, vy, vz], ticks } = *run;
    let (bytes, length) = (image.as_ptr(), image.len());
    // SAFETY: as in `write_header`.
    unsafe {
        sys::baker_room_verdicts(x, y, z, vx, vy, vz, ticks, bytes, length, list.as_mut_ptr(), list.len())
    }
}

pub fn ask(book: &mut [u8], run: &Run, piece: &Piece) -> u64 {
    let Run { position: [x, y, z], velocity: [vx, vy, vz], ticks } = *run;
    let Piece { bottom, top, velocity: [ux, uy, uz], corners } = *piece;
    let (bytes, size) = (book.as_mut_ptr(), book.len());
    let (list, length) = (corners.as_ptr(), corners.len());
    // SAFETY: as in `write_header`.
    unsafe { sys::baker_ask(bytes, size, x, y, z, vx, vy, vz, ticks, bottom, top, ux, uy, uz, list, length) }
}

pub fn take(x: f32, grid: &mut i32, floor: &mut f32) -> u64 {
    // SAFETY: both are borrowed for writing through the call.
    unsafe { sys::baker_take(x, grid, floor) }
}

pub fn intake(numbers: &[f32], list: &mut [i32]) -> u64 {
    // SAFETY: as in `write_header`.
    unsafe { sys::baker_intake(numbers.as_ptr(), numbers.len(), list.as_mut_ptr(), list.len()) }
}

pub fn obj(file: &[u8], bottom: i32, top: i32, velocity: [i32; 3], list: &mut [i32]) -> u64 {
    let [vx, vy, vz] = velocity;
    let (bytes, length) = (file.as_ptr(), file.len());
    // SAFETY: as in `write_header`.
    unsafe { sys::baker_obj(bytes, length, bottom, top, vx, vy, vz, list.as_mut_ptr(), list.len()) }
}
