//! Room images.

use crate::block::{read_header, read_piece, Read, SIZE};
use crate::footprint::check_run;
use crate::verdict::verdict_of_good;
use crate::{Refusal, Run};

fn room_count(image: &[u8]) -> Result<usize, Refusal> {
    if image.len() % SIZE != 0 || !(SIZE..=127 * SIZE).contains(&image.len()) {
        return Err(Refusal::length());
    }
    let count = read_header(&image[..SIZE])? as usize;
    if image.len() != SIZE * (count + 1) {
        return Err(Refusal::length());
    }
    Ok(count)
}

fn piece_at(image: &[u8], place: usize) -> Result<Read, Refusal> {
    let block = &image[SIZE * (place + 1)..SIZE * (place + 2)];
    read_piece(block).map_err(|refusal| Refusal { block: place as u16 + 1, ..refusal })
}

/// The piece at a place of a room, or none at or past its end.
pub fn room_piece(image: &[u8], place: usize) -> Result<Option<Read>, Refusal> {
    if place >= room_count(image)? {
        return Ok(None);
    }
    piece_at(image, place).map(Some)
}

/// One verdict for each piece into the list, in one pass over the room.
pub fn room_verdicts(run: &Run, image: &[u8], list: &mut [u32]) -> Result<usize, Refusal> {
    check_run(run)?;
    let count = room_count(image)?;
    let mut verdicts = [0; 126];
    for (place, verdict) in verdicts[..count].iter_mut().enumerate() {
        *verdict = verdict_of_good(run, &piece_at(image, place)?.piece());
    }
    if list.len() < count {
        return Err(Refusal::short());
    }
    list[..count].copy_from_slice(&verdicts[..count]);
    Ok(count)
}
