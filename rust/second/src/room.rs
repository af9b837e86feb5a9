//! Room images: the header and then its pieces.

use crate::block::{read_header, read_piece, SIZE};
use crate::reach::check_run;
use crate::refusal::{Refusal, LENGTH, SHORT};
use crate::verdict::verdict_of_good;
use crate::{Piece, Run};

/// The piece count of an image whose length and header are good.
pub fn room_count(image: &[u8]) -> Result<usize, Refusal> {
    if image.len() % SIZE != 0 || image.len() < SIZE || image.len() > 65_024 {
        return Err(Refusal::plain(LENGTH));
    }
    let count = read_header(&image[..SIZE])? as usize;
    if image.len() != SIZE * (count + 1) {
        return Err(Refusal::plain(LENGTH));
    }
    Ok(count)
}

/// The piece at a place, or none at or past the end. It depends on image and place only.
pub fn room_piece(image: &[u8], place: usize) -> Result<Option<Piece>, Refusal> {
    if place >= room_count(image)? {
        return Ok(None);
    }
    let from = SIZE * (place + 1);
    match read_piece(&image[from..from + SIZE]) {
        Ok(piece) => Ok(Some(piece)),
        Err(refusal) => Err(refusal.of_piece(place)),
    }
}

/// Every piece of a room, or the first refusal.
pub fn room_pieces(image: &[u8]) -> Result<Vec<Piece>, Refusal> {
    let mut pieces = Vec::new();
    while let Some(piece) = room_piece(image, pieces.len())? {
        pieces.push(piece);
    }
    Ok(pieces)
}

/// Keeps the room image and its place in it.
#[derive(Clone, Debug)]
pub struct Reader<'a> {
    image: &'a [u8],
    place: usize,
}

impl<'a> Reader<'a> {
    pub fn new(image: &'a [u8]) -> Self {
        Reader { image, place: 0 }
    }

    /// The next good piece, the end, or the refusal; the last two repeat.
    pub fn step(&mut self) -> Result<Option<Piece>, Refusal> {
        let answer = room_piece(self.image, self.place);
        if let Ok(Some(_)) = answer {
            self.place += 1;
        }
        answer
    }
}

/// One verdict for each piece into the lent list; elements past the count stay.
pub fn room_verdicts(run: &Run, image: &[u8], list: &mut [u32]) -> Result<usize, Refusal> {
    check_run(run)?;
    let pieces = room_pieces(image)?;
    if list.len() < pieces.len() {
        return Err(Refusal::plain(SHORT));
    }
    for (slot, piece) in list.iter_mut().zip(&pieces) {
        *slot = verdict_of_good(run, piece);
    }
    Ok(pieces.len())
}
