//! bake BOOKS: makes a room, bakes its floor by a run from each patch to the lamp, prints which piece
//! stands in the light of each patch, and asks the same questions of the books in the file BOOKS, which
//! is made where there is none. Called again it finds them there. In `rust/`:
//!
//!     BAKER_LIB=target/staticlib/libbaker.a cargo run --release --offline -p baker --example bake -- BOOKS
//!
//! `examples/c/bake.c` is the same in C.

use baker::{Piece, Run, Verdict, BLOCK_SIZE, MOST_PIECES, MOST_SLOTS};
use std::error::Error;
use std::io::{self, Write};
use std::path::Path;

const COLUMNS: usize = 16;
const ROWS: usize = 8;
const LAMP: [i32; 3] = [544, 224, 192];
/// A question has one home slot, so there is a book for each row and piece: any rule may choose which
/// one is lent.
const BOOK_SIZE: usize = MOST_SLOTS * BLOCK_SIZE;

/// A table, a corner sofa, and a train that passes, each with its letter. Corners are x, y,
/// counterclockwise.
const ROOM: [(char, Piece); 3] = [
    (
        'T',
        Piece { bottom: 80, top: 96, velocity: [0; 3], corners: &[320, 288, 416, 288, 416, 352, 320, 352] },
    ),
    ('S', Piece { bottom: 0, top: 60, velocity: [0; 3], corners: &SOFA }),
    ('R', Piece { bottom: 0, top: 48, velocity: [12, 0, 0], corners: &[128, 64, 224, 64, 224, 96, 128, 96] }),
];
const SOFA: [i32; 12] = [704, 96, 896, 96, 896, 352, 832, 352, 832, 160, 704, 160];

/// A room image: a header, then a block for each piece.
fn make_room() -> Result<Vec<u8>, baker::Refused> {
    let mut image = vec![0; (1 + ROOM.len()) * BLOCK_SIZE];
    let (header, pieces) = image.split_at_mut(BLOCK_SIZE);
    baker::write_header(ROOM.len() as u32, header)?;
    for ((_, piece), block) in ROOM.iter().zip(pieces.chunks_mut(BLOCK_SIZE)) {
        baker::write_piece(piece, block)?;
    }
    Ok(image)
}

/// From the middle of a patch to the lamp, in 16 ticks.
fn run_of(column: usize, row: usize) -> Run {
    let position = [32 + 64 * column as i32, 32 + 64 * row as i32, 0];
    let velocity = [0, 1, 2].map(|axis| (LAMP[axis] - position[axis]) / 16);
    Run { position, velocity, ticks: 16 }
}

/// Bakes the floor; gives how many questions the books remembered.
fn bake(image: &[u8], books: &mut [u8], out: &mut dyn Write) -> Result<usize, Box<dyn Error>> {
    let mut remembered = 0;
    for (row, books) in books.chunks_mut(ROOM.len() * BOOK_SIZE).enumerate().rev() {
        for column in 0..COLUMNS {
            let run = run_of(column, row);
            let mut list = [0; MOST_PIECES];
            let count = baker::room_verdicts(&run, image, &mut list)?;
            let verdicts = list[..count].iter().map(|&code| Verdict::of_code(code));
            let mut first = '.';
            for (((letter, piece), book), verdict) in
                ROOM.iter().zip(books.chunks_mut(BOOK_SIZE)).zip(verdicts)
            {
                if first == '.' && verdict != Verdict::Clear {
                    first = *letter;
                }
                let (same, known) = baker::ask(book, &run, piece)?;
                if same != verdict {
                    return Err("the books were written in another way than by asking".into());
                }
                remembered += usize::from(known);
            }
            write!(out, "{first}")?;
        }
        writeln!(out)?;
    }
    Ok(remembered)
}

/// The whole program, with its output where it is wanted.
pub fn run(file: &Path, out: &mut dyn Write) -> Result<(), Box<dyn Error>> {
    let mut books = vec![0; ROWS * ROOM.len() * BOOK_SIZE];
    if file.exists() {
        books = std::fs::read(file)?;
        if books.len() != ROWS * ROOM.len() * BOOK_SIZE {
            return Err(format!("{}: no books in the file", file.display()).into());
        }
    }
    let image = make_room()?;
    let remembered = bake(&image, &mut books, out)?;
    writeln!(out, "remembered {remembered} of {}", ROOM.len() * COLUMNS * ROWS)?;
    std::fs::write(file, books)?;
    Ok(())
}

#[allow(dead_code)] // the test of this example calls `run`
fn main() -> Result<(), Box<dyn Error>> {
    let file = std::env::args().nth(1).ok_or("bake BOOKS")?;
    run(Path::new(&file), &mut io::stdout())
}
