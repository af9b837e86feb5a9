//! The proved baker for Rust. The calls are those of the static library, made safe and with typed
//! answers; `docs/RULES.md` has the rules in words.
//!
//! The library is linked where the environment variable BAKER_LIB names it when this crate is built
//! (see `build.rs`). Without it the build fails and says what to do, unless the feature
//! `library-optional` is asked for: then [`PRESENT`] is false and every call panics.
//!
//! A call that is refused answers a [`Refused`], which is an error, so `?` hands it on:
//!
#![cfg_attr(baker_lib, doc = "```")]
#![cfg_attr(not(baker_lib), doc = "```no_run")]
//! use baker::{Piece, Refusal, Run, Verdict};
//!
//! // a table of 64 by 64 grid units, 32 high, that stands still
//! let table = Piece { bottom: 0, top: 32, velocity: [0; 3], corners: &[0, 0, 64, 0, 64, 64, 0, 64] };
//! let run = Run { position: [-64, 32, 16], velocity: [16, 0, 0], ticks: 8 };
//! assert_eq!(baker::verdict(&run, &table)?, Verdict::Mark(1024));
//!
//! // its image, and the verdicts of a run on each piece
//! let mut image = vec![0; 2 * baker::BLOCK_SIZE];
//! let (header, piece) = image.split_at_mut(baker::BLOCK_SIZE);
//! baker::write_header(1, header)?;
//! baker::write_piece(&table, piece)?;
//! let mut verdicts = [0; baker::MOST_PIECES];
//! let pieces = baker::room_verdicts(&run, &image, &mut verdicts)?;
//! assert_eq!(verdicts[..pieces], [1024]);
//!
//! // a refusal says what is wrong and where
//! let crossed = Piece { corners: &[0, 0, 64, 64, 64, 0, 0, 64], ..table };
//! let refused = baker::check_piece(&crossed).unwrap_err();
//! assert_eq!(refused.refusal, Refusal::Meet);
//! assert_eq!(refused.to_string(), "edges 0 and 2 meet (8 at 0 2)");
//! # Ok::<(), baker::Refused>(())
//! ```
//!
//! `examples/bake.rs` bakes a floor and keeps books in a file.

pub mod coded;
mod refusal;
mod sizes;
mod sys;

pub use refusal::{Refusal, Refused};
pub use sizes::*;

/// Was the static library there when this crate was built?
pub const PRESENT: bool = cfg!(baker_lib);

/// A point with a position, a velocity and a length in ticks.
#[derive(Clone, Copy, Debug, PartialEq, Eq)]
pub struct Run {
    pub position: [i32; 3],
    pub velocity: [i32; 3],
    pub ticks: u32,
}

/// A footprint with a height band and one velocity; corners as x, y, x, y and so on.
#[derive(Clone, Copy, Debug, PartialEq, Eq)]
pub struct Piece<'a> {
    pub bottom: i32,
    pub top: i32,
    pub velocity: [i32; 3],
    pub corners: &'a [i32],
}

/// Where a point lies against a footprint.
#[derive(Clone, Copy, Debug, PartialEq, Eq)]
pub enum Place {
    Outside,
    Inside,
    On,
}

/// The answer of a run and a piece.
#[derive(Clone, Copy, Debug, PartialEq, Eq)]
pub enum Verdict {
    /// at no moment of the run does the point touch the piece
    Clear,
    /// the mark of the first contact, in 1/256 ticks, rounded down
    Mark(u32),
}

impl Verdict {
    /// From its code in a list of verdicts: FFFFFFFF for clear, otherwise the mark.
    pub fn of_code(code: u32) -> Self {
        match code {
            CLEAR => Verdict::Clear,
            mark => Verdict::Mark(mark),
        }
    }
}

/// The answer of one exported number.
#[derive(Clone, Copy, Debug, PartialEq)]
pub enum Taken {
    /// its grid number
    Grid(i32),
    /// the grid value at or below the number, in the export's unit
    OffGrid(f32),
    NotANumber,
    OutOfReach,
}

/// A piece as read from a block.
#[derive(Clone, Debug, PartialEq, Eq)]
pub struct Read {
    pub bottom: i32,
    pub top: i32,
    pub velocity: [i32; 3],
    pub corners: Vec<i32>,
}

impl Read {
    pub fn piece(&self) -> Piece<'_> {
        Piece { bottom: self.bottom, top: self.top, velocity: self.velocity, corners: &self.corners }
    }

    fn of_numbers(numbers: &[i32; PIECE_NUMBERS], corners: u32) -> Self {
        let [bottom, top, vx, vy, vz] = [0, 1, 2, 3, 4].map(|k| numbers[k]);
        let corners = numbers[5..5 + 2 * corners as usize].to_vec();
        Read { bottom, top, velocity: [vx, vy, vz], corners }
    }
}

/// Takes a coded answer apart. That the library gives no refusal but those of the table is proved.
fn answer(coded: u64) -> Result<u32, Refused> {
    if coded & coded::REFUSED == 0 {
        return Ok(coded as u32);
    }
    let (number, block) = ((coded >> 48) as u8, (coded >> 40 & 0xff) as u16);
    let (a, b) = ((coded >> 16 & 0xff_ffff) as u32, coded as u16);
    Err(Refused::new(number, block, a, b)
        .unwrap_or_else(|| panic!("the library gives an unknown refusal: {number}")))
}

/// Whether a run is good. Refused: [`Refusal::Reach`].
pub fn check_run(run: &Run) -> Result<(), Refused> {
    answer(coded::check_run(run)).map(|_| ())
}

/// Whether a piece is good. Refused, in this order: 5, 4, 6, 7, 8, 9.
pub fn check_piece(piece: &Piece) -> Result<(), Refused> {
    answer(coded::check_piece(piece)).map(|_| ())
}

/// Where a point lies against a footprint. Refused: 4 for the point, then the footprint as in [`check_piece`].
pub fn place(x: i32, y: i32, corners: &[i32]) -> Result<Place, Refused> {
    Ok(match answer(coded::place(x, y, corners))? {
        0 => Place::Outside,
        1 => Place::Inside,
        _ => Place::On,
    })
}

/// The verdict of a run and a piece. Refused: the run, then the piece.
pub fn verdict(run: &Run, piece: &Piece) -> Result<Verdict, Refused> {
    answer(coded::verdict(run, piece)).map(Verdict::of_code)
}

/// The header of a room of so many pieces, into a block of [`BLOCK_SIZE`] bytes.
pub fn write_header(pieces: u32, block: &mut [u8]) -> Result<(), Refused> {
    answer(coded::write_header(pieces, block)).map(|_| ())
}

/// The piece count of a header.
pub fn read_header(block: &[u8]) -> Result<u32, Refused> {
    answer(coded::read_header(block))
}

/// A run, into a block of [`BLOCK_SIZE`] bytes.
pub fn write_run(run: &Run, block: &mut [u8]) -> Result<(), Refused> {
    answer(coded::write_run(run, block)).map(|_| ())
}

/// A run from its block.
pub fn read_run(block: &[u8]) -> Result<Run, Refused> {
    let mut numbers = [0; RUN_NUMBERS];
    answer(coded::read_run(block, &mut numbers))?;
    let [x, y, z, vx, vy, vz, ticks] = numbers;
    Ok(Run { position: [x, y, z], velocity: [vx, vy, vz], ticks: ticks as u32 })
}

/// A piece, into a block of [`BLOCK_SIZE`] bytes.
pub fn write_piece(piece: &Piece, block: &mut [u8]) -> Result<(), Refused> {
    answer(coded::write_piece(piece, block)).map(|_| ())
}

/// A piece from its block.
pub fn read_piece(block: &[u8]) -> Result<Read, Refused> {
    let mut numbers = [0; PIECE_NUMBERS];
    let corners = answer(coded::read_piece(block, &mut numbers))?;
    Ok(Read::of_numbers(&numbers, corners))
}

/// Keeps the room image and its place in it.
#[derive(Clone, Debug)]
pub struct Reader<'a> {
    image: &'a [u8],
    place: usize,
}

impl<'a> Reader<'a> {
    pub fn new(image: &'a [u8]) -> Self {
        Reader { image, place: 0 }
    }

    /// The next good piece, none at the end, or the refusal; the last two repeat.
    pub fn step(&mut self) -> Result<Option<Read>, Refused> {
        let mut numbers = [0; PIECE_NUMBERS];
        let corners = answer(coded::room_piece(self.image, self.place, &mut numbers))?;
        if corners == 0 {
            return Ok(None);
        }
        self.place += 1;
        Ok(Some(Read::of_numbers(&numbers, corners)))
    }
}

/// Fills the list with one coded verdict for each piece, a mark or [`CLEAR`], and gives the piece count.
pub fn room_verdicts(run: &Run, image: &[u8], list: &mut [u32]) -> Result<usize, Refused> {
    answer(coded::room_verdicts(run, image, list)).map(|count| count as usize)
}

/// What the book has for this question, or the verdict worked out and kept in the book; and whether it
/// was remembered. In a book that began all zero and was written by asking alone it is the verdict. A book
/// has 1 to [`MOST_SLOTS`] blocks.
pub fn ask(book: &mut [u8], run: &Run, piece: &Piece) -> Result<(Verdict, bool), Refused> {
    let coded = coded::ask(book, run, piece);
    let verdict = Verdict::of_code(answer(coded)?);
    Ok((verdict, coded & coded::REMEMBERED != 0))
}

/// One exported number.
pub fn take(x: f32) -> Taken {
    let (mut grid, mut floor) = (0, 0.0);
    match coded::take(x, &mut grid, &mut floor) {
        0 => Taken::Grid(grid),
        1 => Taken::OffGrid(floor),
        2 => Taken::NotANumber,
        _ => Taken::OutOfReach,
    }
}

/// An exported footprint x, y, x, y into a list of grid numbers. The footprint itself is not checked.
pub fn intake(numbers: &[f32], list: &mut [i32]) -> Result<(), Refused> {
    answer(coded::intake(numbers, list)).map(|_| ())
}

/// The footprint that is the one face of a Wavefront OBJ file, checked with this band and velocity:
/// fills the list with its corners as x, y, x, y and gives the corner count. What lines a file may
/// have, and the order of the refusals, is said in `docs/RULES.md`.
pub fn obj(
    file: &[u8],
    bottom: i32,
    top: i32,
    velocity: [i32; 3],
    list: &mut [i32],
) -> Result<usize, Refused> {
    answer(coded::obj(file, bottom, top, velocity, list)).map(|corners| corners as usize)
}

#[cfg(test)]
mod tests {
    use super::*;

    const Q: [i32; 8] = [0, 0, 64, 0, 64, 64, 0, 64];

    fn piece(velocity: [i32; 3]) -> Piece<'static> {
        Piece { bottom: 0, top: 32, velocity, corners: &Q }
    }

    #[test]
    fn answers_are_taken_apart() {
        assert_eq!(answer(0xffff_ffff), Ok(u32::MAX));
        assert_eq!(answer(1 << 32 | 7), Ok(7));
        let coded = 1 << 63 | 8 << 48 | 3 << 40 | 5 << 16 | 9;
        assert_eq!(answer(coded), Err(Refused { refusal: Refusal::Meet, block: 3, a: 5, b: 9 }));
        // the largest of each, and the line that needs 17 bits
        let most = Refused { refusal: Refusal::Face, block: 255, a: 0xff_ffff, b: 65_535 };
        assert_eq!(answer(0x8010_ffff_ffff_ffff), Err(most));
        let last_line = Refused { refusal: Refusal::Line, block: 0, a: 65_536, b: 0 };
        assert_eq!(answer(0x800e_0001_0000_0000), Err(last_line));
    }

    #[test]
    #[should_panic(expected = "unknown refusal: 255")]
    fn an_unknown_refusal_is_no_answer() {
        let _ = answer(0x80ff_0000_0000_0000);
    }

    /// The typed calls over the static library, where it is there.
    #[test]
    fn typed_calls() {
        if !PRESENT {
            return;
        }
        let run = Run { position: [-64, 32, 16], velocity: [16, 0, 0], ticks: 8 };
        let still = piece([0; 3]);
        let refused = |refusal, a| Refused { refusal, block: 0, a, b: 0 };
        assert_eq!(check_run(&run), Ok(()));
        assert_eq!(check_piece(&Piece { top: -1, ..still }), Err(refused(Refusal::Reach, 4)));
        assert_eq!(place(32, 32, &Q), Ok(Place::Inside));
        assert_eq!(place(0, 32, &Q), Ok(Place::On));
        assert_eq!(place(-1, 32, &Q), Ok(Place::Outside));
        assert_eq!(verdict(&run, &still), Ok(Verdict::Mark(1024)));
        assert_eq!(verdict(&run, &piece([16, 0, 0])), Ok(Verdict::Clear));

        let mut block = [0; 512];
        assert_eq!(write_run(&run, &mut block), Ok(()));
        assert_eq!(read_run(&block), Ok(run));
        assert_eq!(read_header(&block), Err(refused(Refusal::Kind, 0)));
        let mut image = [0; 1_024];
        assert_eq!(write_header(1, &mut image[..512]), Ok(()));
        assert_eq!(write_piece(&still, &mut image[512..]), Ok(()));
        assert_eq!(read_header(&image[..512]), Ok(1));
        assert_eq!(read_piece(&image[512..]).unwrap().piece(), still);
        let mut reader = Reader::new(&image);
        assert_eq!(reader.step().unwrap().unwrap().piece(), still);
        assert_eq!(reader.step(), Ok(None));
        assert_eq!(reader.step(), Ok(None));
        let mut list = [7; 2];
        assert_eq!(room_verdicts(&run, &image, &mut list), Ok(1));
        assert_eq!(list, [1024, 7]);

        let mut book = [0; 512];
        assert_eq!(ask(&mut book, &run, &still), Ok((Verdict::Mark(1024), false)));
        assert_eq!(ask(&mut book, &run, &still), Ok((Verdict::Mark(1024), true)));
        assert_eq!(take(1024.0), Taken::Grid(16_384));
        assert_eq!(take(-0.03125), Taken::OffGrid(-0.0625));
        assert_eq!(take(f32::NAN), Taken::NotANumber);
        assert_eq!(take(1024.0625), Taken::OutOfReach);
        let mut list = [7; 7];
        assert_eq!(intake(&[0.0, 0.0, 1.0, 0.0, 0.0, 1.0], &mut list), Ok(()));
        assert_eq!(list, [0, 0, 16, 0, 0, 16, 7]);

        let file = b"# chair\nv 0 9 0\nv 4 9 0\nv 0 9 -0.5\nf 1 2//1 -1/7\r\n";
        let mut list = [7; 7];
        assert_eq!(obj(file, 0, 32, [0; 3], &mut list), Ok(3));
        assert_eq!(list, [0, 0, 64, 0, 0, 8, 7]);
        assert_eq!(obj(file, 0, 32, [0, 256, 0], &mut list), Err(refused(Refusal::Reach, 8)));
        assert_eq!(obj(file, 0, 32, [0; 3], &mut list[..5]), Err(refused(Refusal::Short, 0)));
        assert_eq!(obj(&file[..file.len() - 1], 0, 32, [0; 3], &mut list), Err(refused(Refusal::Line, 5)));
        let mut feeds = [b'\n'; 65_536];
        feeds[65_535] = b'x';
        assert_eq!(obj(&feeds, 0, 32, [0; 3], &mut list), Err(refused(Refusal::Line, 65_536)));
        assert_eq!(list, [0, 0, 64, 0, 0, 8, 7]);
    }
}
