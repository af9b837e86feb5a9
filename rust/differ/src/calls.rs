//! The baker's calls behind one trait, their answers coded as at the static library, and the
//! three implementations of it.

use crate::code::{refused, REMEMBERED};
use second::{Piece, Run};

pub trait Calls: Sync {
    fn name(&self) -> &'static str;
    fn check_run(&self, run: &Run) -> u64;
    fn check_piece(&self, piece: &Piece) -> u64;
    fn place(&self, x: i32, y: i32, corners: &[i32]) -> u64;
    fn verdict(&self, run: &Run, piece: &Piece) -> u64;
    fn write_header(&self, pieces: u32, block: &mut [u8]) -> u64;
    fn read_header(&self, block: &[u8]) -> u64;
    fn write_run(&self, run: &Run, block: &mut [u8]) -> u64;
    fn read_run(&self, block: &[u8], numbers: &mut [i32]) -> u64;
    fn write_piece(&self, piece: &Piece, block: &mut [u8]) -> u64;
    fn read_piece(&self, block: &[u8], numbers: &mut [i32]) -> u64;
    fn room_piece(&self, image: &[u8], place: usize, numbers: &mut [i32]) -> u64;
    fn room_verdicts(&self, run: &Run, image: &[u8], list: &mut [u32]) -> u64;
    fn ask(&self, book: &mut [u8], run: &Run, piece: &Piece) -> u64;
    fn take(&self, x: f32, grid: &mut i32, floor: &mut f32) -> u64;
    fn intake(&self, numbers: &[f32], list: &mut [i32]) -> u64;
    fn obj(&self, file: &[u8], bottom: i32, top: i32, velocity: [i32; 3], list: &mut [i32]) -> u64;
}

const RUN_NUMBERS: usize = 7;
const PIECE_NUMBERS: usize = 5 + 128;
const SHORT: u8 = 10;

/// Hands a run that was read to the lent list.
fn lend_run(run: [i32; 7], numbers: &mut [i32]) -> u64 {
    if numbers.len() < RUN_NUMBERS {
        return refused(SHORT, 0, 0, 0);
    }
    numbers[..RUN_NUMBERS].copy_from_slice(&run);
    0
}

/// Hands a piece that was read to the lent list.
fn lend_piece(body: [i32; 5], corners: &[i32], numbers: &mut [i32]) -> u64 {
    if numbers.len() < PIECE_NUMBERS {
        return refused(SHORT, 0, 0, 0);
    }
    numbers[..5].copy_from_slice(&body);
    numbers[5..5 + corners.len()].copy_from_slice(corners);
    corners.len() as u64 / 2
}

/// The second implementation.
pub struct Second;

fn second_code<T>(answer: Result<T, second::Refusal>, value: impl FnOnce(T) -> u64) -> u64 {
    match answer {
        Ok(good) => value(good),
        Err(r) => refused(r.number, r.block, r.a, r.b),
    }
}

fn lend_second(piece: &Piece, numbers: &mut [i32]) -> u64 {
    let [vx, vy, vz] = piece.velocity;
    lend_piece([piece.bottom, piece.top, vx, vy, vz], &piece.corners, numbers)
}

impl Calls for Second {
    fn name(&self) -> &'static str {
        "second"
    }

    fn check_run(&self, run: &Run) -> u64 {
        second_code(second::reach::check_run(run), |()| 0)
    }

    fn check_piece(&self, piece: &Piece) -> u64 {
        second_code(second::footprint::check_piece(piece), |()| 0)
    }

    fn place(&self, x: i32, y: i32, corners: &[i32]) -> u64 {
        use second::place::Place;
        second_code(second::place::place(x, y, corners), |place| match place {
            Place::Outside => 0,
            Place::Inside => 1,
            Place::On => 2,
        })
    }

    fn verdict(&self, run: &Run, piece: &Piece) -> u64 {
        second_code(second::verdict::verdict(run, piece), u64::from)
    }

    fn write_header(&self, pieces: u32, block: &mut [u8]) -> u64 {
        second_code(second::block::write_header(pieces, block), |()| 0)
    }

    fn read_header(&self, block: &[u8]) -> u64 {
        second_code(second::block::read_header(block), u64::from)
    }

    fn write_run(&self, run: &Run, block: &mut [u8]) -> u64 {
        second_code(second::block::write_run(run, block), |()| 0)
    }

    fn read_run(&self, block: &[u8], numbers: &mut [i32]) -> u64 {
        second_code(second::block::read_run(block), |run| {
            let ([x, y, z], [vx, vy, vz]) = (run.position, run.velocity);
            lend_run([x, y, z, vx, vy, vz, run.ticks as i32], numbers)
        })
    }

    fn write_piece(&self, piece: &Piece, block: &mut [u8]) -> u64 {
        second_code(second::block::write_piece(piece, block), |()| 0)
    }

    fn read_piece(&self, block: &[u8], numbers: &mut [i32]) -> u64 {
        second_code(second::block::read_piece(block), |piece| lend_second(&piece, numbers))
    }

    fn room_piece(&self, image: &[u8], place: usize, numbers: &mut [i32]) -> u64 {
        second_code(second::room::room_piece(image, place), |found| match found {
            Some(piece) => lend_second(&piece, numbers),
            None => 0,
        })
    }

    fn room_verdicts(&self, run: &Run, image: &[u8], list: &mut [u32]) -> u64 {
        second_code(second::room::room_verdicts(run, image, list), |count| count as u64)
    }

    fn ask(&self, book: &mut [u8], run: &Run, piece: &Piece) -> u64 {
        second_code(second::book::ask(book, run, piece), |asked| {
            asked.verdict as u64 | if asked.remembered { REMEMBERED } else { 0 }
        })
    }

    fn take(&self, x: f32, grid: &mut i32, floor: &mut f32) -> u64 {
        use second::intake::Taken;
        match second::intake::take(x) {
            Taken::Grid(taken) => {
                *grid = taken;
                0
            }
            Taken::OffGrid(below) => {
                *floor = below;
                1
            }
            Taken::NotANumber => 2,
            Taken::OutOfReach => 3,
        }
    }

    fn intake(&self, numbers: &[f32], list: &mut [i32]) -> u64 {
        second_code(second::intake::intake(numbers, list), |()| 0)
    }

    fn obj(&self, file: &[u8], bottom: i32, top: i32, velocity: [i32; 3], list: &mut [i32]) -> u64 {
        second_code(second::obj::footprint(file, bottom, top, velocity, list), |corners| corners as u64)
    }
}

/// The plain counterpart.
pub struct Plain;

fn plain_code<T>(answer: Result<T, plain::Refusal>, value: impl FnOnce(T) -> u64) -> u64 {
    match answer {
        Ok(good) => value(good),
        Err(r) => refused(r.number, r.block, r.a, r.b),
    }
}

fn plain_run(run: &Run) -> plain::Run {
    let ([x, y, z], [vx, vy, vz]) = (run.position, run.velocity);
    plain::Run { x, y, z, vx, vy, vz, ticks: run.ticks }
}

fn plain_piece(piece: &Piece) -> plain::Piece<'_> {
    let [vx, vy, vz] = piece.velocity;
    plain::Piece { bottom: piece.bottom, top: piece.top, vx, vy, vz, corners: &piece.corners }
}

fn lend_plain(read: &plain::block::Read, numbers: &mut [i32]) -> u64 {
    let [vx, vy, vz] = read.velocity;
    lend_piece([read.bottom, read.top, vx, vy, vz], read.corners(), numbers)
}

impl Calls for Plain {
    fn name(&self) -> &'static str {
        "plain"
    }

    fn check_run(&self, run: &Run) -> u64 {
        plain_code(plain::check_run(&plain_run(run)), |()| 0)
    }

    fn check_piece(&self, piece: &Piece) -> u64 {
        plain_code(plain::check_piece(&plain_piece(piece)), |()| 0)
    }

    fn place(&self, x: i32, y: i32, corners: &[i32]) -> u64 {
        plain_code(plain::place(x, y, corners), |place| match place {
            plain::Place::Outside => 0,
            plain::Place::Inside => 1,
            plain::Place::On => 2,
        })
    }

    fn verdict(&self, run: &Run, piece: &Piece) -> u64 {
        plain_code(plain::verdict(&plain_run(run), &plain_piece(piece)), u64::from)
    }

    fn write_header(&self, pieces: u32, block: &mut [u8]) -> u64 {
        plain_code(plain::block::write_header(pieces, block), |()| 0)
    }

    fn read_header(&self, block: &[u8]) -> u64 {
        plain_code(plain::block::read_header(block), u64::from)
    }

    fn write_run(&self, run: &Run, block: &mut [u8]) -> u64 {
        plain_code(plain::block::write_run(&plain_run(run), block), |()| 0)
    }

    fn read_run(&self, block: &[u8], numbers: &mut [i32]) -> u64 {
        plain_code(plain::block::read_run(block), |r| {
            lend_run([r.x, r.y, r.z, r.vx, r.vy, r.vz, r.ticks as i32], numbers)
        })
    }

    fn write_piece(&self, piece: &Piece, block: &mut [u8]) -> u64 {
        plain_code(plain::block::write_piece(&plain_piece(piece), block), |()| 0)
    }

    fn read_piece(&self, block: &[u8], numbers: &mut [i32]) -> u64 {
        plain_code(plain::block::read_piece(block), |read| lend_plain(&read, numbers))
    }

    fn room_piece(&self, image: &[u8], place: usize, numbers: &mut [i32]) -> u64 {
        plain_code(plain::room_piece(image, place), |found| match found {
            Some(read) => lend_plain(&read, numbers),
            None => 0,
        })
    }

    fn room_verdicts(&self, run: &Run, image: &[u8], list: &mut [u32]) -> u64 {
        plain_code(plain::room_verdicts(&plain_run(run), image, list), |count| count as u64)
    }

    fn ask(&self, book: &mut [u8], run: &Run, piece: &Piece) -> u64 {
        plain_code(plain::ask(book, &plain_run(run), &plain_piece(piece)), |asked| {
            asked.verdict as u64 | if asked.remembered { REMEMBERED } else { 0 }
        })
    }

    fn take(&self, x: f32, grid: &mut i32, floor: &mut f32) -> u64 {
        match plain::take(x) {
            plain::Taken::Grid(taken) => {
                *grid = taken;
                0
            }
            plain::Taken::OffGrid(below) => {
                *floor = below;
                1
            }
            plain::Taken::NotANumber => 2,
            plain::Taken::OutOfReach => 3,
        }
    }

    fn intake(&self, numbers: &[f32], list: &mut [i32]) -> u64 {
        plain_code(plain::intake(numbers, list), |()| 0)
    }

    fn obj(&self, file: &[u8], bottom: i32, top: i32, velocity: [i32; 3], list: &mut [i32]) -> u64 {
        plain_code(plain::obj::footprint(file, bottom, top, velocity, list), |corners| corners as u64)
    }
}

/// The proved one, through the static library.
pub struct Baker;

fn proved_run(run: &Run) -> baker::Run {
    baker::Run { position: run.position, velocity: run.velocity, ticks: run.ticks }
}

fn proved_piece(piece: &Piece) -> baker::Piece<'_> {
    baker::Piece { bottom: piece.bottom, top: piece.top, velocity: piece.velocity, corners: &piece.corners }
}

impl Calls for Baker {
    fn name(&self) -> &'static str {
        "proved"
    }

    fn check_run(&self, run: &Run) -> u64 {
        baker::coded::check_run(&proved_run(run))
    }

    fn check_piece(&self, piece: &Piece) -> u64 {
        baker::coded::check_piece(&proved_piece(piece))
    }

    fn place(&self, x: i32, y: i32, corners: &[i32]) -> u64 {
        baker::coded::place(x, y, corners)
    }

    fn verdict(&self, run: &Run, piece: &Piece) -> u64 {
        baker::coded::verdict(&proved_run(run), &proved_piece(piece))
    }

    fn write_header(&self, pieces: u32, block: &mut [u8]) -> u64 {
        baker::coded::write_header(pieces, block)
    }

    fn read_header(&self, block: &[u8]) -> u64 {
        baker::coded::read_header(block)
    }

    fn write_run(&self, run: &Run, block: &mut [u8]) -> u64 {
        baker::coded::write_run(&proved_run(run), block)
    }

    fn read_run(&self, block: &[u8], numbers: &mut [i32]) -> u64 {
        baker::coded::read_run(block, numbers)
    }

    fn write_piece(&self, piece: &Piece, block: &mut [u8]) -> u64 {
        baker::coded::write_piece(&proved_piece(piece), block)
    }

    fn read_piece(&self, block: &[u8], numbers: &mut [i32]) -> u64 {
        baker::coded::read_piece(block, numbers)
    }

    fn room_piece(&self, image: &[u8], place: usize, numbers: &mut [i32]) -> u64 {
        baker::coded::room_piece(image, place, numbers)
    }

    fn room_verdicts(&self, run: &Run, image: &[u8], list: &mut [u32]) -> u64 {
        baker::coded::room_verdicts(&proved_run(run), image, list)
    }

    fn ask(&self, book: &mut [u8], run: &Run, piece: &Piece) -> u64 {
        baker::coded::ask(book, &proved_run(run), &proved_piece(piece))
    }

    fn take(&self, x: f32, grid: &mut i32, floor: &mut f32) -> u64 {
        baker::coded::take(x, grid, floor)
    }

    fn intake(&self, numbers: &[f32], list: &mut [i32]) -> u64 {
        baker::coded::intake(numbers, list)
    }

    fn obj(&self, file: &[u8], bottom: i32, top: i32, velocity: [i32; 3], list: &mut [i32]) -> u64 {
        baker::coded::obj(file, bottom, top, velocity, list)
    }
}
