//! What a call is given in one case, made from seed and index, and what it does with it.

use crate::calls::Calls;
use crate::code;
use generators::{blocks, bodies, books, floats, footprints, obj, Rng};
use second::{Piece, Run};
use std::fmt::{self, Write};

#[derive(Clone, Copy, Debug, PartialEq, Eq)]
pub enum Call {
    CheckRun,
    CheckPiece,
    Place,
    Verdict,
    WriteHeader,
    ReadHeader,
    WriteRun,
    ReadRun,
    WritePiece,
    ReadPiece,
    RoomPiece,
    RoomVerdicts,
    Ask,
    Take,
    Intake,
    Obj,
}

impl Call {
    pub const ALL: [Call; 16] = [
        Call::CheckRun,
        Call::CheckPiece,
        Call::Place,
        Call::Verdict,
        Call::WriteHeader,
        Call::ReadHeader,
        Call::WriteRun,
        Call::ReadRun,
        Call::WritePiece,
        Call::ReadPiece,
        Call::RoomPiece,
        Call::RoomVerdicts,
        Call::Ask,
        Call::Take,
        Call::Intake,
        Call::Obj,
    ];

    pub fn name(self) -> &'static str {
        match self {
            Call::CheckRun => "check_run",
            Call::CheckPiece => "check_piece",
            Call::Place => "place",
            Call::Verdict => "verdict",
            Call::WriteHeader => "write_header",
            Call::ReadHeader => "read_header",
            Call::WriteRun => "write_run",
            Call::ReadRun => "read_run",
            Call::WritePiece => "write_piece",
            Call::ReadPiece => "read_piece",
            Call::RoomPiece => "room_piece",
            Call::RoomVerdicts => "room_verdicts",
            Call::Ask => "ask",
            Call::Take => "take",
            Call::Intake => "intake",
            Call::Obj => "obj",
        }
    }

    /// The kinds of answer that the cases of a call are to bring out.
    pub fn answers(self) -> &'static [&'static str] {
        match self {
            Call::CheckRun => &["4", "done"],
            Call::CheckPiece => &["4", "5", "6", "7", "8", "9", "done"],
            Call::Place => &["4", "5", "6", "7", "8", "9", "outside", "inside", "on"],
            Call::Verdict => &["4", "5", "6", "7", "8", "9", "clear", "at once", "later"],
            Call::WriteHeader => &["1", "3", "done"],
            Call::ReadHeader => &["1", "2", "3", "none", "some"],
            Call::WriteRun => &["1", "4", "done"],
            Call::ReadRun => &["1", "2", "3", "4", "10", "done"],
            Call::WritePiece => &["1", "4", "5", "6", "7", "8", "9", "done"],
            Call::ReadPiece => &["1", "2", "3", "4", "5", "6", "7", "8", "9", "10", "some"],
            Call::RoomPiece => &["1", "2", "3", "4", "5", "6", "7", "8", "9", "10", "none", "some"],
            Call::RoomVerdicts => &["1", "2", "3", "4", "5", "6", "7", "8", "9", "10", "none", "some"],
            Call::Ask => &["1", "4", "5", "6", "7", "8", "9", "clear", "at once", "later", "remembered"],
            Call::Take => &["taken", "off grid", "not a number", "out of reach"],
            Call::Intake => &["5", "10", "11", "12", "13", "done"],
            Call::Obj => &["1", "4", "5", "6", "7", "8", "9", "10", "12", "13", "14", "15", "16", "some"],
        }
    }

    /// Which kind an answer is: a refusal number or one of the words above.
    pub fn kind(self, answer: u64) -> &'static str {
        const NUMBERS: [&str; 17] =
            ["0", "1", "2", "3", "4", "5", "6", "7", "8", "9", "10", "11", "12", "13", "14", "15", "16"];
        if let Some(number) = code::number(answer) {
            return NUMBERS.get(number as usize).unwrap_or(&"unknown");
        }
        let word = |words: &[&'static str]| words.get(answer as usize).copied();
        match self {
            Call::Place => word(&["outside", "inside", "on"]).unwrap_or("unknown"),
            Call::Take => word(&["taken", "off grid", "not a number", "out of reach"]).unwrap_or("unknown"),
            Call::Ask if answer & code::REMEMBERED != 0 => "remembered",
            Call::Verdict | Call::Ask => match answer as u32 {
                u32::MAX => "clear",
                0 => "at once",
                _ => "later",
            },
            Call::ReadHeader | Call::ReadPiece | Call::RoomPiece | Call::RoomVerdicts | Call::Obj => {
                word(&["none"]).unwrap_or("some")
            }
            _ => word(&["done"]).unwrap_or("unknown"),
        }
    }
}

/// All that a call is given. Whatever is lent stands here as it is before the call.
pub enum Input {
    CheckRun(Run),
    CheckPiece(Piece),
    Place(i32, i32, Vec<i32>),
    Verdict(Run, Piece),
    WriteHeader(u32, Vec<u8>),
    ReadHeader(Vec<u8>),
    WriteRun(Run, Vec<u8>),
    ReadRun(Vec<u8>, Vec<i32>),
    WritePiece(Piece, Vec<u8>),
    ReadPiece(Vec<u8>, Vec<i32>),
    RoomPiece(Vec<u8>, usize, Vec<i32>),
    RoomVerdicts(Run, Vec<u8>, Vec<u32>),
    Ask(Vec<u8>, Run, Piece),
    Take(f32, i32, f32),
    Intake(Vec<f32>, Vec<i32>),
    Obj(obj::Given, Vec<i32>),
}

/// A coded answer and what was lent, as bytes, after the call.
#[derive(Clone, Debug, PartialEq, Eq)]
pub struct Outcome {
    pub answer: u64,
    pub lent: Vec<u8>,
}

/// A block to be written into: of the right length nearly always, and with something in it.
fn lent_block(rng: &mut Rng) -> Vec<u8> {
    let length = if rng.once_in(12) { rng.pick(&[0, 1, 511, 513, 1_024]) } else { 512 };
    let byte = rng.bits() as u8;
    vec![byte; length]
}

/// A list for `wanted` numbers: just enough, more, or too short; with something in it.
fn lent_list(rng: &mut Rng, wanted: usize) -> Vec<i32> {
    let length = match rng.below(8) {
        0 => rng.below(wanted + 1),
        1 => wanted.saturating_sub(1),
        2 => wanted + rng.below(9),
        _ => wanted,
    };
    let first = rng.bits() as i32;
    (0..length as i32).map(|k| first.wrapping_add(k)).collect()
}

/// The place in a room at which a reader may stand: mostly within it.
fn reader_place(rng: &mut Rng, image: &[u8]) -> usize {
    match rng.below(16) {
        0 => rng.pick(&[126, 127, 65_535, usize::MAX / 512, usize::MAX - 1, usize::MAX]),
        _ => rng.below(image.len() / 512 + 1),
    }
}

impl Input {
    /// The case of a call with this seed and index.
    pub fn of_case(call: Call, seed: u64, index: u64) -> Self {
        let rng = &mut Rng::of_case(seed ^ (call as u64) << 56, index);
        match call {
            Call::CheckRun => Input::CheckRun(bodies::any_run(rng)),
            Call::CheckPiece => Input::CheckPiece(any_piece(rng)),
            Call::Place => {
                let corners = any_piece(rng).corners;
                let (x, y) = bodies::near_point(rng, &corners);
                match rng.below(20) {
                    0 => Input::Place(footprints::beyond(rng, footprints::FAR), y, corners),
                    1 => Input::Place(x, footprints::beyond(rng, footprints::FAR), corners),
                    _ => Input::Place(x, y, corners),
                }
            }
            Call::Verdict => {
                let (run, piece) = bodies::question(rng);
                Input::Verdict(run, piece)
            }
            Call::WriteHeader => {
                let count = if rng.once_in(4) {
                    rng.pick(&[127, 128, 255, 256, 382, u32::MAX])
                } else {
                    rng.below(127) as u32
                };
                Input::WriteHeader(count, lent_block(rng))
            }
            Call::ReadHeader => Input::ReadHeader(blocks::any_block(rng, index, 0)),
            Call::WriteRun => Input::WriteRun(bodies::any_run(rng), lent_block(rng)),
            Call::ReadRun => Input::ReadRun(blocks::any_block(rng, index, 2), lent_list(rng, 7)),
            Call::WritePiece => Input::WritePiece(any_piece(rng), lent_block(rng)),
            Call::ReadPiece => Input::ReadPiece(blocks::any_block(rng, index, 1), lent_list(rng, 133)),
            Call::RoomPiece => {
                let (_, image) = blocks::any_room(rng, index);
                let place = reader_place(rng, &image);
                Input::RoomPiece(image, place, lent_list(rng, 133))
            }
            Call::RoomVerdicts => {
                let (run, image) = blocks::any_room(rng, index);
                let list = lent_list(rng, (image.len() / 512).saturating_sub(1));
                Input::RoomVerdicts(run, image, list.into_iter().map(|k| k as u32).collect())
            }
            Call::Ask => {
                let (book, run, piece) = books::any_book(rng, index);
                Input::Ask(book, run, piece)
            }
            Call::Take => Input::Take(floats::any(rng), rng.bits() as i32, floats::on_grid(rng)),
            Call::Intake => {
                let numbers = floats::footprint(rng);
                let list = lent_list(rng, numbers.len());
                Input::Intake(numbers, list)
            }
            Call::Obj => {
                let given = obj::any(rng);
                let list = lent_list(rng, given.numbers);
                Input::Obj(given, list)
            }
        }
    }

    /// Makes the call. The input itself stays as it is.
    pub fn perform(&self, calls: &dyn Calls) -> Outcome {
        let outcome = |answer, lent| Outcome { answer, lent };
        match self {
            Input::CheckRun(run) => outcome(calls.check_run(run), vec![]),
            Input::CheckPiece(piece) => outcome(calls.check_piece(piece), vec![]),
            Input::Place(x, y, corners) => outcome(calls.place(*x, *y, corners), vec![]),
            Input::Verdict(run, piece) => outcome(calls.verdict(run, piece), vec![]),
            Input::WriteHeader(pieces, block) => {
                let mut block = block.clone();
                outcome(calls.write_header(*pieces, &mut block), block)
            }
            Input::ReadHeader(block) => outcome(calls.read_header(block), vec![]),
            Input::WriteRun(run, block) => {
                let mut block = block.clone();
                outcome(calls.write_run(run, &mut block), block)
            }
            Input::ReadRun(block, numbers) => {
                let mut numbers = numbers.clone();
                outcome(calls.read_run(block, &mut numbers), bytes(&numbers))
            }
            Input::WritePiece(piece, block) => {
                let mut block = block.clone();
                outcome(calls.write_piece(piece, &mut block), block)
            }
            Input::ReadPiece(block, numbers) => {
                let mut numbers = numbers.clone();
                outcome(calls.read_piece(block, &mut numbers), bytes(&numbers))
            }
            Input::RoomPiece(image, place, numbers) => {
                let mut numbers = numbers.clone();
                outcome(calls.room_piece(image, *place, &mut numbers), bytes(&numbers))
            }
            Input::RoomVerdicts(run, image, list) => {
                let mut list = list.clone();
                let answer = calls.room_verdicts(run, image, &mut list);
                outcome(answer, list.iter().flat_map(|n| n.to_le_bytes()).collect())
            }
            Input::Ask(book, run, piece) => {
                let mut book = book.clone();
                outcome(calls.ask(&mut book, run, piece), book)
            }
            Input::Take(x, grid, floor) => {
                let (mut grid, mut floor) = (*grid, *floor);
                let answer = calls.take(*x, &mut grid, &mut floor);
                outcome(answer, bytes(&[grid, floor.to_bits() as i32]))
            }
            Input::Intake(numbers, list) => {
                let mut list = list.clone();
                outcome(calls.intake(numbers, &mut list), bytes(&list))
            }
            Input::Obj(given, list) => {
                let mut list = list.clone();
                let obj::Given { file, bottom, top, velocity, .. } = given;
                outcome(calls.obj(file, *bottom, *top, *velocity, &mut list), bytes(&list))
            }
        }
    }
}

/// A piece for the checks: more bad ones than a verdict gets.
fn any_piece(rng: &mut Rng) -> Piece {
    if rng.once_in(2) {
        bodies::bad_piece(rng)
    } else {
        bodies::any_piece(rng)
    }
}

fn bytes(numbers: &[i32]) -> Vec<u8> {
    numbers.iter().flat_map(|n| n.to_le_bytes()).collect()
}

/// The numbers of a case, as they can be typed in again. Bytes are in hexadecimal, and `(n)` stands
/// for n zero bytes.
impl fmt::Display for Input {
    fn fmt(&self, f: &mut fmt::Formatter) -> fmt::Result {
        match self {
            Input::CheckRun(run) => show_run(f, run),
            Input::CheckPiece(piece) => show_piece(f, piece),
            Input::Place(x, y, corners) => writeln!(f, "  point {x} {y}\n  corners {corners:?}"),
            Input::Verdict(run, piece) => {
                show_run(f, run)?;
                show_piece(f, piece)
            }
            Input::WriteHeader(pieces, block) => writeln!(f, "  pieces {pieces}\n  block {}", hex(block)),
            Input::ReadHeader(block) => writeln!(f, "  block {}", hex(block)),
            Input::WriteRun(run, block) => {
                show_run(f, run)?;
                writeln!(f, "  block {}", hex(block))
            }
            Input::ReadRun(block, numbers) | Input::ReadPiece(block, numbers) => {
                writeln!(f, "  block {}\n  list {numbers:?}", hex(block))
            }
            Input::WritePiece(piece, block) => {
                show_piece(f, piece)?;
                writeln!(f, "  block {}", hex(block))
            }
            Input::RoomPiece(image, place, numbers) => {
                writeln!(f, "  place {place}\n  image {}\n  list {numbers:?}", hex(image))
            }
            Input::RoomVerdicts(run, image, list) => {
                show_run(f, run)?;
                writeln!(f, "  image {}\n  list {list:?}", hex(image))
            }
            Input::Ask(book, run, piece) => {
                show_run(f, run)?;
                show_piece(f, piece)?;
                writeln!(f, "  book {}", hex(book))
            }
            Input::Take(x, grid, floor) => {
                let bits = x.to_bits();
                writeln!(f, "  number {x:?} bits {bits:#010x}\n  lent {grid} and {floor:?}")
            }
            Input::Intake(numbers, list) => {
                let bits: Vec<String> = numbers.iter().map(|x| format!("{:#010x}", x.to_bits())).collect();
                writeln!(f, "  numbers {numbers:?}\n  bits {}\n  list {list:?}", bits.join(" "))
            }
            Input::Obj(given, list) => {
                let obj::Given { file, bottom, top, velocity, .. } = given;
                writeln!(f, "  band {bottom} {top} velocity {velocity:?}\n  list {list:?}")?;
                show_file(f, file)
            }
        }
    }
}

fn show_run(f: &mut fmt::Formatter, run: &Run) -> fmt::Result {
    writeln!(f, "  run {:?} {:?} {}", run.position, run.velocity, run.ticks)
}

fn show_piece(f: &mut fmt::Formatter, piece: &Piece) -> fmt::Result {
    let Piece { bottom, top, velocity, corners } = piece;
    writeln!(f, "  piece {bottom} {top} {velocity:?} corners {corners:?}")
}

/// A file line by line, each with its number and as a byte string; lines that repeat stand there once.
fn show_file(f: &mut fmt::Formatter, file: &[u8]) -> fmt::Result {
    writeln!(f, "  file of {} bytes", file.len())?;
    let mut number = 1;
    let lines: Vec<&[u8]> = file.split_inclusive(|&byte| byte == b'\n').collect();
    for alike in lines.chunk_by(|line, next| line == next) {
        let last = number + alike.len() - 1;
        let lines = if last > number { format!("{number} to {last}") } else { number.to_string() };
        writeln!(f, "    {lines}: b\"{}\"", alike[0].escape_ascii())?;
        number = last + 1;
    }
    Ok(())
}

pub fn hex(bytes: &[u8]) -> String {
    let mut text = format!("{} bytes: ", bytes.len());
    let mut at = 0;
    while at < bytes.len() {
        let zeros = bytes[at..].iter().take_while(|&&byte| byte == 0).count();
        if zeros >= 4 {
            let _ = write!(text, "({zeros})");
            at += zeros;
        } else {
            let _ = write!(text, "{:02x}", bytes[at]);
            at += 1;
        }
    }
    text
}
