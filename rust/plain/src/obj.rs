//! Footprints from Wavefront OBJ text: one pass over the lines puts the vertices into a table, then the
//! face's line is read again for its corners.

use crate::footprint::{check_piece, MOST_CORNERS};
use crate::{Piece, Refusal};

const LONGEST_FILE: usize = 65_536;

/// The shortest `v` has eight bytes with its feed.
const MOST_VERTICES: usize = LONGEST_FILE / 8;

/// How the table has a number out of reach, and one off the grid: no grid number is as large.
const BEYOND: i32 = 65_536;
const OFF_GRID: i32 = 65_537;

/// Our x and y of a `v`.
type Vertex = [i32; 2];

/// What a line says; of one that is not read there is none.
enum Line {
    PassedOver,
    Vertex(Vertex),
    /// whether every corner names a vertex above the face
    Face(bool),
}

struct Face<'a> {
    line: &'a [u8],
    /// how many vertices stand above it
    above: usize,
}

pub fn footprint(
    file: &[u8],
    bottom: i32,
    top: i32,
    velocity: [i32; 3],
    list: &mut [i32],
) -> Result<usize, Refusal> {
    if file.len() > LONGEST_FILE {
        return Err(Refusal::length());
    }
    let mut table = [[0; 2]; MOST_VERTICES];
    let face = scan(file, &mut table)?;
    let mut numbers = [0; 2 * MOST_CORNERS];
    let count = gather(&face, &table, &mut numbers)?;
    if count > MOST_CORNERS {
        return Err(Refusal::new(5, 0, 0));
    }
    let corners = &numbers[..2 * count];
    let [vx, vy, vz] = velocity;
    check_piece(&Piece { bottom, top, vx, vy, vz, corners })?;
    if list.len() < corners.len() {
        return Err(Refusal::short());
    }
    list[..corners.len()].copy_from_slice(corners);
    Ok(count)
}

/// The one face; the table then has all vertices.
fn scan<'a>(file: &'a [u8], table: &mut [Vertex]) -> Result<Face<'a>, Refusal> {
    let mut vertices = 0;
    let mut face = None;
    for (i, line) in file.split_inclusive(|&byte| byte == b'\n').enumerate() {
        let line = without_end(line);
        let refused = |why| Err(Refusal::new(why, i + 1, 0));
        match read_line(line, vertices) {
            None => return refused(14),
            Some(Line::PassedOver) => {}
            Some(Line::Vertex(vertex)) => {
                table[vertices] = vertex;
                vertices += 1;
            }
            Some(Line::Face(_)) if face.is_some() => return refused(16),
            Some(Line::Face(false)) => return refused(15),
            Some(Line::Face(true)) => face = Some(Face { line, above: vertices }),
        }
    }
    face.ok_or(Refusal::new(16, 0, 0))
}

/// A feed and one carriage return before it are no part of the line.
fn without_end(line: &[u8]) -> &[u8] {
    match line {
        [line @ .., b'\r', b'\n'] | [line @ .., b'\n'] => line,
        line => line,
    }
}

fn is_blank(byte: &u8) -> bool {
    matches!(byte, b' ' | b'\t')
}

/// Cuts the next word off a line; there is none where only blanks are left.
fn word<'a>(line: &mut &'a [u8]) -> Option<&'a [u8]> {
    let from = line.iter().position(|byte| !is_blank(byte))?;
    let rest = &line[from..];
    let to = rest.iter().position(is_blank).unwrap_or(rest.len());
    let (word, rest) = rest.split_at(to);
    *line = rest;
    Some(word)
}

fn read_line(mut line: &[u8], above: usize) -> Option<Line> {
    if line.first() == Some(&b'#') {
        return Some(Line::PassedOver);
    }
    match word(&mut line) {
        None | Some(b"o" | b"g" | b"s" | b"vn" | b"vt" | b"usemtl" | b"mtllib") => Some(Line::PassedOver),
        Some(b"v") => read_vertex(line),
        Some(b"f") => read_face(line, above),
        Some(_) => None,
    }
}

/// Three numbers and no more: their x is our x, minus their z our y, and height is ignored.
fn read_vertex(mut line: &[u8]) -> Option<Line> {
    let (x, height, z) = (word(&mut line)?, word(&mut line)?, word(&mut line)?);
    if word(&mut line).is_some() {
        return None;
    }
    decimal(height, 1)?;
    Some(Line::Vertex([decimal(x, 1)?, decimal(z, -1)?]))
}

fn read_face(mut line: &[u8], above: usize) -> Option<Line> {
    let mut named = true;
    while let Some(word) = word(&mut line) {
        named &= corner(word, above)? < above;
    }
    Some(Line::Face(named))
}

/// A decimal, or minus it, as the table has it.
fn decimal(word: &[u8], sign: i32) -> Option<i32> {
    match word {
        [b'-', word @ ..] => unsigned(word, -sign),
        [b'+', word @ ..] => unsigned(word, sign),
        word => unsigned(word, sign),
    }
}

/// Digits, perhaps a point and digits.
fn unsigned(word: &[u8], sign: i32) -> Option<i32> {
    let Some(at) = word.iter().position(|&byte| byte == b'.') else {
        return Some(grid(sign, few_digits(word)?, 0, 1));
    };
    let (whole, part) = (&word[..at], &word[at + 1..]);
    Some(grid(sign, few_digits(whole)?, few_digits(part)?, 10u32.pow(part.len() as u32)))
}

/// The number that one to nine digits say.
fn few_digits(word: &[u8]) -> Option<u32> {
    if !(1..=9).contains(&word.len()) {
        return None;
    }
    let mut number = 0;
    for byte in word {
        if !byte.is_ascii_digit() {
            return None;
        }
        number = 10 * number + (byte - b'0') as u32;
    }
    Some(number)
}

/// Sixteen times whole + part / scale, or what keeps that from the grid.
fn grid(sign: i32, whole: u32, part: u32, scale: u32) -> i32 {
    if whole > 1_024 || (whole == 1_024 && part > 0) {
        return BEYOND;
    }
    let (scaled, scale) = (16 * part as u64, scale as u64);
    if scaled % scale != 0 {
        return OFF_GRID;
    }
    sign * (16 * whole + (scaled / scale) as u32) as i32
}

/// The vertex that a corner names, of so many above the face; as many where it names none.
fn corner(word: &[u8], above: usize) -> Option<usize> {
    let (index, after) = match slash(word) {
        Some(at) => (&word[..at], Some(&word[at + 1..])),
        None => (word, None),
    };
    let n = whole(index)?;
    if !after.is_none_or(is_after) {
        return None;
    }
    Some(if n == 0 || n > above {
        above
    } else if word[0] == b'-' {
        above - n
    } else {
        n - 1
    })
}

fn slash(word: &[u8]) -> Option<usize> {
    word.iter().position(|&byte| byte == b'/')
}

/// Do t, /m or t/m follow an index and its slash?
fn is_after(rest: &[u8]) -> bool {
    match slash(rest) {
        Some(at) => whole(&rest[at + 1..]).is_some() && (at == 0 || whole(&rest[..at]).is_some()),
        None => whole(rest).is_some(),
    }
}

/// The size of a whole number, that of a large one cut down to one that names nothing either.
fn whole(word: &[u8]) -> Option<usize> {
    let digits = word.strip_prefix(b"-").unwrap_or(word);
    if digits.is_empty() {
        return None;
    }
    let mut number = 0;
    for byte in digits {
        if !byte.is_ascii_digit() {
            return None;
        }
        number = (10 * number + (byte - b'0') as usize).min(LONGEST_FILE);
    }
    Some(number)
}

/// The grid numbers of every corner, of which the first 64 are kept, and how many corners there are.
fn gather(face: &Face, table: &[Vertex], numbers: &mut [i32]) -> Result<usize, Refusal> {
    let mut line = face.line;
    let mut count = 0;
    word(&mut line);
    while let Some(vertex) = word(&mut line).and_then(|word| corner(word, face.above)) {
        let corner = table[vertex];
        for (axis, number) in corner.into_iter().enumerate() {
            match number {
                BEYOND => return Err(Refusal::new(12, count, axis)),
                OFF_GRID => return Err(Refusal::new(13, count, axis)),
                _ => {}
            }
        }
        if count < MOST_CORNERS {
            numbers[2 * count..2 * count + 2].copy_from_slice(&corner);
        }
        count += 1;
    }
    Ok(count)
}
