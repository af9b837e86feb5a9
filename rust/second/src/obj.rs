//! Footprints from Wavefront OBJ text, in passes: the file into lines, a line into words, a number
//! into its digits. An index is never turned into a number; it is looked up by its digits.

use crate::footprint::check_piece;
use crate::reach::FARTHEST;
use crate::refusal::{Refusal, FACE, INDEX, LENGTH, LINE, OFF_GRID, OUT_OF_REACH, SHORT};
use crate::Piece;
use std::collections::HashMap;

pub const LONGEST_FILE: usize = 65_536;

const PASSED_OVER: [&[u8]; 7] = [b"o", b"g", b"s", b"vn", b"vt", b"usemtl", b"mtllib"];

const BILLION: i128 = 1_000_000_000;

/// A decimal number in billionths, which are whole: there are at most nine digits after the point.
type Billionths = i128;

/// The n of a corner: its sign and its digits without leading zeros, none for zero.
struct Index<'a> {
    minus: bool,
    digits: &'a [u8],
}

enum Line<'a> {
    PassedOver,
    Vertex([Billionths; 3]),
    Face(Vec<Index<'a>>),
    Malformed,
}

/// The footprint that is the face of a file, into a lent list; elements past the corners stay.
pub fn footprint(
    file: &[u8],
    bottom: i32,
    top: i32,
    velocity: [i32; 3],
    list: &mut [i32],
) -> Result<usize, Refusal> {
    if file.len() > LONGEST_FILE {
        return Err(Refusal::plain(LENGTH));
    }
    let lines: Vec<Line> = lines(file).into_iter().map(read_line).collect();
    check_lines(&lines)?;
    let corners = taken(&face(&lines)?)?;
    let piece = Piece { bottom, top, velocity, corners };
    check_piece(&piece)?;
    let corners = piece.corners;
    if list.len() < corners.len() {
        return Err(Refusal::plain(SHORT));
    }
    list[..corners.len()].copy_from_slice(&corners);
    Ok(corners.len() / 2)
}

/// The lines without their ends. What stands after the last feed has no feed, so it keeps a carriage
/// return; where nothing stands there, that is one more blank line.
fn lines(file: &[u8]) -> Vec<&[u8]> {
    let mut lines: Vec<&[u8]> = file.split(|&byte| byte == b'\n').collect();
    let fed = lines.len() - 1;
    for line in &mut lines[..fed] {
        *line = line.strip_suffix(b"\r").unwrap_or(line);
    }
    lines
}

fn words(line: &[u8]) -> Vec<&[u8]> {
    line.split(|&byte| byte == b' ' || byte == b'\t').filter(|word| !word.is_empty()).collect()
}

fn read_line(line: &[u8]) -> Line<'_> {
    if line.starts_with(b"#") {
        return Line::PassedOver;
    }
    let words = words(line);
    let Some((&first, rest)) = words.split_first() else {
        return Line::PassedOver;
    };
    let read = match first {
        b"v" => vertex(rest).map(Line::Vertex),
        b"f" => rest.iter().map(|&word| corner(word)).collect::<Option<_>>().map(Line::Face),
        _ if PASSED_OVER.contains(&first) => Some(Line::PassedOver),
        _ => None,
    };
    read.unwrap_or(Line::Malformed)
}

/// Three numbers and no more.
fn vertex(words: &[&[u8]]) -> Option<[Billionths; 3]> {
    match *words {
        [x, y, z] => Some([decimal(x)?, decimal(y)?, decimal(z)?]),
        _ => None,
    }
}

/// An optional sign, one to nine digits, perhaps a point and one to nine digits.
fn decimal(word: &[u8]) -> Option<Billionths> {
    let (minus, size) = match word {
        [b'-', size @ ..] => (true, size),
        [b'+', size @ ..] => (false, size),
        size => (false, size),
    };
    let parts: Vec<&[u8]> = size.split(|&byte| byte == b'.').collect();
    let size = match parts[..] {
        [whole] => digits(whole)? * BILLION,
        // The part is filled up with zeros to nine digits.
        [whole, part] => digits(whole)? * BILLION + digits(part)? * 10i128.pow(9 - part.len() as u32),
        _ => return None,
    };
    Some(if minus { -size } else { size })
}

/// The number that one to nine digits stand for.
fn digits(word: &[u8]) -> Option<i128> {
    let good = (1..=9).contains(&word.len()) && word.iter().all(u8::is_ascii_digit);
    good.then(|| word.iter().fold(0, |number, digit| 10 * number + (digit - b'0') as i128))
}

/// `n`, `n/t`, `n//m` or `n/t/m`. Of t and m nothing is kept.
fn corner(word: &[u8]) -> Option<Index<'_>> {
    let parts: Vec<&[u8]> = word.split(|&byte| byte == b'/').collect();
    match parts[..] {
        [n] => whole(n),
        [n, other] | [n, b"", other] => whole(other).and(whole(n)),
        [n, t, m] => whole(t).and(whole(m)).and(whole(n)),
        _ => None,
    }
}

/// An optional minus and any number of digits, at least one.
fn whole(word: &[u8]) -> Option<Index<'_>> {
    let (minus, digits) = match word {
        [b'-', digits @ ..] => (true, digits),
        digits => (false, digits),
    };
    if digits.is_empty() || !digits.iter().all(u8::is_ascii_digit) {
        return None;
    }
    let zeros = digits.iter().take_while(|&&digit| digit == b'0').count();
    Some(Index { minus, digits: &digits[zeros..] })
}

/// Looks at the lines in turn, and at each for all that can be wrong with it before the next.
fn check_lines(lines: &[Line]) -> Result<(), Refusal> {
    for (k, line) in lines.iter().enumerate() {
        match line {
            Line::Malformed => return Err(Refusal::at(LINE, k + 1)),
            Line::Face(_) if lines[..k].iter().any(is_face) => return Err(Refusal::at(FACE, k + 1)),
            Line::Face(corners) if named(corners, &lines[..k]).is_none() => {
                return Err(Refusal::at(INDEX, k + 1));
            }
            _ => {}
        }
    }
    Ok(())
}

fn is_face(line: &Line) -> bool {
    matches!(line, Line::Face(_))
}

/// The `v`s that the corners of a face name, where each names one among the lines above the face.
fn named(corners: &[Index], above: &[Line]) -> Option<Vec<[Billionths; 3]>> {
    let vertices: Vec<[Billionths; 3]> = above
        .iter()
        .filter_map(|line| match line {
            Line::Vertex(numbers) => Some(*numbers),
            _ => None,
        })
        .collect();
    let count = vertices.len();
    // The numbers 1 to count as they are written: no index is too long to be looked up in these.
    let written: HashMap<Vec<u8>, usize> = (1..=count).map(|n| (n.to_string().into_bytes(), n)).collect();
    let of_index = |index: &Index| {
        let n = *written.get(index.digits)?;
        Some(vertices[if index.minus { count - n } else { n - 1 }])
    };
    corners.iter().map(of_index).collect()
}

/// The `v`s of the one face of lines that are good.
fn face(lines: &[Line]) -> Result<Vec<[Billionths; 3]>, Refusal> {
    for (k, line) in lines.iter().enumerate() {
        if let Line::Face(corners) = line {
            return Ok(named(corners, &lines[..k]).expect("the line was looked at"));
        }
    }
    Err(Refusal::plain(FACE))
}

/// The corners as grid numbers: their x is our x, minus their z our y, and height is ignored.
fn taken(vertices: &[[Billionths; 3]]) -> Result<Vec<i32>, Refusal> {
    let mut corners = Vec::new();
    for (k, &[x, _, z]) in vertices.iter().enumerate() {
        for (b, number) in [x, -z].into_iter().enumerate() {
            corners.push(grid(number).map_err(|why| Refusal::between(why, k, b))?);
        }
    }
    Ok(corners)
}

/// Sixteen times the number, where it is within reach and whole.
fn grid(number: Billionths) -> Result<i32, u8> {
    let sixteenfold = 16 * number;
    if sixteenfold.abs() > FARTHEST as i128 * BILLION {
        return Err(OUT_OF_REACH);
    }
    if sixteenfold % BILLION != 0 {
        return Err(OFF_GRID);
    }
    Ok((sixteenfold / BILLION) as i32)
}
