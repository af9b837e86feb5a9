//! A text read line by line, and the blocks that it stands for.

use crate::{obj, reach, Fault};
use baker::{Piece, Refusal, Refused, Run, BLOCK_SIZE, CORNER_NUMBERS, MOST_PIECES, RUN_NUMBERS};
use std::num::IntErrorKind;
use std::path::Path;

/// Where a piece block has its corners, four bytes each.
const CORNERS_FROM: usize = 12;

/// What has been read of a text up to some line, and where from OBJ files are named.
pub struct Scene<'a> {
    folder: &'a Path,
    line: usize,
    run: Option<(usize, [i32; RUN_NUMBERS])>,
    pub pieces: Vec<Written>,
}

/// A piece with the line that it begins in, and the OBJ file or else the line of each corner.
pub struct Written {
    pub bottom: i32,
    pub top: i32,
    pub velocity: [i32; 3],
    pub corners: Vec<i32>,
    pub line: usize,
    pub file: Option<String>,
    corner_lines: Vec<usize>,
}

/// A line that is told: why, and whether the rules refuse what it says.
struct Bad {
    why: String,
    refused: bool,
}

/// A line that says nothing.
impl From<String> for Bad {
    fn from(why: String) -> Self {
        Bad { why, refused: false }
    }
}

impl<'a> Scene<'a> {
    pub fn read(text: &[u8], folder: &'a Path) -> Result<Self, Fault> {
        let mut scene = Scene { folder, line: 0, run: None, pieces: Vec::new() };
        let text = text.strip_suffix(b"\n").unwrap_or(text);
        for line in text.split(|&byte| byte == b'\n') {
            scene.line += 1;
            scene.read_line(line).map_err(|bad| bad.in_line(scene.line))?;
        }
        Ok(scene)
    }

    fn read_line(&mut self, line: &[u8]) -> Result<(), Bad> {
        let line = std::str::from_utf8(line).map_err(|error| {
            format!("this is no UTF-8 text from byte {} of the line on", error.valid_up_to() + 1)
        })?;
        if line.contains('\u{feff}') {
            return Err("a byte order mark stands here: save the text without one".to_string().into());
        }
        let words: Vec<&str> = line.split('#').next().unwrap_or("").split_whitespace().collect();
        match words.split_first() {
            None => Ok(()),
            Some((&"run", rest)) => self.read_run(&numbers(rest)?),
            Some((&"piece", rest)) => self.read_piece(rest),
            Some((word, _)) if word.starts_with(|c: char| c.is_alphabetic()) => {
                Err(format!("`{word}` begins no line: `run`, `piece` or a corner does").into())
            }
            Some(_) => self.read_corners(&numbers(&words)?),
        }
    }

    fn read_run(&mut self, numbers: &[i32]) -> Result<(), Bad> {
        let Ok(run) = numbers.try_into() else {
            return Err(format!("a run has {RUN_NUMBERS} numbers, not {}", numbers.len()).into());
        };
        if let Some((line, _)) = self.run {
            return Err(format!("a second run; the first is in line {line}").into());
        }
        self.run = Some((self.line, run));
        Ok(())
    }

    fn read_piece(&mut self, words: &[&str]) -> Result<(), Bad> {
        let obj = words.iter().position(|&word| word == "obj");
        let (words, obj) = words.split_at(obj.unwrap_or(words.len()));
        let numbers = numbers(words)?;
        let &[bottom, top, vx, vy, vz, ref corners @ ..] = &numbers[..] else {
            return Err(format!("a piece has 5 numbers before its corners, not {}", numbers.len()).into());
        };
        if self.pieces.len() == MOST_PIECES {
            return Err(format!("a room has at most {MOST_PIECES} pieces").into());
        }
        let (velocity, line) = ([vx, vy, vz], self.line);
        let (file, corner_lines) = (None, Vec::new());
        self.pieces.push(Written { bottom, top, velocity, corners: Vec::new(), line, file, corner_lines });
        match (corners, obj) {
            (_, []) => self.read_corners(corners),
            ([], [_, file]) => self.read_obj(file),
            ([], _) => {
                Err(format!("one word follows `obj`, a file's name, and here are {}", obj.len() - 1).into())
            }
            _ => Err(format!("a piece has 5 numbers before `obj`, not {}", numbers.len()).into()),
        }
    }

    /// Gives the last piece, which is that of this line, the corners that stand in an OBJ file.
    fn read_obj(&mut self, file: &str) -> Result<(), Bad> {
        let bytes = obj::bytes(&self.folder.join(file)).map_err(|error| format!("{file}: {error}"))?;
        let i = self.pieces.len() - 1;
        let piece = &mut self.pieces[i];
        let mut list = [0; CORNER_NUMBERS];
        match baker::obj(&bytes, piece.bottom, piece.top, piece.velocity, &mut list) {
            Ok(corners) => piece.corners.extend(&list[..2 * corners]),
            // band and velocity do not stand in the file
            Err(refused) if refused.refusal == Refusal::Reach => {
                return Err(Bad::refused(piece.told_of(i, &refused)));
            }
            Err(refused) => return Err(Bad::refused(obj::told_of_file(file, &refused))),
        }
        piece.file = Some(file.to_string());
        Ok(())
    }

    fn read_corners(&mut self, numbers: &[i32]) -> Result<(), Bad> {
        let Some(last) = self.pieces.last_mut() else {
            return Err("a corner before the first piece".to_string().into());
        };
        if let Some(file) = &last.file {
            return Err(format!("the corners of this piece are in {file}").into());
        }
        if numbers.len() % 2 != 0 {
            return Err("a corner has x and y, and here is an odd number of them".to_string().into());
        }
        last.corners.extend(numbers);
        last.corner_lines.extend(vec![self.line; numbers.len() / 2]);
        Ok(())
    }

    pub fn bytes(&self) -> Result<Vec<u8>, Fault> {
        let Some((line, numbers)) = &self.run else {
            return Err(Bad::from("the scene has no run".to_string()).in_line(self.line));
        };
        let mut bytes = vec![0; BLOCK_SIZE * (2 + self.pieces.len())];
        let (run_block, image) = bytes.split_at_mut(BLOCK_SIZE);
        let (header, pieces) = image.split_at_mut(BLOCK_SIZE);
        baker::write_run(&run(numbers), run_block).map_err(|refused| {
            let why = format!("the run is refused: {}", reach::told_of_run(numbers, &refused));
            Bad::refused(why).in_line(*line)
        })?;
        baker::write_header(self.pieces.len() as u32, header).expect("the count was looked at");
        for (i, (written, block)) in self.pieces.iter().zip(pieces.chunks_mut(BLOCK_SIZE)).enumerate() {
            baker::write_piece(&written.piece(), block).map_err(|refused| {
                Bad::refused(written.told_of(i, &refused)).in_line(written.line_of(&refused))
            })?;
        }
        Ok(bytes)
    }
}

/// A length below 0 is out of reach like one that is too long.
fn run(&[x, y, z, vx, vy, vz, ticks]: &[i32; RUN_NUMBERS]) -> Run {
    Run { position: [x, y, z], velocity: [vx, vy, vz], ticks: u32::try_from(ticks).unwrap_or(u32::MAX) }
}

impl Bad {
    fn refused(why: String) -> Self {
        Bad { why, refused: true }
    }

    fn in_line(self, line: usize) -> Fault {
        Fault { line, why: self.why, refused: self.refused }
    }
}

impl Written {
    pub fn piece(&self) -> Piece<'_> {
        Piece { bottom: self.bottom, top: self.top, velocity: self.velocity, corners: &self.corners }
    }

    /// The refusal of this piece in words.
    pub fn told(&self, refused: &Refused) -> String {
        let numbers = [&[self.bottom, self.top], &self.velocity[..], &self.corners].concat();
        reach::told_of_piece(&numbers, refused)
    }

    /// The same, said of piece i.
    pub fn told_of(&self, i: usize, refused: &Refused) -> String {
        format!("piece {i} is refused: {}", self.told(refused))
    }

    /// The line of the corner that a refusal names, or the line where the piece begins.
    pub fn line_of(&self, refused: &Refused) -> usize {
        let a = refused.a as usize;
        let corner = match refused.refusal {
            Refusal::Reach if a >= CORNERS_FROM => Some((a - CORNERS_FROM) / 4),
            Refusal::Same | Refusal::Fold | Refusal::Meet => Some(a),
            _ => None,
        };
        corner.and_then(|corner| self.corner_lines.get(corner).copied()).unwrap_or(self.line)
    }
}

fn numbers(words: &[&str]) -> Result<Vec<i32>, String> {
    words.iter().copied().map(number).collect()
}

fn number(word: &str) -> Result<i32, String> {
    let most = baker::MOST_REACH;
    word.parse::<i32>().map_err(|error| match error.kind() {
        IntErrorKind::PosOverflow => format!("`{word}` is too large: no number is above {most}"),
        IntErrorKind::NegOverflow => format!("`{word}` is too small: no number is below -{most}"),
        _ => format!("`{word}` is no whole number"),
    })
}
