//! What is shown of a scene: its text from the bytes, and a list of its pieces.

use crate::scene::{Scene, Written};
use crate::told::with_places;
use crate::{reach, Fault};
use baker::{Reader, Refusal, Refused, BLOCK_SIZE, MOST_CORNERS, MOST_PIECES, RUN_NUMBERS};
use std::fmt::Write;
use std::path::Path;

/// A text, and what is refused of what it shows.
#[derive(Clone, Debug, Default, PartialEq, Eq)]
pub struct Shown {
    pub text: String,
    pub refused: Vec<String>,
}

impl Shown {
    /// A comment in the text, and told besides.
    fn refuse(&mut self, why: String) {
        let _ = writeln!(self.text, "# {why}");
        self.refused.push(why);
    }
}

/// The text of a run block and a room image. A run or a piece that is refused is shown too, below
/// its refusal: with its numbers where its block is sound, and without where it has none to show.
/// The text is then no scene that could be encoded.
pub fn decode(bytes: &[u8]) -> Result<Shown, String> {
    let most = 2 + MOST_PIECES;
    if bytes.len() % BLOCK_SIZE != 0 || !(2..=most).contains(&(bytes.len() / BLOCK_SIZE)) {
        let refused = Refused { refusal: Refusal::Length, block: 0, a: 0, b: 0 };
        let words = format!("a run and a room have 2 to {most} blocks of {BLOCK_SIZE} bytes");
        return Err(format!("the input is refused: {}", with_places(&refused, &words)));
    }
    let (run, image) = bytes.split_at(BLOCK_SIZE);
    if let Err(refused @ Refused { block: 0, .. }) = Reader::new(image).step() {
        return Err(format!("the room is refused: {}", told_of_room(image, &refused)));
    }
    let mut shown = Shown::default();
    show_run(run, &mut shown);
    for (i, block) in image.chunks(BLOCK_SIZE).skip(1).enumerate() {
        shown.text.push('\n');
        show_piece(i, block, &mut shown);
    }
    Ok(shown)
}

/// The refusal of a room of whole blocks in words, where none of its pieces is at fault.
fn told_of_room(image: &[u8], refused: &Refused) -> String {
    match (refused.refusal, baker::read_header(&image[..BLOCK_SIZE])) {
        (Refusal::Length, Ok(count)) => {
            let blocks = image.len() / BLOCK_SIZE - 1;
            with_places(refused, &format!("its header counts {count} pieces, and it has {blocks}"))
        }
        _ => refused.to_string(),
    }
}

fn show_run(block: &[u8], shown: &mut Shown) {
    let mut numbers = laid(block, RUN_NUMBERS);
    numbers[6] &= 0xffff;
    if let Err(refused) = baker::read_run(block) {
        if refused.refusal != Refusal::Reach {
            numbers.clear();
        }
        shown.refuse(format!("the run is refused: {}", reach::told_of_run(&numbers, &refused)));
    }
    let _ = writeln!(shown.text, "{}", grouped("run", &numbers, &[3, 3, 1]));
}

fn show_piece(i: usize, block: &[u8], shown: &mut Shown) {
    let mut numbers = laid(block, 5 + 2 * usize::from(block[1]).min(MOST_CORNERS));
    if let Err(refused) = baker::read_piece(block) {
        use Refusal::{Clockwise, Fold, Meet, Reach, Same};
        // what comes before these says that the block has no such numbers
        if !matches!(refused.refusal, Reach | Same | Fold | Meet | Clockwise) {
            numbers.clear();
        }
        shown.refuse(format!("piece {i} is refused: {}", reach::told_of_piece(&numbers, &refused)));
    }
    let corners = numbers.split_off(numbers.len().min(5));
    let _ = writeln!(shown.text, "{}", grouped("piece", &numbers, &[2, 3]));
    for corner in corners.chunks(2) {
        let _ = writeln!(shown.text, "  {} {}", corner[0], corner[1]);
    }
}

/// So many numbers of a block, from offset 2 on.
fn laid(block: &[u8], count: usize) -> Vec<i32> {
    let signed = |at: usize| i32::from(i16::from_le_bytes([block[at], block[at + 1]]));
    (0..count).map(|k| signed(2 + 2 * k)).collect()
}

/// A word and its numbers, in groups of these sizes with a wider gap between them.
fn grouped(word: &str, numbers: &[i32], sizes: &[usize]) -> String {
    let mut line = word.to_string();
    let mut rest = numbers.iter();
    for (g, &size) in sizes.iter().enumerate() {
        for (k, number) in rest.by_ref().take(size).enumerate() {
            let gap = if k == 0 && g > 0 { "  " } else { " " };
            let _ = write!(line, "{gap}{number}");
        }
    }
    line
}

/// A line for each piece of a text: where it stands, its box, its heights and its area.
pub fn list(text: &[u8], folder: &Path) -> Result<Shown, Fault> {
    let scene = Scene::read(text, folder)?;
    let mut shown = Shown::default();
    for (i, written) in scene.pieces.iter().enumerate() {
        let _ = write!(shown.text, "{i}: {}", summary(written));
        if let Err(refused) = baker::check_piece(&written.piece()) {
            let _ = write!(shown.text, "; refused: {}", written.told(&refused));
            let line = written.line_of(&refused);
            shown.refused.push(format!("line {line}: {}", written.told_of(i, &refused)));
        }
        shown.text.push('\n');
    }
    Ok(shown)
}

fn summary(written: &Written) -> String {
    let Written { bottom, top, velocity: [vx, vy, vz], corners, line, file, .. } = written;
    let span = |first: usize| {
        let numbers = || corners.iter().skip(first).step_by(2);
        match (numbers().min(), numbers().max()) {
            (Some(least), Some(most)) => format!("{least} to {most}"),
            _ => "-".to_string(),
        }
    };
    let mut words = format!("line {line}, {} corners, x {}, y {}", corners.len() / 2, span(0), span(1));
    let _ = write!(words, ", height {bottom} to {top}, area {}", area(corners));
    if [vx, vy, vz] != [&0; 3] {
        let _ = write!(words, ", moves {vx} {vy} {vz}");
    }
    if let Some(file) = file {
        let _ = write!(words, ", from {file}");
    }
    words
}

/// The area within the corners, below 0 where they run clockwise.
fn area(corners: &[i32]) -> String {
    let corner = |i: usize| [corners[2 * i], corners[2 * i + 1]].map(i128::from);
    let count = corners.len() / 2;
    let twice: i128 = (0..count)
        .map(|i| (corner(i), corner((i + 1) % count)))
        .map(|([ax, ay], [bx, by])| ax * by - ay * bx)
        .sum();
    let sign = if twice < 0 { "-" } else { "" };
    let half = if twice % 2 != 0 { ".5" } else { "" };
    format!("{sign}{}{half}", twice.abs() / 2)
}
