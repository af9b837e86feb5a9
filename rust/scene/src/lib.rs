//! Scenes as text: one run and the pieces of a room, to a run block and a room image and back.
//!
//! ```text
//! # a comment runs to the end of its line
//! run X Y Z  VX VY VZ  T
//! piece BOTTOM TOP  VX VY VZ
//!   X Y
//!   X Y
//!   X Y
//! piece BOTTOM TOP  VX VY VZ  obj FILE
//! ```
//!
//! Numbers are whole, in grid units and ticks, and stand apart by spaces or tabs. There is one run,
//! anywhere. A piece is followed by its corners, counterclockwise: a line that begins with a number
//! has one or more corners of the piece above it, and corners may also follow on the piece's own
//! line. Or they are the face of an OBJ file: FILE is its path from the scene's own folder, one word
//! with no blank and no `#` in it. The pieces are numbered from 0 in the order of the text, at most
//! 126 of them.
//!
//! Every check and every block is the proved library's, by `baker`: see [`baker::PRESENT`].

mod obj;
mod reach;
mod scene;
mod show;
mod told;

pub use show::{decode, list, Shown};

use scene::Scene;
use std::path::Path;

/// What is wrong with a text, in which line, from 1, and whether the rules refuse what it says; if
/// not, it says nothing that could be looked at.
#[derive(Clone, Debug, PartialEq, Eq)]
pub struct Fault {
    pub line: usize,
    pub why: String,
    pub refused: bool,
}

/// The bytes that a text stands for: a run block, then a room image. OBJ files are named from the
/// folder.
pub fn encode(text: &[u8], folder: &Path) -> Result<Vec<u8>, Fault> {
    Scene::read(text, folder)?.bytes()
}
