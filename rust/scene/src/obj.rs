//! OBJ files: their bytes, and how their refusals are told.

use crate::told::with_places;
use baker::{Refusal, Refused, LONGEST_FILE};
use std::fs::File;
use std::io::{self, Read};
use std::path::Path;

/// The bytes of a file; of one that is too long, one byte too many.
pub fn bytes(path: &Path) -> io::Result<Vec<u8>> {
    let mut bytes = Vec::new();
    File::open(path)?.take(LONGEST_FILE as u64 + 1).read_to_end(&mut bytes)?;
    Ok(bytes)
}

/// The refusal of a file in words, after the file and the line in it, where there is one.
pub fn told_of_file(file: &str, refused: &Refused) -> String {
    let words = match refused.refusal {
        Refusal::Length => with_places(refused, &format!("a file has at most {LONGEST_FILE} bytes")),
        // the file has z, and minus z is y
        Refusal::OutOfReach | Refusal::OffGrid if refused.b == 1 => {
            refused.to_string().replacen("y of corner", "y (minus z) of corner", 1)
        }
        _ => refused.to_string(),
    };
    format!("{file}: {words}")
}
