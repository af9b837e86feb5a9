//! The printing program by the second implementation: standard input to lines.

use std::io::{self, Read, Write};

fn main() -> io::Result<()> {
    let mut input = Vec::new();
    io::stdin().read_to_end(&mut input)?;
    io::stdout().write_all(second::shade::shade(&input).as_bytes())
}
