//! scene encode FILE > BYTES, scene decode < BYTES, scene list FILE: see the library for the text.

use scene::{Fault, Shown};
use std::ffi::OsString;
use std::io::{self, Read, Write};
use std::path::Path;
use std::process::ExitCode;

const USAGE: &str = "\
scene encode FILE > bytes    a scene in text to the input of shade (FILE - is standard input)
scene decode < bytes         and back
scene list FILE              a line for each piece: its box, its heights and its area

A scene is one run and any pieces, each with its corners counterclockwise; # begins a comment:
    run X Y Z  VX VY VZ  T
    piece BOTTOM TOP  VX VY VZ
      X Y
      ...
    piece BOTTOM TOP  VX VY VZ  obj FILE

The second form takes the corners from a Wavefront OBJ file. FILE is one word without blanks, a path
from the scene's own folder (from the current one for standard input).

Status: 0 done; 1 the rules refuse the run or a piece; 2 not done.
";

const NOT_LINKED: &str = "the proved library, which checks and lays out every scene, is not linked: \
    make it with `tools/build`, and tools/scene links it";

const REFUSED: u8 = 1;
const NOT_DONE: u8 = 2;

/// What goes to standard output, and the lines that go to standard error with the status.
struct Answer {
    bytes: Vec<u8>,
    told: Vec<String>,
    status: u8,
}

fn main() -> ExitCode {
    let words: Vec<OsString> = std::env::args_os().skip(1).collect();
    let command = words.first().and_then(|word| word.to_str()).unwrap_or("");
    let answer = match (command, words.get(1..).unwrap_or(&[])) {
        ("--help" | "-h" | "help", []) => Answer::done(USAGE.into()),
        ("encode" | "list", [_]) | ("decode", []) if !baker::PRESENT => {
            Answer::not(NOT_LINKED.to_string(), NOT_DONE)
        }
        ("encode", [file]) => of_file(Path::new(file), scene::encode, Answer::done),
        ("list", [file]) => of_file(Path::new(file), scene::list, Answer::shown),
        ("decode", []) => decode(),
        _ => {
            tell(USAGE);
            return ExitCode::from(NOT_DONE);
        }
    };
    let mut out = io::stdout();
    let written = out.write_all(&answer.bytes).and_then(|()| out.flush());
    for line in &answer.told {
        tell(&format!("scene: {line}\n"));
    }
    match written {
        Ok(()) => ExitCode::from(answer.status),
        Err(error) => {
            tell(&format!("scene: standard output: {error}\n"));
            ExitCode::from(NOT_DONE)
        }
    }
}

/// On standard error; where that fails the status still tells.
fn tell(text: &str) {
    let _ = io::stderr().write_all(text.as_bytes());
}

impl Answer {
    fn done(bytes: Vec<u8>) -> Self {
        Answer { bytes, told: Vec::new(), status: 0 }
    }

    fn not(why: String, status: u8) -> Self {
        Answer { bytes: Vec::new(), told: vec![why], status }
    }

    fn shown(Shown { text, refused }: Shown) -> Self {
        let status = if refused.is_empty() { 0 } else { REFUSED };
        Answer { bytes: text.into_bytes(), told: refused, status }
    }
}

/// What is made of a file's text, or its fault.
fn of_file<T>(file: &Path, made: fn(&[u8], &Path) -> Result<T, Fault>, answer: fn(T) -> Answer) -> Answer {
    let text = if file == Path::new("-") { of_input() } else { std::fs::read(file) };
    // `-` and a bare name have the empty path for a folder: the current one
    let folder = file.parent().unwrap_or(Path::new(""));
    let file = file.display();
    let text = match text {
        Ok(text) => text,
        Err(error) => return Answer::not(format!("{file}: {error}"), NOT_DONE),
    };
    match made(&text, folder) {
        Ok(made) => {
            let Answer { bytes, told, status } = answer(made);
            Answer { bytes, told: told.iter().map(|line| format!("{file}: {line}")).collect(), status }
        }
        Err(Fault { line, why, refused }) => {
            Answer::not(format!("{file}: line {line}: {why}"), if refused { REFUSED } else { NOT_DONE })
        }
    }
}

fn of_input() -> io::Result<Vec<u8>> {
    let mut bytes = Vec::new();
    io::stdin().read_to_end(&mut bytes)?;
    Ok(bytes)
}

fn decode() -> Answer {
    match of_input().map(|bytes| scene::decode(&bytes)) {
        Ok(Ok(shown)) => Answer::shown(shown),
        Ok(Err(why)) => Answer::not(why, REFUSED),
        Err(error) => Answer::not(format!("standard input: {error}"), NOT_DONE),
    }
}
