//! Runs the printing program and compares what it writes.

use crate::input::hex;
use crate::run::Cases;
use generators::{blocks, bodies, Rng};
use second::block::{self, SIZE};
use std::collections::BTreeMap;
use std::io::Write;
use std::process::{Command, Stdio};

/// The input of one case.
fn input(seed: u64, index: u64) -> Vec<u8> {
    blocks::any_input(&mut Rng::of_case(seed ^ 0xff << 56, index), index)
}

/// The lengths that are tried always: about the longest input, and well beyond it.
pub const LENGTHS: [usize; 6] = [65_535, 65_536, 65_537, 65_538, 70_000, 131_072];

/// A run and a full room, the longest input there is, cut off or gone on with zeros to a length: only
/// the length tells a longer one from it, so the answer says how much was read.
fn full_to(length: usize, seed: u64) -> Vec<u8> {
    let mut rng = Rng::of_case(seed, 0);
    let pieces: Vec<_> = (0..126).map(|_| bodies::good_piece(&mut rng)).collect();
    let mut input = vec![0; SIZE];
    block::write_run(&bodies::good_run(&mut rng), &mut input).expect("a good run");
    input.extend(blocks::image(&pieces));
    input.resize(length, 0);
    input
}

/// What a program writes for an input.
fn written(program: &str, input: &[u8]) -> std::io::Result<Vec<u8>> {
    let mut child = Command::new(program).stdin(Stdio::piped()).stdout(Stdio::piped()).spawn()?;
    // A program may end without having read all, so a pipe that is broken is no fault.
    let _ = child.stdin.take().expect("a pipe").write_all(input);
    let output = child.wait_with_output()?;
    if output.status.code().is_none() {
        return Err(std::io::Error::other(format!("{program} ended by {}", output.status)));
    }
    Ok(output.stdout)
}

/// Every kind of answer that the program can give.
pub const KINDS: [&str; 14] = [
    "refused run 2",
    "refused run 3",
    "refused run 4",
    "refused 1",
    "refused 2",
    "refused 3",
    "refused 4",
    "refused 5",
    "refused 6",
    "refused 7",
    "refused 8",
    "refused 9",
    "pieces none",
    "pieces some",
];

/// The kind of an answer.
fn kind(text: &str) -> String {
    let words: Vec<&str> = text.lines().next().unwrap_or_default().split(' ').collect();
    match words.as_slice() {
        ["refused", "run", number] => format!("refused run {number}"),
        ["refused", number, ..] => format!("refused {number}"),
        ["pieces", "0"] => "pieces none".to_string(),
        _ => "pieces some".to_string(),
    }
}

/// Compares a program with the second implementation of it on one input, and answers the kind.
fn compare_one(program: &str, input: &[u8], told: impl FnOnce() -> String) -> Result<String, String> {
    let right = second::shade::shade(input);
    let got = written(program, input).map_err(|error| error.to_string())?;
    if got != right.as_bytes() {
        let got = String::from_utf8_lossy(&got);
        return Err(format!("shade: {}\nsecond writes\n{right}{program} writes\n{got}", told()));
    }
    Ok(kind(&right))
}

/// The same on the inputs of the fixed lengths and on those of the cases, and counts the kinds of answer.
pub fn compare(program: &str, cases: Cases) -> Result<BTreeMap<String, u64>, String> {
    let mut tally = BTreeMap::new();
    let seed = cases.seed;
    for length in LENGTHS {
        let told = || format!("a run and a full room, cut off or gone on with zeros to {length} bytes");
        *tally.entry(compare_one(program, &full_to(length, seed), told)?).or_insert(0) += 1;
    }
    for index in cases.from..cases.from + cases.cases {
        let input = input(seed, index);
        let told = || {
            let bytes = hex(&input);
            format!("differ --shade {program} --seed {seed} --from {index} --cases 1\n  input {bytes}")
        };
        *tally.entry(compare_one(program, &input, told)?).or_insert(0) += 1;
    }
    Ok(tally)
}
