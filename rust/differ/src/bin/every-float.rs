//! every-float: the intake of one number, asked of the proved baker for all 2^32 bit patterns and
//! compared with the second implementation. The first difference is told and ends it with status 1.

use differ::floats::{proved, second};
use std::process::ExitCode;
use std::thread;

/// The first pattern of a part on which the two differ.
fn difference(part: u64, parts: u64) -> Option<u32> {
    let from = (part << 32) / parts;
    let to = ((part + 1) << 32) / parts;
    (from..to).map(|bits| bits as u32).find(|bits| {
        let x = f32::from_bits(*bits);
        proved(x) != second(x)
    })
}

fn main() -> ExitCode {
    let parts = thread::available_parallelism().map_or(1, |n| n.get() as u64);
    let workers: Vec<_> = (0..parts).map(|part| thread::spawn(move || difference(part, parts))).collect();
    match workers.into_iter().filter_map(|worker| worker.join().unwrap()).min() {
        None => {
            println!("4294967296 patterns agree");
            ExitCode::SUCCESS
        }
        Some(bits) => {
            let x = f32::from_bits(bits);
            println!("{bits:#010x}: proved {:x?}, second {:x?}", proved(x), second(x));
            ExitCode::FAILURE
        }
    }
}
