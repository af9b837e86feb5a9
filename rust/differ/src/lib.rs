//! Compares an implementation of the baker's calls with the second implementation, case by case:
//! the coded answer and the later content of whatever was lent.

pub mod calls;
pub mod code;
pub mod floats;
pub mod input;
pub mod run;
pub mod shade;

pub use calls::{Baker, Calls, Plain, Second};
pub use input::Call;

/// The implementations that are held to the second one.
pub fn examined() -> Vec<Box<dyn Calls>> {
    let mut all: Vec<Box<dyn Calls>> = vec![Box::new(Plain)];
    if baker::PRESENT {
        all.push(Box::new(Baker));
    }
    all
}
