//! Refusals in words: the texts are the wrapper's, and here are words that say more.

use baker::Refused;

/// Words in place of a refusal's text, with its number and places after them as `Refused` shows them.
pub fn with_places(refused: &Refused, words: &str) -> String {
    format!("{words} ({} at {} {})", refused.number(), refused.a, refused.b)
}
