//! Refusals: what comes back when it can't be done.

use std::fmt;

/// The table of refusals: number, name and text. In a text `{a}` and `{b}` stand for the places, and
/// `{axis}` for x or y, as b says. `include/baker.h` and `docs/RULES.md` have the same texts.
macro_rules! table {
    ($($number:literal $name:ident $text:literal,)*) => {
        /// What is wrong, by its number in the rules. Later rules may add to it.
        #[derive(Clone, Copy, Debug, PartialEq, Eq, Hash)]
        #[non_exhaustive]
        pub enum Refusal {
            $(#[doc = $text] $name = $number,)*
        }

        impl Refusal {
            /// All of them, by rising number.
            pub const ALL: &'static [Refusal] = &[$(Refusal::$name,)*];

            /// The refusal of a number.
            pub fn of_number(number: u8) -> Option<Self> {
                match number {
                    $($number => Some(Refusal::$name),)*
                    _ => None,
                }
            }

            /// Its text, with `{a}`, `{b}` and `{axis}` where places stand.
            pub fn text(self) -> &'static str {
                match self {
                    $(Refusal::$name => $text,)*
                }
            }
        }
    };
}

table! {
    1 Length "the length of a room, a book, a block, an input or a file is wrong",
    2 Check "the check of a block is wrong",
    3 Kind "byte {a} is wrong: kind, name, edition, piece count, or unnamed and not zero",
    4 Reach "the number at byte {a} is out of reach, or the bottom is above the top",
    5 Corners "the corners are not 3 to 64, or their list is odd",
    6 Same "corner {a} equals the next",
    7 Fold "the edges fold at corner {a}",
    8 Meet "edges {a} and {b} meet",
    9 Clockwise "the corners run clockwise",
    10 Short "the lent list is too short",
    11 NotANumber "{axis} of corner {a} is not a number",
    12 OutOfReach "{axis} of corner {a} is out of reach, below -1024 or above 1024",
    13 OffGrid "{axis} of corner {a} is off the grid, no whole number of sixteenths",
    14 Line "this is no good `v` or `f` line, and none that is passed over",
    15 Index "an index names no `v` above the face",
    16 Face "a second face, or none",
}

impl Refusal {
    /// Its number in the rules.
    pub fn number(self) -> u8 {
        self as u8
    }
}

/// A refused call: what is wrong, and where. No lent byte or number has changed.
#[derive(Clone, Copy, Debug, PartialEq, Eq, Hash)]
pub struct Refused {
    pub refusal: Refusal,
    /// i + 1 where piece block i of a room is refused, otherwise 0
    pub block: u16,
    /// a byte, a corner, an edge or a line, as the refusal's text says; 0 where it names none
    pub a: u32,
    /// the second edge, or 0 for x and 1 for y; 0 where the text names none
    pub b: u16,
}

impl Refused {
    /// From its four numbers, as `shade` prints them; none where no refusal has that number.
    pub fn new(number: u8, block: u16, a: u32, b: u16) -> Option<Self> {
        Some(Refused { refusal: Refusal::of_number(number)?, block, a, b })
    }

    pub fn number(&self) -> u8 {
        self.refusal.number()
    }

    /// The piece of a room that is refused, from 0.
    pub fn piece(&self) -> Option<u16> {
        self.block.checked_sub(1)
    }

    /// The line of a file that is refused, from 1.
    pub fn line(&self) -> Option<u32> {
        let lines = matches!(self.refusal, Refusal::Line | Refusal::Index | Refusal::Face);
        (lines && self.a > 0).then_some(self.a)
    }

    /// The refusal's text with its places filled in; of a line it says what is wrong, not which it is.
    pub fn text(&self) -> String {
        match self {
            Refused { refusal: Refusal::Face, a: 0, .. } => "the file has no face".to_string(),
            Refused { refusal: Refusal::Face, .. } => "a second face".to_string(),
            Refused { refusal, a, b, .. } => refusal
                .text()
                .replace("{axis}", if *b == 0 { "x" } else { "y" })
                .replace("{a}", &a.to_string())
                .replace("{b}", &b.to_string()),
        }
    }
}

/// Piece and line where there are any, the text, and the numbers: `piece 3: edges 0 and 2 meet (8 at 0 2)`.
impl fmt::Display for Refused {
    fn fmt(&self, f: &mut fmt::Formatter<'_>) -> fmt::Result {
        if let Some(piece) = self.piece() {
            write!(f, "piece {piece}: ")?;
        }
        if let Some(line) = self.line() {
            write!(f, "line {line}: ")?;
        }
        write!(f, "{} ({} at {} {})", self.text(), self.number(), self.a, self.b)
    }
}

impl std::error::Error for Refused {}

#[cfg(test)]
mod tests {
    use super::*;

    #[test]
    fn numbers_there_and_back() {
        assert_eq!(Refusal::ALL.len(), 16);
        for (i, &refusal) in Refusal::ALL.iter().enumerate() {
            assert_eq!(usize::from(refusal.number()), i + 1);
            assert_eq!(Refusal::of_number(refusal.number()), Some(refusal));
        }
        assert_eq!(Refusal::of_number(0), None);
        assert_eq!(Refusal::of_number(17), None);
    }

    #[test]
    fn in_words() {
        let told = |number, block, a, b| Refused::new(number, block, a, b).unwrap().to_string();
        assert_eq!(told(8, 4, 0, 2), "piece 3: edges 0 and 2 meet (8 at 0 2)");
        assert_eq!(told(6, 0, 63, 0), "corner 63 equals the next (6 at 63 0)");
        let reach = "of corner 2 is out of reach, below -1024 or above 1024";
        assert_eq!(told(12, 0, 2, 0), format!("x {reach} (12 at 2 0)"));
        assert_eq!(told(12, 0, 2, 1), format!("y {reach} (12 at 2 1)"));
        assert_eq!(told(15, 0, 7, 0), "line 7: an index names no `v` above the face (15 at 7 0)");
        assert_eq!(told(16, 0, 9, 0), "line 9: a second face (16 at 9 0)");
        assert_eq!(told(16, 0, 0, 0), "the file has no face (16 at 0 0)");
        assert_eq!(told(2, 1, 0, 0), "piece 0: the check of a block is wrong (2 at 0 0)");
        assert_eq!(Refused::new(17, 0, 0, 0), None);
    }
}
