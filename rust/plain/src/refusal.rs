/// Why it can't be done: number, block and two places.
#[derive(Clone, Copy, Debug, PartialEq, Eq)]
pub struct Refusal {
    pub number: u8,
    pub block: u16,
    pub a: u32,
    pub b: u16,
}

impl Refusal {
    pub(crate) fn new(number: u8, a: usize, b: usize) -> Self {
        Refusal { number, block: 0, a: a as u32, b: b as u16 }
    }

    pub(crate) fn length() -> Self {
        Self::new(1, 0, 0)
    }

    pub(crate) fn kind(at: usize) -> Self {
        Self::new(3, at, 0)
    }

    pub(crate) fn reach(at: usize) -> Self {
        Self::new(4, at, 0)
    }

    pub(crate) fn short() -> Self {
        Self::new(10, 0, 0)
    }
}
