//! The coding of answers as one `u64`, the same as at the static library.

pub const REFUSED: u64 = 1 << 63;
pub const REMEMBERED: u64 = 1 << 32;

pub fn refused(number: u8, block: u16, a: u32, b: u16) -> u64 {
    // A block of more than 8 bits or a place of more than 24 would run into its neighbour.
    assert!(block <= 0xff && a <= 0xff_ffff);
    REFUSED | (number as u64) << 48 | (block as u64) << 40 | (a as u64) << 16 | b as u64
}

/// The refusal number of a coded answer.
pub fn number(answer: u64) -> Option<u8> {
    (answer & REFUSED != 0).then_some((answer >> 48) as u8)
}

/// A coded answer in words.
pub fn text(answer: u64) -> String {
    let (block, a, b) = (answer >> 40 & 0xff, answer >> 16 & 0xff_ffff, answer & 0xffff);
    match number(answer) {
        Some(number) => format!("{answer:#018x}: refused {number} block {block} at {a} {b}"),
        None => format!("{answer:#018x}: {}", answer as u32),
    }
}

#[cfg(test)]
mod tests {
    use super::*;

    /// Line 65,536 needs 17 bits of the place a; the rest keeps clear of them.
    #[test]
    fn a_refusal_is_coded_and_told() {
        assert_eq!(refused(14, 0, 65_536, 0), 0x800e_0001_0000_0000);
        assert_eq!(refused(8, 126, 5, 9), 0x8008_7e00_0005_0009);
        assert_eq!(text(refused(8, 126, 65_536, 9)), "0x80087e0100000009: refused 8 block 126 at 65536 9");
        assert_eq!(number(refused(16, 255, 0xff_ffff, 65_535)), Some(16));
        assert_eq!(text(REMEMBERED | 7), "0x0000000100000007: 7");
    }
}
