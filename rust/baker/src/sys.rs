//! Every function of the static library, declared once.
//!
//! A slice is passed as a pointer and a length. An answer is one `u64`: bit 63 is set for a refusal,
//! which then has its number in bits 48 to 55, its block in bits 40 to 47, a in bits 16 to 39 and b
//! in bits 0 to 15. Otherwise the value stands in the low 32 bits, as said beside each function.

macro_rules! library {
    ($($(#[$said:meta])* fn $name:ident($($given:ident: $kind:ty),* $(,)?) -> u64;)*) => {
        #[cfg(baker_lib)]
        extern "C" {
            $($(#[$said])* pub fn $name($($given: $kind),*) -> u64;)*
        }

        $(
            #[cfg(not(baker_lib))]
            $(#[$said])*
            #[allow(clippy::too_many_arguments)]
            pub unsafe fn $name($($given: $kind),*) -> u64 {
                $(let _ = $given;)*
                panic!("built without the static library: see BAKER_LIB");
            }
        )*
    };
}

library! {
    /// 0
    fn baker_check_run(x: i32, y: i32, z: i32, vx: i32, vy: i32, vz: i32, ticks: u32) -> u64;

    /// 0
    fn baker_check_piece(
        bottom: i32, top: i32, vx: i32, vy: i32, vz: i32,
        corners: *const i32, corners_len: usize,
    ) -> u64;

    /// 0 outside, 1 inside, 2 on
    fn baker_place(x: i32, y: i32, corners: *const i32, corners_len: usize) -> u64;

    /// the mark, or FFFFFFFF for clear
    fn baker_verdict(
        x: i32, y: i32, z: i32, vx: i32, vy: i32, vz: i32, ticks: u32,
        bottom: i32, top: i32, ux: i32, uy: i32, uz: i32,
        corners: *const i32, corners_len: usize,
    ) -> u64;

    /// 0
    fn baker_write_header(pieces: u32, block: *mut u8, block_len: usize) -> u64;

    /// the piece count
    fn baker_read_header(block: *const u8, block_len: usize) -> u64;

    /// 0
    fn baker_write_run(
        x: i32, y: i32, z: i32, vx: i32, vy: i32, vz: i32, ticks: u32,
        block: *mut u8, block_len: usize,
    ) -> u64;

    /// 0, and x y z vx vy vz T in the list. A list under 7 is 10, after all other refusals.
    fn baker_read_run(
        block: *const u8, block_len: usize, numbers: *mut i32, numbers_len: usize,
    ) -> u64;

    /// 0
    fn baker_write_piece(
        bottom: i32, top: i32, vx: i32, vy: i32, vz: i32,
        corners: *const i32, corners_len: usize, block: *mut u8, block_len: usize,
    ) -> u64;

    /// the corner count, and bottom top vx vy vz and the corners in the list; what is past them
    /// stays. A list under 133 is 10, after all other refusals.
    fn baker_read_piece(
        block: *const u8, block_len: usize, numbers: *mut i32, numbers_len: usize,
    ) -> u64;

    /// a step of the reader at a place: as `baker_read_piece`, or 0 for the end, which needs no list
    fn baker_room_piece(
        image: *const u8, image_len: usize, place: usize, numbers: *mut i32, numbers_len: usize,
    ) -> u64;

    /// the piece count, and as many verdicts in the list
    fn baker_room_verdicts(
        x: i32, y: i32, z: i32, vx: i32, vy: i32, vz: i32, ticks: u32,
        image: *const u8, image_len: usize, list: *mut u32, list_len: usize,
    ) -> u64;

    /// the verdict, with bit 32 set where it is remembered
    fn baker_ask(
        book: *mut u8, book_len: usize,
        x: i32, y: i32, z: i32, vx: i32, vy: i32, vz: i32, ticks: u32,
        bottom: i32, top: i32, ux: i32, uy: i32, uz: i32,
        corners: *const i32, corners_len: usize,
    ) -> u64;

    /// 0 taken (grid is set), 1 off grid (floor is set), 2 not a number, 3 out of reach; what is
    /// not set stays. Both are pointers to one number, with no length.
    fn baker_take(x: f32, grid: *mut i32, floor: *mut f32) -> u64;

    /// 0, and the grid numbers in the list
    fn baker_intake(
        numbers: *const f32, numbers_len: usize, list: *mut i32, list_len: usize,
    ) -> u64;

    /// the corner count, and as many x and y in the list; what is past them stays. A list under two
    /// numbers a corner is 10, after all other refusals.
    fn baker_obj(
        file: *const u8, file_len: usize, bottom: i32, top: i32, vx: i32, vy: i32, vz: i32,
        list: *mut i32, list_len: usize,
    ) -> u64;
}
