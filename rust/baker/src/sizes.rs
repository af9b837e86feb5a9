//! Sizes and bounds, as `include/baker.h` names them.

/// Bytes of a block.
pub const BLOCK_SIZE: usize = 512;
/// Most pieces of a room; its image has one block more than pieces.
pub const MOST_PIECES: usize = 126;
/// Most slots of a book, each a block; at least 1.
pub const MOST_SLOTS: usize = 128;
/// Most bytes of an OBJ file.
pub const LONGEST_FILE: usize = 65_536;
pub const LEAST_CORNERS: usize = 3;
pub const MOST_CORNERS: usize = 64;
/// Numbers of a list that a run is read into.
pub const RUN_NUMBERS: usize = 7;
/// Numbers of a list that any piece is read into.
pub const PIECE_NUMBERS: usize = 133;
/// Numbers of a list that any corners are read into.
pub const CORNER_NUMBERS: usize = 128;
/// Positions, corners and heights are from minus this to this, in grid units.
pub const MOST_REACH: i32 = 16_384;
/// Velocities are from minus this to this, in grid units per tick.
pub const MOST_SPEED: i32 = 255;
/// Most ticks of a run.
pub const MOST_TICKS: u32 = 4_096;
/// Marks of a tick.
pub const TICK_MARKS: u32 = 256;
/// Grid units of an exported unit.
pub const EXPORT_UNIT: i32 = 16;
/// The code of a clear verdict in a list of verdicts.
pub const CLEAR: u32 = u32::MAX;
