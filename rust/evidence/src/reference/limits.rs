//! The limits of documents 01 and 02, each named once.

/// The most frames of a request: a week of quarter hours.
pub const MAX_FRAMES: usize = 672;

/// The most bytes of a word file.
pub const MAX_FILE_BYTES: usize = 8_080;

/// The largest harvest of a frame.
pub const MAX_HARVEST: u32 = 400_000;

/// The largest capacity; for the needed capacity, the largest start and end charge.
pub const MAX_CAPACITY: u32 = 1_000_000_000;

/// The largest least of a frame, and the largest most of a frame that has an upper end.
pub const MAX_BOUND: u32 = 536_870_911;

/// As a most: no upper end.
pub const NO_UPPER_END: u32 = 4_294_967_295;
