//! Names that the source's TL attributes use.

pub const MAP_LEN_BYTES: usize = 4;

pub mod digests_map {}
pub mod signatures_map {}
pub mod u8_as_u32 {}
