//! The rows of a trail (document 02, U2).

/// The list (0 none, 1 direct, 2 indirect), the entry's place in it, the reason, the role that it names or 255, and zeros.
pub type Row = [u8; 8];

pub const NO_LIST: u8 = 0;
pub const DIRECT: u8 = 1;
pub const INDIRECT: u8 = 2;

/// Of a place in a list, and of a reason with its role. A list has no more than 65,535 entries.
pub fn row(list: u8, place: usize, reason: u8, role: u8) -> Row {
    let [low, high] = (place as u16).to_le_bytes();
    [list, low, high, reason, role, 0, 0, 0]
}
