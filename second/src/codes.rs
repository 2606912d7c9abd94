//! The nine codes and their table of lengths and parts.

pub const ID: u8 = 0;
pub const DROP: u8 = 1;
pub const TEST: u8 = 2;
pub const SET: u8 = 3;
pub const NOT: u8 = 4;
pub const SUM: u8 = 5;
pub const SEQUENCE: u8 = 6;
pub const BESIDE: u8 = 7;
pub const TABLE: u8 = 8;

/// Operand bytes and parts below, by code.
pub const OPERANDS_AND_PARTS: [(usize, usize); 9] =
    [(0, 0), (0, 0), (3, 0), (3, 0), (0, 1), (0, 2), (0, 2), (2, 2), (1, 0)];

/// The place just after the part that begins at `at`. The part must be well formed.
pub fn after_part(bytes: &[u8], at: usize) -> usize {
    let mut next = at;
    let mut parts_to_come = 1;
    while parts_to_come > 0 {
        let (operands, parts) = OPERANDS_AND_PARTS[bytes[next] as usize];
        next += 1 + operands;
        parts_to_come += parts;
        parts_to_come -= 1;
    }
    next
}

/// The two-byte number at `at`, high byte first.
pub fn two_bytes(bytes: &[u8], at: usize) -> u16 {
    u16::from_be_bytes([bytes[at], bytes[at + 1]])
}
