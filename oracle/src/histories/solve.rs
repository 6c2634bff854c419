//! Commits whose checksum is as one wants it: the checksum is linear, so four
//! free bytes before the check tag can be solved for.
//!
//! Assumes that the last four bytes of the entries are data.

use crate::model::{crc, le32, Laid, ONES};

/// What the checksum shall do.
#[derive(Clone, Copy)]
pub enum Goal {
    /// With so many bytes of the check tag, and its four filled with the first byte,
    /// it shall be four of the second: the coincidence, where both are erased bytes.
    Coincide { put: usize, fill: u8, against: u8 },
    /// The checksum itself: with a high byte that is the erased one the commit is
    /// there before its last store.
    Sum(u32),
}

/// The register before four zero bytes, from the one behind them.
fn back(register: u32) -> u32 {
    (0..32).fold(register, |register, _| {
        let carry = register >> 31;
        let whole = if carry == 1 {
            register ^ 0xedb8_8320
        } else {
            register
        };
        whole << 1 | carry
    })
}

/// The register before four bytes, from the one behind them.
fn before(register: u32, four: &[u8]) -> u32 {
    back(register) ^ le32(four, 0).unwrap_or_default()
}

/// The four bytes that, in place of the last four data bytes of the entries, reach
/// the goal. Between them and the check tag a forward check may stand, in words.
pub fn solve(laid: &Laid, goal: Goal) -> Option<[u8; 4]> {
    let check = laid.bytes.len().checked_sub(8)?;
    let free = laid.forward.unwrap_or(check).checked_sub(4)?;
    let raw: [u8; 4] = laid.bytes.get(check..check + 4)?.try_into().ok()?;
    let (target, put, fill) = match goal {
        Goal::Coincide { put, fill, against } => (u32::from_le_bytes([against; 4]), put, fill),
        Goal::Sum(sum) => (sum, 4, 0),
    };
    let mut four = [fill; 4];
    four[..put].copy_from_slice(&raw[..put]);
    let forward = laid.bytes.get(free + 4..check)?.rchunks(4);
    let wanted = forward.fold(before(target, &four), before);
    let entries = crc(ONES, &laid.bytes[..free]);
    Some((back(wanted) ^ entries).to_le_bytes())
}
