//! Words in bytes, and the checksum by its definition.
//!
//! Assumes nothing: a read past the end is `None`.

/// The register's start, and a tail that names no pair.
pub const ONES: u32 = 0xffff_ffff;

fn four(bytes: &[u8], at: usize) -> Option<[u8; 4]> {
    bytes.get(at..at.checked_add(4)?)?.try_into().ok()
}

pub fn le32(bytes: &[u8], at: usize) -> Option<u32> {
    four(bytes, at).map(u32::from_le_bytes)
}

pub fn be32(bytes: &[u8], at: usize) -> Option<u32> {
    four(bytes, at).map(u32::from_be_bytes)
}

/// "its definition is bit by bit, reflected polynomial 0xedb88320"
const fn byte_by_bits(byte: u32) -> u32 {
    let mut register = byte;
    let mut bit = 0;
    while bit < 8 {
        let carry = register & 1;
        register >>= 1;
        if carry == 1 {
            register ^= 0xedb8_8320;
        }
        bit += 1;
    }
    register
}

/// The definition on each byte, worked out once: bit by bit, the comparison
/// would spend most of its time here.
const BY_BYTE: [u32; 256] = {
    let mut table = [0; 256];
    let mut byte = 0;
    while byte < 256 {
        table[byte] = byte_by_bits(byte as u32);
        byte += 1;
    }
    table
};

pub fn crc(register: u32, bytes: &[u8]) -> u32 {
    bytes.iter().fold(register, |register, byte| {
        let low = register as u8 ^ byte;
        (register >> 8) ^ BY_BYTE[usize::from(low)]
    })
}
