//! A register as bytes: the version, all moves ever issued in eight bytes, then
//! for each place a byte that is 1 where it holds a principal and 0 where it
//! doesn't, the principal in four bytes and its moves in eight, big-endian.

use super::Register;
use crate::limits::{REGISTER_BYTES, REGISTER_HEAD, REGISTER_PLACE, REGISTER_VERSION};

const VERSION: u8 = 2;
const LENGTH: u8 = 5;
const BYTE: u8 = 6;

fn number(bytes: &[u8]) -> u64 {
    bytes.iter().fold(0, |number, byte| number << 8 | u64::from(*byte))
}

/// The register, or the number and place for which its bytes are refused.
/// Numbers left at a free place count for nothing.
pub fn read(bytes: &[u8]) -> Result<Register, (u8, usize)> {
    if bytes.len() != REGISTER_BYTES {
        return Err((LENGTH, 0));
    }
    if bytes[0] != REGISTER_VERSION {
        return Err((VERSION, 0));
    }
    let (head, places) = bytes.split_at(REGISTER_HEAD);
    let mut register = Register::default();
    register.set_issued(number(&head[1..]));
    for (place, entry) in places.chunks_exact(REGISTER_PLACE).enumerate() {
        match entry[0] {
            0 => (),
            1 => register.put(place, number(&entry[1..5]) as u32, number(&entry[5..])),
            _ => return Err((BYTE, REGISTER_HEAD + place * REGISTER_PLACE)),
        }
    }
    Ok(register)
}

/// The bytes of a register, with zeros at free places.
pub fn write(register: &Register) -> [u8; REGISTER_BYTES] {
    let mut bytes = [0; REGISTER_BYTES];
    bytes[0] = REGISTER_VERSION;
    bytes[1..REGISTER_HEAD].copy_from_slice(&register.issued().to_be_bytes());
    for (place, principal, moves) in register.places() {
        let entry = &mut bytes[REGISTER_HEAD + place * REGISTER_PLACE..][..REGISTER_PLACE];
        entry[0] = 1;
        entry[1..5].copy_from_slice(&principal.to_be_bytes());
        entry[5..].copy_from_slice(&moves.to_be_bytes());
    }
    bytes
}
