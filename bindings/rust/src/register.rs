//! A register of priority moves, by the proved static library.
//!
//! ```
//! use lampsickle::register::{Found, Register};
//!
//! let mut register = Register::default();
//! register.issue(7, 20).unwrap();
//! register.issue(9, 5).unwrap();
//! register.pass(7, 9, 10).unwrap();
//! register.spend(9, 15).unwrap();
//! register.remove(9).unwrap();
//! assert_eq!(register.remove(7).unwrap_err().number, 19);
//! assert_eq!(register.find(9), Found { place: None, work: 1 });
//! assert_eq!((register.issued(), register.held()), (25, 10));
//! ```

use crate::Refusal;

/// The principals that a register holds at most: its places.
pub const PLACES: usize = 64;
/// The most moves in one call, and the most that are ever issued.
pub const MOVES: u64 = 1_000_000;

const HEAD: usize = 9;
const PLACE: usize = 13;
/// The length of a register's bytes.
pub const BYTES: usize = HEAD + PLACES * PLACE;

#[repr(C)]
#[derive(Clone, Copy)]
struct Reply {
    number: u8,
    place: usize,
}

#[repr(C)]
#[derive(Clone, Copy)]
struct Search {
    number: u8,
    place: usize,
    held: bool,
    at: usize,
    work: usize,
}

// `bindings/include/lampsickle_register.h` has the contracts in words.
extern "C" {
    fn lampsickle_register_empty(bytes: *mut u8, length: usize) -> Reply;
    fn lampsickle_register_issue(bytes: *mut u8, length: usize, principal: u32, amount: u64) -> Reply;
    fn lampsickle_register_pass(bytes: *mut u8, length: usize, payer: u32, receiver: u32, amount: u64) -> Reply;
    fn lampsickle_register_spend(bytes: *mut u8, length: usize, payer: u32, amount: u64) -> Reply;
    fn lampsickle_register_remove(bytes: *mut u8, length: usize, principal: u32) -> Reply;
    fn lampsickle_register_find(bytes: *const u8, length: usize, principal: u32) -> Search;
}

impl From<Reply> for Result<(), Refusal> {
    fn from(Reply { number, place }: Reply) -> Self {
        match number {
            0 => Ok(()),
            _ => Err(Refusal { number, place }),
        }
    }
}

// SAFETY, of all below: pointer and length are those of a slice, which is borrowed uniquely where
// the library writes. It reads and writes within them for any bytes and any length.

/// Writes the empty register to bytes of the right length.
pub fn empty(bytes: &mut [u8]) -> Result<(), Refusal> {
    unsafe { lampsickle_register_empty(bytes.as_mut_ptr(), bytes.len()) }.into()
}

/// Issues moves to a principal, which is added where it isn't held.
pub fn issue(bytes: &mut [u8], principal: u32, amount: u64) -> Result<(), Refusal> {
    unsafe { lampsickle_register_issue(bytes.as_mut_ptr(), bytes.len(), principal, amount) }.into()
}

/// Passes moves on.
pub fn pass(bytes: &mut [u8], payer: u32, receiver: u32, amount: u64) -> Result<(), Refusal> {
    unsafe { lampsickle_register_pass(bytes.as_mut_ptr(), bytes.len(), payer, receiver, amount) }.into()
}

/// Spends moves.
pub fn spend(bytes: &mut [u8], payer: u32, amount: u64) -> Result<(), Refusal> {
    unsafe { lampsickle_register_spend(bytes.as_mut_ptr(), bytes.len(), payer, amount) }.into()
}

/// Removes a principal that holds no moves.
pub fn remove(bytes: &mut [u8], principal: u32) -> Result<(), Refusal> {
    unsafe { lampsickle_register_remove(bytes.as_mut_ptr(), bytes.len(), principal) }.into()
}

/// Finds a principal. It is refused only where the bytes are no register.
pub fn find(bytes: &[u8], principal: u32) -> Result<Found, Refusal> {
    let Search { number, place, held, at, work } =
        unsafe { lampsickle_register_find(bytes.as_ptr(), bytes.len(), principal) };
    match number {
        0 => Ok(Found { place: held.then_some(at), work }),
        _ => Err(Refusal { number, place }),
    }
}

/// Where a principal stands, and how many held entries were compared.
#[derive(Clone, Copy, Debug, PartialEq, Eq)]
pub struct Found {
    pub place: Option<usize>,
    pub work: usize,
}

/// A place that holds a principal.
#[derive(Clone, Copy, Debug, PartialEq, Eq)]
pub struct Held {
    pub place: usize,
    pub principal: u32,
    pub moves: u64,
}

/// A register: bytes of its layout. They may say a register that every call but
/// finding refuses with 20.
#[derive(Clone, Debug, PartialEq, Eq)]
pub struct Register {
    bytes: [u8; BYTES],
}

impl Default for Register {
    /// The empty register.
    fn default() -> Self {
        let mut bytes = [0; BYTES];
        empty(&mut bytes).expect("bytes of the right length");
        Self { bytes }
    }
}

impl Register {
    /// The register that bytes say, or why they say none.
    pub fn new(bytes: &[u8]) -> Result<Self, Refusal> {
        find(bytes, 0)?;
        Ok(Self { bytes: bytes.try_into().expect("a length that was tested") })
    }

    pub fn bytes(&self) -> &[u8; BYTES] {
        &self.bytes
    }

    pub fn issue(&mut self, principal: u32, amount: u64) -> Result<(), Refusal> {
        issue(&mut self.bytes, principal, amount)
    }

    pub fn pass(&mut self, payer: u32, receiver: u32, amount: u64) -> Result<(), Refusal> {
        pass(&mut self.bytes, payer, receiver, amount)
    }

    pub fn spend(&mut self, payer: u32, amount: u64) -> Result<(), Refusal> {
        spend(&mut self.bytes, payer, amount)
    }

    pub fn remove(&mut self, principal: u32) -> Result<(), Refusal> {
        remove(&mut self.bytes, principal)
    }

    pub fn find(&self, principal: u32) -> Found {
        find(&self.bytes, principal).expect("bytes that were tested")
    }

    /// All moves ever issued.
    pub fn issued(&self) -> u64 {
        eight(&self.bytes[1..HEAD])
    }

    /// The places that hold a principal, in their order.
    pub fn places(&self) -> impl Iterator<Item = Held> + '_ {
        let places = self.bytes[HEAD..].chunks_exact(PLACE).enumerate();
        places.filter(|(_, bytes)| bytes[0] == 1).map(|(place, bytes)| {
            let principal = u32::from_be_bytes(bytes[1..5].try_into().expect("four bytes"));
            Held { place, principal, moves: eight(&bytes[5..]) }
        })
    }

    /// All moves held. It may be over eight bytes where number 20 is given.
    pub fn held(&self) -> u128 {
        self.places().map(|held| u128::from(held.moves)).sum()
    }
}

fn eight(bytes: &[u8]) -> u64 {
    u64::from_be_bytes(bytes.try_into().expect("eight bytes"))
}
