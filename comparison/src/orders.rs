//! The orders in which a name may be held against the names of a query, each
//! proved to find the same, and how fast they are.

use std::hint::black_box;

use second::names::{Kind, Place, COUNT, KINDS, PLACES};

use crate::measure::alone;

/// Which of the places is the first whose string is the name; their number
/// where none is.
pub type Find = fn(&[u8], &[usize], &[u8]) -> usize;

mod linked {
    extern "C" {
        pub fn lampsickle_find(
            s: *const u8,
            length: usize,
            places: *const usize,
            count: usize,
            name: *const u8,
            size: usize,
        ) -> usize;
        pub fn lampsickle_find_front(
            s: *const u8,
            length: usize,
            places: *const usize,
            count: usize,
            name: *const u8,
            size: usize,
        ) -> usize;
        pub fn lampsickle_find_last(
            s: *const u8,
            length: usize,
            places: *const usize,
            count: usize,
            name: *const u8,
            size: usize,
        ) -> usize;
        pub fn lampsickle_find_backward(
            s: *const u8,
            length: usize,
            places: *const usize,
            count: usize,
            name: *const u8,
            size: usize,
        ) -> usize;
    }
}

macro_rules! order {
    ($function:ident) => {
        |s, places, name| {
            // SAFETY: pointers and lengths are those of slices; the functions
            // only read within them, for any bytes and lengths.
            unsafe { linked::$function(s.as_ptr(), s.len(), places.as_ptr(), places.len(), name.as_ptr(), name.len()) }
        }
    };
}

/// The order of the answer comes first, that of the second evaluator last.
pub const ORDERS: [(&str, Find); 5] = [
    ("used", order!(lampsickle_find)),
    ("front", order!(lampsickle_find_front)),
    ("last byte", order!(lampsickle_find_last)),
    ("before", order!(lampsickle_find_backward)),
    ("second", second_find),
];

fn second_find(s: &[u8], places: &[usize], name: &[u8]) -> usize {
    places.iter().position(|place| string(s, *place) == name).unwrap_or(places.len())
}

/// The string at a place, behind its two-byte length.
fn string(s: &[u8], place: usize) -> &[u8] {
    let length = usize::from(u16::from_be_bytes([s[place - 2], s[place - 1]]));
    &s[place..place + length]
}

/// Names as they lie in a record, and where.
pub struct Names {
    pub bytes: Vec<u8>,
    pub places: Vec<usize>,
}

impl Names {
    pub fn of(kind: Kind) -> Self {
        let (mut bytes, mut places) = (Vec::new(), Vec::new());
        for number in 0..COUNT {
            let name = kind.name(number);
            bytes.extend((name.len() as u16).to_be_bytes());
            places.push(bytes.len());
            bytes.extend(&name);
            // An empty value.
            bytes.extend([0, 0]);
        }
        Self { bytes, places }
    }
}

/// Nanoseconds for one lookup in each of the orders.
pub struct Row {
    pub kind: Kind,
    pub place: Place,
    pub times: [f64; ORDERS.len()],
}

pub fn rows() -> Vec<Row> {
    let mut rows = Vec::new();
    for kind in KINDS {
        let names = Names::of(kind);
        for place in PLACES {
            let name = kind.name(place.number(COUNT));
            let times = ORDERS.map(|(_, find)| {
                alone(|| {
                    black_box(find(black_box(&names.bytes), black_box(&names.places), black_box(&name)));
                    1
                })
            });
            rows.push(Row { kind, place, times });
        }
    }
    rows
}
