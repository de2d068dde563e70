//! Every order of looking names up finds the same name.

use comparison::orders::{Names, ORDERS};
use second::names::{COUNT, KINDS};
use second::random::Random;

/// The place of a name among these, by comparing whole strings.
fn expected(names: &[Vec<u8>], name: &[u8]) -> usize {
    names.iter().position(|known| known == name).unwrap_or(names.len())
}

#[test]
fn each_name_is_found_where_it_is() {
    for kind in KINDS {
        let names = Names::of(kind);
        for number in 0..=COUNT {
            for (order, find) in ORDERS {
                assert_eq!(find(&names.bytes, &names.places, &kind.name(number)), number, "{order} {kind:?}");
            }
        }
    }
}

#[test]
fn random_names_are_found_alike() {
    let mut random = Random::new(202);
    for _ in 0..20_000 {
        let length =
            |random: &mut Random| [0, 1, 2, 7, 8, 9, 15, 16, 17, 63, 64, 65, 71, 72, 127, 128, 130][random.below(17)];
        let size = length(&mut random);
        let mut names: Vec<Vec<u8>> = Vec::new();
        for _ in 0..random.below(6) {
            let size = if random.below(3) == 0 { length(&mut random) } else { size };
            let mut name = vec![b'n'; size];
            if size > 0 {
                name[random.below(size)] = b'a' + random.below(3) as u8;
            }
            names.push(name);
        }
        let mut name = vec![b'n'; size];
        if size > 0 {
            name[random.below(size)] = b'a' + random.below(3) as u8;
        }
        let (mut bytes, mut places) = (Vec::new(), Vec::new());
        for known in &names {
            bytes.extend((known.len() as u16).to_be_bytes());
            places.push(bytes.len());
            bytes.extend(known);
        }
        for (order, find) in ORDERS {
            assert_eq!(find(&bytes, &places, &name), expected(&names, &name), "{order} {names:?} {name:?}");
        }
    }
}
