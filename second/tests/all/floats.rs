//! Floats: the rulings, the C library's conversion, the nearest of all floats by
//! comparison alone, and operations by way of wider floats.

use std::cmp::Ordering;
use std::ffi::{c_char, CString};

use second::float::{add, divide, from_text, multiply, power, read, subtract, Decimal};
use second::generate::decimal::{hard, literal, long_literal, number, spelled, text, Binary};
use second::integer::Error;
use second::random::Random;

fn unhex(digits: &str) -> Vec<u8> {
    let byte = |index: usize| u8::from_str_radix(&digits[index..index + 2], 16).expect("hex digits");
    (0..digits.len()).step_by(2).map(byte).collect()
}

fn bits(text: &str) -> u32 {
    from_text(text.as_bytes()).to_bits()
}

#[test]
fn rulings() {
    let lines = include_str!("../../data/conversions.tsv").lines().filter(|line| !line.starts_with('#'));
    let mut count = 0;
    for line in lines {
        let columns: Vec<&str> = line.split('\t').collect();
        let [name, text, expected] = columns[..] else { panic!("three columns: {line}") };
        assert_eq!(format!("{:08x}", from_text(&unhex(text)).to_bits()), expected, "{name}");
        count += 1;
    }
    assert_eq!(count, 25);
}

/// What is no number, or has more than 18 digits, is zero and not negative zero.
#[test]
fn other_texts() {
    for text in ["", "-", ".", "-.", "1.", "-1.", ".5", "-.5", "+1", "1-", "1e3", "1.5e3", "0x1", "inf", "nan", "1.2.3"]
    {
        assert_eq!((bits(text), read(text.as_bytes())), (0, None), "{text}");
    }
    for text in ["1 ", " 1", "1\n", "1_0", "1,5", "1.\u{0661}", "1..5", "--1", "-+1"] {
        assert_eq!((bits(text), read(text.as_bytes())), (0, None), "{text}");
    }
    for digits in 1..=40 {
        for point in 1..digits {
            let text = format!("{}.{}", "1".repeat(point), "1".repeat(digits - point));
            assert_eq!(read(text.as_bytes()).is_some(), digits <= 18, "{text}");
            assert_eq!(bits(&format!("-{text}")) == 0, digits > 18, "{text}");
        }
        assert_eq!(read("0".repeat(digits).as_bytes()).is_some(), digits <= 18);
    }
    assert_eq!(bits("-0"), 0x8000_0000);
    assert_eq!(bits("-00000000000000000.0"), 0x8000_0000);
}

// The C library's conversion. The program keeps the locale "C".
extern "C" {
    fn strtof(text: *const c_char, end: *mut *mut c_char) -> f32;
}

fn c_library(text: &str) -> u32 {
    let text = CString::new(text).expect("no NUL");
    // SAFETY: the text ends with a NUL, and no end is asked for.
    unsafe { strtof(text.as_ptr(), std::ptr::null_mut()) }.to_bits()
}

/// A million texts of the form. Left out is what no text of 18 digits gives: results
/// below the normal floats, and infinite ones.
#[test]
fn as_the_c_library() {
    let mut random = Random::new(204);
    let (mut by_double, mut ties, mut most_digits, mut zeros) = (0, 0, 0, 0);
    for _ in 0..1_000_000 {
        let text = number(&mut random);
        assert_eq!(bits(&text), c_library(&text), "{text}");
        let decimal = read(text.as_bytes()).expect("at most 18 digits");
        let double = text.parse::<f64>().expect("a number") as f32;
        by_double += usize::from(double.to_bits() != bits(&text));
        ties += usize::from(is_tie(decimal));
        most_digits += usize::from(text.bytes().filter(u8::is_ascii_digit).count() == 18);
        zeros += usize::from(decimal.digits == 0);
        let float = f32::from_bits(bits(&text));
        assert!(float == 0.0 || float.is_normal(), "{text}");
    }
    // Many differ by way of a 64-bit float.
    let met = [by_double, ties, most_digits, zeros];
    assert!(by_double > 10_000 && ties > 100_000 && most_digits > 300_000 && zeros > 100, "{met:?}");
}

fn is_tie(decimal: Decimal) -> bool {
    let float = from_text(spelled(decimal).as_bytes()).abs();
    let beside = |float: f32| Binary::middle(float).compare(decimal.digits, decimal.places).is_eq();
    float != 0.0 && (beside(float) || beside(f32::from_bits(float.to_bits() - 1)))
}

#[test]
fn hard_ones_as_the_c_library() {
    let mut texts: Vec<String> =
        ["0", "-0", "0.0", "-0.0", "1", "-1", "999999999999999999", "99999999999999999.9"].map(String::from).into();
    // Powers of two and their neighbours, as far as 18 digits go.
    for exponent in 0..60 {
        let power = 1u64 << exponent;
        texts.extend(
            [power - 1, power, power + 1].map(|number| number.to_string()).into_iter().filter(|text| text.len() <= 18),
        );
        if exponent <= 17 {
            let digits = 5u64.pow(exponent);
            texts.extend(
                [digits - 1, digits, digits + 1]
                    .map(|digits| spelled(Decimal { negative: false, digits, places: exponent })),
            );
        }
    }
    // Powers of ten, and all places of the point.
    for places in 0..18 {
        for digits in [1, 5, 9, 123_456_789_012_345_678, 999_999_999_999_999_999, 100_000_000_000_000_001] {
            texts.push(spelled(Decimal { negative: places % 2 == 1, digits, places }));
        }
    }
    texts.retain(|text| read(text.as_bytes()).is_some());
    assert!(texts.len() > 300, "{}", texts.len());
    for text in texts {
        assert_eq!(bits(&text), c_library(&text), "{text}");
    }
}

/// The float is between the middles to its neighbours, or on one with its last bit 0.
#[test]
fn nearest_by_comparison() {
    let mut random = Random::new(24);
    for _ in 0..200_000 {
        let Decimal { digits, places, .. } = hard(&mut random);
        if digits == 0 {
            continue;
        }
        let found = from_text(spelled(Decimal { negative: false, digits, places }).as_bytes());
        let even = found.to_bits() & 1 == 0;
        let below = Binary::middle(f32::from_bits(found.to_bits() - 1)).compare(digits, places);
        let above = Binary::middle(found).compare(digits, places);
        let fine = |order: Ordering, side: Ordering| order == side || (order.is_eq() && even);
        assert!(fine(below, Ordering::Greater) && fine(above, Ordering::Less), "{digits} / 10^{places}: {found:e}");
    }
}

/// Every float of 24 bits that a text gives exactly.
#[test]
fn exact_ones() {
    let mut random = Random::new(25);
    for _ in 0..200_000 {
        let number = random.number() & 0xff_ffff;
        let places = random.below(8) as u32;
        let text = format!("{}.{}", number >> places, spelled_part(number & ((1 << places) - 1), places));
        let expected = number as f32 / (1u32 << places) as f32;
        assert_eq!(bits(&text), expected.to_bits(), "{text}");
    }
}

/// The digits of a number of so many bits behind the point.
fn spelled_part(number: u64, places: u32) -> String {
    match places {
        0 => "0".into(),
        _ => format!("{:0width$}", number * 5u64.pow(places), width = places as usize),
    }
}

/// Literals are read as "&" reads their text.
#[test]
fn literals() {
    let mut random = Random::new(26);
    for _ in 0..50_000 {
        let fine = literal(&mut random);
        assert_eq!(second::float::literal(fine.as_bytes()).map(f32::to_bits), Some(c_library(&fine)), "{fine}");
        let long = long_literal(&mut random);
        assert_eq!(second::float::literal(long.as_bytes()), None, "{long}");
        let any = text(&mut random);
        let expected = if read(any.as_bytes()).is_some() { c_library(&any) } else { 0 };
        assert_eq!(bits(&any), expected, "{any}");
    }
}

/// The same by way of 64-bit floats, whose second rounding changes nothing.
fn widely(operation: fn(f64, f64) -> f64, left: f32, right: f32) -> Result<u32, Error> {
    let result = operation(left.into(), right.into()) as f32;
    if result.is_infinite() || result.is_nan() {
        Err(Error)
    } else {
        Ok(result.to_bits())
    }
}

fn any_float(random: &mut Random) -> f32 {
    const SOME: [f32; 8] = [0.0, -0.0, 1.0, -1.0, f32::MAX, f32::MIN, f32::MIN_POSITIVE, 1e-45];
    loop {
        let float = match random.below(4) {
            0 => *random.pick(&SOME),
            1 => random.between(0, 200) as f32 / 4.0 - 25.0,
            _ => f32::from_bits(random.number() as u32),
        };
        if float.is_finite() {
            return float;
        }
    }
}

#[test]
fn operations_round_once() {
    let mut random = Random::new(27);
    let (mut errors, mut subnormal, mut zeros) = (0, 0, 0);
    for _ in 0..1_000_000 {
        let (left, right) = (any_float(&mut random), any_float(&mut random));
        let found = [add(left, right), subtract(left, right), multiply(left, right), divide(left, right)];
        let wide: [fn(f64, f64) -> f64; 4] = [|a, b| a + b, |a, b| a - b, |a, b| a * b, |a, b| a / b];
        for (found, wide) in found.iter().zip(wide) {
            assert_eq!(found.map(f32::to_bits), widely(wide, left, right), "{left:e} {right:e}");
            errors += usize::from(found.is_err());
            subnormal += usize::from(found.is_ok_and(f32::is_subnormal));
            zeros += usize::from(*found == Ok(0.0));
        }
    }
    assert!(errors > 10_000 && subnormal > 10_000 && zeros > 10_000, "{errors} {subnormal} {zeros}");
}

#[test]
fn powers() {
    let mut random = Random::new(28);
    for _ in 0..200_000 {
        let base = any_float(&mut random);
        let exponent = random.below(65);
        let mut expected = Some(1.0f32);
        for _ in 0..exponent {
            expected = expected.map(|product| (f64::from(product) * f64::from(base)) as f32).filter(|p| p.is_finite());
        }
        assert_eq!(
            power(base, exponent as f32).ok().map(f32::to_bits),
            expected.map(f32::to_bits),
            "{base:e} {exponent}"
        );
    }
    assert_eq!([power(0.0, 0.0), power(-0.0, -0.0), power(2.0, -0.0)], [Ok(1.0); 3]);
    assert_eq!(power(2.0, 64.0), Ok(18_446_744_073_709_551_616.0));
    for exponent in [65.0, 64.00001, 0.5, -1.0, -0.5, 1e-45, 1e10, f32::MAX, f32::MIN, 63.999996] {
        assert_eq!(power(1.0, exponent), Err(Error), "{exponent}");
    }
}
