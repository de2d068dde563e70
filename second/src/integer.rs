//! 32-bit signed integers; a result outside the range is an error.

/// An error met in computing a value.
#[derive(Clone, Copy, Debug, PartialEq, Eq)]
pub struct Error;

pub fn negate(number: i32) -> Result<i32, Error> {
    number.checked_neg().ok_or(Error)
}

pub fn add(left: i32, right: i32) -> Result<i32, Error> {
    left.checked_add(right).ok_or(Error)
}

pub fn subtract(left: i32, right: i32) -> Result<i32, Error> {
    left.checked_sub(right).ok_or(Error)
}

pub fn multiply(left: i32, right: i32) -> Result<i32, Error> {
    left.checked_mul(right).ok_or(Error)
}

/// Toward zero.
pub fn divide(left: i32, right: i32) -> Result<i32, Error> {
    left.checked_div(right).ok_or(Error)
}

/// With the dividend's sign; the least integer has remainder 0 by -1.
pub fn remainder(left: i32, right: i32) -> Result<i32, Error> {
    if right == 0 {
        Err(Error)
    } else {
        Ok(left.wrapping_rem(right))
    }
}

pub fn power(base: i32, exponent: i32) -> Result<i32, Error> {
    if exponent < 0 {
        return Err(Error);
    }
    match base {
        0 | 1 => Ok(if exponent == 0 { 1 } else { base }),
        -1 => Ok(if exponent % 2 == 0 { 1 } else { -1 }),
        // Others leave the range at an exponent of 32.
        _ if exponent > 31 => Err(Error),
        _ => (0..exponent).try_fold(1, |product, _| multiply(product, base)),
    }
}

/// "@": an optional "-", digits, and optionally "." and digits, rounded down;
/// 0 for any other text and for numbers out of range.
pub fn from_text(text: &[u8]) -> i32 {
    convert(text).and_then(|number| i32::try_from(number).ok()).unwrap_or(0)
}

fn convert(text: &[u8]) -> Option<i64> {
    let (negative, number) = match text.strip_prefix(b"-") {
        Some(rest) => (true, rest),
        None => (false, text),
    };
    let (whole, fraction) = match number.iter().position(|&byte| byte == b'.') {
        Some(dot) => (&number[..dot], &number[dot + 1..]),
        None => (number, &b"0"[..]),
    };
    let whole = value(whole)?;
    let part = i64::from(value(fraction)? != 0);
    Some(if negative { -whole - part } else { whole })
}

/// The value of one or more digits, or a number far out of range.
fn value(digits: &[u8]) -> Option<i64> {
    const FAR: i64 = 1 << 40;
    let add = |value: i64, digit: &u8| digit.is_ascii_digit().then(|| (value * 10 + i64::from(digit - b'0')).min(FAR));
    if digits.is_empty() {
        None
    } else {
        digits.iter().try_fold(0, add)
    }
}
