//! 32-bit floats. Text becomes the nearest float by one division of whole numbers;
//! each operation rounds once, and an infinite result, or none, is an error.

use crate::integer::Error;
use crate::limits;

/// The bits of a float's fraction as it is stored, and with the one in front.
const STORED: u32 = 23;
const PRECISION: u32 = STORED + 1;
/// The exponent that is stored for a fraction of `PRECISION` bits as a whole number.
const BIAS: i32 = 150;

/// Text of the form that "&" and "@" take: its sign, all digits as one number, and
/// how many of them stand behind the point.
#[derive(Clone, Copy, Debug, PartialEq, Eq)]
pub struct Decimal {
    pub negative: bool,
    pub digits: u64,
    pub places: u32,
}

/// An optional "-", digits, and optionally "." and digits, at most 18 in all.
pub fn read(text: &[u8]) -> Option<Decimal> {
    let (negative, number) = match text {
        [b'-', rest @ ..] => (true, rest),
        _ => (false, text),
    };
    let mut decimal = Decimal { negative, digits: 0, places: 0 };
    let (mut count, mut point) = (0, None);
    for &byte in number {
        match byte {
            b'0'..=b'9' if count < limits::FLOAT_DIGITS => {
                decimal.digits = decimal.digits * 10 + u64::from(byte - b'0');
                count += 1;
            }
            b'.' if point.is_none() && count > 0 => point = Some(count),
            _ => return None,
        }
    }
    decimal.places = (count - point.unwrap_or(count)) as u32;
    let complete = count > 0 && point != Some(count);
    complete.then_some(decimal)
}

/// The nearest float, of two as near the one whose last bit is 0.
pub fn nearest(decimal: Decimal) -> f32 {
    let magnitude = if decimal.digits == 0 { 0.0 } else { ratio(decimal.digits, 10u64.pow(decimal.places)) };
    if decimal.negative {
        -magnitude
    } else {
        magnitude
    }
}

/// The float nearest to a ratio of numbers above 0, both below 2^60. The quotient is
/// taken to more bits than a float has; what is left over decides.
fn ratio(above: u64, below: u64) -> f32 {
    let width = |number: u64| u64::BITS - number.leading_zeros();
    let shift = (PRECISION + 2 + width(below)).saturating_sub(width(above));
    let (above, below) = (u128::from(above) << shift, u128::from(below));
    // At least 26 bits, at most 60.
    let (quotient, rest) = ((above / below) as u64, above % below);
    let dropped = width(quotient) - PRECISION;
    let fraction = quotient >> dropped;
    let lost = quotient & ((1 << dropped) - 1);
    let half = 1 << (dropped - 1);
    let tie = lost == half && rest == 0;
    let up = if tie { fraction % 2 == 1 } else { lost >= half };
    // A fraction that is full carries into the exponent.
    let exponent = (dropped as i32 - shift as i32 + BIAS) as u32;
    f32::from_bits((exponent << STORED) + (fraction as u32 - (1 << STORED)) + u32::from(up))
}

/// The value of a float literal; none if it has too many digits.
pub fn literal(spelling: &[u8]) -> Option<f32> {
    read(spelling).map(nearest)
}

/// "&": zero for longer text and for text of another form.
pub fn from_text(text: &[u8]) -> f32 {
    read(text).map_or(0.0, nearest)
}

/// A result that is a number.
fn finite(result: f32) -> Result<f32, Error> {
    if result.is_finite() {
        Ok(result)
    } else {
        Err(Error)
    }
}

pub fn add(left: f32, right: f32) -> Result<f32, Error> {
    finite(left + right)
}

pub fn subtract(left: f32, right: f32) -> Result<f32, Error> {
    finite(left - right)
}

pub fn multiply(left: f32, right: f32) -> Result<f32, Error> {
    finite(left * right)
}

pub fn divide(left: f32, right: f32) -> Result<f32, Error> {
    finite(left / right)
}

/// Multiplication from 1.0, so often as the exponent says, which is a whole number
/// from 0 to 64.
pub fn power(base: f32, exponent: f32) -> Result<f32, Error> {
    let whole = exponent.trunc() == exponent && (0.0..=limits::FLOAT_EXPONENT).contains(&exponent);
    if !whole {
        return Err(Error);
    }
    (0..exponent as u32).try_fold(1.0, |product, _| multiply(product, base))
}
