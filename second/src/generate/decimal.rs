//! Decimals: texts and literals that are hard to convert to floats.

use std::cmp::Ordering;

use crate::float::Decimal;
use crate::limits;
use crate::random::Random;

/// A number times a power of two.
#[derive(Clone, Copy, Debug, PartialEq, Eq)]
pub struct Binary {
    pub number: u64,
    pub exponent: i32,
}

/// Floats from the least that a text of 18 digits gives to the greatest have these
/// exponents beside a number of 24 bits.
const EXPONENTS: (i32, i32) = (-80, 36);

impl Binary {
    /// A float above 0.
    pub fn of(float: f32) -> Self {
        let (exponent, fraction) = ((float.to_bits() >> 23) as i32, u64::from(float.to_bits() & 0x7f_ffff));
        match exponent {
            0 => Self { number: fraction, exponent: -149 },
            _ => Self { number: fraction | 0x80_0000, exponent: exponent - 150 },
        }
    }

    /// The middle between two floats that follow each other.
    pub fn middle(below: f32) -> Self {
        let Self { number, exponent } = Self::of(below);
        Self { number: 2 * number + 1, exponent: exponent - 1 }
    }

    /// How digits behind `places` places compare with it, for exponents from -81 to
    /// 36 and numbers below 2^26.
    pub fn compare(&self, digits: u64, places: u32) -> Ordering {
        let (mut left, mut right) = (u128::from(digits), u128::from(self.number) * 10u128.pow(places));
        match u32::try_from(self.exponent) {
            Ok(up) => right <<= up,
            Err(_) => left <<= -self.exponent,
        }
        left.cmp(&right)
    }

    /// As many of its first digits as there may be, at most 18: the digits, rounded
    /// down, and their places behind the point.
    fn digits(&self) -> (u64, u32) {
        let scaled = |places: u32| {
            let number = u128::from(self.number) * 10u128.pow(places);
            match u32::try_from(self.exponent) {
                Ok(up) => number << up,
                Err(_) => number >> -self.exponent,
            }
        };
        // A digit before the point is always written.
        let most = limits::FLOAT_DIGITS as u32 - 1;
        let places = (0..=most).rev().find(|&places| scaled(places) < MOST_DIGITS).unwrap_or(0);
        (scaled(places) as u64, places)
    }

    /// The number written as an expression of literals that aren't rounded.
    pub fn expression(&self) -> String {
        let mut expression = format!("{}.0", self.number);
        let (operator, mut left) = if self.exponent < 0 { ("/", -self.exponent) } else { ("*", self.exponent) };
        while left > 0 {
            let power = left.min(64);
            expression += &format!(" {operator} 2.0 ^ {power}.0");
            left -= power;
        }
        expression
    }
}

const MOST_DIGITS: u128 = 10u128.pow(limits::FLOAT_DIGITS as u32);

/// A decimal that is a float, a tie of two floats, or beside one; seldom any other.
pub fn hard(random: &mut Random) -> Decimal {
    let number = match random.below(4) {
        // Powers of two, below which floats are closer.
        0 => *random.pick(&[1 << 23, (1 << 23) + 1, (1 << 24) - 1]),
        _ => (1 << 23) | (random.number() & 0x7f_ffff),
    };
    // Ties with fewer digits are exact.
    let exponent = match random.below(3) {
        0 => random.between(0, (EXPONENTS.1 - EXPONENTS.0) as usize) as i32 + EXPONENTS.0,
        _ => random.between(0, 50) as i32 - 14,
    };
    let wanted = match random.below(8) {
        0 => Binary { number, exponent },
        1 if number == 1 << 23 => Binary { number: 4 * number - 1, exponent: exponent - 2 },
        _ => Binary { number: 2 * number + 1, exponent: exponent - 1 },
    };
    let (mut digits, mut places) = wanted.digits();
    match random.below(4) {
        0 => digits += 1,
        1 => digits = digits.saturating_sub(1),
        _ => {}
    }
    digits = digits.min(MOST_DIGITS as u64 - 1);
    if random.once_in(2) {
        while places > 0 && digits % 10 == 0 {
            (digits, places) = (digits / 10, places - 1);
        }
    }
    Decimal { negative: random.once_in(3), digits, places }
}

/// Any digits.
fn easy(random: &mut Random) -> Decimal {
    let count = random.between(1, limits::FLOAT_DIGITS) as u32;
    let digits = random.number() % 10u64.pow(count);
    Decimal { negative: random.once_in(3), digits, places: random.below(count as usize) as u32 }
}

/// The text of a decimal, with a digit before the point.
pub fn spelled(decimal: Decimal) -> String {
    let Decimal { negative, digits, places } = decimal;
    let sign = if negative { "-" } else { "" };
    let width = places as usize + 1;
    let digits = format!("{digits:0width$}");
    match digits.split_at(digits.len() - places as usize) {
        (whole, "") => format!("{sign}{whole}"),
        (whole, part) => format!("{sign}{whole}.{part}"),
    }
}

/// Text of the form that "&" takes, of at most 18 digits.
pub fn number(random: &mut Random) -> String {
    let decimal = if random.once_in(3) { easy(random) } else { hard(random) };
    let text = spelled(decimal);
    let digits = text.bytes().filter(u8::is_ascii_digit).count();
    // Zeros in front count as well.
    if digits < limits::FLOAT_DIGITS && random.once_in(6) {
        let zeros = "0".repeat(random.between(1, limits::FLOAT_DIGITS - digits));
        return if decimal.negative { format!("-{zeros}{}", &text[1..]) } else { zeros + &text };
    }
    text
}

/// A float literal of at most 18 digits.
pub fn literal(random: &mut Random) -> String {
    loop {
        let text = number(random);
        let text = text.trim_start_matches('-');
        if text.contains('.') {
            return text.into();
        }
        if text.len() < limits::FLOAT_DIGITS {
            return format!("{text}.0");
        }
    }
}

/// A float literal with more digits than there may be.
pub fn long_literal(random: &mut Random) -> String {
    let more = *random.pick(&[1, 1, 1, 2, 40]);
    let whole = random.between(1, limits::FLOAT_DIGITS + more - 1);
    let digit = *random.pick(&["0", "1", "9"]);
    format!("{}.{}", digit.repeat(whole), digit.repeat(limits::FLOAT_DIGITS + more - whole))
}

/// Any text: a number, nearly one, or none.
pub fn text(random: &mut Random) -> String {
    const TEXTS: [&str; 26] = [
        "0", "-0", "-0.0", "00.00", "-", "", ".", "1.", ".5", "-.5", "--1", "+1", " 1", "1 ", "1e3", "0x10", "inf",
        "nan", "1.2.3", "1..2", "12,5", "1.5f", "-1.", "1.e1", "- 1", "1.-5",
    ];
    match random.below(8) {
        0 | 1 => random.pick(&TEXTS).to_string(),
        2 => {
            let text = long_literal(random);
            let text = if random.once_in(3) { text.replace('.', "") } else { text };
            if random.once_in(3) {
                format!("-{text}")
            } else {
                text
            }
        }
        3 => {
            // Zeros in front are digits as well.
            let text = number(random);
            let digits = text.bytes().filter(u8::is_ascii_digit).count();
            let zeros = "0".repeat(limits::FLOAT_DIGITS + random.below(3) - digits);
            format!("{zeros}{}", text.trim_start_matches('-'))
        }
        _ => number(random),
    }
}
