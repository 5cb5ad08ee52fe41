//! The value of a double from its bits, over whole numbers, and how it stands to the exact fraction
//! raw * 2^27 / ((2048 + F) * 2^E). Written apart from the rules that work our answers out.

use super::Numbers;
use crate::compare::Answered;

/// A double that is a number. Its size is digits * 2^power.
pub struct Double {
    pub bits: u64,
    minus: bool,
    digits: u64,
    power: i32,
}

const SIGN: u64 = 1 << 63;
/// The leading digit, which isn't stored, and so the least digits of a double that has it.
const LEADING: u64 = 1 << 52;

impl Double {
    /// None unless the answer is `double BITS` and the bits are those of a number.
    pub fn of(answered: &Answered) -> Option<Double> {
        let bits = answered.theirs.as_deref()?.strip_prefix(b"double ")?;
        let is_digit = |byte: &u8| byte.is_ascii_digit() || (b'A'..=b'F').contains(byte);
        if bits.len() != 16 || !bits.iter().all(is_digit) {
            return None;
        }
        let text = std::str::from_utf8(bits).ok()?;
        Double::from_bits(u64::from_str_radix(text, 16).ok()?)
    }

    fn from_bits(bits: u64) -> Option<Double> {
        let stored = bits & (LEADING - 1);
        let exponent = (bits & !SIGN) >> 52;
        let (digits, power) = match exponent {
            // Infinite, or no number.
            2047 => return None,
            // Without a leading digit.
            0 => (stored, -1074),
            _ => (LEADING | stored, exponent as i32 - 1075),
        };
        Some(Double {
            bits,
            minus: bits & SIGN != 0,
            digits,
            power,
        })
    }

    /// A number that is greater where the double is. The sign apart, the bits ascend with the size:
    /// the exponent stands before the digits. Both zeros have the same.
    pub fn rank(&self) -> i64 {
        let size = (self.bits & !SIGN) as i64;
        if self.minus {
            -size
        } else {
            size
        }
    }

    /// Whether this is raw * 2^16 / 2^E, what the fraction is where F is 0.
    pub fn is_exactly(&self, Numbers { raw, e, .. }: Numbers) -> bool {
        let exact = without_twos(raw.unsigned_abs(), 16 - e as i32);
        self.minus == (raw < 0) && without_twos(self.digits, self.power) == exact
    }

    /// How many digits stand behind the point. A fraction that isn't 0 lies between 2^-16 and 2^32,
    /// so the doubles near it have from 20 to 69; none is told where this one is far away.
    fn places(&self) -> Option<u32> {
        let places = u32::try_from(-self.power).ok()?;
        Some(places).filter(|places| (20..=69).contains(places))
    }

    /// Whether this is nearer to the fraction than the next double above and the next below, with
    /// the fraction's sign. All is multiplied by (2048 + F) * 2^E * 2^(places + 1), which leaves
    /// whole numbers below 2^114.
    pub fn is_nearest(&self, numbers: Numbers) -> bool {
        let Numbers { raw, e, f } = numbers;
        let Some(places) = self.places() else {
            return false;
        };
        let below = u128::from((2048 + f).unsigned_abs()) << e;
        let exact = u128::from(raw.unsigned_abs()) << (27 + places + 1);
        let own = u128::from(self.digits) * 2 * below;
        let next_above = own + 2 * below;
        // Below the least digits the next double is nearer by half: it has one place more.
        let next_below = match self.digits {
            LEADING => own - below,
            _ => own - 2 * below,
        };
        let away = |size: u128| size.abs_diff(exact);
        let nearest = away(own) < away(next_above) && away(own) < away(next_below);
        nearest && self.minus == (raw < 0)
    }

    /// Whether 1000 times this is within a half of so many thousandths, but for its own rounding,
    /// which is at most half a last digit. All is multiplied by 2^(places + 1).
    pub fn is_beside(&self, thousandths: i64) -> bool {
        if self.digits == 0 {
            return thousandths == 0;
        }
        let Some(places) = self.places() else {
            return false;
        };
        let size = 2000 * i128::from(self.digits);
        let own = if self.minus { -size } else { size };
        let rounding = 1000 + (1 << places);
        // Thousandths so many that this overflows are far away from any double here.
        let theirs = i128::from(thousandths).checked_mul(1 << (places + 1));
        theirs.is_some_and(|theirs| own.abs_diff(theirs) <= rounding)
    }
}

/// digits * 2^power with odd digits, or 0 * 2^0: so each number has one form.
fn without_twos(digits: u64, power: i32) -> (u64, i32) {
    match digits {
        0 => (0, 0),
        _ => {
            let twos = digits.trailing_zeros();
            (digits >> twos, power + twos as i32)
        }
    }
}

/// Whether so many thousandths are nearest to 1000 times the fraction, a half away from zero.
pub fn is_nearest_reading(thousandths: i64, Numbers { raw, e, f }: Numbers) -> bool {
    let exact = i128::from(raw) * 1000 * (1 << 27);
    let below = i128::from(2048 + f) << e;
    let away = i128::from(thousandths) * below - exact;
    let is_half = 2 * away.abs() == below && away.signum() == exact.signum();
    2 * away.abs() < below || is_half
}
