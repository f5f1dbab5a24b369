//! Fractions of 128 bits, written plainly in Rust for the benchmarks: binary gcds, and 64 bits wherever they serve.
use std::cmp::Ordering;

/// In lowest terms; the denominator is positive, and both parts are at most 2^127 - 1 in magnitude.
#[derive(Clone, Copy)]
pub struct Ratio {
    pub num: i128,
    pub den: u128,
}

pub enum Fault {
    ZeroDenominator,
    Overflow,
}

const GREATEST: u128 = i128::MAX as u128;

/// Of two odd numbers.
#[inline]
fn odd_gcd(mut x: u64, mut y: u64) -> u64 {
    while x != y {
        let zeros = x.wrapping_sub(y).trailing_zeros();
        let apart = x.abs_diff(y);
        x = x.min(y);
        y = apart >> zeros;
    }
    x
}

/// Of two numbers, the second of which isn't 0.
#[inline]
fn narrow_gcd(x: u64, y: u64) -> u64 {
    if x == 1 || y == 1 {
        return 1;
    }
    if x == 0 {
        return y;
    }
    let zeros = (x | y).trailing_zeros();
    odd_gcd(x >> x.trailing_zeros(), y >> y.trailing_zeros()) << zeros
}

fn gcd(x: u128, y: u128) -> u128 {
    if let (Ok(x), Ok(y)) = (u64::try_from(x), u64::try_from(y)) {
        return narrow_gcd(x, y) as u128;
    }
    wide_gcd(x, y)
}

#[cold]
#[inline(never)]
fn wide_gcd(x: u128, y: u128) -> u128 {
    if y <= u64::MAX as u128 {
        return narrow_gcd((x % y) as u64, y as u64) as u128;
    }
    if x == 0 {
        return y;
    }
    if x <= u64::MAX as u128 {
        let rest = (y % x) as u64;
        return if rest == 0 { x } else { narrow_gcd(x as u64, rest) as u128 };
    }
    let zeros = (x | y).trailing_zeros();
    let mut x = x >> x.trailing_zeros();
    let mut y = y >> y.trailing_zeros();
    while x > u64::MAX as u128 || y > u64::MAX as u128 {
        if x == y {
            return x << zeros;
        }
        let (least, apart) = (x.min(y), x.abs_diff(y));
        // A shift below 64 takes fewer steps.
        let low = (x as u64).wrapping_sub(y as u64);
        y = if low == 0 { apart >> apart.trailing_zeros() } else { apart >> low.trailing_zeros() };
        x = least;
    }
    (odd_gcd(x as u64, y as u64) as u128) << zeros
}

#[inline]
fn quotient(a: u128, by: u128) -> u128 {
    if by == 1 {
        a
    } else if let (Ok(a), Ok(by)) = (u64::try_from(a), u64::try_from(by)) {
        (a / by) as u128
    } else {
        a / by
    }
}

#[inline]
fn product(a: u128, b: u128) -> Result<u128, Fault> {
    if a <= i64::MAX as u128 && b <= u64::MAX as u128 {
        return Ok((a as u64 as u128) * (b as u64 as u128));
    }
    match a.checked_mul(b) {
        Some(whole) if whole <= GREATEST => Ok(whole),
        _ => Err(Fault::Overflow),
    }
}

#[inline]
fn with_sign(is_negative: bool, size: u128) -> i128 {
    if is_negative { -(size as i128) } else { size as i128 }
}

#[inline]
fn within(num: i128) -> Result<i128, Fault> {
    if num == i128::MIN { Err(Fault::Overflow) } else { Ok(num) }
}

pub const ZERO: Ratio = Ratio { num: 0, den: 1 };
pub const ONE: Ratio = Ratio { num: 1, den: 1 };

impl Ratio {
    pub fn is_zero(&self) -> bool {
        self.num == 0
    }

    pub fn neg(&self) -> Ratio {
        Ratio { num: -self.num, den: self.den }
    }

    pub fn new(num: i128, den: i128) -> Result<Ratio, Fault> {
        if den == 0 {
            return Err(Fault::ZeroDenominator);
        }
        let (size, over) = (num.unsigned_abs(), den.unsigned_abs());
        let common = gcd(size, over);
        let (size, over) = (quotient(size, common), quotient(over, common));
        if size > GREATEST || over > GREATEST {
            return Err(Fault::Overflow);
        }
        Ok(Ratio { num: with_sign((num < 0) != (den < 0), size), den: over })
    }

    /// Whether the parts of both fit 63 bits.
    #[inline]
    fn are_narrow(&self, other: &Ratio) -> bool {
        let sizes = self.num.unsigned_abs() | other.num.unsigned_abs();
        (sizes | self.den | other.den) <= i64::MAX as u128
    }

    pub fn add(&self, other: &Ratio) -> Result<Ratio, Fault> {
        if self.den == 1 && other.den == 1 {
            let num = self.num.checked_add(other.num).ok_or(Fault::Overflow)?;
            return Ok(Ratio { num: within(num)?, den: 1 });
        }
        if self.are_narrow(other) {
            return Ok(add_narrow(self.num as i64, self.den as u64, other.num as i64, other.den as u64));
        }
        self.add_wide(other)
    }

    fn add_wide(&self, other: &Ratio) -> Result<Ratio, Fault> {
        let common = gcd(self.den, other.den);
        let left_over = quotient(self.den, common);
        let right_over = quotient(other.den, common);
        let left = product(self.num.unsigned_abs(), right_over)?;
        let right = product(other.num.unsigned_abs(), left_over)?;
        let sum = with_sign(self.num < 0, left).checked_add(with_sign(other.num < 0, right)).ok_or(Fault::Overflow)?;
        let size = within(sum)?.unsigned_abs();
        let last = gcd(size, common);
        let den = product(left_over, quotient(other.den, last))?;
        Ok(Ratio { num: with_sign(sum < 0, quotient(size, last)), den })
    }

    pub fn mul(&self, other: &Ratio) -> Result<Ratio, Fault> {
        if self.are_narrow(other) {
            return Ok(mul_narrow(self.num as i64, self.den as u64, other.num as i64, other.den as u64));
        }
        self.mul_wide(other)
    }

    fn mul_wide(&self, other: &Ratio) -> Result<Ratio, Fault> {
        let (left_size, right_size) = (self.num.unsigned_abs(), other.num.unsigned_abs());
        let left = gcd(left_size, other.den);
        let right = gcd(right_size, self.den);
        let size = product(quotient(left_size, left), quotient(right_size, right))?;
        let den = product(quotient(self.den, right), quotient(other.den, left))?;
        Ok(Ratio { num: with_sign((self.num < 0) != (other.num < 0), size), den })
    }

    pub fn sub(&self, other: &Ratio) -> Result<Ratio, Fault> {
        self.add(&other.neg())
    }

    pub fn div(&self, other: &Ratio) -> Result<Ratio, Fault> {
        if other.num == 0 {
            return Err(Fault::ZeroDenominator);
        }
        self.mul(&Ratio { num: with_sign(other.num < 0, other.den), den: other.num.unsigned_abs() })
    }

    pub fn cmp(&self, other: &Ratio) -> Ordering {
        if self.den == other.den {
            return self.num.cmp(&other.num);
        }
        match (self.num < 0, other.num < 0) {
            (false, true) => Ordering::Greater,
            (true, false) => Ordering::Less,
            (false, false) => cmp_products(self.num.unsigned_abs(), other.den, other.num.unsigned_abs(), self.den),
            (true, true) => cmp_products(other.num.unsigned_abs(), self.den, self.num.unsigned_abs(), other.den),
        }
    }
}

/// No step of it passes 128 bits.
#[inline]
fn add_narrow(a: i64, b: u64, c: i64, d: u64) -> Ratio {
    let common = narrow_gcd(b, d);
    if common == 1 {
        let num = a as i128 * d as i128 + c as i128 * b as i128;
        return Ratio { num, den: b as u128 * d as u128 };
    }
    let (left_over, right_over) = (b / common, d / common);
    let sum = a as i128 * right_over as i128 + c as i128 * left_over as i128;
    let size = sum.unsigned_abs();
    let rest = match u64::try_from(size) {
        Ok(size) => size % common,
        Err(_) => (size % common as u128) as u64,
    };
    let last = narrow_gcd(rest, common);
    if last == 1 {
        return Ratio { num: sum, den: left_over as u128 * d as u128 };
    }
    Ratio {
        num: with_sign(sum < 0, quotient(size, last as u128)),
        den: left_over as u128 * (d / last) as u128,
    }
}

#[inline]
fn mul_narrow(a: i64, b: u64, c: i64, d: u64) -> Ratio {
    let (left_size, right_size) = (a.unsigned_abs(), c.unsigned_abs());
    let left = narrow_gcd(left_size, d);
    let right = narrow_gcd(right_size, b);
    let size = narrow_quotient(left_size, left) as u128 * narrow_quotient(right_size, right) as u128;
    let den = narrow_quotient(b, right) as u128 * narrow_quotient(d, left) as u128;
    Ratio { num: with_sign((a < 0) != (c < 0), size), den }
}

#[inline]
fn narrow_quotient(a: u64, by: u64) -> u64 {
    if by == 1 { a } else { a / by }
}

/// `a * b` against `c * d`, in 256 bits.
fn cmp_products(a: u128, b: u128, c: u128, d: u128) -> Ordering {
    if a <= u64::MAX as u128 && b <= u64::MAX as u128 && c <= u64::MAX as u128 && d <= u64::MAX as u128 {
        return (a * b).cmp(&(c * d));
    }
    let (left_low, left_high) = widening_mul(a, b);
    let (right_low, right_high) = widening_mul(c, d);
    (left_high, left_low).cmp(&(right_high, right_low))
}

/// The low and the high half of a product.
#[inline]
fn widening_mul(a: u128, b: u128) -> (u128, u128) {
    a.carrying_mul(b, 0)
}

/// The order of p / a and q / b, all of which are at least 0 and a and b above it.
pub fn cmp_quotients(p: &Ratio, a: &Ratio, q: &Ratio, b: &Ratio) -> Ordering {
    let left = [p.num as u128, a.den, q.den, b.num as u128];
    let right = [q.num as u128, b.den, p.den, a.num as u128];
    let narrow = |parts: [u128; 4]| parts.into_iter().try_fold(1u128, |all, part| all.checked_mul(part));
    match (narrow(left), narrow(right)) {
        (Some(left), Some(right)) => left.cmp(&right),
        _ => long_product(left).into_iter().rev().cmp(long_product(right).into_iter().rev()),
    }
}

/// In digits of 64 bits, the lowest first.
fn long_product(parts: [u128; 4]) -> [u64; 8] {
    let mut digits = [0u64; 8];
    digits[0] = 1;
    for part in parts {
        let mut next = [0u64; 8];
        for (i, half) in [part as u64, (part >> 64) as u64].into_iter().enumerate() {
            let mut carry = 0u128;
            for j in 0..8 - i {
                let sum = next[i + j] as u128 + half as u128 * digits[j] as u128 + carry;
                next[i + j] = sum as u64;
                carry = sum >> 64;
            }
        }
        digits = next;
    }
    digits
}
