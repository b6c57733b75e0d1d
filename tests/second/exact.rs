//! Shares and means worked in whole numbers: a share is decoded into a fraction, a mean is rounded from one.

/// The largest magnitude of a whole x.
const LIMIT: u128 = 1_000_000;

/// 65,536 times a share, as a sign and a fraction of naturals.
struct Scaled {
    negative: bool,
    numerator: u128,
    denominator: u128,
}

/// The whole x of a sample's 8 bytes, or the code that refuses it.
pub fn sample(kind: u8, bits: u64) -> Result<i64, u64> {
    if kind == 0 {
        count(bits as i64)
    } else {
        share(bits)
    }
}

fn count(x: i64) -> Result<i64, u64> {
    if u128::from(x.unsigned_abs()) > LIMIT {
        Err(10)
    } else {
        Ok(x)
    }
}

fn share(bits: u64) -> Result<i64, u64> {
    let scaled = scaled(bits).ok_or(9u64)?;
    if scaled.numerator > LIMIT * scaled.denominator {
        return Err(10);
    }
    if scaled.numerator % scaled.denominator != 0 {
        return Err(11);
    }
    let magnitude = (scaled.numerator / scaled.denominator) as i64;
    Ok(if scaled.negative { -magnitude } else { magnitude })
}

/// Decodes the bits of a finite share; none for NaN and the infinities.
///
/// A share is mantissa times 2 to a power, the mantissa below 2^53. A power beyond 64 either way
/// decides as 64 does: the product is far out of range, or a nonzero fraction far below 1.
fn scaled(bits: u64) -> Option<Scaled> {
    let exponent = (bits >> 52 & 0x7ff) as i32;
    let fraction = bits & ((1 << 52) - 1);
    if exponent == 0x7ff {
        return None;
    }
    let (mantissa, power) = match exponent {
        0 => (fraction, -1074),
        _ => (fraction | 1 << 52, exponent - 1075),
    };
    let power = (power + 16).clamp(-64, 64);
    Some(Scaled {
        negative: bits >> 63 == 1,
        numerator: u128::from(mantissa) << power.max(0),
        denominator: 1 << (-power).max(0),
    })
}

/// The bits of the double that is nearest to the sum over the length, the even one of two as near.
///
/// The quotient is scaled by the power of 2 that leaves it 53 binary digits, the first of which is not stored.
pub fn mean(sum: i64, length: u64) -> u64 {
    if sum == 0 {
        return 0;
    }
    let (sum_size, length) = (u128::from(sum.unsigned_abs()), u128::from(length));
    let wide = |power: &u64| (sum_size << power) / length >= 1 << 52;
    let power = (0..64).find(wide).expect("a mean is no smaller than 2^-11");
    let (quotient, rest) = ((sum_size << power) / length, (sum_size << power) % length);
    let up = 2 * rest > length || 2 * rest == length && quotient % 2 == 1;
    let digits = quotient as u64 + u64::from(up) - (1 << 52);
    u64::from(sum < 0) << 63 | ((1023 + 52 - power) << 52) + digits
}
