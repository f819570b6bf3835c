//! "The whole number nearest q*a ... q*r*c, halves away from zero; these
//! products are exact, of the float's exact value, and not rounded as floats."

/// The whole number nearest factor * value, exactly, halves away from zero.
/// None where the value is not finite or the product is 2^64 or more in size,
/// which is outside every range. The factor, q or q*r, is below 2^32.
pub fn nearest(factor: u32, value: f64) -> Option<i128> {
    if !value.is_finite() {
        return None;
    }
    let (mantissa, exponent) = parts(value);
    let product = u128::from(mantissa) * u128::from(factor);
    let size = if exponent >= 0 {
        shift_up(product, exponent.unsigned_abs())?
    } else {
        shift_down(product, exponent.unsigned_abs())
    };
    if size >= 1 << 64 {
        return None;
    }
    let whole = size as i128;
    Some(if value.is_sign_negative() { -whole } else { whole })
}

/// A finite float's size is mantissa * 2^exponent, exactly.
fn parts(value: f64) -> (u64, i32) {
    let bits = value.to_bits();
    let fraction = bits & ((1 << 52) - 1);
    let biased = (bits >> 52 & 0x7FF) as i32;
    if biased == 0 {
        (fraction, -1074)
    } else {
        (fraction | 1 << 52, biased - 1075)
    }
}

/// product * 2^shift, None where that is 2^64 or more.
fn shift_up(product: u128, shift: u32) -> Option<u128> {
    if product == 0 {
        return Some(0);
    }
    let fits = shift < 64 && product < 1 << (64 - shift);
    fits.then(|| product << shift)
}

/// The whole number nearest product / 2^shift, a half going up; the product
/// is below 2^85 (53 and 32 bits), so from a shift of 87 on it is below a half.
fn shift_down(product: u128, shift: u32) -> u128 {
    if shift == 0 {
        return product;
    }
    if shift >= 87 {
        return 0;
    }
    (product + (1 << (shift - 1))) >> shift
}
