//! Sums, masks, shifts and compares on values alone (the manual, 1.2, 2.11 and 9.4).

use crate::registers::{bit, cr};
use std::cmp::Ordering;

pub struct Sum {
    pub value: u32,
    pub carry: bool,
    pub overflow: bool,
}

/// a + b + carry; it overflows where the carry into bit 0 differs from the carry out of it (2.11.4).
pub fn sum(a: u32, b: u32, carry: u32) -> Sum {
    let whole = a as u64 + b as u64 + carry as u64;
    let below = (a & !bit(0)) + (b & !bit(0)) + carry;
    let carry_out = whole >> 32 != 0;
    Sum { value: whole as u32, carry: carry_out, overflow: (below & bit(0) != 0) != carry_out }
}

/// Ones from bit `first` to bit `last`, going round the right end where `first` is past `last`.
pub fn mask(first: u32, last: u32) -> u32 {
    let from_first = u32::MAX >> first;
    let to_last = u32::MAX << (31 - last);
    if first <= last {
        from_first & to_last
    } else {
        from_first | to_last
    }
}

/// The same of 64 bits.
pub fn long_mask(first: u32, last: u32) -> u64 {
    let from_first = u64::MAX >> first;
    let to_last = u64::MAX << (63 - last);
    if first <= last {
        from_first & to_last
    } else {
        from_first | to_last
    }
}

/// Six bits of the amount count.
pub fn shift_left(value: u32, amount: u32) -> u32 {
    value.checked_shl(amount & 63).unwrap_or(0)
}

pub fn shift_right(value: u32, amount: u32) -> u32 {
    value.checked_shr(amount & 63).unwrap_or(0)
}

/// The shifted value, and whether a negative value lost a one-bit.
pub fn shift_right_algebraic(value: u32, amount: u32) -> (u32, bool) {
    let amount = amount & 63;
    let negative = value & bit(0) != 0;
    let shifted = (value as i32 >> amount.min(31)) as u32;
    let lost = if amount < 32 { value & !(u32::MAX << amount) } else { value };
    (shifted, negative && lost != 0)
}

pub fn multiply_signed(a: u32, b: u32) -> u32 {
    (a as i16 as i32 * b as i16 as i32) as u32
}

pub fn multiply_unsigned(a: u32, b: u32) -> u32 {
    a as u16 as u32 * b as u16 as u32
}

/// The low-order word of a signed product, which overflows where that is not the product.
pub fn product(a: u32, b: u32) -> (u32, bool) {
    let whole = a as i32 as i64 * b as i32 as i64;
    (whole as u32, whole != whole as i32 as i64)
}

/// The bit of CR0 that tells how two values compare.
pub fn comparison(order: Ordering) -> u32 {
    match order {
        Ordering::Less => cr::LT,
        Ordering::Greater => cr::GT,
        Ordering::Equal => cr::EQ,
    }
}
