//! RULES, Numbers 4: the root, and its refusals 1 and 13.

use std::fmt;

pub enum Answer {
    Root(f64),
    Refused(u32),
}

impl fmt::Display for Answer {
    fn fmt(&self, f: &mut fmt::Formatter) -> fmt::Result {
        match self {
            Answer::Root(r) => write!(f, "root {:016x}", r.to_bits()),
            Answer::Refused(number) => write!(f, "refused {number}"),
        }
    }
}

/// The processor's root is the nearest one, says IEEE 754. It is not trusted: each answer is held
/// to what RULES, Numbers 5, says over whole numbers.
pub fn root(word: u64) -> Answer {
    let x = f64::from_bits(word);
    if !x.is_finite() {
        return Answer::Refused(1);
    }
    if x < 0.0 {
        return Answer::Refused(13);
    }
    let r = x.sqrt();
    assert!(
        is_nearest(r, x),
        "the processor's root of {word:016x} is not the nearest number"
    );
    Answer::Root(r)
}

/// Whether r is the number nearest the exact root of x, by comparing squares of whole numbers.
/// A root is never midway between two numbers, so both comparisons are strict.
fn is_nearest(r: f64, x: f64) -> bool {
    if x == 0.0 {
        return r.to_bits() == x.to_bits();
    }
    let ((n, k), (m, e)) = (parts(r), parts(x));
    // In quarters of 2^k, where r is 4n: the points midway to r's two neighbours. Just below a
    // power of two the numbers stand twice as close.
    let below = 4 * n - if n == 1 << 52 { 1 } else { 2 };
    let above = 4 * n + 2;
    // x in the square of that unit. No right r needs a shift outside the range.
    let shift = e - 2 * k + 4;
    r > 0.0
        && (0..=m.leading_zeros() as i32).contains(&shift)
        && below * below < m << shift
        && m << shift < above * above
}

/// A positive finite number as m * 2^e.
pub fn parts(x: f64) -> (u128, i32) {
    let (field, fraction) = (
        (x.to_bits() >> 52 & 0x7ff) as i32,
        x.to_bits() & ((1 << 52) - 1),
    );
    match field {
        0 => (fraction as u128, -1074),
        _ => ((fraction | 1 << 52) as u128, field - 1075),
    }
}
