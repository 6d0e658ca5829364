//! The words that the root is tried on.

use crate::chance::Chance;

pub const SIGN: u64 = 1 << 63;
const INFINITY: u64 = 0x7ff << 52;
const SMALLEST_NORMAL: u64 = 1 << 52;
const FRACTION: u64 = SMALLEST_NORMAL - 1;

/// The gate's inputs for a root, the same list in every run.
pub fn fixed() -> Vec<u64> {
    list(1, 20_000)
}

/// The gate's inputs for a root's digits, which take many lines: fewer words of the same kinds. Some stand
/// in pairs and in threes; one in eleven meets each place of these.
pub fn fixed_digits() -> Vec<u64> {
    list(11, 500)
}

/// The rules' trials, the edges and the powers of two; one in `each` of the other kinds; and a mixture
/// of `more`.
fn list(each: usize, more: usize) -> Vec<u64> {
    let chance = &mut Chance::at(1, 0);
    // The trials: 4, 0.25, 2^-1074, -0, -1.
    let mut list = vec![
        4f64.to_bits(),
        0.25f64.to_bits(),
        1,
        SIGN,
        (-1f64).to_bits(),
    ];
    list.extend(edges());
    list.extend(powers_of_two());
    let kinds = [subnormals, squares, not_numbers, negatives, midways];
    for kind in kinds {
        list.extend(kind(chance).into_iter().step_by(each));
    }
    list.extend((0..more).map(|_| mixed(chance)));
    list
}

/// One word of some kind: half of them any pattern or any number not below zero, half of them of
/// a kind on which a root goes wrong more easily.
pub fn mixed(chance: &mut Chance) -> u64 {
    match chance.below(8) {
        0 | 1 => chance.word(),
        2 | 3 => chance.word() & !SIGN,
        4 => chance.short(52),
        5 => near_square(chance),
        6 => near_power_of_two(chance),
        _ => near_midway(chance),
    }
}

/// A word and the words beside it: where the number is finite and not zero, its neighbours.
fn around(word: u64) -> [u64; 3] {
    [word.wrapping_sub(1), word, word.wrapping_add(1)]
}

pub fn edges() -> impl Iterator<Item = u64> {
    // With what stands around them: zero, the smallest subnormal, the line between subnormal and
    // normal, one, the line between the largest number and infinity. Each with either sign.
    [0, 1, SMALLEST_NORMAL, 1f64.to_bits(), INFINITY]
        .into_iter()
        .flat_map(around)
        .flat_map(|word| [word, word ^ SIGN])
}

/// 2^-1074 to 2^1023, so that each exponent is met, odd and even, with both ends of its numbers.
pub fn powers_of_two() -> impl Iterator<Item = u64> {
    let subnormal = (0..52).map(|bit| 1 << bit);
    let normal = (1..0x7ff).map(|field| field << 52);
    subnormal.chain(normal).flat_map(around)
}

/// Each run of ones, at each place of the fraction, and random ones of each length.
pub fn subnormals(chance: &mut Chance) -> Vec<u64> {
    let runs = (0..52).flat_map(|low| (1..=52 - low).map(move |ones| ((1 << ones) - 1) << low));
    let random = (0..2_000).map(|_| chance.short(52));
    runs.chain(random).collect()
}

/// Exact squares and the numbers beside them: of small whole numbers, among the normal numbers and
/// (as multiples of 2^-1074) among the subnormal ones, and of numbers of 26 and 27 bits.
fn squares(chance: &mut Chance) -> Vec<u64> {
    let small = (0..1_000u64).flat_map(|n| [((n * n) as f64).to_bits(), n * n]);
    let large = (0..2_000).map(|_| square(chance));
    small.chain(large).flat_map(around).collect()
}

/// The square of a number of 26 or 27 bits, times an even power of two. Up to 2^26.5 it is exact.
fn square(chance: &mut Chance) -> u64 {
    let n = (1 << 25) + chance.below((1 << 27) - (1 << 25));
    moved((n * n) as f64, chance)
}

fn near_square(chance: &mut Chance) -> u64 {
    square(chance) - 1 + chance.below(3)
}

fn near_power_of_two(chance: &mut Chance) -> u64 {
    let power = chance.below(0x7ff) << 52;
    let off = chance.short(24);
    if chance.below(2) == 0 {
        power + off
    } else {
        power.saturating_sub(off)
    }
}

/// Quiet and signalling NaNs with each single bit of payload and with random ones, either sign.
pub fn not_numbers(chance: &mut Chance) -> Vec<u64> {
    let single = (0..52).map(|bit| 1 << bit);
    let random = (0..500).map(|_| chance.short(52).max(1));
    single
        .chain(random)
        .flat_map(|payload| [INFINITY | payload, SIGN | INFINITY | payload])
        .collect()
}

/// Finite numbers below zero: each power of two, and random ones.
fn negatives(chance: &mut Chance) -> Vec<u64> {
    let powers = powers_of_two().skip(1).step_by(3);
    let random = (0..2_000).map(|_| chance.word() % INFINITY);
    powers
        .chain(random)
        .map(|word| word.max(1) | SIGN)
        .collect()
}

/// Numbers whose root is as near to midway between two numbers as can be, then the squares of
/// random points midway, rounded, with their neighbours.
fn midways(chance: &mut Chance) -> Vec<u64> {
    let near: Vec<f64> = (-400..400)
        .flat_map(|j| [54, 55].map(|bits| close_to_midway(1 + 8 * j, bits)))
        .flatten()
        .collect();
    let mut list: Vec<u64> = near.into_iter().map(|x| moved(x, chance)).collect();
    for _ in 0..1_000 {
        // An odd number of 54 bits is midway between two numbers of 53 bits.
        let midway = (1 << 53 | chance.word() >> 11 | 1) as u128;
        list.extend(around(moved((midway * midway) as f64, chance)));
    }
    list
}

fn near_midway(chance: &mut Chance) -> u64 {
    let size = chance.short(40) as i64;
    let j = if chance.below(2) == 0 { size } else { -size };
    let found = close_to_midway(1 + 8 * j, 54 + chance.below(2) as u32);
    match found.len() {
        0 => chance.word() & !SIGN,
        count => moved(found[chance.below(count as u64) as usize], chance),
    }
}

/// The numbers x of 53 bits with x * 2^54 = midway^2 - d for an odd `midway` of 54 bits: the less d,
/// the nearer the root of x is to midway between two numbers. `bits` is 54 or 55, and d is 1 more
/// than a multiple of 8, since all odd squares are.
fn close_to_midway(d: i64, bits: u32) -> Vec<f64> {
    // Some n with n^2 = d modulo 2^bits, one bit more at each step; the others are its mirror
    // image and the two that lie half of 2^bits further.
    let mut n = 1u64;
    for k in 3..bits {
        if n.wrapping_mul(n).wrapping_sub(d as u64) >> k & 1 == 1 {
            n += 1 << (k - 1);
        }
    }
    let half = 1u64 << (bits - 1);
    [
        n,
        n.wrapping_neg(),
        n.wrapping_add(half),
        half.wrapping_sub(n),
    ]
    .into_iter()
    .map(|midway| midway & ((1 << bits) - 1))
    .filter(|midway| (1 << 53..1 << 54).contains(midway))
    .map(|midway| (midway as i128 * midway as i128 - d as i128) >> bits)
    .filter(|m| (1 << 52..1 << 53).contains(m))
    .map(|m| (m << (bits - 54)) as f64)
    .collect()
}

/// A normal number times some even power of two that keeps it normal: a square stays a
/// square, and its root keeps its digits.
fn moved(x: f64, chance: &mut Chance) -> u64 {
    let field = x.to_bits() >> 52;
    let other = 2 - field % 2 + 2 * chance.below(1023);
    x.to_bits() & FRACTION | other << 52
}
