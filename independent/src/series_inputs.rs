//! The words that C2 and C3 are tried on.

use crate::chance::Chance;
use crate::motion::beside;
use crate::root_inputs::{edges, not_numbers, powers_of_two, subnormals, SIGN};
use crate::universal::WIDEST;

/// How many last places on each side of 4 and of -4 are tried one by one.
pub const PLACES: u64 = 64;

/// The gate's inputs, the same list in every run.
pub fn fixed() -> Vec<u64> {
    let chance = &mut Chance::at(12, 0);
    let mut list: Vec<u64> = edges().collect();
    list.extend(not_numbers(chance));
    let sizes = about_widest()
        .chain(eighths())
        .chain(powers_of_two())
        .chain(subnormals(chance));
    list.extend(sizes.flat_map(|size| [size, size | SIGN]));
    list.extend((0..16_000).map(|_| mixed(chance)));
    list
}

/// One word of some kind. For most of them there is an answer.
pub fn mixed(chance: &mut Chance) -> u64 {
    let size = match chance.below(8) {
        0..=2 => chance.between(0.0, WIDEST),
        3 => chance.scale(-60, 1),
        4 => chance.scale(-1074, 1),
        5 => WIDEST * (1.0 + chance.sign() * chance.scale(-53, -1)),
        6 => chance.scale(2, 1023),
        _ => return chance.word(),
    };
    (chance.sign() * size).to_bits()
}

/// 4, where 60 begins, and the numbers beside it: the next ones, and some further off and further.
fn about_widest() -> impl Iterator<Item = u64> {
    let further = (0..52).flat_map(|bit| [1 << bit, -(1 << bit)]);
    let most = PLACES as i64;
    (-most..=most)
        .chain(further)
        .map(|places| beside(WIDEST, places).to_bits())
}

/// Numbers of few digits, up to twice the largest.
fn eighths() -> impl Iterator<Item = u64> {
    (0..=64).map(|n| (n as f64 / 8.0).to_bits())
}
