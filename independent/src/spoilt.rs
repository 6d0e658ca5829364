//! Numbers that are not finite, among the words of a prediction or a transfer: alone, in pairs, and by
//! chance.

use crate::chance::Chance;
use crate::conic::Words;
use crate::motion::with;

/// Words that are no finite number: the infinities, and NaNs quiet and signalling, of either sign.
pub const NOT_FINITE: [u64; 8] = [
    0x7ff0_0000_0000_0000,
    0xfff0_0000_0000_0000,
    0x7ff8_0000_0000_0000,
    0xfff8_0000_0000_0000,
    0x7ff0_0000_0000_0001,
    0xfff0_0000_0000_0001,
    0x7ff7_ffff_ffff_ffff,
    0xffff_ffff_ffff_ffff,
];

/// Ways to alter a problem: none, and so that a later test refuses it, by mu -1, mu 0 or a radius of 0.
pub const ALTERED: [fn(Words) -> Words; 4] = [
    |words| words,
    |words| with(words, 0, (-1f64).to_bits()),
    |words| with(words, 0, 0),
    |[mu, _, _, _, vx, vy, vz, span]| [mu, 0, 0, 0, vx, vy, vz, span],
];

/// A NaN with any payload, or now and then an infinity.
pub fn payload(chance: &mut Chance) -> u64 {
    chance.word() | 0x7ff << 52
}

/// The problem with one word after the other made each of the words that are not finite.
pub fn each(words: Words) -> Vec<Words> {
    (0..words.len())
        .flat_map(|place| NOT_FINITE.map(|word| with(words, place, word)))
        .collect()
}

/// The problem with one word after the other made one by chance.
pub fn each_with_payload(words: Words, chance: &mut Chance) -> Vec<Words> {
    (0..words.len())
        .map(|place| with(words, place, payload(chance)))
        .collect()
}

/// The problem with each two words made some that are not finite.
pub fn each_two(words: Words, chance: &mut Chance) -> Vec<Words> {
    (0..words.len())
        .flat_map(|high| (0..high).map(move |low| (low, high)))
        .map(|(low, high)| with(with(words, low, some(chance)), high, some(chance)))
        .collect()
}

/// All of these, those made by chance a few times.
pub fn alone_and_in_pairs(words: Words, chance: &mut Chance) -> Vec<Words> {
    let mut list = each(words);
    for _ in 0..4 {
        list.extend(each_with_payload(words, chance));
        list.extend(each_two(words, chance));
    }
    list
}

/// The problem with one word that is not finite, or a few, and at times with what a later test refuses.
pub fn by_chance(words: Words, chance: &mut Chance) -> Words {
    let words = chance.one_of(&ALTERED)(words);
    let count = chance.one_of(&[1, 1, 1, 2, 3]);
    (0..count).fold(words, |words, _| {
        with(words, chance.below(8) as usize, some(chance))
    })
}

fn some(chance: &mut Chance) -> u64 {
    let word = payload(chance);
    let plain = chance.one_of(&NOT_FINITE);
    chance.one_of(&[word, plain])
}
