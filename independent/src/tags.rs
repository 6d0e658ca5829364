//! The objects and epochs that cards of version 2 are tried with.

use crate::cards::Card;
use crate::chance::Chance;
use crate::versions::Tag;
use crate::writer::tagged_deck;

/// The object and the epoch whose words are the longest.
pub const LONGEST: Tag = Tag {
    object: u32::MAX,
    epoch: i64::MIN,
};

/// The objects at the ends of their range, about the powers of ten, and with the highest bit.
fn objects() -> Vec<u32> {
    let tens = (0..10).map(|digits| 10u32.pow(digits));
    let mut list: Vec<u32> = tens.flat_map(|ten| [ten - 1, ten, ten + 1]).collect();
    list.extend([(1 << 31) - 1, 1 << 31, u32::MAX - 1, u32::MAX]);
    list
}

/// The same of epochs, of either sign; and some that have 32 bits of one kind, or more bits than binary64
/// keeps.
fn epochs() -> Vec<i64> {
    let tens = (0..19).map(|digits| 10i64.pow(digits));
    let about = tens.flat_map(|ten| [ten - 1, ten, ten + 1]);
    let mut list: Vec<i64> = about.flat_map(|epoch| [epoch, -epoch]).collect();
    let bits = [31, 32, 53].map(|bit| 1i64 << bit);
    list.extend(bits.iter().flat_map(|bit| [bit - 1, *bit, -bit, -bit - 1]));
    list.extend([i64::MIN, i64::MIN + 1, i64::MAX - 1, i64::MAX]);
    list
}

/// Each of these epochs and each of these objects, and the ends of both ranges together.
pub fn edges() -> Vec<Tag> {
    let pairs = epochs().into_iter().zip(objects().into_iter().cycle());
    let mut list: Vec<Tag> = pairs.map(|(epoch, object)| Tag { object, epoch }).collect();
    for object in [0, 1, u32::MAX] {
        let epochs = [i64::MIN, -1, 0, 1, i64::MAX];
        list.extend(epochs.map(|epoch| Tag { object, epoch }));
    }
    list
}

/// A tag of any size, or one of the edges.
pub fn any(chance: &mut Chance) -> Tag {
    let edge = chance.one_of(&edges());
    let sign = chance.one_of(&[1, -1]);
    let short = Tag {
        object: chance.short(32) as u32,
        epoch: sign * chance.short(63) as i64,
    };
    let bits = Tag {
        object: chance.word() as u32,
        epoch: chance.word() as i64,
    };
    chance.one_of(&[edge, short, short, bits])
}

/// Tags for so many cards: each any one, one object at epochs in steps, or all the same.
pub fn row(count: usize, chance: &mut Chance) -> Vec<Tag> {
    let first = any(chance);
    let step = chance.short(40) as i64;
    let later = |place: usize| Tag {
        epoch: first.epoch.wrapping_add(step.wrapping_mul(place as i64)),
        ..first
    };
    match chance.below(6) {
        0 => vec![first; count],
        1 => (0..count).map(later).collect(),
        _ => (0..count).map(|_| any(chance)).collect(),
    }
}

/// The cards as a deck of version 2, with tags by chance.
pub fn with_tags(cards: &[Card], chance: &mut Chance) -> Vec<u8> {
    let tags = row(cards.len(), chance);
    tagged_deck(cards.iter().copied().zip(tags))
}
