//! Decks that are damaged: cut, lengthened, with a byte or a field altered, or laid out wrongly.

use crate::bytes::u32_at;
use crate::cards::Kind;
use crate::chance::Chance;
use crate::deck::{ENTRIES, ENTRY};
use crate::versions::{Version, TAG};

/// Where the kind, the offset and the length stand in an entry.
const KIND: usize = 0;
const OFFSET: usize = 4;
const LENGTH: usize = 8;

/// Versions that there are and others: the largest, and those that differ from 1 and 2 in a higher byte alone.
const VERSIONS: [u32; 16] = [
    0,
    1,
    2,
    3,
    4,
    255,
    256,
    257,
    258,
    (1 << 16) + 1,
    (1 << 24) + 1,
    (1 << 24) + 2,
    (1 << 31) + 1,
    (1 << 31) + 2,
    u32::MAX - 1,
    u32::MAX,
];

type Damage = fn(&mut Vec<u8>);

/// Damages to a deck of three cards, as deck A: solved, refused, solved. In pairs they show which test
/// of a deck comes first.
const DAMAGES: [Damage; 18] = [
    |deck| put(deck, 0, 2),
    |deck| put(deck, 4, 257),
    |deck| put(deck, 4, 4),
    |deck| put(deck, 4, 2),
    |deck| put(deck, at(0, KIND), 2),
    |deck| put(deck, at(1, KIND), 3),
    |deck| put(deck, at(2, KIND), 0),
    |deck| put(deck, at(0, LENGTH), 80),
    |deck| put(deck, at(1, LENGTH), 128),
    |deck| put(deck, at(2, LENGTH), 0),
    |deck| put(deck, at(0, OFFSET), 52),
    |deck| put(deck, at(2, OFFSET), 244),
    |deck| swap_entries(deck, 0, 1),
    |deck| deck.truncate(6),
    |deck| deck.truncate(30),
    |deck| deck.truncate(100),
    |deck| deck.truncate(deck.len().saturating_sub(1)),
    |deck| deck.push(0),
];

/// Damages to such a deck of version 2: another version, and what would be right in version 1.
const VERSION_DAMAGES: [Damage; 8] = [
    |deck| put(deck, 0, 0),
    |deck| put(deck, 0, 1),
    |deck| put(deck, 0, 3),
    |deck| put(deck, at(0, LENGTH), 128),
    |deck| put(deck, at(1, LENGTH), 80),
    |deck| put(deck, at(1, OFFSET), 172),
    |deck| put(deck, at(2, OFFSET), 252),
    |deck| deck.truncate(deck.len().saturating_sub(TAG)),
];

/// Every length shorter than the deck's.
pub fn cut(deck: &[u8]) -> Vec<Vec<u8>> {
    (0..deck.len())
        .map(|length| deck[..length].to_vec())
        .collect()
}

/// Each byte altered in two ways. The first of them makes each kind of card the other one.
pub fn each_byte(deck: &[u8]) -> Vec<Vec<u8>> {
    each_byte_by(deck, [3, 0x80])
}

/// Each byte altered in these bits.
pub fn each_byte_by<const N: usize>(deck: &[u8], bits: [u8; N]) -> Vec<Vec<u8>> {
    (0..deck.len())
        .flat_map(|at| bits.map(|bits| changed(deck, |deck| deck[at] ^= bits)))
        .collect()
}

/// The deck with each of many versions.
pub fn versions(deck: &[u8]) -> Vec<Vec<u8>> {
    VERSIONS
        .map(|version| changed(deck, |deck| put(deck, 0, version)))
        .to_vec()
}

/// Each number before the bodies made each of some others.
pub fn each_field(deck: &[u8]) -> Vec<Vec<u8>> {
    let bodies = at(u32_at(deck, 4) as usize, KIND);
    (0..bodies)
        .step_by(4)
        .flat_map(|at| {
            others(u32_at(deck, at))
                .into_iter()
                .map(move |value| (at, value))
        })
        .map(|(at, value)| changed(deck, |deck| put(deck, at, value)))
        .filter(|altered| altered != deck)
        .collect()
}

/// Numbers to put in the place of one: beside it, with a bit altered, and those of some meaning.
fn others(value: u32) -> Vec<u32> {
    let moved = [-12, -8, -1, 1, 8, 12].map(|step| value.wrapping_add_signed(step));
    let bits = [8, 16, 24, 31].map(|bit| value ^ 1 << bit);
    let plain = [0, 1, 2, 3, 80, 128, 257, (1 << 31) - 1, 1 << 31, u32::MAX];
    [&moved[..], &bits, &plain].concat()
}

/// The entry of each card in turn with each of some kinds and lengths, right and wrong together.
pub fn kinds_and_lengths(deck: &[u8], kinds: &[u32], lengths: &[u32]) -> Vec<Vec<u8>> {
    let pairs = kinds
        .iter()
        .flat_map(|kind| lengths.iter().map(move |length| (*kind, *length)));
    let pairs: Vec<(u32, u32)> = pairs.collect();
    (0..u32_at(deck, 4) as usize)
        .flat_map(|card| pairs.iter().map(move |pair| (card, *pair)))
        .map(|(card, (kind, length))| {
            changed(deck, |deck| {
                put(deck, at(card, KIND), kind);
                put(deck, at(card, LENGTH), length);
            })
        })
        .filter(|altered| altered != deck)
        .collect()
}

/// Each damage alone.
pub fn each(deck: &[u8]) -> Vec<Vec<u8>> {
    DAMAGES.map(|damage| changed(deck, damage)).to_vec()
}

/// Each damage to a deck of version 2 alone, and then one of the others.
pub fn each_of_version(deck: &[u8]) -> Vec<Vec<u8>> {
    let alone = |first: Damage| changed(deck, first);
    let then = |first: Damage| DAMAGES.map(|second| changed(&alone(first), second));
    let pairs = VERSION_DAMAGES.into_iter().flat_map(then);
    VERSION_DAMAGES
        .map(alone)
        .into_iter()
        .chain(pairs)
        .collect()
}

/// Two damages at once, in either order.
pub fn pairs(deck: &[u8]) -> Vec<Vec<u8>> {
    let second = |first: Damage| DAMAGES.map(|second| [first, second]);
    DAMAGES
        .into_iter()
        .flat_map(second)
        .map(|pair| changed(deck, |deck| pair.iter().for_each(|damage| damage(deck))))
        .collect()
}

/// Bytes before each body in turn that are no body's, and bytes that are two bodies': the entries
/// tell of it, or do not.
pub fn gaps(deck: &[u8]) -> Vec<Vec<u8>> {
    let count = u32_at(deck, 4) as usize;
    let sizes = [-80, -12, -8, -4, -1, 1, 4, 8, 12, 80];
    let moved = |card: usize, size: i32| {
        let told = changed(deck, |deck| {
            shift_bytes(deck, card, size);
            (card..count).for_each(|card| shift_field(deck, at(card, OFFSET), size));
        });
        let untold = changed(deck, |deck| shift_bytes(deck, card, size));
        [told, untold]
    };
    (0..count)
        .flat_map(|card| sizes.map(|size| (card, size)))
        .flat_map(|(card, size)| moved(card, size))
        .collect()
}

/// Each card in turn as the other version has it: without its object and epoch, or with zeros in their
/// place. The bytes, the length and the offsets behind tell of it, or do not.
pub fn in_other_version(deck: &[u8], version: Version) -> Vec<Vec<u8>> {
    let count = u32_at(deck, 4) as usize;
    let size = match version {
        Version::One => TAG as i32,
        Version::Two => -(TAG as i32),
    };
    let moved = |card: usize, told: u32| {
        changed(deck, |deck| {
            if told & 1 != 0 {
                shift_tag(deck, card, size);
            }
            if told & 2 != 0 {
                shift_field(deck, at(card, LENGTH), size);
            }
            if told & 4 != 0 {
                (card + 1..count).for_each(|card| shift_field(deck, at(card, OFFSET), size));
            }
        })
    };
    (0..count)
        .flat_map(|card| (1..8).map(move |told| (card, told)))
        .map(|(card, told)| moved(card, told))
        .collect()
}

fn shift_tag(deck: &mut Vec<u8>, card: usize, size: i32) {
    let kind = Kind::of(u32_at(deck, at(card, KIND))).expect("the deck is not damaged");
    let body = u32_at(deck, at(card, OFFSET)) as usize;
    shift_at(deck, body + kind.tag_at(), size);
}

/// Puts `size` bytes before a card's body, or, where it is negative, takes that many away.
fn shift_bytes(deck: &mut Vec<u8>, card: usize, size: i32) {
    let body = u32_at(deck, at(card, OFFSET)) as usize;
    shift_at(deck, body, size);
}

fn shift_at(deck: &mut Vec<u8>, at: usize, size: i32) {
    let count = size.unsigned_abs() as usize;
    if size < 0 {
        deck.drain(at..at + count);
    } else {
        deck.splice(at..at, vec![0; count]);
    }
}

fn shift_field(deck: &mut [u8], at: usize, size: i32) {
    let value = u32_at(deck, at);
    put(deck, at, value.wrapping_add_signed(size));
}

/// Each two entries changed places, and their offsets alone.
pub fn swapped(deck: &[u8]) -> Vec<Vec<u8>> {
    let count = u32_at(deck, 4) as usize;
    let both = |a: usize, b: usize| {
        let entries = changed(deck, |deck| swap_entries(deck, a, b));
        let offsets = changed(deck, |deck| swap(deck, at(a, OFFSET), at(b, OFFSET), 4));
        [entries, offsets]
    };
    (0..count)
        .flat_map(|b| (0..b).map(move |a| (a, b)))
        .flat_map(|(a, b)| both(a, b))
        .collect()
}

/// The deck with more bytes, up to this length.
pub fn lengthened(deck: &[u8], length: usize, fill: u8) -> Vec<u8> {
    changed(deck, |deck| deck.resize(length, fill))
}

/// A damage by chance, or several.
pub fn by_chance(mut deck: Vec<u8>, chance: &mut Chance) -> Vec<u8> {
    for _ in 0..=chance.below(4) / 2 {
        damage_once(&mut deck, chance);
    }
    deck
}

fn damage_once(deck: &mut Vec<u8>, chance: &mut Chance) {
    let length = deck.len().max(1) as u64;
    match chance.below(6) {
        0 => deck.truncate(chance.below(length) as usize),
        1 => deck.truncate(chance.below(length.min(64)) as usize),
        2 => deck.resize(
            deck.len() + 1 + chance.below(40) as usize,
            chance.word() as u8,
        ),
        3 => alter_bit(deck, chance.below(length) as usize, chance),
        4 => alter_field(deck, 4 * chance.below(2) as usize, chance),
        _ => alter_field(deck, 4 * chance.below(75) as usize, chance),
    }
}

fn alter_bit(deck: &mut [u8], at: usize, chance: &mut Chance) {
    if let Some(byte) = deck.get_mut(at) {
        *byte ^= 1 << chance.below(8);
    }
}

fn alter_field(deck: &mut [u8], at: usize, chance: &mut Chance) {
    if let Some(field) = deck.get(at..at + 4) {
        put(deck, at, chance.one_of(&others(u32_at(field, 0))));
    }
}

/// Where a field of a card's entry stands.
fn at(card: usize, field: usize) -> usize {
    ENTRIES + ENTRY * card + field
}

fn changed(deck: &[u8], change: impl FnOnce(&mut Vec<u8>)) -> Vec<u8> {
    let mut deck = deck.to_vec();
    change(&mut deck);
    deck
}

/// Writes a number, where the deck is long enough for it.
fn put(deck: &mut [u8], at: usize, value: u32) {
    if let Some(field) = deck.get_mut(at..at + 4) {
        field.copy_from_slice(&value.to_le_bytes());
    }
}

fn swap_entries(deck: &mut [u8], a: usize, b: usize) {
    swap(deck, at(a, KIND), at(b, KIND), ENTRY);
}

/// Lets two stretches of bytes change places, as far as the deck has them.
fn swap(deck: &mut [u8], a: usize, b: usize, length: usize) {
    let there = deck.len().saturating_sub(a.max(b)).min(length);
    (0..there).for_each(|i| deck.swap(a + i, b + i));
}
