//! What the gate counts of versions, objects and epochs, a line each. So a list without the decks that are to
//! be tried does not pass. A deck of version 2 is held here to the one of version 1 with the same cards: its
//! bytes are made by the entries alone.

use crate::bytes::{u32_at, u64_at};
use crate::cards::u32s;
use crate::deck::{listing, ENTRIES};
use crate::kinds::entries;
use crate::versions::TAG;

/// The versions that there are not and that are counted each.
const NO_VERSIONS: [u32; 3] = [0, 3, u32::MAX];

/// Object and epoch.
pub type Pair = (u32, i64);

/// The kinds of a deck with this listing.
pub fn kinds(deck: &[u8], listing: &str) -> Vec<String> {
    match (version_word(deck), refusal(listing)) {
        (None, Some("30")) => Vec::new(),
        (Some(version), Some(number)) => refused(version, number),
        (Some(1), None) => of_one(deck, listing),
        (Some(2), None) => of_two(deck, listing),
        (version, _) => {
            panic!("a deck with the version {version:?} is not refused, or not with 30")
        }
    }
}

/// The first word of a deck that has 8 bytes.
pub fn version_word(deck: &[u8]) -> Option<u32> {
    (deck.len() >= ENTRIES).then(|| u32_at(deck, 0))
}

fn refusal(listing: &str) -> Option<&str> {
    listing.strip_prefix("deck ").map(str::trim_end)
}

/// The kinds of a refused deck, or copy. It has 31 exactly where its version is another.
pub fn refused(version: u32, number: &str) -> Vec<String> {
    let known = [1, 2].contains(&version);
    assert!(
        known != (number == "31"),
        "a deck with the version {version} has {number}"
    );
    if known {
        let kind = format!("version {version} deck {number}");
        return vec![kind, format!("refused version {version}")];
    }
    let kind = match NO_VERSIONS.contains(&version) {
        true => format!("version word {version} deck {number}"),
        false => format!("another version word deck {number}"),
    };
    vec![kind]
}

/// The kinds of a deck of version 1: object and epoch of each card are absent.
fn of_one(deck: &[u8], listing: &str) -> Vec<String> {
    let count = entries(deck).count();
    assert!(
        tag_words(listing).eq(vec!["- -"; count]),
        "a card of version 1 has an object or an epoch"
    );
    let absent = vec!["absent".to_string(); count];
    [vec!["version 1".to_string()], absent].concat()
}

/// The kinds of a deck of version 2. The lines have its objects and epochs, and all else is as for the same
/// cards in version 1.
fn of_two(deck: &[u8], lines: &str) -> Vec<String> {
    let (one, pairs) = without_tags(deck);
    assert!(
        listing(&one) == without_words(lines),
        "a verdict is not that of the same card in version 1"
    );
    let listed: Vec<Option<Pair>> = tag_words(lines).map(pair).collect();
    assert!(
        listed.into_iter().eq(pairs.iter().copied().map(Some)),
        "an object or an epoch is not that of the card"
    );
    let mut kinds = vec!["version 2".to_string()];
    kinds.extend(among(&pairs).map(str::to_string));
    kinds.extend(pairs.into_iter().flat_map(of_pair));
    kinds
}

/// The deck of version 1 with the same cards, by the entries alone, and the objects and epochs that it leaves
/// out. The deck is of version 2, and not refused.
pub fn without_tags(deck: &[u8]) -> (Vec<u8>, Vec<Pair>) {
    let (mut front, mut bodies, mut pairs) = (vec![1, u32_at(deck, 4)], Vec::new(), Vec::new());
    for (place, entry) in (0..).zip(entries(deck)) {
        let [kind, offset, length] = [0, 4, 8].map(|at| u32_at(entry, at));
        front.extend([kind, offset - TAG as u32 * place, length - TAG as u32]);
        let body = &deck[offset as usize..(offset + length) as usize];
        let at = if kind == 3 { 104 } else { 72 };
        pairs.push((u32_at(body, at), u64_at(body, at + 4) as i64));
        bodies.extend([&body[..at], &body[at + TAG..]].concat());
    }
    ([u32s(&front), bodies].concat(), pairs)
}

/// The listing as it is without objects and epochs.
pub fn without_words(listing: &str) -> String {
    let lines = listing.lines().map(|line| match split(line) {
        Some((front, _, verdict)) => format!("{front} - - {verdict}\n"),
        None => format!("{line}\n"),
    });
    lines.collect()
}

/// Object and epoch of each card, as they are listed.
fn tag_words(listing: &str) -> impl Iterator<Item = &str> {
    let words = |line| split(line).map(|(_, words, _)| words);
    listing.lines().filter_map(words)
}

/// The line of a card: what stands before object and epoch, these two words, and the verdict.
fn split(line: &str) -> Option<(&str, &str, &str)> {
    let (rest, verdict) = line.strip_prefix("card ").and(line.rsplit_once(' '))?;
    let (end, _) = rest.match_indices(' ').nth(2)?;
    Some((&rest[..end], &rest[end + 1..], verdict))
}

/// The numbers that two words stand for.
fn pair(words: &str) -> Option<Pair> {
    let (object, epoch) = words.split_once(' ')?;
    Some((object.parse().ok()?, epoch.parse().ok()?))
}

/// Whether a deck of several cards has no object or epoch twice, and whether it has one for all.
fn among(pairs: &[Pair]) -> impl Iterator<Item = &'static str> {
    let count = |mut numbers: Vec<i64>| {
        numbers.sort();
        numbers.dedup();
        numbers.len()
    };
    let objects = count(pairs.iter().map(|(object, _)| i64::from(*object)).collect());
    let epochs = count(pairs.iter().map(|(_, epoch)| *epoch).collect());
    let several = pairs.len() > 1;
    let all = pairs.len();
    let kinds = [
        (
            "objects and epochs all different",
            objects == all && epochs == all,
        ),
        ("epochs alone different", objects == 1 && epochs == all),
        (
            "objects and epochs all the same",
            objects == 1 && epochs == 1,
        ),
    ];
    let found = kinds
        .into_iter()
        .filter(move |(_, holds)| several && *holds);
    found.map(|(kind, _)| kind)
}

/// The kinds of an object and an epoch.
fn of_pair(pair: Pair) -> Vec<String> {
    let (object, epoch) = pair;
    let front = if epoch < 0 { "negative " } else { "" };
    let mut kinds = ends(pair);
    kinds.extend(end_of_digits(u64::from(object)).map(|end| format!("object {end}")));
    kinds.extend(end_of_digits(epoch.unsigned_abs()).map(|end| format!("{front}epoch {end}")));
    kinds
}

/// On which side of 0 the epoch is, and whether it or the object is at an end of its range.
pub fn ends((object, epoch): Pair) -> Vec<String> {
    let kinds = [
        ("epoch negative", epoch < 0),
        ("epoch zero", epoch == 0),
        ("epoch positive", epoch > 0),
        ("epoch at the lower end", epoch == i64::MIN),
        ("epoch at the upper end", epoch == i64::MAX),
        ("object zero", object == 0),
        ("object largest", object == u32::MAX),
    ];
    let kinds = kinds.into_iter().filter(|(_, holds)| *holds);
    kinds.map(|(kind, _)| kind.to_string()).collect()
}

/// Whether a number is the first or the last one above 0 with so many digits.
fn end_of_digits(number: u64) -> Option<String> {
    (1..=19).find_map(|digits| {
        let first = 10u64.pow(digits - 1);
        match number {
            _ if number == first => Some(format!("first of {digits}")),
            _ if number == first * 10 - 1 => Some(format!("last of {digits}")),
            _ => None,
        }
    })
}
