//! The kinds of answer that the gate counts, a line each. What the rules say of a deck and its
//! answer as bytes is held here.

use crate::bytes::u32_at;
use crate::card_numbers;
use crate::cards::{Card, Kind};
use crate::deck::{self, ENTRIES, ENTRY, MOST_CARDS};
use crate::earlier::Earlier;
use crate::far_ends;
use crate::units;
use crate::version_kinds::{self, version_word};

/// The bytes of the longest listing that there is, and of the longest one of version 1.
const LONGEST: usize = 13_279;
const LONGEST_OF_ONE: usize = 6_111;

/// A card of a deck that is accepted, and its verdict.
pub type Judged<'a> = (&'a Card, &'a str);

/// Of a listing: the kind and the verdict of each card, or the deck's refusal; whether the deck has a
/// transfer, and is refused with it; whether its listing is the longest that there is; and the kinds of its
/// version, objects and epochs, of its refused cards' numbers, of its units, and of its solved cards about the
/// far end. A listing calls a transfer solved; here it is told apart.
pub fn listed(earlier: &mut Earlier, deck: &[u8], listing: &[u8]) -> Vec<String> {
    let listing = String::from_utf8_lossy(listing);
    let mut kinds = of_lines(deck, &listing);
    kinds.extend(with_transfer(deck, listing.starts_with("deck ")));
    kinds.extend(longest(listing.len()).map(str::to_string));
    kinds.extend(version_kinds::kinds(deck, &listing));
    kinds.extend(earlier.kinds(deck, &listing));
    let cards = deck::read(deck).map_or(Vec::new(), |deck| deck.cards);
    let verdicts = listing.lines().filter_map(verdict);
    let judged: Vec<Judged> = cards.iter().map(|sent| &sent.card).zip(verdicts).collect();
    kinds.extend(card_numbers::kinds(&judged));
    kinds.extend(units::kinds(&judged, &listing));
    kinds.extend(far_ends::kinds(&judged));
    kinds
}

/// The kind and the verdict of each card, in version 2 once more with that in front; or the refusal.
fn of_lines(deck: &[u8], listing: &str) -> Vec<String> {
    let is_two = version_word(deck) == Some(2);
    let mut entries = entries(deck);
    let mut of_line = |line: &str| match line.split(' ').collect::<Vec<&str>>()[..] {
        ["card", _, word, _, _, verdict] => {
            let is_transfer = entries.next().is_some_and(is_transfer);
            let word = if is_transfer { "transfer" } else { word };
            let kind = format!("{word} {verdict}");
            let of_two = is_two.then(|| format!("version 2 {kind}"));
            [Some(kind), of_two]
        }
        ["deck", _] => [Some(line.to_string()), None],
        _ => [None, None],
    };
    let kinds = listing.lines().flat_map(&mut of_line);
    kinds.flatten().collect()
}

fn longest(length: usize) -> Option<&'static str> {
    match length {
        LONGEST => Some("longest listing"),
        LONGEST_OF_ONE => Some("longest listing of version 1"),
        _ => None,
    }
}

fn verdict(line: &str) -> Option<&str> {
    let (_, verdict) = line.strip_prefix("card ")?.rsplit_once(' ')?;
    Some(verdict)
}

/// Of what `copy_deck` writes: `same` where it is the same bytes, `cleared` where it is the same but
/// for the spares, both with the version in front once more, how many cards there are, and whether one is from
/// before; or the refusal, once more by the version; and whether the deck has a transfer, and is refused with it.
pub fn copied(deck: &[u8], answer: &[u8]) -> Vec<String> {
    if let Some(line) = refusal(answer) {
        let number = line.trim_start_matches("deck ");
        let by_version = version_word(deck).map(|version| version_kinds::refused(version, number));
        return by_version
            .unwrap_or_default()
            .into_iter()
            .chain(with_transfer(deck, true))
            .chain([line])
            .collect();
    }
    assert!(
        answer == cleared(deck),
        "a copy is not the deck with each spare 0"
    );
    let kind = if answer == deck { "same" } else { "cleared" };
    let by_version = format!("version {} {kind}", u32_at(deck, 0));
    let count = how_many(u32_at(deck, 4) as usize);
    [kind.to_string(), by_version, count]
        .into_iter()
        .chain(card_numbers::with_old(deck))
        .chain(with_transfer(deck, false))
        .collect()
}

/// The line that stands in for a deck. A deck begins with the byte 1 or 2.
pub fn refusal(answer: &[u8]) -> Option<String> {
    let line = String::from_utf8_lossy(answer.strip_suffix(b"\n")?);
    line.starts_with("deck ").then(|| line.into_owned())
}

/// The deck with each byte of a spare 0, by the entries alone: behind the limit, and at the end of a refused
/// card. A transfer has no spare.
fn cleared(deck: &[u8]) -> Vec<u8> {
    let mut bytes = deck.to_vec();
    for entry in entries(deck) {
        let [kind, body, length] = [0, 4, 8].map(|at| u32_at(entry, at) as usize);
        let end = body + length;
        if kind == 1 || kind == 2 {
            bytes[body + 68..body + 72].fill(0);
        }
        if kind == 2 {
            bytes[end - 4..end].fill(0);
        }
    }
    bytes
}

/// The kinds of a deck, damaged or not, that has a transfer among its entries.
fn with_transfer(deck: &[u8], refused: bool) -> Vec<String> {
    if !entries(deck).any(is_transfer) {
        return Vec::new();
    }
    let mut kinds = vec!["with transfer".to_string()];
    if refused {
        kinds.push("refused with transfer".to_string());
    }
    kinds
}

fn is_transfer(entry: &[u8]) -> bool {
    u32_at(entry, 0) == Kind::Transfer.number()
}

/// The entries of a deck, damaged or not, as far as there are any.
pub fn entries(deck: &[u8]) -> impl Iterator<Item = &[u8]> {
    let entries = deck.get(ENTRIES..).unwrap_or_default();
    let count = deck.get(4..ENTRIES).map_or(0, |count| u32_at(count, 0));
    entries.chunks_exact(ENTRY).take(count as usize)
}

/// The fewest and the most cards, each number a kind of its own; the others are one.
pub fn how_many(cards: usize) -> String {
    if (3..MOST_CARDS - 1).contains(&cards) {
        "cards between".to_string()
    } else {
        format!("cards {cards}")
    }
}
