//! The kinds of what `write_deck` writes, a line each. What the rules say of the input and the deck as bytes
//! is held here.

use crate::bytes::u32_at;
use crate::cards::Claim;
use crate::deck::{self, MOST_CARDS};
use crate::form_inputs::{FORMS, VERSIONS};
use crate::kepler::PROBLEM;
use crate::kinds::{how_many, refusal};
use crate::version_kinds::{ends, without_tags};
use crate::versions::{tag_bytes, Deck, Sent, Version, TAG};
use crate::writer::{self, problem_length, version_with, FRONT};

/// What each card says, `written` and how many there are, with `version 2` in front once more where it is of
/// that; or the refusal. The reader accepts the deck, and its version, its problems, objects and epochs are
/// those given, in order.
pub fn written(input: &[u8], answer: &[u8]) -> Vec<String> {
    let mut kinds = fronted(input);
    if let Some(line) = refusal(answer) {
        kinds.extend(refused(input, line));
        return kinds;
    }
    let deck = deck::read(answer).expect("the reader accepts what is written");
    hold_to(input, &deck);
    let said = deck.cards.iter().map(said);
    let said: Vec<String> = said
        .chain(["written".to_string(), how_many(deck.cards.len())])
        .collect();
    if deck.version == Version::Two {
        hold_to_one(input, answer);
        kinds.extend(said.iter().map(|kind| format!("version 2 {kind}")));
        let tags = deck.cards.iter().filter_map(|sent| sent.tag);
        kinds.extend(tags.flat_map(|tag| ends((tag.object, tag.epoch))));
    }
    kinds.extend(said);
    kinds
}

/// Version and form, as far as they are counted.
fn fronted(input: &[u8]) -> Vec<String> {
    let Some(front) = input.get(..FRONT) else {
        return vec!["no whole front".to_string()];
    };
    let (version, form) = (u32_at(front, 0), u32_at(front, 4));
    let kind = match VERSIONS.contains(&version) && FORMS.contains(&form) {
        true => format!("version {version} form {form}"),
        false => "another front".to_string(),
    };
    vec![kind]
}

/// The refusal, and which one it comes before. It is 42 exactly where the front is not a right one.
fn refused(input: &[u8], line: String) -> Vec<String> {
    let version = version_given(input);
    assert!(
        version.is_none() == (line == "deck 42"),
        "{line} is no refusal of this version and form"
    );
    match (version, input.get(..FRONT)) {
        (Some(version), _) => vec![format!("version {} {line}", version.number()), line],
        (None, Some(front)) => {
            let size = if u32_at(front, 4) == 0 {
                PROBLEM
            } else {
                PROBLEM + TAG
            };
            let bytes = input.len() - FRONT;
            let later = [
                (bytes / size > MOST_CARDS).then(|| format!("{line} before 40")),
                (bytes % size != 0).then(|| format!("{line} before 46")),
            ];
            later.into_iter().flatten().chain([line]).collect()
        }
        (None, None) => vec![line],
    }
}

/// The version with which the input begins, where the form goes with it.
fn version_given(input: &[u8]) -> Option<Version> {
    let front = input.get(..FRONT)?;
    version_with(u32_at(front, 0), u32_at(front, 4))
}

/// The deck has the version, the problems, the objects and the epochs that are given.
fn hold_to(input: &[u8], deck: &Deck) {
    assert!(
        version_given(input) == Some(deck.version),
        "a written deck is of another version than that given"
    );
    let given = input[FRONT..].chunks(problem_length(deck.version));
    let written = |sent: &Sent| [&sent.card.problem.bytes()[..], &tag_bytes(sent.tag)].concat();
    assert!(
        deck.cards.iter().map(written).eq(given),
        "a written deck has other problems, objects or epochs than those given"
    );
}

/// A deck of version 2 has the cards that the same problems have in version 1.
fn hold_to_one(input: &[u8], two: &[u8]) {
    let bare = input[FRONT..].chunks(PROBLEM + TAG);
    let bare: Vec<u8> = bare.flat_map(|given| given[..PROBLEM].to_vec()).collect();
    let front = [1, 0].map(u32::to_le_bytes).concat();
    let (one, _) = without_tags(two);
    assert!(
        writer::written(&[front, bare].concat()) == one,
        "a written card is not that of the same problem in version 1"
    );
}

fn said(sent: &Sent) -> String {
    match sent.card.claim {
        Claim::Solved { .. } => "solved".to_string(),
        Claim::Refused { number, .. } => format!("refused {number}"),
        Claim::Transfer { .. } => panic!("a written deck has a transfer"),
    }
}
