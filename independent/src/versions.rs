//! RULES, The deck 4 to 10: the two versions of a deck, and what a card of version 2 has more.

use crate::bytes::{joined, u32_at, u64_at};
use crate::cards::{Card, Kind};

/// The bytes of object and epoch.
pub const TAG: usize = 12;

#[derive(Clone, Copy, PartialEq, Eq, Debug)]
pub enum Version {
    One,
    Two,
}

impl Version {
    pub fn of(number: u32) -> Option<Version> {
        [Version::One, Version::Two]
            .into_iter()
            .find(|version| version.number() == number)
    }

    pub fn number(self) -> u32 {
        match self {
            Version::One => 1,
            Version::Two => 2,
        }
    }

    /// The form in which the writer is given what goes into such a deck.
    pub fn form(self) -> u32 {
        match self {
            Version::One => 0,
            Version::Two => 1,
        }
    }

    /// How many bytes object and epoch take, in a body and in a problem that is given.
    pub fn tag_length(self) -> usize {
        match self {
            Version::One => 0,
            Version::Two => TAG,
        }
    }

    /// The tag in so many bytes.
    pub fn tag(self, bytes: &[u8]) -> Option<Tag> {
        match self {
            Version::One => None,
            Version::Two => Some(Tag::read(bytes)),
        }
    }
}

/// What a card is about: an object, and an epoch in whole seconds. A card has both or neither.
#[derive(Clone, Copy, PartialEq, Eq)]
pub struct Tag {
    pub object: u32,
    pub epoch: i64,
}

impl Tag {
    fn read(bytes: &[u8]) -> Tag {
        Tag {
            object: u32_at(bytes, 0),
            epoch: u64_at(bytes, 4) as i64,
        }
    }

    pub fn bytes(&self) -> [u8; TAG] {
        joined(&self.object.to_le_bytes(), &self.epoch.to_le_bytes())
    }
}

/// A card as it stands in a deck. The verdict reads the card alone.
#[derive(Clone, Copy)]
pub struct Sent {
    pub card: Card,
    pub tag: Option<Tag>,
}

impl Sent {
    /// What this body says, which has its kind's length in this version.
    pub fn read(version: Version, kind: Kind, body: &[u8]) -> Sent {
        let (front, behind) = body.split_at(kind.tag_at());
        let (tag, back) = behind.split_at(version.tag_length());
        Sent {
            card: Card::read(kind, &[front, back].concat()),
            tag: version.tag(tag),
        }
    }

    pub fn body(&self) -> Vec<u8> {
        let bare = self.card.body();
        let (front, back) = bare.split_at(self.card.kind().tag_at());
        [front, &tag_bytes(self.tag), back].concat()
    }

    /// The card with each spare 0.
    pub fn anew(&self) -> Sent {
        let card = self.card.anew();
        Sent { card, ..*self }
    }
}

/// As the bytes stand in a body, and in a problem that is given: none where there is no tag.
pub fn tag_bytes(tag: Option<Tag>) -> Vec<u8> {
    tag.map_or(Vec::new(), |tag| tag.bytes().to_vec())
}

/// The cards of a deck, which have a tag in version 2 and none in version 1.
pub struct Deck {
    pub version: Version,
    pub cards: Vec<Sent>,
}
