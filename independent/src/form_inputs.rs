//! What the writer is given: version and form, and behind them problems, with objects and epochs or without.

use crate::cards::u32s;
use crate::chance::Chance;
use crate::deck::MOST_CARDS;
use crate::file_suite::{by_step, named, Named};
use crate::kepler::PROBLEM;
use crate::tags;
use crate::versions::{Tag, Version, TAG};
use crate::writer::FRONT;

/// Versions and forms of which each is tried with each; they are counted.
pub const VERSIONS: [u32; 5] = [0, 1, 2, 3, u32::MAX];
pub const FORMS: [u32; 4] = [0, 1, 2, u32::MAX];

/// Others that differ from the right ones in a higher byte alone, or have changed places.
const OTHERS: [(u32, u32); 10] = [
    (256, 0),
    (257, 0),
    (258, 1),
    ((1 << 24) + 1, 0),
    ((1 << 31) + 2, 1),
    (1, 256),
    (2, 257),
    (1, 1 << 24),
    (2, (1 << 31) + 1),
    (1 << 24, 1),
];

/// How many bytes of a problem of form 1 are there where it is cut.
const CUTS: [usize; 8] = [1, 8, 67, 68, 69, 72, 76, 79];

/// The gate's inputs. BARE are problems without objects and epochs, and without version and form.
pub fn fixed(bare: &[Named]) -> Vec<Named> {
    let chance = &mut Chance::at(15, 0);
    let mut list: Vec<Named> = bare.iter().map(untagged).collect();
    list.extend(
        by_step(bare, 4)
            .into_iter()
            .map(|bare| tagged(bare, chance)),
    );
    list.extend(of_edges(row(bare), chance));
    list.extend(fronts(row(bare), chance));
    list.extend(named("short", short()));
    list.extend(named("count", counts(row(bare), chance)));
    list.extend(named("cut", cut(row(bare), chance)));
    list.extend(named("long", long(row(bare), chance)));
    list
}

/// Version and form with these problems, as version 1 or 2 has them, seldom with another front.
pub fn by_chance(bare: Named, chance: &mut Chance) -> Named {
    let mut given = match chance.below(3) {
        0 => untagged(&bare),
        _ => tagged(&bare, chance),
    };
    if chance.below(12) == 0 {
        let (version, form) = (chance.one_of(&VERSIONS), chance.one_of(&FORMS));
        let front = chance.one_of(&[&OTHERS[..], &[(version, form); 20]].concat());
        given.bytes = behind(front, &given.bytes[FRONT..]);
    }
    given
}

/// Many problems, without objects and epochs, all of them whole.
fn row(bare: &[Named]) -> &[u8] {
    let longest = bare.iter().max_by_key(|bare| bare.bytes.len());
    let bytes = longest.map_or(&[][..], |bare| &bare.bytes);
    &bytes[..bytes.len() / PROBLEM * PROBLEM]
}

fn behind((version, form): (u32, u32), problems: &[u8]) -> Vec<u8> {
    [u32s(&[version, form]), problems.to_vec()].concat()
}

/// Behind the right version and form.
fn given(version: Version, problems: &[u8]) -> Vec<u8> {
    behind((version.number(), version.form()), problems)
}

fn untagged(bare: &Named) -> Named {
    Named {
        name: bare.name,
        bytes: given(Version::One, &bare.bytes),
    }
}

fn tagged(bare: &Named, chance: &mut Chance) -> Named {
    let tags = tags::row(bare.bytes.len() / PROBLEM, chance);
    Named {
        name: bare.name,
        bytes: given(Version::Two, &with_tags(&bare.bytes, &tags)),
    }
}

/// Each whole problem with its object and epoch. Bytes that are left over stay as they are.
fn with_tags(bare: &[u8], tags: &[Tag]) -> Vec<u8> {
    let problems = bare.chunks_exact(PROBLEM);
    let rest = problems.remainder().to_vec();
    let mut bytes: Vec<u8> = problems
        .zip(tags)
        .flat_map(|(problem, tag)| [problem, &tag.bytes()].concat())
        .collect();
    bytes.extend(rest);
    bytes
}

/// So many problems, of either form.
fn problems(version: Version, count: usize, row: &[u8], chance: &mut Chance) -> Vec<u8> {
    let bare = &row[..PROBLEM * count];
    match version {
        Version::One => bare.to_vec(),
        Version::Two => with_tags(bare, &tags::row(count, chance)),
    }
}

/// The objects and epochs at the ends and about the powers of ten, in files of some and all in one; and any.
fn of_edges(row: &[u8], chance: &mut Chance) -> Vec<Named> {
    let any: Vec<Tag> = (0..MOST_CARDS).map(|_| tags::any(chance)).collect();
    let [all, any] = [tags::edges(), any].map(|tags| with_tags(row, &tags));
    let some = all.chunks((PROBLEM + TAG) * 10);
    let files = some.chain([&all[..], &any]);
    named("tag", files.map(|bytes| given(Version::Two, bytes)))
}

/// Each of the versions with each of the forms before no problems, few, some and a byte, and too many; and the
/// others before two of these.
fn fronts(row: &[u8], chance: &mut Chance) -> Vec<Named> {
    let ways = VERSIONS.map(|version| FORMS.map(|form| (version, form)));
    let mut list = Vec::new();
    for front in [&ways.concat()[..], &OTHERS].concat() {
        let one = problems(Version::One, 1, row, chance);
        let two = problems(Version::Two, 2, row, chance);
        let too_many = problems(Version::Two, MOST_CARDS + 1, row, chance);
        let and_a_byte = [&two[..], &[1]].concat();
        let files = [too_many, two, Vec::new(), one, and_a_byte];
        let few = if OTHERS.contains(&front) { 2 } else { 5 };
        let files = files.iter().take(few);
        list.extend(named("front", files.map(|file| behind(front, file))));
    }
    list
}

/// Files that have no whole version and form, or those alone.
fn short() -> Vec<Vec<u8>> {
    let fronts = [(1, 0), (2, 1), (0, 0), (u32::MAX, u32::MAX)];
    let lengths =
        fronts.map(|front| (0..=FRONT).map(move |length| behind(front, &[])[..length].to_vec()));
    lengths.into_iter().flatten().collect()
}

/// As many problems as a deck may have, one more, and a byte more or less, in each form.
fn counts(row: &[u8], chance: &mut Chance) -> Vec<Vec<u8>> {
    let mut list = Vec::new();
    for version in [Version::One, Version::Two] {
        for count in [MOST_CARDS, MOST_CARDS + 1] {
            let whole = given(version, &problems(version, count, row, chance));
            let less = whole[..whole.len() - 1].to_vec();
            let more = [&whole[..], &[0]].concat();
            list.extend([less, whole, more]);
        }
    }
    list
}

/// Files that end inside a problem of form 1.
fn cut(row: &[u8], chance: &mut Chance) -> Vec<Vec<u8>> {
    let all = given(
        Version::Two,
        &problems(Version::Two, MOST_CARDS + 2, row, chance),
    );
    let counts = [0, 1, 2, MOST_CARDS - 1, MOST_CARDS, MOST_CARDS + 1].into_iter();
    counts
        .flat_map(|count| CUTS.map(|more| FRONT + (PROBLEM + TAG) * count + more))
        .map(|length| all[..length].to_vec())
        .collect()
}

/// Lengths about and beyond the most that is read, in each form.
fn long(row: &[u8], chance: &mut Chance) -> Vec<Vec<u8>> {
    let lengths = [20_567, 20_568, 20_569, 20_648, 60_000];
    let mut list = Vec::new();
    for version in [Version::One, Version::Two] {
        let all = given(
            version,
            &problems(version, row.len() / PROBLEM, row, chance),
        );
        list.extend(lengths.map(|length| all[..length].to_vec()));
    }
    list
}
