//! The problems that the writer is tried on: 0 to 258 in a file, and files that end inside one. What is made
//! here has neither version and form nor objects and epochs; `form_inputs` puts them in.

use crate::chance::Chance;
use crate::conic::Words;
use crate::deck::MOST_CARDS;
use crate::file_suite::{named, Named};
use crate::form_inputs;
use crate::kepler::{self, Input, PROBLEM};
use crate::kepler_inputs::{self, LIMITS};
use crate::motion::{self, SPAN};
use crate::refused_cards::{answers, problem_with};
use crate::spoilt::{self, payload};

/// How many bytes of a problem are there where it is cut: by the numbers' ends, and in the limit.
const CUTS: [usize; 10] = [1, 7, 8, 9, 33, 63, 64, 65, 66, 67];

/// The gate's inputs, the same list in every run.
pub fn fixed() -> Vec<Named> {
    form_inputs::fixed(&bare())
}

fn bare() -> Vec<Named> {
    let chance = &mut Chance::at(5, 0);
    let problems = kepler_inputs::shuffled(chance);
    let mut list = trials();
    list.extend(counts(&problems));
    list.extend(alike(&problems));
    list.extend(full(&problems));
    list.extend(not_finite(chance));
    list.extend(edges(chance));
    list.extend(limits(chance));
    list.extend(cut(&problems));
    list.extend(long(&problems));
    list.extend((0..250).map(|_| bare_mixed(chance)));
    list
}

/// One file of some kind, in either form.
pub fn mixed(chance: &mut Chance) -> Named {
    let bare = bare_mixed(chance);
    form_inputs::by_chance(bare, chance)
}

/// Most of them have whole problems alone, and not too many.
fn bare_mixed(chance: &mut Chance) -> Named {
    let most = chance.one_of(&[1, 4, 16, 16, 20, 64, 260]);
    let count = chance.below(most + 1);
    let problems: Vec<Input> = (0..count).map(|_| kepler_inputs::mixed(chance)).collect();
    let mut bytes = joined(&problems);
    if chance.below(8) == 0 {
        let more = 1 + chance.below(PROBLEM as u64 - 1);
        bytes.extend((0..more).map(|_| chance.word() as u8));
    }
    Named {
        name: "mixed",
        bytes,
    }
}

/// Kepler's trials, each alone and all in one file.
fn trials() -> Vec<Named> {
    let trials = kepler_inputs::trials();
    named("trial", trials.chunks(1).chain([&trials[..]]).map(joined))
}

/// Each number of problems up to 20, those about 256, and some between.
fn counts(problems: &[Input]) -> Vec<Named> {
    let few = (0..=20).chain((0..4).cycle().take(12));
    let many = [64, 128, 192, 254, 257, 258, 300].into_iter();
    let about_most = [255, 256].into_iter().cycle().take(6);
    let mut rest = problems.iter().copied().cycle();
    let counts = few.chain(many).chain(about_most);
    let taken = counts.map(|count| joined(&rest.by_ref().take(count).collect::<Vec<Input>>()));
    named("count", taken)
}

/// Problems with each answer, forwards and backwards, alone and together.
fn alike(problems: &[Input]) -> Vec<Named> {
    let mut list = Vec::new();
    for answer in answers() {
        for sign in [0, 1] {
            let alike = |input: &Input| refusal(input) == answer && input.words[SPAN] >> 63 == sign;
            let found = first(16, problems, alike);
            list.extend(named("alone", found[..4].chunks(1).map(joined)));
            list.extend(named("together", [joined(&found[4..])]));
        }
    }
    list
}

/// As many as a deck may have: all solved, which is the largest deck, all refused, and in turn.
fn full(problems: &[Input]) -> Vec<Named> {
    let solved = first(MOST_CARDS, problems, |input| refusal(input).is_none());
    let refused = first(MOST_CARDS, problems, |input| refusal(input).is_some());
    let turns = solved.iter().zip(&refused).flat_map(|(a, b)| [*a, *b]);
    let turns: Vec<Input> = turns.take(MOST_CARDS).collect();
    named("full", [solved, refused, turns].map(|all| joined(&all)))
}

fn refusal(problem: &Input) -> Option<u32> {
    kepler::answer(problem).refusal()
}

/// The first problems of a kind.
fn first(count: usize, problems: &[Input], wanted: impl Fn(&Input) -> bool) -> Vec<Input> {
    let found = problems.iter().copied().filter(|problem| wanted(problem));
    let found: Vec<Input> = found.take(count).collect();
    assert!(found.len() == count, "too few problems of a kind");
    found
}

/// Each number no finite number, and with payloads by chance one number of each problem, two or all.
fn not_finite(chance: &mut Chance) -> Vec<Named> {
    let problem = problem_with(None, chance);
    let file = |words: &[Words]| {
        let inputs = words.iter().map(|words| Input {
            words: *words,
            ..problem
        });
        joined(&inputs.collect::<Vec<Input>>())
    };
    let each = spoilt::each(problem.words);
    let mut list = named("not-finite", each.chunks(8).map(file));
    for _ in 0..8 {
        let one = spoilt::each_with_payload(problem.words, chance);
        let two = spoilt::each_two(problem.words, chance);
        let all = [[0; 8]; 8].map(|words| words.map(|_| payload(chance)));
        list.extend(named("payload", [&one[..], &two, &all].map(file)));
    }
    list
}

/// Each number -0, subnormal, or another edge of binary64.
fn edges(chance: &mut Chance) -> Vec<Named> {
    let problem = problem_with(None, chance);
    let input = |words| Input { words, ..problem };
    let inputs: Vec<Input> = motion::each_edge(problem.words)
        .into_iter()
        .map(input)
        .collect();
    named("edge", inputs.chunks(8).map(joined))
}

/// Each limit, alone and together.
fn limits(chance: &mut Chance) -> Vec<Named> {
    let problem = problem_with(None, chance);
    let inputs = LIMITS.map(|limit| Input { limit, ..problem });
    named("limit", inputs.chunks(1).chain([&inputs[..]]).map(joined))
}

/// Files that end inside a problem, behind none at each byte.
fn cut(problems: &[Input]) -> Vec<Named> {
    let row = joined(&problems[..258]);
    let behind_none = (1..PROBLEM).map(|more| (0, more));
    let behind = [1, 2, 255, 256, 257].into_iter();
    let places = behind_none.chain(behind.flat_map(|count| CUTS.map(|more| (count, more))));
    named(
        "cut",
        places.map(|(count, more)| row[..PROBLEM * count + more].to_vec()),
    )
}

/// Lengths about and beyond the most that is read.
fn long(problems: &[Input]) -> Vec<Named> {
    let row = joined(&problems[..1100]);
    let lengths = [17_475, 17_476, 17_477, 17_544, 20_000, 70_000];
    named("long", lengths.map(|length| row[..length].to_vec()))
}

/// Problems as they are sent, one behind the other.
fn joined(problems: &[Input]) -> Vec<u8> {
    problems.iter().flat_map(Input::bytes).collect()
}
