//! Refused cards, right and wrong; solved cards of problems that are refused; and spares.

use crate::cards::{Card, Claim};
use crate::chance::Chance;
use crate::conic::BY_PLACE;
use crate::deck::OLD;
use crate::kepler::{self, Input};
use crate::kepler_inputs::{self, LIMITS};
use crate::solved_cards::Base;
use crate::spoilt;

/// The refusals of Kepler beside those by place.
const OTHERS: [u32; 9] = [2, 3, 5, 6, 7, 8, 9, 10, 11];

/// The answers that a problem of Kepler can have: solved, or a refusal's number.
pub fn answers() -> Vec<Option<u32>> {
    let refusals = BY_PLACE.chain(OTHERS).map(Some);
    [None].into_iter().chain(refusals).collect()
}

/// A problem with this answer.
pub fn problem_with(answer: Option<u32>, chance: &mut Chance) -> Input {
    std::iter::repeat_with(|| kepler_inputs::mixed(chance))
        .find(|problem| kepler::answer(problem).refusal() == answer)
        .expect("the mixture has each answer")
}

/// Problems with each answer, refused with each number up to 40 and about 101 to 108, with the right
/// number and with 1 but for one bit, and with the largest numbers.
pub fn numbers(chance: &mut Chance) -> Vec<Card> {
    let mut cards = Vec::new();
    for answer in answers() {
        let problem = problem_with(answer, chance);
        let bits = [8, 16, 24, 31].map(|bit| 1 << bit);
        let altered = bits.map(|bit| [answer.unwrap_or(0) | bit, OLD | bit]);
        let largest = [1 << 31, u32::MAX - 1, u32::MAX];
        let small = (0..=40).chain(100..=109);
        let numbers = small.chain(altered.concat()).chain(largest);
        cards.extend(numbers.map(|number| Card::refused(problem, number)));
    }
    cards
}

/// Problems with each answer as cards from before, refused with 1, each beside the card that is written
/// now; and a card from before whose number is right, with spares.
pub fn old(chance: &mut Chance) -> Vec<Card> {
    let mut cards = Vec::new();
    for answer in answers() {
        let problem = problem_with(answer, chance);
        cards.extend([Card::refused(problem, OLD), Card::own(problem)]);
    }
    let place = chance.one_of(&BY_PLACE.collect::<Vec<u32>>());
    let right = Card::refused(problem_with(Some(place), chance), OLD);
    cards.extend(with_spares(right, 1 << chance.below(32)));
    cards
}

/// Each kind of problem as a solved card.
pub fn as_solved(chance: &mut Chance) -> Vec<Card> {
    answers()
        .into_iter()
        .map(|answer| claimed(problem_with(answer, chance)))
        .collect()
}

/// The problem as solved where it would be, whatever Kepler says.
pub fn claimed(problem: Input) -> Card {
    match Base::of(problem) {
        Some(base) => base.solved(),
        None => Card::at(problem, 0.0),
    }
}

/// A problem that Kepler solves, as a refused card: with 10 where it had to make haste.
pub fn denied(problem: Input, chance: &mut Chance) -> Card {
    let number = chance.one_of(&[0, OLD, 6, 9, 11]);
    Card::refused(problem, if problem.limit < 20 { 10 } else { number })
}

/// Each number of a problem no finite number: as a solved card, as a refused one, and as a refused one
/// from before.
pub fn not_finite(chance: &mut Chance) -> Vec<Card> {
    let problem = problem_with(None, chance);
    let mut spoilt = spoilt::each(problem.words);
    spoilt.extend(spoilt::each_with_payload(problem.words, chance));
    spoilt
        .into_iter()
        .map(|words| Input { words, ..problem })
        .flat_map(|problem| {
            [
                Card::at(problem, 0.0),
                Card::own(problem),
                Card::refused(problem, OLD),
            ]
        })
        .collect()
}

/// Each two numbers of a problem no finite numbers: as a solved card, and refused with each of 101 to 108
/// and with 1.
pub fn two_not_finite(chance: &mut Chance) -> Vec<Card> {
    let problem = problem_with(None, chance);
    let mut cards = Vec::new();
    for words in spoilt::each_two(problem.words, chance) {
        let problem = Input { words, ..problem };
        cards.push(Card::at(problem, 0.0));
        let numbers = BY_PLACE.chain([OLD]);
        cards.extend(numbers.map(|number| Card::refused(problem, number)));
    }
    cards
}

/// Each limit, as a solved card and as one refused with 3.
pub fn limits(chance: &mut Chance) -> Vec<Card> {
    let problem = problem_with(None, chance);
    LIMITS
        .into_iter()
        .map(|limit| Input { limit, ..problem })
        .flat_map(|problem| [claimed(problem), Card::refused(problem, 3)])
        .collect()
}

/// Each bit of each spare, of cards with nothing else against them and of others.
pub fn spares(chance: &mut Chance) -> Vec<Card> {
    let answer = chance.one_of(&answers()[1..]);
    let (solved, refused) = (problem_with(None, chance), problem_with(answer, chance));
    let cards = [
        Card::own(solved),
        Card::own(refused),
        Card::at(solved, f64::NAN),
        Card::refused(solved, 7),
        claimed(refused),
    ];
    cards
        .into_iter()
        .flat_map(|card| (0..32).flat_map(move |bit| with_spares(card, 1 << bit)))
        .collect()
}

/// The card with its problem's spare, and with the one after its number if it has that. A transfer has
/// neither.
pub fn with_spares(card: Card, bits: u32) -> Vec<Card> {
    let claims = match card.claim {
        Claim::Solved { x, state, .. } => {
            let spare = bits;
            vec![Claim::Solved { spare, x, state }]
        }
        Claim::Refused { number, .. } => [(bits, 0), (0, bits)]
            .map(|(spare, last)| Claim::Refused {
                spare,
                number,
                last,
            })
            .to_vec(),
        Claim::Transfer { .. } => Vec::new(),
    };
    claims
        .into_iter()
        .map(|claim| Card { claim, ..card })
        .collect()
}
