//! What the gate counts of the units of time in a deck that is accepted, a line each: what its cards are
//! like, and which wrong means it tells from the right one. So a list without the units that are to be
//! tried does not pass.

use crate::cards::{Card, Kind};
use crate::kinds::Judged;
use crate::search::NEAR;
use crate::times::Times;
use crate::traits::{range_of, Range};

/// The ranges of units that are counted, of cards that count as solved and whose T is not t.
const UNITS: [Range; 8] = [
    ("unit subnormal", 0.0, f64::MIN_POSITIVE),
    ("unit below 1e-290", f64::MIN_POSITIVE, 1e-290),
    ("unit 1e-290 to 1e-150", 1e-290, 1e-150),
    ("unit 1e-150 to 1e-50", 1e-150, 1e-50),
    ("unit 1e-50 to 1e50", 1e-50, 1e50),
    ("unit 1e50 to 1e150", 1e50, 1e150),
    ("unit 1e150 to 1e290", 1e150, 1e290),
    ("unit above 1e290", 1e290, f64::INFINITY),
];

/// The ranges of their residuals that are counted. No number but 0 is in the first.
const RESIDUALS: [Range; 3] = [
    ("residual rounded to 0", 0.0, 5e-324),
    ("residual subnormal", 5e-324, f64::MIN_POSITIVE),
    ("residual above 1e297", 1e297, f64::INFINITY),
];

/// Units are apart whose quotient is more than this.
const APART: f64 = 1e200;

type Sum = fn(&[Solved]) -> f64;

/// Wrong ways to the sum of the residuals: they can make another mean, and some can overflow.
const WRONG: [(&str, Sum); 10] = [
    ("no unit", gaps),
    ("no unit of transfers", |cards| {
        sum(cards, Solved::gap_if_transfer)
    }),
    ("the first unit", |cards| gaps(cards) * cards[0].times.unit),
    ("the last unit", |cards| {
        gaps(cards) * cards[cards.len() - 1].times.unit
    }),
    ("the unit before", by_unit_before),
    ("all units", |cards| {
        gaps(cards) * sum(cards, |card| card.times.unit)
    }),
    ("two products", |cards| {
        sum(cards, |card| card.times.residual() * card.times.unit)
    }),
    ("times in seconds", |cards| {
        sum(cards, |card| (card.reached() - card.wanted()).abs())
    }),
    ("sums of times", |cards| {
        (sum(cards, Solved::reached) - sum(cards, Solved::wanted)).abs()
    }),
    ("another order", |cards| {
        cards.iter().rev().map(Solved::residual).sum()
    }),
];

/// A card that counts as solved.
struct Solved {
    is_transfer: bool,
    times: Times,
}

impl Solved {
    fn of((card, verdict): &Judged) -> Option<Solved> {
        let times = card.times().filter(|_| *verdict == "0")?;
        let is_transfer = is_transfer(card);
        Some(Solved { is_transfer, times })
    }

    fn residual(&self) -> f64 {
        self.times.residual()
    }

    fn gap_if_transfer(&self) -> f64 {
        match self.is_transfer {
            true => self.times.gap(),
            false => self.residual(),
        }
    }

    /// T in seconds.
    fn reached(&self) -> f64 {
        self.times.reached * self.times.unit
    }

    /// t in seconds.
    fn wanted(&self) -> f64 {
        self.times.wanted * self.times.unit
    }
}

/// The kinds of a deck with these cards and this listing.
pub fn kinds(judged: &[Judged], listing: &str) -> Vec<String> {
    let mut kinds: Vec<String> = judged.iter().flat_map(of_card).collect();
    let solved: Vec<Solved> = judged.iter().filter_map(Solved::of).collect();
    if !solved.is_empty() {
        kinds.extend(apart(&solved, listing).map(str::to_string));
        kinds.extend(WRONG.iter().filter_map(|wrong| told(wrong, &solved)));
        kinds.extend(told_by_worst(&solved));
    }
    kinds
}

/// The kinds of one card. A transfer's are told apart.
fn of_card((card, verdict): &Judged) -> Vec<String> {
    let Some(times) = card.times() else {
        return Vec::new();
    };
    let near = times.residual() <= NEAR;
    let kinds = match *verdict {
        "0" if times.gap() != 0.0 => [
            range_of(&UNITS, times.unit),
            range_of(&RESIDUALS, times.residual()),
            Some("far in seconds").filter(|_| !near),
        ],
        "21" => [Some("near in seconds").filter(|_| near), None, None],
        _ => [None; 3],
    };
    let front = if is_transfer(card) { "transfer " } else { "" };
    let kinds = kinds.into_iter().flatten();
    kinds.map(|kind| format!("{front}{kind}")).collect()
}

fn is_transfer(card: &Card) -> bool {
    matches!(card.kind(), Kind::Transfer)
}

/// Whether units of cards whose T is not t are apart; and whether they are that in a deck in which cards of
/// both kinds count as solved, and others as refused and as rejected.
fn apart(solved: &[Solved], listing: &str) -> impl Iterator<Item = &'static str> {
    let off = solved.iter().filter(|card| card.times.gap() != 0.0);
    let units: Vec<f64> = off.map(|card| card.times.unit).collect();
    let most = units.iter().copied().fold(0.0, f64::max);
    let apart = units.iter().any(|unit| most / unit > APART);
    let has = |is_transfer: bool| solved.iter().any(|card| card.is_transfer == is_transfer);
    let mut totals = listing.lines().filter(|line| line.starts_with("solved "));
    let some_of_each = totals.all(|line| line.split(' ').all(|word| word != "0"));
    let every = has(true) && has(false) && some_of_each;
    let kinds = [
        ("units apart", apart),
        ("units apart among every kind", apart && every),
    ];
    kinds
        .into_iter()
        .filter(|(_, holds)| *holds)
        .map(|(kind, _)| kind)
}

/// Whether a wrong way makes another mean, or none that is finite.
fn told((name, wrong): &(&str, Sum), solved: &[Solved]) -> Option<String> {
    let sums = [sum(solved, Solved::residual), wrong(solved)];
    let [right, wrong] = sums.map(|sum| sum / solved.len() as f64);
    match wrong.is_finite() {
        false => Some(format!("overflow by {name}")),
        true => (wrong != right).then(|| format!("told from {name}")),
    }
}

/// Whether the worst residual is not that of the largest gap.
fn told_by_worst(solved: &[Solved]) -> Option<String> {
    let most = |by: fn(&Times) -> f64| {
        solved
            .iter()
            .map(|card| by(&card.times))
            .fold(0.0, f64::max)
    };
    let [gap, worst] = [Times::gap, Times::residual].map(most);
    let found = solved
        .iter()
        .any(|card| card.times.gap() == gap && card.residual() == worst);
    (!found).then(|| "told from the largest gap".to_string())
}

fn sum(cards: &[Solved], number: impl Fn(&Solved) -> f64) -> f64 {
    cards.iter().map(number).sum()
}

fn gaps(cards: &[Solved]) -> f64 {
    sum(cards, |card| card.times.gap())
}

/// Each card with the unit of the one before it.
fn by_unit_before(cards: &[Solved]) -> f64 {
    let before = cards.iter().take(1).chain(cards);
    let pairs = cards.iter().zip(before);
    pairs
        .map(|(card, before)| card.times.gap() * before.times.unit)
        .sum()
}
