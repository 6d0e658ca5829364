//! Solved cards as others may send them: found another way, altered, or about where a verdict
//! changes. Sizes are distances from 0 on the problem's own side of it: x is side * size.

use crate::answer::Answer;
use crate::cards::{Card, Claim, State};
use crate::chance::{power_of_two, Chance};
use crate::conic::LOW;
use crate::edges;
use crate::ends::Ends;
use crate::kepler::{self, far_end, Input, Started};
use crate::kepler_edges::Exact;
use crate::kepler_inputs::{self, aimed, unhurried};
use crate::motion::{self, backwards, beside, last, orbit_of, with, Frame, SPAN};
use crate::search::NEAR;
use crate::spoilt::{payload, NOT_FINITE};
use crate::universal::unrefused;

/// Cards of one sort, made by chance.
pub type Sort = fn(&mut Chance) -> Vec<Card>;

/// The least positive number.
pub const LEAST: f64 = 5e-324;

/// How far an x is moved, in last places.
pub const PLACES: [i64; 14] = [
    -(1 << 40),
    -(1 << 20),
    -100,
    -4,
    -3,
    -2,
    -1,
    1,
    2,
    3,
    4,
    100,
    1 << 20,
    1 << 40,
];

/// A problem that passes the tests before the first guess, and the size at which it is solved, or
/// nearly so.
pub struct Base {
    problem: Input,
    started: Started,
    side: f64,
    size: f64,
}

impl Base {
    /// A problem that Kepler solves, at an x that has room beside it. Its limit is any that is
    /// allowed: a solved card need not have been found within it.
    fn any(chance: &mut Chance) -> Base {
        let limit = 1 + chance.below(100) as u32;
        let solved = |problem: &Input| kepler::answer(problem).refusal().is_none();
        std::iter::repeat_with(|| kepler_inputs::mixed(chance))
            .filter(solved)
            .filter_map(|problem| Base::of(Input { limit, ..problem }))
            .find(|base| base.size > power_of_two(-100))
            .expect("many problems are solved")
    }

    /// None where the tests refuse the problem.
    pub fn of(problem: Input) -> Option<Base> {
        let started = kepler::start(&problem).ok()?;
        let side = if started.search.t >= 0.0 { 1.0 } else { -1.0 };
        let mut base = Base {
            problem,
            started,
            side,
            size: 0.0,
        };
        base.size = match kepler::answer(&unhurried(problem.words)) {
            Answer::Solved { x, .. } => x.abs(),
            _ => base.halved().unwrap_or(0.0),
        };
        Some(base)
    }

    /// The far end's size.
    fn far(&self) -> f64 {
        self.started.search.hi.x - self.started.search.lo.x
    }

    /// T on the problem's own side.
    fn time(&self, size: f64) -> f64 {
        self.side * self.started.orbit.time_at(self.side * size)
    }

    /// t on the problem's own side.
    fn wanted(&self) -> f64 {
        self.side * self.started.search.t
    }

    pub fn at(&self, size: f64) -> Card {
        Card::at(self.problem, self.side * size)
    }

    /// The sizes at which |T - t| comes to 2^-36.
    pub fn ends(&self) -> Ends {
        let near = |size: f64| self.started.times(self.side * size).gap() <= NEAR;
        Ends::about(self.size, self.far(), near)
    }

    /// The card with the size at which the problem is solved.
    pub fn solved(&self) -> Card {
        self.at(self.size)
    }

    /// The last size before t.
    fn halved(&self) -> Option<f64> {
        last(LEAST, self.far(), |size| self.time(size) < self.wanted())
    }

    /// The size by Newton's iteration: R is the slope of T.
    fn newton(&self) -> f64 {
        let Started { orbit, search } = &self.started;
        let step = |x: f64| {
            let u = unrefused(x, orbit.alpha);
            x - (orbit.time(&u) - search.t) / orbit.radius(&u)
        };
        let middle = self.side * self.far() / 2.0;
        self.side * (0..60).fold(middle, |x, _| step(x))
    }
}

/// A card with nothing against it.
pub fn solved(chance: &mut Chance) -> Card {
    Base::any(chance).solved()
}

/// x moved, with the state that unfolds there and with that of the answer.
pub fn moved(chance: &mut Chance) -> Vec<Card> {
    let base = Base::any(chance);
    let own = state(&base.solved());
    let cards = PLACES.map(|places| base.at(beside(base.size, places)));
    cards
        .into_iter()
        .flat_map(|card| [card, with_state(card, |_| own)])
        .collect()
}

/// x by Newton's iteration and by halving.
pub fn other_ways(chance: &mut Chance) -> Vec<Card> {
    let base = Base::any(chance);
    [Some(base.newton()), base.halved()]
        .into_iter()
        .flatten()
        .map(|size| base.at(size))
        .collect()
}

/// Each bit of the state altered.
pub fn state_bits(chance: &mut Chance) -> Vec<Card> {
    let own = Base::any(chance).solved();
    let altered = |bit: usize| {
        with_state(own, |mut state| {
            state[bit / 64] ^= 1 << (bit % 64);
            state
        })
    };
    (0..384).map(altered).collect()
}

/// x on, beside and beyond the bracket's ends, and on the other side of 0.
pub fn about_bracket(chance: &mut Chance) -> Vec<Card> {
    let base = Base::any(chance);
    let (far, size) = (base.far(), base.size);
    let ends = [0.0, far].into_iter().flat_map(around);
    let beyond = [2.0 * far, 1e9, 1e200, f64::MAX].into_iter();
    ends.chain(beyond)
        .chain([size])
        .flat_map(|size| [size, -size])
        .map(|size| base.at(size))
        .collect()
}

/// The same with t at the T of an end, so that nothing else is against x.
pub fn about_ends(chance: &mut Chance) -> Vec<Card> {
    let Some(exact) = Exact::of(motion::any(chance), chance) else {
        return Vec::new();
    };
    let side = chance.sign();
    let sizes = |end: f64| around(end).into_iter().flat_map(|size| [size, -size]);
    let at_far = sizes(exact.far).map(|size| sent(&exact, exact.time(exact.far), side, size));
    let mut cards: Vec<Card> = at_far.collect();
    for t in [0.0, -0.0, LEAST, NEAR] {
        cards.extend(sizes(0.0).map(|size| sent(&exact, t, side, size)));
    }
    cards
}

/// An end's size, and two last places on each side that it has.
pub fn around(end: f64) -> Vec<f64> {
    let below = (1..=2).filter(|_| end > 0.0).map(|n| beside(end, -n));
    below.chain((0..=2).map(|n| beside(end, n))).collect()
}

/// x no number, with each of some words and with chance payloads.
pub fn not_finite(chance: &mut Chance) -> Vec<Card> {
    let base = Base::any(chance);
    let own = state(&base.solved());
    let payloads = [(); 8].map(|()| payload(chance));
    NOT_FINITE
        .into_iter()
        .chain(payloads)
        .map(|x| Card::solved(base.problem, x, own))
        .collect()
}

/// |T - t| at 2^-36, on either side of the answer.
pub fn about_near(chance: &mut Chance) -> Vec<Card> {
    let base = Base::any(chance);
    base.ends().around(3).map(|size| base.at(size)).collect()
}

/// The same by the choice of dt, met to the last bit.
pub fn about_near_by_time(chance: &mut Chance) -> Vec<Card> {
    let Some(exact) = Exact::of(motion::any(chance), chance) else {
        return Vec::new();
    };
    let (side, size) = (chance.sign(), exact.far * chance.between(0.0, 1.0));
    let line = exact.time(size) + chance.sign() * NEAR;
    (-3..=3)
        .map(|places| sent(&exact, beside(line, places), side, size))
        .collect()
}

/// R at 2^-10, where 11 begins, and a little further: with the state that unfolds there and another
/// one, and with another t.
pub fn about_low(chance: &mut Chance) -> Vec<Card> {
    let low = Exact::of(motion::nearly_straight(chance), chance).and_then(|exact| {
        let high = |size: f64| exact.radius(size) >= LOW;
        last(power_of_two(-60), exact.far, high).map(|size| (exact, size))
    });
    let Some((exact, size)) = low else {
        return Vec::new();
    };
    let side = chance.sign();
    let further = 1.001 * size;
    let card = sent(&exact, exact.time(further), side, further);
    let too_late = sent(&exact, exact.time(further) + 2.0 * NEAR, side, further);
    (-3..=3)
        .map(|places| beside(size, places))
        .map(|size| sent(&exact, exact.time(size), side, size))
        .chain([
            card,
            with_state(card, |state| state.map(|word| word ^ 1)),
            too_late,
        ])
        .collect()
}

/// A velocity that may not be finite, at an x to which nothing else can be said.
pub fn beyond_velocity(chance: &mut Chance) -> Vec<Card> {
    let (words, part) = (edges::beyond_velocity(chance), chance.between(-1.0, 1.0));
    let far = orbit_of(&words).and_then(|orbit| far_end(&orbit).ok());
    let problem = unhurried(aimed(words, part));
    far.map(|far| Card::at(problem, part * far))
        .into_iter()
        .collect()
}

/// dt and x 0 and -0. On some hyperbolas T - t is then -0.
pub fn no_time(chance: &mut Chance) -> Vec<Card> {
    let words = Frame::any(chance).words(motion::any(chance), 0.0);
    let zeros = [0.0, -0.0f64];
    zeros
        .into_iter()
        .flat_map(|dt| zeros.map(|x| (with(words, SPAN, dt.to_bits()), x)))
        .map(|(words, x)| Card::at(unhurried(words), x))
        .collect()
}

/// x 0, so that |T - t| is |t|, of any size that is near enough and a little more.
pub fn still(chance: &mut Chance) -> Vec<Card> {
    let frame = Frame::exact(chance);
    let words = frame.words(motion::any(chance), 0.0);
    let x = chance.one_of(&[0.0, -0.0]);
    let mut times = [0.0, -0.0, LEAST, -LEAST, 3.0 * LEAST, NEAR, -NEAR].to_vec();
    times.extend([(); 9].map(|()| chance.sign() * chance.scale(-1074, -36)));
    times.extend([(); 9].map(|()| chance.sign() * chance.scale(-45, -36)));
    times
        .into_iter()
        .map(|dt: f64| Card::at(unhurried(with(words, SPAN, dt.to_bits())), x))
        .collect()
}

/// The card with t and x on this side of 0.
pub fn sent(exact: &Exact, t: f64, side: f64, size: f64) -> Card {
    let words = exact.at(t);
    let words = if side < 0.0 { backwards(words) } else { words };
    Card::at(unhurried(words), side * size)
}

fn state(card: &Card) -> State {
    match card.claim {
        Claim::Solved { state, .. } => state,
        Claim::Refused { .. } | Claim::Transfer { .. } => [0; 6],
    }
}

fn with_state(mut card: Card, change: impl Fn(State) -> State) -> Card {
    if let Claim::Solved { state, .. } = &mut card.claim {
        *state = change(*state);
    }
    card
}
