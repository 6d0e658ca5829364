//! Kepler's problems and solved cards about the far end, and about the one from before.

use crate::cards::Card;
use crate::chance::Chance;
use crate::conic::Vector;
use crate::far_ends::old_far_end;
use crate::kepler::{far_end, Input};
use crate::kepler_edges::{about_flat, Exact};
use crate::kepler_inputs::{aimed, unhurried};
use crate::motion::{self, beside, either_way, last, orbit_of, Frame};
use crate::search::NEAR;
use crate::solved_cards::{around, sent};

/// The problems: t at T of either end and beside it, and between the two.
pub fn problems(chance: &mut Chance) -> Vec<Input> {
    let motions: Vec<Vector> = (0..20).flat_map(|_| motions(chance)).collect();
    let mut list = Vec::new();
    for w in motions {
        let exact = Exact::of(w, chance);
        list.extend(exact.iter().flat_map(|exact| about_ends(exact, chance)));
    }
    list
}

fn about_ends(exact: &Exact, chance: &mut Chance) -> Vec<Input> {
    let (far, old) = ends(exact);
    let between = [(); 3].map(|()| exact.time(chance.between(far, old)));
    let about = |x: f64| (-2..=2).map(move |places| beside(exact.time(x), places));
    let times = about(far).chain(about(old)).chain(between);
    times
        .map(|t| unhurried(either_way(exact.at(t), chance)))
        .collect()
}

/// Motions of any kind, a circle, on which T is x, a parabola, and some whose |alpha| is 1/64 or nearly so.
fn motions(chance: &mut Chance) -> Vec<Vector> {
    let mut list = vec![[0.0, 1.0, 0.0], [1.0, 1.0, 0.0], [1.0, 1.0, 0.125]];
    list.extend([(); 4].map(|()| motion::any(chance)));
    list.extend(about_flat(chance));
    list
}

/// X, and that from before.
fn ends(exact: &Exact) -> (f64, f64) {
    (exact.far, old_far_end(&exact.orbit))
}

/// Solved cards about either end and between the two, each with the state that its own x unfolds to.
pub fn cards(chance: &mut Chance) -> Vec<Card> {
    let motions = motions(chance);
    let Some(exact) = Exact::of(chance.one_of(&motions), chance) else {
        return Vec::new();
    };
    let side = chance.sign();
    let pairs = [on_time(&exact, chance), nearly_on_time(&exact, chance)].concat();
    pairs
        .into_iter()
        .map(|(t, size)| sent(&exact, t, side, size))
        .chain(scaled(chance))
        .collect()
}

/// Each size with its own T as t: past X there is too much time.
fn on_time(exact: &Exact, chance: &mut Chance) -> Vec<(f64, f64)> {
    let (far, old) = ends(exact);
    let between = [(); 4].map(|()| chance.between(far, old));
    let sizes = [around(far), between.to_vec(), around(old)].concat();
    sizes
        .into_iter()
        .map(|size| (exact.time(size), size))
        .collect()
}

/// t about T(X) and sizes about X, near enough. Past X nothing is against x but x itself, and, up to X,
/// nothing against t but t.
fn nearly_on_time(exact: &Exact, chance: &mut Chance) -> Vec<(f64, f64)> {
    let (far, old) = ends(exact);
    let most = exact.time(far);
    let off = NEAR * chance.between(0.0, 1.0);
    let beside = (-2..=2).map(|places| beside(most, places));
    let mut pairs = Vec::new();
    for t in beside.chain([most - off, most + off]) {
        let end = last(far, old, |size| (exact.time(size) - t).abs() <= NEAR);
        let within = end.map(|end| [chance.between(far, end), end]);
        let sizes = around(far).into_iter().chain(within.into_iter().flatten());
        pairs.extend(sizes.map(|size| (t, size)));
    }
    pairs
}

/// A card between the two ends, of a problem that need not be scaled without rounding.
fn scaled(chance: &mut Chance) -> Option<Card> {
    let words = Frame::any(chance).words(motion::any(chance), 0.0);
    let orbit = orbit_of(&words)?;
    let far = far_end(&orbit).ok()?;
    let part = chance.sign() * chance.between(1.0, old_far_end(&orbit) / far);
    Some(Card::at(unhurried(aimed(words, part)), part * far))
}
