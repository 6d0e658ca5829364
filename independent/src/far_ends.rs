//! What the gate counts about the far end, a line each: of problems where t is about T at X, of solved cards
//! where x is about X. A longer X went before, 64 or 8/root(|alpha|). So a list without what the two ends
//! tell apart does not pass.

use crate::cards::{Card, Claim};
use crate::conic::Orbit;
use crate::deck::near;
use crate::kepler::{bracket, far_end, posed, Input, FLAT};
use crate::kinds::Judged;
use crate::times::Times;
use crate::traits::{side, side_within};
use crate::universal::{functions, unrefused};

/// How far |alpha| may be from 1/64, in last places. alpha is 2 - q there, and moves by 64 to 256 of them.
const STEPS: u64 = 1024;

/// The X from before.
pub fn old_far_end(orbit: &Orbit) -> f64 {
    if orbit.alpha.abs() <= FLAT {
        64.0
    } else {
        8.0 / orbit.alpha.abs().sqrt()
    }
}

/// T at any x, as before C2 and C3 refused.
pub fn old_time(orbit: &Orbit, x: f64) -> f64 {
    orbit.time(&unrefused(x, orbit.alpha))
}

/// The traits of a problem, where the tests before the far end's are passed.
pub fn traits(input: &Input) -> Vec<String> {
    let Ok((orbit, t)) = posed(input) else {
        return Vec::new();
    };
    let time = |x: f64| old_time(&orbit, if t < 0.0 { -x } else { x }).abs();
    let (t_now, t_before) = (time(held(&orbit)), time(old_far_end(&orbit)));
    let about = side(t.abs(), t_now);
    let alpha = side_within(STEPS, orbit.alpha.abs(), FLAT);
    let between = t_now < t.abs() && t.abs() <= t_before;
    let traits = [
        about.map(|side| format!("{side} the far end")),
        side(t.abs(), t_before).map(|side| format!("{side} the old far end")),
        between.then(|| "between the far ends".to_string()),
        about
            .zip(alpha)
            .map(|(side, alpha)| format!("{side} the far end with alpha {alpha} 1/64")),
    ];
    by_direction(traits, t)
}

/// X, held to RULES, The universal functions 10: C2 and C3 are not refused there, nor before it, where |z| is
/// not larger.
fn held(orbit: &Orbit) -> f64 {
    let far = far_end(orbit).expect("alpha is finite");
    assert!(
        functions(far, orbit.alpha).is_ok(),
        "C2 and C3 are refused at X, {far:e}"
    );
    far
}

/// The kinds of a deck with these cards.
pub fn kinds(judged: &[Judged]) -> Vec<String> {
    judged.iter().flat_map(of_card).collect()
}

/// Of a card that the old far end let pass: where its x is, and its verdict.
fn of_card((card, verdict): &Judged) -> Vec<String> {
    let Some((orbit, x)) = passed_before(card) else {
        return Vec::new();
    };
    let far = held(&orbit);
    let kinds = [
        side(x.abs(), far).map(|side| format!("x {side} the far end {verdict}")),
        (x.abs() > far).then(|| format!("past the far end {verdict}")),
    ];
    by_direction(kinds, x)
}

/// The orbit and the x of a solved card that had the verdict 0 with the old far end.
fn passed_before(card: &Card) -> Option<(Orbit, f64)> {
    let Claim::Solved { spare: 0, x, state } = card.claim else {
        return None;
    };
    let x = f64::from_bits(x);
    let (orbit, t) = posed(&card.problem).ok()?;
    let search = bracket(t, old_far_end(&orbit), |x| old_time(&orbit, x)).ok()?;
    let times = Times {
        reached: old_time(&orbit, x),
        wanted: t,
        unit: orbit.f4,
    };
    near(&search, x, times).ok()?;
    let u = unrefused(x, orbit.alpha);
    let unfolded = orbit.unfold(u.u1, u.u2, orbit.radius(&u)).ok()?;
    (unfolded.map(f64::to_bits) == state).then_some((orbit, x))
}

/// Those that there are. Backwards in time they are told apart.
fn by_direction<const N: usize>(kinds: [Option<String>; N], t: f64) -> Vec<String> {
    let front = if t < 0.0 { "backwards " } else { "" };
    let kinds = kinds.into_iter().flatten();
    kinds.map(|kind| format!("{front}{kind}")).collect()
}
