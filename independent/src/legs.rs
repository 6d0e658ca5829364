//! Pairs of positions to try for the transfer, and times between them.

use crate::chance::{power_of_two, Chance};
use crate::conic::{dot, Problem, Words};
use crate::motion::{self, cross, orbit_of, with, Frame, SPAN};
use crate::transfer::{Input, Positions, Transfer, FAR, LONG, SHORT};
use crate::universal::unrefused;

/// A transfer whose time is still to be chosen.
pub struct Leg {
    words: Words,
    pub way: u32,
    pub transfer: Transfer,
}

impl Leg {
    /// None where the positions are refused.
    pub fn of(words: Words, way: u32) -> Option<Leg> {
        let transfer = positions(&words)?.by_way(way).ok()?;
        Some(Leg {
            words,
            way,
            transfer,
        })
    }

    /// One that is scaled without rounding, so that its t is met to the last bit.
    pub fn exact(chance: &mut Chance) -> Option<Leg> {
        let frame = Frame::exact(chance);
        let length = frame.r0 * chance.scale(-10, 9);
        Leg::of(frame.transfer(length, direction(chance), 0.0), way(chance))
    }

    pub fn time(&self, z: f64) -> f64 {
        self.transfer.time(z)
    }

    /// The transfer in this time t.
    pub fn at(&self, t: f64) -> Words {
        with(self.words, SPAN, (t * self.transfer.places.f4).to_bits())
    }

    pub fn input(&self, t: f64, limit: u32) -> Input {
        Input {
            words: self.at(t),
            limit,
            way: self.way,
        }
    }

    /// A time between those at the bracket's ends, as far as these are finite.
    pub fn some_time(&self, chance: &mut Chance) -> f64 {
        let (least, most) = (self.time(0.0), self.time(FAR));
        match chance.below(8) {
            0..=3 => self.time(FAR * chance.between(0.0, 1.0)),
            4 => self.time(chance.scale(-60, 4)),
            5 => self.time(FAR - chance.scale(-48, 1)),
            6 => most.min(least * chance.scale(0, 9)),
            _ => chance.between(least, most),
        }
    }

    /// Too little time, or too much.
    pub fn bad_time(&self, chance: &mut Chance) -> f64 {
        let (least, most) = (self.time(0.0), self.time(FAR));
        match chance.below(6) {
            0 => least * chance.between(-1.0, 1.0),
            1 => least * (1.0 - chance.scale(-53, -2)),
            2 => -chance.scale(-20, 20),
            3 => most * chance.scale(0, 9),
            4 => most * (1.0 + chance.scale(-52, -2)),
            _ => most + chance.scale(-40, 9),
        }
    }
}

/// What the tests make of the positions. None where they refuse them, but for the angle.
pub fn positions(words: &Words) -> Option<Positions> {
    let problem = Problem::read(words).ok()?;
    Positions::of(problem.mu, problem.r, problem.v).ok()
}

pub fn way(chance: &mut Chance) -> u32 {
    chance.one_of(&[SHORT, LONG])
}

/// A direction from the first position: any, or near to it, across it or opposite to it.
pub fn direction(chance: &mut Chance) -> [f64; 2] {
    match chance.below(8) {
        0 => narrow(chance, [-19, -6]),
        1 => narrow(chance, [-19, -12]),
        2 => chance.one_of(&[[0.0, 1.0], [-0.6, 0.8], [0.6, -0.8], [0.28, 0.96]]),
        _ => motion::direction(chance),
    }
}

/// An angle so near to 0 or 180 degrees that the exponent of 1 - |c| lies in this range.
pub fn narrow(chance: &mut Chance, [lo, hi]: [i32; 2]) -> [f64; 2] {
    let room = chance.scale(lo, hi);
    [
        chance.sign() * (1.0 - room),
        chance.sign() * (room * (2.0 - room)).sqrt(),
    ]
}

/// Two positions of any kind, the second 1/1000 to 1000 times as long as the first, with a time.
pub fn ordinary(way: u32, chance: &mut Chance) -> Words {
    let frame = Frame::any(chance);
    let ratio = match chance.below(4) {
        0 => 1.0 + chance.sign() * chance.scale(-53, -2),
        1 => chance.scale(-3, 2),
        _ => chance.scale(-10, 9),
    };
    let words = frame.transfer(frame.r0 * ratio, direction(chance), 0.0);
    timed(words, way, chance)
}

/// The transfer with some time, if its positions are not refused.
pub fn timed(words: Words, way: u32, chance: &mut Chance) -> Words {
    match Leg::of(words, way) {
        Some(leg) => leg.at(leg.some_time(chance)),
        None => with(words, SPAN, chance.scale(-20, 20).to_bits()),
    }
}

/// The transfer with too little or too much time.
pub fn ill_timed(words: Words, way: u32, chance: &mut Chance) -> Words {
    match Leg::of(words, way) {
        Some(leg) => leg.at(leg.bad_time(chance)),
        None => words,
    }
}

/// A piece of an ellipse, of less than one turn, with its time and its own way.
pub fn true_arc(frame: &Frame, chance: &mut Chance) -> (Words, u32) {
    let motion = chance.one_of(&[motion::ellipse, motion::nearly_circle]);
    let words = frame.words(motion(chance), 0.0);
    let (Some(orbit), part) = (orbit_of(&words), chance.between(0.01, 0.78)) else {
        return (words, SHORT);
    };
    // A turn is the part 2 pi / 8 of this way.
    let u = unrefused(part * (8.0 / orbit.alpha.sqrt()), orbit.alpha);
    let [x, y, z, ..] = orbit.state(u.u1, u.u2, orbit.radius(&u));
    let (plane, swept) = (cross(orbit.r, orbit.v), cross(orbit.r, [x, y, z]));
    let way = if dot(plane, swept) < 0.0 { LONG } else { SHORT };
    let mut arc = with(words, SPAN, (orbit.time(&u) * orbit.f4).to_bits());
    arc[4..7].copy_from_slice(&[x, y, z].map(f64::to_bits));
    (arc, way)
}

/// So long a time, between positions so far apart, that one last place of T or of z can be more
/// than the search allows: it closes the bracket.
pub fn long_arc(way: u32, chance: &mut Chance) -> Words {
    let frame = Frame::any(chance);
    let length = frame.r0 * chance.scale(2, 14);
    let words = frame.transfer(length, direction(chance), 0.0);
    match Leg::of(words, way) {
        Some(leg) => leg.at(leg.time(FAR - chance.scale(-20, 3))),
        None => words,
    }
}

/// Sizes from all over binary64. Some can't be scaled.
pub fn huge_or_tiny(way: u32, chance: &mut Chance) -> Words {
    let frame = Frame::sized(chance, [-530, 510], [-800, 800]);
    let length = match chance.below(2) {
        0 => frame.r0 * chance.scale(-10, 9),
        _ => chance.scale(-530, 510),
    };
    timed(frame.transfer(length, direction(chance), 0.0), way, chance)
}

/// The second position so far away that T at an end of the bracket is not finite, or nearly so.
pub fn beyond_time(way: u32, chance: &mut Chance) -> Words {
    let frame = Frame::sized(chance, [-450, -400], [-9, 9]);
    let length = frame.r0 * chance.scale(664, 690);
    let words = frame.transfer(length, direction(chance), 0.0);
    let Some(leg) = Leg::of(words, way) else {
        return words;
    };
    let least = leg.time(0.0);
    let t = if least.is_finite() {
        least * chance.between(0.9, 2.0)
    } else {
        power_of_two(1000)
    };
    leg.at(t.min(f64::MAX))
}

/// rho about the largest numbers there are, so that the number under A's root may be infinite.
pub fn beyond_root(chance: &mut Chance) -> Words {
    let frame = Frame::sized(chance, [-528, -514], [-9, 9]);
    let length = frame.r0 * power_of_two(1022) * chance.between(1.0, 4.2);
    frame.transfer(length, motion::direction(chance), chance.scale(-600, 0))
}
