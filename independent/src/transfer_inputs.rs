//! The transfers that are tried.

use crate::chance::Chance;
use crate::conic::Words;
use crate::kepler_inputs::LIMITS;
use crate::legs::{self, ill_timed, ordinary, timed, true_arc, way};
use crate::motion::{self, with, Frame, PLAIN, SPAN};
use crate::spoilt;
use crate::transfer::{Input, LONG, SHORT};
use crate::transfer_edges;

/// Ways that there are not. Of some a part of the bytes would be one.
pub const NO_WAYS: [u32; 10] = [
    2,
    3,
    7,
    0x0000_00ff,
    0x0000_0100,
    0x0000_0101,
    0x0001_0000,
    0x0100_0001,
    0x8000_0000,
    u32::MAX,
];

/// The gate's inputs, the same list in every run.
pub fn fixed() -> Vec<Input> {
    let chance = &mut Chance::at(7, 0);
    let mut list = trials().to_vec();
    list.extend(not_finite(chance));
    list.extend(edges_of_numbers(chance));
    list.extend(every_limit(chance));
    list.extend(every_way(chance));
    list.extend(no_time(chance));
    list.extend(no_angle(chance));
    list.extend(transfer_edges::all(chance));
    list.extend((0..18_000).map(|_| mixed(chance)));
    list
}

/// One transfer of some kind. Most of them can be solved.
pub fn mixed(chance: &mut Chance) -> Input {
    let (words, mut way) = mixed_words(chance);
    if chance.below(64) == 0 {
        way = chance.one_of(&NO_WAYS);
    }
    let limit = match chance.below(8) {
        0 => chance.below(102) as u32,
        1 => chance.one_of(&LIMITS),
        2 | 3 => 20,
        _ => 100,
    };
    Input { words, limit, way }
}

fn mixed_words(chance: &mut Chance) -> (Words, u32) {
    let way = way(chance);
    let words = match chance.below(20) {
        0..=8 => ordinary(way, chance),
        9..=11 => return true_arc(&Frame::any(chance), chance),
        12 => true_arc(&Frame::any(chance), chance).0,
        13 => by_the_clock(chance),
        14 => ill_timed(ordinary(way, chance), way, chance),
        15 => timed(narrow(chance), way, chance),
        16 => legs::long_arc(way, chance),
        17 => chance.one_of(&[legs::huge_or_tiny, legs::beyond_time])(way, chance),
        18 => motion::one_changed(ordinary(way, chance), chance),
        _ => motion::any_words(chance),
    };
    (words, way)
}

/// The transfer with the largest limit.
pub fn unhurried(words: Words, way: u32) -> Input {
    Input {
        words,
        limit: 100,
        way,
    }
}

/// The rules' two trials: from (1,0,0) to (0,1,0), a quarter of a circle and the rest of it.
pub fn trials() -> [Input; 2] {
    let trial = |dt: f64, way: u32| unhurried(PLAIN.transfer(1.0, [0.0, 1.0], dt), way);
    [
        trial(std::f64::consts::FRAC_PI_2, SHORT),
        trial(4.71238898038469, LONG),
    ]
}

/// Each number not finite in turn, alone and together with what gives 2, 3, both or 23.
fn not_finite(chance: &mut Chance) -> Vec<Input> {
    let mut list = Vec::new();
    for (limit, way) in [(100, SHORT), (100, LONG), (0, SHORT), (100, 2)] {
        let words = ordinary(SHORT, chance);
        for words in [words, with(words, 0, (-1f64).to_bits())] {
            let mut spoilt = spoilt::each(words);
            spoilt.extend(spoilt::each_with_payload(words, chance));
            list.extend(spoilt.into_iter().map(|words| Input { words, limit, way }));
        }
    }
    list
}

/// Each number zero, subnormal, or another edge of binary64.
fn edges_of_numbers(chance: &mut Chance) -> Vec<Input> {
    let mut list = Vec::new();
    for way in [SHORT, LONG] {
        let axes = PLAIN.transfer(1.5, [0.0, 1.0], 4.0);
        for words in [axes, ordinary(way, chance)] {
            let edges = motion::each_edge(words).into_iter();
            list.extend(edges.map(|words| unhurried(words, way)));
        }
    }
    list
}

/// Each limit, alone and together with what gives 2.
fn every_limit(chance: &mut Chance) -> Vec<Input> {
    let mut list = Vec::new();
    for _ in 0..40 {
        let way = way(chance);
        let words = ordinary(way, chance);
        let bad_mu = chance.one_of(&[0.0, -0.0, -1.0, -5e-324f64]);
        for words in [words, with(words, 0, bad_mu.to_bits())] {
            list.extend(LIMITS.map(|limit| Input { words, limit, way }));
        }
    }
    list
}

/// Each way that there is not, alone and together with what gives another refusal.
fn every_way(chance: &mut Chance) -> Vec<Input> {
    let words = ordinary(SHORT, chance);
    let spoilt = [(0, -1.0), (1, f64::INFINITY), (SPAN, f64::NAN), (SPAN, 0.0)];
    let spoilt = spoilt.map(|(place, number): (usize, f64)| with(words, place, number.to_bits()));
    let mut list = Vec::new();
    for words in [words].into_iter().chain(spoilt) {
        for limit in [100, 0] {
            list.extend(NO_WAYS.map(|way| Input { words, limit, way }));
        }
    }
    list
}

/// dt 0 and -0, and below 0.
fn no_time(chance: &mut Chance) -> Vec<Input> {
    let mut list = Vec::new();
    for _ in 0..60 {
        let way = way(chance);
        let words = ordinary(way, chance);
        let backwards = words[SPAN] | 1 << 63;
        let times = [0, 1 << 63, 1, 1 << 63 | 1, backwards];
        list.extend(times.map(|dt| unhurried(with(words, SPAN, dt), way)));
    }
    list
}

/// Positions that are the same, in line with each other, or opposite, and those beside them.
fn no_angle(chance: &mut Chance) -> Vec<Input> {
    let mut list = Vec::new();
    for _ in 0..60 {
        let words = Frame::any(chance).words([0.0; 3], chance.scale(-9, 9));
        let ratio = chance.scale(-10, 9);
        let factor = chance.one_of(&[1.0, -1.0, 2.0, ratio, -ratio]);
        let mut same = words;
        for i in 1..4 {
            same[3 + i] = (factor * f64::from_bits(words[i])).to_bits();
        }
        let beside = with(same, 4, same[4].wrapping_add_signed(1));
        for way in [SHORT, LONG] {
            list.extend([same, beside].map(|words| unhurried(words, way)));
        }
    }
    list
}

/// Two positions about a body, with some seconds, hours or days.
fn by_the_clock(chance: &mut Chance) -> Words {
    let frame = Frame::real(chance);
    let length = frame.r0 * chance.scale(-3, 2);
    let longest = chance.one_of(&[1_000.0, 10_000.0, 1_000_000.0]);
    frame.transfer(
        length,
        motion::direction(chance),
        chance.between(0.0, longest),
    )
}

/// Positions of about the same direction or opposite, on either side of the least angle.
fn narrow(chance: &mut Chance) -> Words {
    let frame = Frame::any(chance);
    let length = frame.r0 * chance.scale(-3, 2);
    frame.transfer(length, legs::narrow(chance, [-26, -14]), 0.0)
}
