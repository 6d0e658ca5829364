//! The traits of a prediction, a transfer or a z that the gate counts beside its answer, a line each. So a list
//! without the inputs that are to be tried does not pass. Of a transfer nothing counts where the way is
//! none, and angle, radii and times only where the tests before them are passed.

use crate::bytes::words_from_bytes;
use crate::conic::{self, Words};
use crate::series_inputs::PLACES as PLACES_OF_Z;
use crate::transfer::{placed, Input, Positions, FAR, LONG, OPEN, SHORT};
use crate::universal::WIDEST;
use std::cmp::Ordering;
use std::num::FpCategory;

/// A name, and the least number that has it and the least above that has it no more.
pub type Range = (&'static str, f64, f64);

/// The limits that are counted.
const LIMITS: [u32; 4] = [1, 2, 20, 100];

/// The ranges of the second radius in parts of the first one that are counted.
const RATIOS: [Range; 5] = [
    ("ratio below 1e-9", 0.0, 1e-9),
    ("ratio 1e-3 to 0.1", 1e-3, 0.1),
    ("ratio 0.1 to 10", 0.1, 10.0),
    ("ratio 10 to 1e3", 10.0, 1e3),
    ("ratio above 1e9", 1e9, f64::INFINITY),
];

/// The ranges of a z without its sign that are counted.
const SIZES: [Range; 6] = [
    ("size below 1e-100", 0.0, 1e-100),
    ("size 1e-100 to 1e-10", 1e-100, 1e-10),
    ("size 1e-10 to 1", 1e-10, 1.0),
    ("size 1 to 4", 1.0, 4.0),
    ("size 4 to 8", 4.0, 8.0),
    ("size above 8", 8.0, f64::INFINITY),
];

/// How many last places beside a line a number may be.
const PLACES: u64 = 2;

/// Of a problem of Kepler's or of Theta's, which begin alike.
pub fn of_prediction(problem: &[u8]) -> Vec<String> {
    let words = words_from_bytes(problem);
    let spoilt = not_finite(&words).into_iter();
    spoilt
        .flat_map(|one| [one].into_iter().chain(later(&words)))
        .collect()
}

/// What a later test would refuse, where its own numbers are finite: mu, or a radius of 0.
fn later(words: &Words) -> Vec<String> {
    let [mu, x, y, z, ..] = words.map(f64::from_bits);
    let refused = [(2, mu <= 0.0 && mu.is_finite()), (5, [x, y, z] == [0.0; 3])];
    let numbers = refused.into_iter().filter(|(_, holds)| *holds);
    numbers
        .map(|(number, _)| format!("not finite before {number}"))
        .collect()
}

pub fn of_transfer(input: &Input) -> Vec<String> {
    let Some(way) = way(input) else {
        return Vec::new();
    };
    let mut list = vec![way];
    list.extend(limit(input));
    list.extend(not_finite(&input.words));
    if let Ok((places, t)) = placed(input) {
        list.push(angle(&places, input.way));
        list.extend(ratio(&places));
        list.extend(bound(&places, input.way));
        list.extend(times(places, input.way, t));
    }
    list
}

fn way(input: &Input) -> Option<String> {
    match input.way {
        SHORT => Some("short".to_string()),
        LONG => Some("long".to_string()),
        _ => None,
    }
}

fn limit(input: &Input) -> Option<String> {
    let limit = input.limit;
    LIMITS.contains(&limit).then(|| format!("limit {limit}"))
}

/// The places, from 1 on, of the numbers that are not finite, where there are one or two.
fn not_finite(words: &Words) -> Option<String> {
    let places: Vec<u32> = conic::not_finite(words, 1..=8).collect();
    match places[..] {
        [place] => Some(format!("not finite {place} alone")),
        [low, high] => Some(format!("not finite {low} and {high}")),
        _ => None,
    }
}

/// The quarter of a turn in which the angle is. The long way's is 360 degrees less the short one's.
fn angle(places: &Positions, way: u32) -> String {
    let quarter = match (way == LONG, places.c < 0.0) {
        (false, false) => "0 to 90",
        (false, true) => "90 to 180",
        (true, true) => "180 to 270",
        (true, false) => "270 to 360",
    };
    format!("angle {quarter}")
}

fn ratio(places: &Positions) -> Option<String> {
    range_of(&RATIOS, places.rho).map(str::to_string)
}

/// The name of the first range that has this number.
pub fn range_of(ranges: &[Range], x: f64) -> Option<&'static str> {
    let (name, ..) = ranges
        .iter()
        .find(|(_, from, to)| (*from..*to).contains(&x))?;
    Some(name)
}

/// Of a z of C2 and C3: on which side of 4 or -4 it is that it is about, what sort of number it is, and how
/// large.
pub fn of_z(z: f64) -> Vec<String> {
    let lines = [WIDEST, -WIDEST].into_iter();
    let about =
        lines.filter_map(|line| Some(format!("{} {line}", side_within(PLACES_OF_Z, z, line)?)));
    let sort = match z.classify() {
        FpCategory::Nan => Some("NaN"),
        FpCategory::Infinite => Some("infinite"),
        FpCategory::Zero => Some("zero"),
        FpCategory::Subnormal => Some("subnormal"),
        FpCategory::Normal => range_of(&SIZES, z.abs()),
    };
    let front = if z.is_sign_negative() {
        "negative "
    } else {
        ""
    };
    let sort = sort.map(|sort| format!("{front}{sort}"));
    about.chain(sort).collect()
}

/// Whether 1 - |c| is on the bound of 50 or beside it, and near which angle. It is below where |c| is
/// above, and last places count in |c|.
fn bound(places: &Positions, way: u32) -> Option<String> {
    let side = side(1.0 - OPEN, places.c.abs())?;
    let near = match (way == LONG, places.c < 0.0) {
        (false, false) => "0",
        (false, true) => "180 short",
        (true, true) => "180 long",
        (true, false) => "360",
    };
    Some(format!("{side} the bound near {near}"))
}

/// Whether t is on T at an end of the bracket or beside it.
fn times(places: Positions, way: u32, t: f64) -> Vec<String> {
    let Ok(transfer) = places.by_way(way) else {
        return Vec::new();
    };
    [0.0, FAR]
        .into_iter()
        .filter_map(|z| Some(format!("{} T({z})", side(t, transfer.time(z))?)))
        .collect()
}

/// On which side of a line a number is that is on it or a few last places beside it.
pub fn side(x: f64, line: f64) -> Option<&'static str> {
    side_within(PLACES, x, line)
}

/// The same, up to so many last places.
pub fn side_within(places: u64, x: f64, line: f64) -> Option<&'static str> {
    let near = x.to_bits().abs_diff(line.to_bits()) <= places;
    match x.partial_cmp(&line).filter(|_| near && line.is_finite())? {
        Ordering::Less => Some("below"),
        Ordering::Equal => Some("at"),
        Ordering::Greater => Some("above"),
    }
}
