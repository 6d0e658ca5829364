//! STEPS, Required velocity: the tests before the first guess, the time at a z, and the velocity.

use crate::answer::{refuse, Answer};
use crate::bytes::{joined, u32_at, words_from_bytes, words_to_bytes};
use crate::conic::{all_finite, dot, finite, inner_root, usable, Problem, Vector, Words};
use crate::search::{End, Search};
use crate::times::Times;
use crate::universal::functions;

/// The bytes of a record: the words, the limit, the way.
pub const RECORD: usize = 72;

/// The far end of the starting bracket.
pub const FAR: f64 = 36.0;
/// The least 1 - |c|.
pub const OPEN: f64 = 1.0 / (1u64 << 20) as f64;

pub const SHORT: u32 = 0;
pub const LONG: u32 = 1;

/// A transfer as it is sent. The words are mu, r1, r2 and dt.
#[derive(Clone, Copy)]
pub struct Input {
    pub words: Words,
    pub limit: u32,
    pub way: u32,
}

impl Input {
    pub fn read(bytes: &[u8]) -> Input {
        Input {
            words: words_from_bytes(bytes),
            limit: u32_at(bytes, 64),
            way: u32_at(bytes, 68),
        }
    }

    pub fn bytes(&self) -> [u8; RECORD] {
        let last = [self.limit, self.way].map(u32::to_le_bytes).concat();
        joined(&words_to_bytes(&self.words), &last)
    }
}

/// The two positions in units of the first one: steps 1 to 6.
pub struct Positions {
    pub f1: f64,
    pub f4: f64,
    pub u: Vector,
    pub d: Vector,
    pub rho: f64,
    pub c: f64,
}

/// The positions and the way between them.
pub struct Transfer {
    pub places: Positions,
    /// A, negative for the long way.
    pub a: f64,
}

/// What a z comes to before its time. A root that is refused is NaN, and so are functions.
struct Reach {
    s: f64,
    y: f64,
    g: f64,
    x: f64,
}

/// A transfer that has passed the tests before the first guess.
pub struct Started {
    pub transfer: Transfer,
    pub search: Search,
}

impl Started {
    pub fn times(&self, z: f64) -> Times {
        Times {
            reached: self.transfer.time(z),
            wanted: self.search.t,
            unit: self.transfer.places.f4,
        }
    }
}

pub fn answer(input: &Input) -> Answer<3> {
    match start(input) {
        Ok(Started { transfer, search }) => {
            search.run(input.limit, |z| transfer.time(z), |z| transfer.departure(z))
        }
        Err(number) => Answer::Refused { number, count: 0 },
    }
}

/// The tests before the first guess, in their order, and the starting bracket.
pub fn start(input: &Input) -> Result<Started, u32> {
    let (places, t) = placed(input)?;
    let transfer = places.by_way(input.way)?;
    let lo = transfer.end(0.0)?;
    refuse(51, t < lo.time)?;
    let hi = transfer.end(FAR)?;
    refuse(52, t > hi.time)?;
    let search = Search { t, lo, hi };
    Ok(Started { transfer, search })
}

/// The tests before that of the angle, in their order: the positions and t. The way comes first, in a
/// record and in a card alike.
pub fn placed(input: &Input) -> Result<(Positions, f64), u32> {
    refuse(23, ![SHORT, LONG].contains(&input.way))?;
    let problem = Problem::of(finite(&input.words).map_err(|_| 1u32)?)?;
    refuse(3, !(1..=100).contains(&input.limit))?;
    let places = Positions::of(problem.mu, problem.r, problem.v)?;
    let t = problem.span / places.f4;
    refuse(6, !t.is_finite())?;
    Ok((places, t))
}

impl Positions {
    /// Refusal 5, of r1 and then of r2, and 6 as far as it does not concern t.
    pub fn of(mu: f64, r1: Vector, r2: Vector) -> Result<Positions, u32> {
        let [r0, m2] = [length(r1)?, length(r2)?];
        let ratio = usable(6, r0 / mu)?;
        let f1 = usable(6, root_or_6(ratio)?)?;
        let f4 = usable(6, r0 * f1)?;
        let u = r1.map(|component| component / r0);
        let e = r2.map(|component| component / m2);
        let d = r2.map(|component| component / r0);
        let rho = m2 / r0;
        let c = dot(u, e);
        refuse(6, ![u, e, d].iter().all(|vector| all_finite(vector)))?;
        refuse(6, !all_finite(&[rho, c]))?;
        Ok(Positions {
            f1,
            f4,
            u,
            d,
            rho,
            c,
        })
    }

    /// Refusal 50, and 6 of A's root.
    pub fn by_way(self, way: u32) -> Result<Transfer, u32> {
        refuse(50, 1.0 - self.c.abs() < OPEN)?;
        let a = root_or_6(self.rho * (1.0 + self.c))?;
        Ok(Transfer {
            places: self,
            a: if way == LONG { -a } else { a },
        })
    }
}

impl Transfer {
    /// T(z).
    pub fn time(&self, z: f64) -> f64 {
        let Reach { s, g, x, .. } = self.reach(z);
        x * x * x * s + self.a * g
    }

    /// The velocity that z comes to, or 6.
    pub fn departure(&self, z: f64) -> Result<Vector, u32> {
        let velocity = self.velocity(z);
        refuse(6, !all_finite(&velocity))?;
        Ok(velocity)
    }

    /// The velocity, untested.
    pub fn velocity(&self, z: f64) -> Vector {
        let Reach { y, g, .. } = self.reach(z);
        let Positions { f1, u, d, .. } = self.places;
        let f = 1.0 - y;
        let g = self.a * g;
        std::array::from_fn(|i| ((d[i] - u[i] * f) / g) / f1)
    }

    fn reach(&self, z: f64) -> Reach {
        let (c, s) = functions(1.0, z).map_or((f64::NAN, f64::NAN), |u| (u.u2, u.u3));
        let k = root_or_nan(c);
        let y = 1.0 + self.places.rho - (self.a * (1.0 - z * s)) / k;
        let g = root_or_nan(y);
        Reach { s, y, g, x: g / k }
    }

    fn end(&self, z: f64) -> Result<End, u32> {
        let time = self.time(z);
        refuse(6, !time.is_finite())?;
        Ok(End { x: z, time })
    }
}

/// The length of a position, after refusal 5.
fn length(r: Vector) -> Result<f64, u32> {
    let square = usable(5, dot(r, r))?;
    usable(5, root_or_6(square)?)
}

fn root_or_6(x: f64) -> Result<f64, u32> {
    inner_root(x).map_err(|_| 6)
}

fn root_or_nan(x: f64) -> f64 {
    inner_root(x).unwrap_or(f64::NAN)
}
