//! Cards as they are sent, without object and epoch: what the verdict reads.

use crate::answer::Answer;
use crate::bytes::{u32_at, u64_at};
use crate::conic::Words;
use crate::kepler::{self, Input, PROBLEM};
use crate::motion::orbit_of;
use crate::times::Times;
use crate::transfer;
use crate::universal::unrefused;
use crate::versions::Version;

pub type State = [u64; 6];
pub type Velocity = [u64; 3];

#[derive(Clone, Copy)]
pub enum Kind {
    Solved,
    Refused,
    Transfer,
}

impl Kind {
    pub fn of(number: u32) -> Option<Kind> {
        [Kind::Solved, Kind::Refused, Kind::Transfer]
            .into_iter()
            .find(|kind| kind.number() == number)
    }

    pub fn number(self) -> u32 {
        match self {
            Kind::Solved => 1,
            Kind::Refused => 2,
            Kind::Transfer => 3,
        }
    }

    /// The bytes of a body without object and epoch: the whole of it in version 1.
    fn bare_length(self) -> usize {
        match self {
            Kind::Solved => 128,
            Kind::Refused => 80,
            Kind::Transfer => 104,
        }
    }

    /// The bytes of a body.
    pub fn length(self, version: Version) -> usize {
        self.bare_length() + version.tag_length()
    }

    /// Where object and epoch stand in a body that has them: behind the problem and its spare, or at a
    /// transfer's end.
    pub fn tag_at(self) -> usize {
        match self {
            Kind::Solved | Kind::Refused => PROBLEM + 4,
            Kind::Transfer => self.bare_length(),
        }
    }

    /// How a listing names it.
    pub fn word(self) -> &'static str {
        match self {
            Kind::Solved | Kind::Transfer => "solved",
            Kind::Refused => "refused",
        }
    }
}

#[derive(Clone, Copy)]
pub struct Card {
    /// Kepler's problem; of a transfer all but its way.
    pub problem: Input,
    pub claim: Claim,
}

/// What a card says of its problem. A spare, or a transfer's way, stands behind the problem.
#[derive(Clone, Copy)]
pub enum Claim {
    Solved {
        spare: u32,
        x: u64,
        state: State,
    },
    Refused {
        spare: u32,
        number: u32,
        last: u32,
    },
    Transfer {
        way: u32,
        z: u64,
        velocity: Velocity,
    },
}

impl Card {
    pub fn solved(problem: Input, x: u64, state: State) -> Card {
        let spare = 0;
        let claim = Claim::Solved { spare, x, state };
        Card { problem, claim }
    }

    pub fn refused(problem: Input, number: u32) -> Card {
        let (spare, last) = (0, 0);
        let claim = Claim::Refused {
            spare,
            number,
            last,
        };
        Card { problem, claim }
    }

    pub fn transfer(input: transfer::Input, z: u64, velocity: Velocity) -> Card {
        let transfer::Input { words, limit, way } = input;
        Card {
            problem: Input { words, limit },
            claim: Claim::Transfer { way, z, velocity },
        }
    }

    /// The transfer of the card, by this way.
    pub fn by_way(&self, way: u32) -> transfer::Input {
        let Input { words, limit } = self.problem;
        transfer::Input { words, limit, way }
    }

    /// The problem as Kepler answers it.
    pub fn own(problem: Input) -> Card {
        match kepler::answer(&problem) {
            Answer::Solved { x, state, .. } => {
                Card::solved(problem, x.to_bits(), state.map(f64::to_bits))
            }
            Answer::Refused { number, .. } | Answer::RefusedWithBracket { number, .. } => {
                Card::refused(problem, number)
            }
        }
    }

    /// The problem as solved at x, whether or not that is right: with the state that unfolds there,
    /// or, where the problem has no orbit, with its own r and v.
    pub fn at(problem: Input, x: f64) -> Card {
        let state = match orbit_of(&problem.words) {
            Some(orbit) => {
                let u = unrefused(x, orbit.alpha);
                orbit.state(u.u1, u.u2, orbit.radius(&u)).map(word)
            }
            None => own_state(&problem.words),
        };
        Card::solved(problem, word(x), state)
    }

    /// The transfer as solved at z, whether or not that is right: with the velocity that z comes to,
    /// or, where the transfer is refused before, with its own r2.
    pub fn transfer_at(input: transfer::Input, z: f64) -> Card {
        let velocity = match transfer::start(&input) {
            Ok(transfer::Started { transfer, .. }) => transfer.velocity(z).map(word),
            Err(_) => std::array::from_fn(|i| input.words[4 + i]),
        };
        Card::transfer(input, word(z), velocity)
    }

    /// The times at the card's x, or z. None where it has neither, or its problem or transfer is refused
    /// before the first guess.
    pub fn times(&self) -> Option<Times> {
        match self.claim {
            Claim::Solved { x, .. } => {
                let started = kepler::start(&self.problem).ok()?;
                Some(started.times(f64::from_bits(x)))
            }
            Claim::Transfer { way, z, .. } => {
                let started = transfer::start(&self.by_way(way)).ok()?;
                Some(started.times(f64::from_bits(z)))
            }
            Claim::Refused { .. } => None,
        }
    }

    /// The card with this body, which has neither object nor epoch.
    pub fn read(kind: Kind, body: &[u8]) -> Card {
        let (behind, answer) = (u32_at(body, PROBLEM), PROBLEM + 4);
        let claim = match kind {
            Kind::Solved => Claim::Solved {
                spare: behind,
                x: u64_at(body, answer),
                state: std::array::from_fn(|i| u64_at(body, answer + 8 + 8 * i)),
            },
            Kind::Refused => Claim::Refused {
                spare: behind,
                number: u32_at(body, answer),
                last: u32_at(body, answer + 4),
            },
            Kind::Transfer => Claim::Transfer {
                way: behind,
                z: u64_at(body, answer),
                velocity: std::array::from_fn(|i| u64_at(body, answer + 8 + 8 * i)),
            },
        };
        Card {
            problem: Input::read(body),
            claim,
        }
    }

    pub fn kind(&self) -> Kind {
        match self.claim {
            Claim::Solved { .. } => Kind::Solved,
            Claim::Refused { .. } => Kind::Refused,
            Claim::Transfer { .. } => Kind::Transfer,
        }
    }

    /// The body, without object and epoch.
    pub fn body(&self) -> Vec<u8> {
        let (behind, answer) = match self.claim {
            Claim::Solved { spare, x, state } => (spare, u64s(&[&[x], &state[..]].concat())),
            Claim::Refused {
                spare,
                number,
                last,
            } => (spare, u32s(&[number, last])),
            Claim::Transfer { way, z, velocity } => (way, u64s(&[&[z], &velocity[..]].concat())),
        };
        [&self.problem.bytes()[..], &u32s(&[behind]), &answer].concat()
    }

    /// Whether a spare of the card is not 0. A transfer has none.
    pub fn has_spare(&self) -> bool {
        match self.claim {
            Claim::Solved { spare, .. } => spare != 0,
            Claim::Refused { spare, last, .. } => spare != 0 || last != 0,
            Claim::Transfer { .. } => false,
        }
    }

    /// The card with each spare 0.
    pub fn anew(&self) -> Card {
        match self.claim {
            Claim::Solved { x, state, .. } => Card::solved(self.problem, x, state),
            Claim::Refused { number, .. } => Card::refused(self.problem, number),
            Claim::Transfer { .. } => *self,
        }
    }
}

/// A number's word. Processors differ in the sign of the NaN that they make.
fn word(x: f64) -> u64 {
    if x.is_nan() {
        f64::NAN.to_bits()
    } else {
        x.to_bits()
    }
}

fn own_state(words: &Words) -> State {
    std::array::from_fn(|i| words[1 + i])
}

pub fn u32s(numbers: &[u32]) -> Vec<u8> {
    numbers.iter().flat_map(|n| n.to_le_bytes()).collect()
}

fn u64s(words: &[u64]) -> Vec<u8> {
    words.iter().flat_map(|word| word.to_le_bytes()).collect()
}
