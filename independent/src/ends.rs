//! Where a solved card, of either kind, is near enough: from the first to the last x, on its own side of
//! 0, or z at which |T - t| is at most 2^-36.

use crate::motion::{beside, last};
use crate::solved_cards::LEAST;

pub struct Ends {
    /// The last place that is not near enough yet.
    before: Option<f64>,
    /// Where the card is solved, or nearly so.
    pub solved: f64,
    last: Option<f64>,
}

impl Ends {
    pub fn about(solved: f64, far: f64, near: impl Fn(f64) -> bool) -> Ends {
        Ends {
            before: last(LEAST, solved, |x| !near(x)),
            solved,
            last: last(solved, far, near),
        }
    }

    pub fn first(&self) -> f64 {
        self.before.map_or(self.solved, |x| beside(x, 1))
    }

    pub fn last(&self) -> f64 {
        self.last.unwrap_or(self.solved)
    }

    /// Both ends, as far as there are any, and up to so many places beside each.
    pub fn around(&self, most: i64) -> impl Iterator<Item = f64> {
        let ends = [self.before, self.last].into_iter().flatten();
        ends.flat_map(move |end| (-most..=most).map(move |places| beside(end, places)))
    }
}
