//! RULES, Verdicts 5 and 16, and Tally 2: how far a solved card, of either kind, is off its time.

/// T at a card's x, or z, the wanted time t, and f4, the unit of both: that of the card's own problem or
/// transfer.
#[derive(Clone, Copy)]
pub struct Times {
    pub reached: f64,
    pub wanted: f64,
    pub unit: f64,
}

impl Times {
    /// |T - t|, scaled: what acceptance reads.
    pub fn gap(&self) -> f64 {
        (self.reached - self.wanted).abs()
    }

    /// The same in seconds: what mean and worst are made of.
    pub fn residual(&self) -> f64 {
        self.gap() * self.unit
    }
}
