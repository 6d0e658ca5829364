//! Random numbers that are the same on every machine: splitmix64 (Steele, Lea and Flood, 2014).

pub struct Chance(u64);

impl Chance {
    /// The numbers for one place of a seed's row. Seed and place are stirred first, so that two
    /// places share no numbers.
    pub fn at(seed: u64, place: u64) -> Chance {
        Chance(stir(stir(seed).wrapping_add(place)))
    }

    pub fn word(&mut self) -> u64 {
        self.0 = self.0.wrapping_add(0x9e37_79b9_7f4a_7c15);
        stir(self.0)
    }

    /// A number below `bound`. The slight lean to small ones does not matter here.
    pub fn below(&mut self, bound: u64) -> u64 {
        self.word() % bound
    }

    /// One of the things given.
    pub fn one_of<T: Copy>(&mut self, things: &[T]) -> T {
        things[self.below(things.len() as u64) as usize]
    }

    /// 1 or -1.
    pub fn sign(&mut self) -> f64 {
        self.one_of(&[1.0, -1.0])
    }

    /// A number from `lo` on and below `hi`, up to rounding.
    pub fn between(&mut self, lo: f64, hi: f64) -> f64 {
        lo + (hi - lo) * ((self.word() >> 11) as f64 / (1u64 << 53) as f64)
    }

    /// A positive number from 2^lo on and below 2^(hi + 1), each exponent as likely as another.
    /// Among the subnormal ones it loses digits.
    pub fn scale(&mut self, lo: i32, hi: i32) -> f64 {
        let exponent = lo + self.below((hi - lo + 1) as u64) as i32;
        power_of_two(exponent) * self.between(1.0, 2.0)
    }

    /// A number of at most `most` bits, each length about as likely as another. `most` is 1 to 63.
    pub fn short(&mut self, most: u32) -> u64 {
        let bits = 1 + self.below(most as u64);
        self.word() >> (64 - bits)
    }
}

/// 2^exponent, for -1074 to 1023.
pub fn power_of_two(exponent: i32) -> f64 {
    if exponent < -1022 {
        f64::from_bits(1 << (exponent + 1074))
    } else {
        f64::from_bits(((exponent + 1023) as u64) << 52)
    }
}

fn stir(z: u64) -> u64 {
    let z = (z ^ z >> 30).wrapping_mul(0xbf58_476d_1ce4_e5b9);
    let z = (z ^ z >> 27).wrapping_mul(0x94d0_49bb_1331_11eb);
    z ^ z >> 31
}
