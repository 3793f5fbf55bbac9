//! Random numbers, the same from run to run, and the radio path: a word's bits in noise, as the modem's soft values.
#![allow(dead_code)] // each program uses what it needs

pub struct Random(u64);

impl Random {
    pub fn new(seed: u64) -> Random {
        let mut x = seed.wrapping_mul(0x9e37_79b9_7f4a_7c15);
        x = (x ^ x >> 30).wrapping_mul(0xbf58_476d_1ce4_e5b9);
        x = (x ^ x >> 27).wrapping_mul(0x94d0_49bb_1331_11eb);
        Random((x ^ x >> 31) | 1)
    }

    // xorshift, and a product that mixes the low bits (xorshift64*)
    pub fn bits(&mut self) -> u64 {
        self.0 ^= self.0 >> 12;
        self.0 ^= self.0 << 25;
        self.0 ^= self.0 >> 27;
        self.0.wrapping_mul(0x2545_f491_4f6c_dd1d)
    }

    pub fn below(&mut self, n: u64) -> u64 {
        if n > 1 << 53 { self.bits() % n } else { (self.bits() >> 11) % n }
    }

    pub fn one_in(&mut self, n: u64) -> bool {
        self.below(n) == 0
    }

    pub fn of<T: Copy>(&mut self, values: &[T]) -> T {
        values[self.below(values.len() as u64) as usize]
    }

    fn uniform(&mut self) -> f64 {
        ((self.bits() >> 11) + 1) as f64 / (1u64 << 53) as f64
    }

    // two independent normal numbers (Box and Muller)
    fn normal(&mut self) -> (f64, f64) {
        let (size, turn) = ((-2.0 * self.uniform().ln()).sqrt(), std::f64::consts::TAU * self.uniform());
        (size * turn.cos(), size * turn.sin())
    }
}

/// The deviation of the noise at an Eb/N0 in decibels, for bits sent as +1 and -1 at this rate.
pub fn deviation(rate: f64, decibels: f64) -> f64 {
    (1.0 / (2.0 * rate * 10f64.powf(decibels / 10.0))).sqrt()
}

const SIZE: f64 = 48.0; // of a value without noise

/// Hard decisions: every value keeps its sign, and all have one size.
pub fn slice(soft: &mut [i8]) {
    soft.iter_mut().for_each(|value| *value = if *value < 0 { -SIZE as i8 } else { SIZE as i8 });
}

/// What is received of a word: a bit 0 is sent as +1 and a bit 1 as -1, and rounded to signed bytes.
pub fn receive(random: &mut Random, word: u64, sigma: f64, soft: &mut [i8]) {
    let mut spare = None;
    for (p, value) in soft.iter_mut().enumerate() {
        let noise = spare.take().unwrap_or_else(|| {
            let (now, later) = random.normal();
            spare = Some(later);
            now
        });
        let sent = if word >> p & 1 == 1 { -1.0 } else { 1.0 };
        *value = (SIZE * (sent + sigma * noise)).round().clamp(-128.0, 127.0) as i8;
    }
}
