//! What becomes of words in noise, order by order: refused, handed on though another was sent, or handed on right. All orders decode the
//! same words, and a point takes all its words: stopping at so many errors would make the rare ones uncertain.
use crate::channel::{deviation, receive, slice, Random};
use crate::library;
use std::sync::atomic::{AtomicUsize, Ordering};
use std::sync::Mutex;

pub const ORDERS: usize = 4;

#[derive(Clone, Copy, PartialEq)]
pub struct Code {
    pub m: u32,
    pub t: u32,
    pub k: u32,
}

impl Code {
    pub fn n(&self) -> usize {
        (1 << self.m) - 1
    }
}

/// What a host may ask of a word that it is handed.
#[derive(Clone, Copy)]
pub enum Asked {
    Nothing,
    Flips(usize),    // at most so many
    Distance(usize), // at most this
    Nearest,         // that its margin shows every other codeword to be farther
}

/// Words that were handed on, counted by the figures that came with them.
#[derive(Clone)]
pub struct Handed {
    flips: Vec<u32>,
    distances: Vec<u32>,
    nearest: u32,
}

impl Handed {
    fn new(n: usize) -> Handed {
        Handed { flips: vec![0; n + 1], distances: vec![0; 128 * n + 1], nearest: 0 }
    }

    fn add(&mut self, flips: usize, distance: usize, nearest: bool) {
        self.flips[flips] += 1;
        self.distances[distance] += 1;
        self.nearest += u32::from(nearest);
    }

    /// How many of them have what is asked.
    pub fn with(&self, asked: Asked) -> u32 {
        match asked {
            Asked::Nothing => self.flips.iter().sum(),
            Asked::Flips(most) => self.flips[..=most].iter().sum(),
            Asked::Distance(most) => self.distances[..=most].iter().sum(),
            Asked::Nearest => self.nearest,
        }
    }
}

#[derive(Clone)]
pub struct Order {
    pub refused: u32,
    pub wrong: Handed,
    pub right: Handed,
}

impl Order {
    fn add(&mut self, code: Code, order: u32, soft: &[i8], sent: [u8; 8]) {
        let (mut got, mut figures) = ([0; 8], [0; 2]);
        if library::decode(code.m, code.t, 0, order, soft, &mut got, &mut figures) > 0 {
            self.refused += 1;
            return;
        }
        let [distance, flips] = figures.map(|figure| figure as usize);
        let nearest = is_nearest(code, soft, u64::from_le_bytes(got), distance, flips);
        let handed = if got == sent { &mut self.right } else { &mut self.wrong };
        handed.add(flips, distance, nearest);
    }
}

/// What is measured at one Eb/N0, in decibels: so many words of a code, from random numbers of its own.
#[derive(Clone, Copy)]
pub struct Asking {
    pub code: Code,
    pub decibels: f64,
    pub words: u32,
    pub seed: u64,
    pub sliced: bool, // hard-sliced: all values of one size
}

#[derive(Clone)]
pub struct Point {
    pub of: Asking,
    pub too_many: u32, // words received with more than t wrong bits
    pub orders: Vec<Order>,
}

fn agrees(soft: &[i8], word: u64, p: usize) -> bool {
    (soft[p] < 0) == (word >> p & 1 == 1)
}

// the margin of OthersAreFarther, in crates/sent/specs/Claims.antt; nothing is summed where there are more than 2t flips
fn is_nearest(code: Code, soft: &[i8], word: u64, distance: usize, flips: usize) -> bool {
    let mut sizes: Vec<u8> = (0..soft.len()).filter(|&p| agrees(soft, word, p)).map(|p| soft[p].unsigned_abs()).collect();
    sizes.sort_unstable();
    distance < sizes.iter().take((2 * code.t as usize + 1).saturating_sub(flips)).map(|&size| usize::from(size)).sum()
}

fn measure(of: Asking) -> Point {
    let (code, n) = (of.code, of.code.n());
    let (mut random, sigma) = (Random::new(of.seed), deviation(f64::from(code.k) / n as f64, of.decibels));
    let none = Order { refused: 0, wrong: Handed::new(n), right: Handed::new(n) };
    let mut seen = Point { of, too_many: 0, orders: vec![none; ORDERS] };
    let mut soft = vec![0; n];
    for _ in 0..of.words {
        let mut sent = [0; 8];
        assert_eq!(library::encode(code.m, code.t, 0, random.below(1 << code.k), &mut sent), 0);
        let word = u64::from_le_bytes(sent);
        receive(&mut random, word, sigma, &mut soft);
        if of.sliced {
            slice(&mut soft);
        }
        seen.too_many += u32::from((0..n).filter(|&p| !agrees(&soft, word, p)).count() > code.t as usize);
        seen.orders.iter_mut().enumerate().for_each(|(order, one)| one.add(code, order as u32, &soft, sent));
    }
    seen
}

/// All points in the order asked. What is counted does not depend on the threads.
pub fn measure_all(asked: &[Asking]) -> Vec<Point> {
    let (next, all) = (AtomicUsize::new(0), Mutex::new(vec![None; asked.len()]));
    std::thread::scope(|scope| {
        for _ in 0..std::thread::available_parallelism().map_or(1, |n| n.get()) {
            scope.spawn(|| loop {
                let number = next.fetch_add(1, Ordering::Relaxed);
                if number >= asked.len() {
                    return;
                }
                let seen = measure(asked[number]);
                all.lock().unwrap()[number] = Some(seen);
            });
        }
    });
    all.into_inner().unwrap().into_iter().flatten().collect()
}
