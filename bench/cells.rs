//! What is measured: encode at (63,45), read of a good word and of one that it refuses, and decode, in plain C and proved, at each code and
//! order; and the words that they are given.
use crate::channel::{deviation, receive, Random};
use crate::library::{self, CODES};
use crate::plain::{self, Answer, Version};

pub const ORDERS: usize = 4;

/// A code and an order.
#[derive(Clone, Copy)]
pub struct Cell {
    pub m: u32,
    pub t: u32,
    pub k: u32,
    pub order: u32,
}

/// All of them, a code's orders together.
pub fn cells() -> Vec<Cell> {
    CODES.iter().flat_map(|&(m, t, k)| (0..ORDERS as u32).map(move |order| Cell { m, t, k, order })).collect()
}

/// The code of encode and read.
pub const LARGEST: Cell = Cell { m: 6, t: 3, k: 45, order: 0 };

/// A message, its codeword, what is received of it, and a word that read refuses with 10 at the power 2t - 1, where t is above 1.
pub struct Word {
    message: u64,
    sent: [u8; 8],
    soft: Vec<i8>,
    other: [u8; 8],
}

impl Cell {
    pub fn n(&self) -> usize {
        (1 << self.m) - 1
    }

    pub fn code(&self) -> String {
        format!("({},{}) t = {}", self.n(), self.k, self.t)
    }

    /// How many patterns there are: the sum of C(n - 2t, i) for i up to the order.
    pub fn patterns(&self) -> u64 {
        let reliable = self.n() as u64 - 2 * u64::from(self.t);
        let flipping = |i: u64| (0..i).fold(1, |product, j| product * (reliable - j) / (j + 1));
        (0..=u64::from(self.order)).map(flipping).sum()
    }

    /// Random codewords in noise at 4 dB.
    pub fn words(&self, random: &mut Random, count: usize) -> Vec<Word> {
        let sigma = deviation(f64::from(self.k) / self.n() as f64, 4.0);
        let mut one = || {
            let mut word = Word { message: random.below(1 << self.k), sent: [0; 8], soft: vec![0; self.n()], other: [0; 8] };
            library::encode(self.m, self.t, 0, word.message, &mut word.sent);
            word.other = self.unread(word.message);
            receive(random, u64::from_le_bytes(word.sent), sigma, &mut word.soft);
            word
        };
        (0..count).map(|_| one()).collect()
    }

    // a word of the code of t - 1, where there is one, that is none of the code of t: it fails at the power 2t - 1 first. If one is a word of
    // both, the word of the message with another lowest bit is not
    fn unread(&self, message: u64) -> [u8; 8] {
        let mut word = [0; 8];
        for lowest in 0..2 {
            library::encode(self.m, self.t - 1, 0, message ^ lowest, &mut word);
            if library::read(self.m, self.t, 0, &word, &mut []) == 10 {
                break;
            }
        }
        word
    }

    pub fn plain(&self, version: Version, s: u32, soft: &[i8]) -> Answer {
        plain::decode(version, self.m, self.t, s, self.order, soft)
    }

    pub fn proved(&self, s: u32, soft: &[i8]) -> Answer {
        let (mut bytes, mut figures) = ([0; 8], [0; 3]);
        let refusal = library::decode(self.m, self.t, s, self.order, soft, &mut bytes, &mut figures);
        let [distance, flips, candidates] = figures;
        Answer { refusal, distance, flips, candidates, word: u64::from_le_bytes(bytes) }
    }
}

#[derive(Clone, Copy)]
pub enum Call {
    Encode,
    Read,
    Unread, // read, of a word that is not zero at the power 2t - 1
    Plain(Version, Cell),
    Proved(Cell),
}

impl Call {
    pub fn make(self, word: &Word) -> Answer {
        match self {
            Call::Encode => {
                let mut bytes = [0; 8];
                let refusal = library::encode(LARGEST.m, LARGEST.t, 0, word.message, &mut bytes);
                Answer { refusal, word: u64::from_le_bytes(bytes), ..Answer::default() }
            }
            Call::Read => {
                let mut message = [0];
                let refusal = library::read(LARGEST.m, LARGEST.t, 0, &word.sent, &mut message);
                Answer { refusal, word: message[0], ..Answer::default() }
            }
            Call::Unread => {
                let refusal = library::read(LARGEST.m, LARGEST.t, 0, &word.other, &mut [0]);
                assert_eq!(refusal, 10);
                Answer { refusal, ..Answer::default() }
            }
            Call::Plain(version, cell) => cell.plain(version, 0, &word.soft),
            Call::Proved(cell) => cell.proved(0, &word.soft),
        }
    }
}
