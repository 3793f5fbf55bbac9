//! The coding layer of document 01 again, by other means than the product's, to compare with it.
//!
//! A codeword is known by its syndromes, its values at a^1 to a^2t, and by nothing else: no generator, no table of k. n - k is the
//! number of independent syndromes of single bits; parity is what makes the syndromes zero, by elimination over bits; a pattern's
//! 2t outside symbols are solved for from the syndromes, by a matrix over the field that is inverted once a word. For n = 15 there
//! is `by_definition` as well, which goes over all words and keeps the codewords.

/// A word's syndromes: the value at a^i is byte i - 1.
type Syndromes = u64;

pub struct Code {
    pub t: usize,
    pub n: usize,
    pub k: usize,
    exp: Vec<u8>,
    log: Vec<usize>,
    bit: Vec<Syndromes>,            // of the word with a one at this position alone
    basis: Vec<(Syndromes, u64)>,   // independent syndromes, each with a word of low positions that has them
    words: Vec<u64>,                // every codeword, for n = 15
}

#[derive(Clone, Copy, PartialEq, Debug)]
pub struct Found {
    pub word: u64,
    pub distance: u32,
    pub flips: u32,
    pub candidates: u32,
}

/// The nine codes: `all()[m - 4][t - 1]`.
pub fn all() -> Vec<Vec<Code>> {
    (4..=6).map(|m| (1..=3).map(|t| Code::new(m, t)).collect()).collect()
}

pub fn bytes_of(m: u32) -> usize {
    1 << (m - 3)
}

fn at(syndromes: Syndromes, i: usize) -> u8 {
    (syndromes >> (8 * i)) as u8
}

impl Code {
    fn new(m: u32, t: usize) -> Code {
        let n = (1usize << m) - 1;
        let modulus = [0b10011u32, 0b100101, 0b1000011][m as usize - 4];
        let (mut exp, mut log, mut x) = (vec![0; n], vec![0; n + 1], 1u32);
        for i in 0..n {
            exp[i] = x as u8;
            log[x as usize] = i;
            x <<= 1;
            if x >> m == 1 {
                x ^= modulus;
            }
        }
        let bit: Vec<Syndromes> = (0..n).map(|j| (0..2 * t).map(|i| u64::from(exp[(i + 1) * j % n]) << (8 * i)).sum()).collect();
        let mut code = Code { t, n, k: n, exp, log, bit, basis: vec![], words: vec![] };
        for j in 0..n {
            let (rest, word) = code.reduced(code.bit[j], 1 << j);
            if rest != 0 {
                assert_eq!(code.basis.len(), j, "the low positions are the parity's");
                code.basis.push((rest, word));
            }
        }
        code.k = n - code.basis.len();
        if n == 15 {
            code.words = (0..1 << n).filter(|&w| code.is_codeword(w)).collect();
            assert_eq!(code.words.len(), 1 << code.k);
        }
        code
    }

    // the basis taken off as far as it goes, from the word too: each of it has a highest bit that no later one has
    fn reduced(&self, mut syndromes: Syndromes, mut word: u64) -> (Syndromes, u64) {
        for &(one, of) in &self.basis {
            if syndromes >> (63 - one.leading_zeros()) & 1 == 1 {
                syndromes ^= one;
                word ^= of;
            }
        }
        (syndromes, word)
    }

    fn syndromes(&self, word: u64) -> Syndromes {
        (0..self.n).filter(|j| word >> j & 1 == 1).fold(0, |sum, j| sum ^ self.bit[j])
    }

    pub fn is_codeword(&self, word: u64) -> bool {
        word >> self.n == 0 && self.syndromes(word) == 0
    }

    /// Which of read's checks of a word fails, 8, 9 or 10, and where; zeros where none does. The places are tried one by one, and the syndromes
    /// at every power.
    pub fn fault(&self, s: usize, word: u64) -> (u32, u32) {
        if word >> self.n & 1 == 1 {
            return (8, 0);
        }
        if let Some(p) = (self.n - s..self.n).find(|p| word >> p & 1 == 1) {
            return (9, p as u32);
        }
        let syndromes = self.syndromes(word);
        (0..2 * self.t).find(|&i| at(syndromes, i) != 0).map_or((0, 0), |i| (10, i as u32 + 1))
    }

    pub fn encoded(&self, message: u64) -> u64 {
        let word = message << (self.n - self.k);
        self.reduced(self.syndromes(word), word).1
    }

    fn times(&self, a: u8, b: u8) -> u8 {
        if a == 0 || b == 0 { 0 } else { self.exp[(self.log[a as usize] + self.log[b as usize]) % self.n] }
    }

    fn inverse(&self, a: u8) -> u8 {
        self.exp[(self.n - self.log[a as usize]) % self.n]
    }

    // the inverse of the matrix of a^(ip), i from 1 to 2t down, the places p across: by Gauss and Jordan
    fn inverted(&self, places: &[usize]) -> Vec<Vec<u8>> {
        let size = places.len();
        let mut rows: Vec<Vec<u8>> = (0..size)
            .map(|i| (0..2 * size).map(|c| if c < size { at(self.bit[places[c]], i) } else { u8::from(c - size == i) }).collect())
            .collect();
        for c in 0..size {
            let pivot = (c..size).find(|&r| rows[r][c] != 0).expect("any 2t places fix a word");
            rows.swap(c, pivot);
            let scale = self.inverse(rows[c][c]);
            rows[c] = rows[c].iter().map(|&x| self.times(x, scale)).collect();
            for r in (0..size).filter(|&r| r != c) {
                let factor = rows[r][c];
                rows[r] = (0..2 * size).map(|x| rows[r][x] ^ self.times(factor, rows[c][x])).collect();
            }
        }
        rows.into_iter().map(|row| row[size..].to_vec()).collect()
    }

    /// The nearest candidate and how many there are, or none.
    pub fn decoded(&self, order: u32, soft: &[i8]) -> Option<Found> {
        let received = Received::new(self.n, soft);
        let mut places: Vec<usize> = (0..self.n).collect();
        places.sort_by_key(|&p| (std::cmp::Reverse(received.sizes[p]), p));
        let (reliable, outside) = places.split_at(self.n - 2 * self.t);
        let kept = reliable.iter().fold(0, |word, p| word | received.hard & 1 << p);
        let search = Search { code: self, received: &received, reliable, outside, solve: self.inverted(outside) };
        let mut best = None;
        search.patterns(0, order, kept, self.syndromes(kept), &mut best);
        best
    }

    /// The same by the words of document 01, for n = 15: of all codewords, those that differ in at most `order` reliable places.
    pub fn by_definition(&self, order: u32, soft: &[i8]) -> Option<Found> {
        let received = Received::new(self.n, soft);
        let size = |p: usize| received.sizes[p];
        let before = |q: usize, p: usize| size(q) > size(p) || size(q) == size(p) && q < p;
        let rank = |p: usize| (0..self.n).filter(|&q| before(q, p)).count();
        let reliable = (0..self.n).filter(|&p| rank(p) < self.n - 2 * self.t).fold(0u64, |set, p| set | 1 << p);
        let mut best = None;
        for &word in &self.words {
            if ((word ^ received.hard) & reliable).count_ones() <= order {
                received.better(&mut best, word);
            }
        }
        best
    }
}

struct Received {
    hard: u64,
    sizes: Vec<u32>,
}

impl Received {
    // unsent positions count as the value 127
    fn new(n: usize, soft: &[i8]) -> Received {
        let value = |p: usize| i32::from(*soft.get(p).unwrap_or(&127));
        Received {
            hard: (0..n).filter(|&p| value(p) < 0).fold(0, |word, p| word | 1 << p),
            sizes: (0..n).map(|p| value(p).unsigned_abs()).collect(),
        }
    }

    fn better(&self, best: &mut Option<Found>, word: u64) {
        let wrong = word ^ self.hard;
        let distance = (0..self.sizes.len()).filter(|p| wrong >> p & 1 == 1).map(|p| self.sizes[p]).sum();
        let found = Found { word, distance, flips: wrong.count_ones(), candidates: 1 };
        let nearer = best.filter(|b| (b.distance, b.word) < (distance, word)).unwrap_or(found);
        *best = Some(Found { candidates: best.map_or(0, |b| b.candidates) + 1, ..nearer });
    }
}

struct Search<'a> {
    code: &'a Code,
    received: &'a Received,
    reliable: &'a [usize],
    outside: &'a [usize],
    solve: Vec<Vec<u8>>,
}

impl Search<'_> {
    // this pattern, and each that flips up to `left` more places from the rank `from` on
    fn patterns(&self, from: usize, left: u32, word: u64, syndromes: Syndromes, best: &mut Option<Found>) {
        if let Some(ones) = self.outside_ones(syndromes) {
            self.received.better(best, word | ones);
        }
        for r in from..if left == 0 { from } else { self.reliable.len() } {
            let p = self.reliable[r];
            self.patterns(r + 1, left - 1, word ^ 1 << p, syndromes ^ self.code.bit[p], best);
        }
    }

    // the bits outside that give these syndromes, if the symbols there that do are bits
    fn outside_ones(&self, syndromes: Syndromes) -> Option<u64> {
        let mut ones = 0;
        for (row, p) in self.solve.iter().zip(self.outside) {
            match row.iter().enumerate().fold(0, |sum, (i, &x)| sum ^ self.code.times(x, at(syndromes, i))) {
                0 => {}
                1 => ones |= 1 << p,
                _ => return None,
            }
        }
        Some(ones)
    }
}
