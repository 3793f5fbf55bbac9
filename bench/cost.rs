//! What encode and read cost, read also where it refuses, and decode, proved and in plain C (bench/plain.c), at all 36 codes and orders.
//! `cost` prints the time of each call;
//! under callgrind `cost count` makes each call once a word, between two marks, and `cost FILE` prints instructions and entered patterns too,
//! from the dumps that callgrind writes (bench/counts.rs). Of plain C's two versions the better one is printed, cell by cell. Every answer is
//! compared: it fails where one differs.
mod cells;
mod channel;
mod counts;
mod library;
mod plain;
mod tables;
mod times;
use cells::{cells, Call, Cell, Word, LARGEST};
use channel::Random;
use plain::{Answer, Version};
use times::Clock;

const COUNTED: usize = 64; // words of a code that instructions are counted on, the same at each order
const ODD: usize = 256; // words of a cell that are only compared
const PASSES: usize = 400; // over all cells, so that a while in which the machine is slow is shared by all of them
const FRESH: usize = 256; // words of a cell in a pass, new ones each time: no branch predictor has seen them
const PROVED: usize = 2; // the place of the proved decode among those of a cell

fn counted(cell: Cell) -> Vec<Word> {
    cell.words(&mut Random::new(u64::from(8 * cell.m + cell.t)), COUNTED)
}

fn decodes(cell: Cell) -> [Call; PROVED + 1] {
    [Call::Plain(Version::Branching, cell), Call::Plain(Version::Straight, cell), Call::Proved(cell)]
}

const CODEC: [Call; 3] = [Call::Encode, Call::Read, Call::Unread];

// encode and read, then the decodes of each cell
fn calls() -> Vec<Call> {
    CODEC.into_iter().chain(cells().into_iter().flat_map(decodes)).collect()
}

fn count() {
    for call in calls() {
        let words = match call {
            Call::Plain(_, cell) | Call::Proved(cell) => counted(cell),
            Call::Encode | Call::Read | Call::Unread => counted(LARGEST),
        };
        counts::marked(|| words.iter().for_each(|word| { std::hint::black_box(call.make(word)); }));
    }
}

// what is found of a cell by running it
struct Found {
    cell: Cell,
    random: Random, // of its fresh words
    clock: Clock,
    candidates: f64, // a word, on those that are counted
    compared: usize,
    differ: usize,
}

impl Found {
    fn new(cell: Cell) -> Found {
        let random = Random::new(u64::from(1000 + 100 * cell.m + 10 * cell.t + cell.order));
        let mut found = Found { cell, random, clock: Clock::new(&decodes(cell)), candidates: 0.0, compared: 0, differ: 0 };
        for word in counted(cell) {
            let answers = decodes(cell).map(|call| call.make(&word));
            found.candidates += f64::from(answers[PROVED].candidates) / COUNTED as f64;
            found.compare(answers);
        }
        found.odd();
        found
    }

    fn compare(&mut self, answers: [Answer; PROVED + 1]) {
        self.compared += 1;
        self.differ += usize::from(answers.iter().any(|answer| *answer != answers[PROVED]));
    }

    // any values, or few so that many are equal, with any number of positions unsent
    fn odd(&mut self) {
        let cell = self.cell;
        let mut random = Random::new(u64::from(2000 + 100 * cell.m + 10 * cell.t + cell.order));
        for _ in 0..ODD {
            let (s, kinds) = (random.below(u64::from(cell.k)) as u32, random.of(&[5, 256]));
            let soft: Vec<i8> = (s as usize..cell.n()).map(|_| (random.below(kinds) as i32 - kinds as i32 / 2) as i8).collect();
            let plain = [Version::Branching, Version::Straight].map(|version| cell.plain(version, s, &soft));
            self.compare([plain[0], plain[1], cell.proved(s, &soft)]);
        }
    }

    fn pass(&mut self) {
        let words = self.cell.words(&mut self.random, FRESH);
        let answers = self.clock.take(&words);
        (0..words.len()).for_each(|word| self.compare([0, 1, PROVED].map(|call| answers[call][word])));
    }
}

fn main() {
    plain::start();
    let argument = std::env::args().nth(1);
    if argument.as_deref() == Some("count") {
        return count();
    }
    let (mut codec, mut random) = (Clock::new(&CODEC), Random::new(1));
    let mut found: Vec<Found> = cells().into_iter().map(Found::new).collect();
    for _ in 0..PASSES {
        codec.take(&LARGEST.words(&mut random, FRESH));
        found.iter_mut().for_each(Found::pass);
    }
    tables::print(argument.as_deref(), &codec, &found);
    let (compared, differ) = found.iter().fold((0, 0), |(a, b), f| (a + f.compared, b + f.differ));
    println!("\nanswers of plain C, both versions, and of the proved decode: {} words compared, {differ} differ", tables::grouped(compared as f64));
    std::process::exit(i32::from(differ > 0));
}
