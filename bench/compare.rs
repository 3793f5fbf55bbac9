//! Holds the calls against bench/reference.rs on random inputs: `compare [INPUTS]` prints how many were compared and how many differ.
//! Inputs are of all nine codes, long and short, in order and out of it: unknown codes, large s and order, wrong counts, short memory,
//! words in noise, damaged words, ties. Lent memory is filled before, longer than what is lent, and looked at whole afterwards.
mod channel;
mod library;
mod reference;
use channel::{deviation, receive, Random};
use reference::{all, bytes_of, Code};

const SPARE: usize = 12; // bytes of a word's memory; at most that many are lent

struct Inputs {
    random: Random,
    codes: Vec<Vec<Code>>,
    positions: [u64; 63], // how often read's 9 has each position
    powers: [u64; 6],     // and its 10 each power
}

// what a call is given of a code, and the code where there is one
struct Named<'a> {
    m: u32,
    t: u32,
    s: u32,
    code: Option<&'a Code>,
}

impl Named<'_> {
    // checks 1 and 2
    fn refusal(&self) -> u32 {
        match self.code {
            None => 1,
            Some(code) => if self.s as usize >= code.k { 2 } else { 0 },
        }
    }

    // the sent places and message bits, of a code that is not refused or of one that stands in for it
    fn sizes(&self) -> (usize, usize) {
        self.code.filter(|c| (self.s as usize) < c.k).map_or((15, 11), |c| (c.n - self.s as usize, c.k - self.s as usize))
    }

    fn width(&self) -> usize {
        self.code.map_or(2, |_| bytes_of(self.m))
    }
}

fn first(numbers: &[(bool, u32)]) -> u32 {
    numbers.iter().find(|n| n.0).map_or(0, |n| n.1)
}

fn name<'a>(random: &mut Random, codes: &'a [Vec<Code>]) -> Named<'a> {
    const STRANGE: [u32; 12] = [0, 3, 7, 8, 255, 256 + 4, 65535, 65536 + 1, 65536 + 4, 65536 + 6, 1 << 31, u32::MAX];
    let m = if random.one_in(40) { random.of(&STRANGE) } else { 4 + random.below(3) as u32 };
    let t = if random.one_in(40) { random.of(&STRANGE) } else { 1 + random.below(3) as u32 };
    let code = codes.get(m.wrapping_sub(4) as usize).and_then(|row| row.get(t.wrapping_sub(1) as usize));
    let k = code.map_or(5, |c| c.k) as u64;
    let s = match random.below(20) {
        0..=7 => 0,
        8 => random.of(&[k, k + 1, 63, 255, 256, 65535, 65536, 65537, u64::from(u32::MAX)]) as u32,
        9 => k as u32 - 1,
        _ => random.below(k) as u32,
    };
    Named { m, t, s, code }
}

fn room(random: &mut Random, width: usize) -> usize {
    match random.below(16) {
        0 => random.below(width as u64) as usize,
        1..=3 => SPARE,
        4..=5 => width + 1,
        _ => width,
    }
}

fn memory(random: &mut Random) -> [u8; SPARE] {
    [0; SPARE].map(|_| random.bits() as u8)
}

fn place(word: u64, width: usize, before: &[u8; SPARE]) -> [u8; SPARE] {
    let mut after = *before;
    after[..width].copy_from_slice(&word.to_le_bytes()[..width]);
    after
}

impl Inputs {
    // each gives the product's result, and whether it and all memory is as it has to be
    fn encode(&mut self) -> (u32, bool) {
        let random = &mut self.random;
        let name = name(random, &self.codes);
        let (_, bits) = name.sizes();
        let message = match random.below(12) {
            0 => random.of(&[1 << bits, (1 << bits) + 1, 1 << 63, u64::MAX]),
            1 => random.bits(),
            2 => random.of(&[0, 1, (1 << bits) - 1]),
            _ => random.below(1 << bits),
        };
        let (before, length) = (memory(random), room(random, name.width()));
        let refusal = first(&[(name.refusal() > 0, name.refusal()), (message >> bits > 0, 7), (length < name.width(), 5)]);
        let want = if refusal > 0 { before } else { place(name.code.unwrap().encoded(message), name.width(), &before) };
        let mut word = before;
        let result = library::encode(name.m, name.t, name.s, message, &mut word[..length]);
        (result, result == refusal && word == want)
    }

    fn read(&mut self) -> (u32, bool) {
        let random = &mut self.random;
        let name = name(random, &self.codes);
        let (_, bits) = name.sizes();
        let mut sent = name.code.map_or(0, |code| code.encoded(random.below(1 << bits)));
        let n = name.code.map_or(15, |c| c.n);
        match random.below(12) {
            0 => sent ^= 1 << random.below(n as u64 + 1),                                // a wrong bit, or the pad bit
            1 => sent ^= 1 << random.below(n as u64) | 1 << random.below(n as u64),
            2 => sent = random.bits() >> (63 - n),                                       // any bits
            3 => sent = name.code.map_or(sent, |c| c.encoded(random.below(1 << c.k))),   // a codeword with ones unsent
            4 => sent ^= 1 << n,                                                         // the pad bit alone
            5 => sent ^= (random.bits() >> (63 - n)) & !0 << (n - (name.s as usize).min(n)), // ones unsent, and the pad bit
            6..=7 => {                                                                   // a word that fails at 3 or 5 first
                let weaker = name.code.map_or(0, |c| random.below(c.t as u64) as usize);
                if let (1.., Some(code)) = (weaker, name.code) {
                    let sent_bits = code.n - (name.s as usize).min(code.k - 1);
                    let other = &self.codes[name.m as usize - 4][weaker - 1];
                    sent = other.encoded(random.below(1 << (sent_bits + other.k - other.n)));
                }
            }
            _ => {}
        }
        let (filler, length) = (memory(random), room(random, name.width()));
        let word = place(sent, name.width(), &filler);
        let before = [random.bits(), random.bits(), random.bits()];
        let places = random.below(3) as usize;
        let (fault, at) = name.code.map_or((0, 0), |c| c.fault((name.s as usize).min(c.n), sent));
        let refusal = first(&[(name.refusal() > 0, name.refusal()), (length < name.width(), 5), (fault > 0, fault)]);
        let mut want = before;
        if refusal == 0 && places > 0 {
            want[0] = sent >> (n - name.code.unwrap().k);
        }
        let (lent, mut message) = (word, before);
        let result = library::read(name.m, name.t, name.s, &lent[..length], &mut message[..places]);
        let told = library::fault(name.m, name.t, name.s, &lent[..length]);
        match refusal {
            9 => self.positions[at as usize] += 1,
            10 => self.powers[at as usize] += 1,
            _ => {}
        }
        (result, result == refusal && told == if refusal > 8 { at } else { 0 } && message == want && lent == word)
    }

    fn decode(&mut self) -> (u32, bool) {
        let random = &mut self.random;
        let name = name(random, &self.codes);
        let (places, _) = name.sizes();
        let order = match random.below(100) {
            0..=1 => random.of(&[4, 5, 255, 256, 65535, 65536, 65537, u32::MAX]),
            2..=9 => 3,
            10..=29 => 2,
            30..=64 => 1,
            _ => 0,
        };
        let count = if random.one_in(20) { random.of(&[0, places - 1, places + 1, 15, 31, 63, 64, 256]) } else { places };
        let soft = values(random, &name, count);
        let (before, length) = (memory(random), room(random, name.width()));
        let asked = [0; 5].map(|_| random.bits() as u32);
        let figures_length = random.below(5) as usize;
        let checks = first(&[
            (name.refusal() > 0, name.refusal()), (order > 3, 3), (count != places, 4), (length < name.width(), 5),
        ]);
        let found = name.code.filter(|_| checks == 0).and_then(|code| code.decoded(order, &soft));
        let mut fine = true;
        if let Some(code) = name.code.filter(|c| checks == 0 && c.n == 15) {
            fine = code.by_definition(order, &soft) == found;
        }
        let refusal = first(&[(checks > 0, checks), (found.is_none(), 6)]);
        let (mut want, mut told) = (before, asked);
        if let Some(f) = found {
            want = place(f.word, name.width(), &before);
            let room = figures_length.min(3);
            told[..room].copy_from_slice(&[f.distance, f.flips, f.candidates][..room]);
        }
        let (mut word, mut figures) = (before, asked);
        let result = library::decode(name.m, name.t, name.s, order, &soft, &mut word[..length], &mut figures[..figures_length]);
        fine &= result == refusal && word == want && figures == told;
        (result, fine)
    }
}

// soft values: a codeword in noise, any bytes, few sizes and so many ties, the ends of the range
fn values(random: &mut Random, name: &Named, count: usize) -> Vec<i8> {
    let mut soft = vec![0; count];
    let kind = random.below(8);
    if let (0..=3, Some(code)) = (kind, name.code) {
        let (places, bits) = name.sizes();
        let sent = code.encoded(random.below(1 << bits));
        let sigma = deviation(bits as f64 / places as f64, random.below(7) as f64);
        let heard = count.min(63);
        receive(random, sent, sigma, &mut soft[..heard]);
        return soft;
    }
    for value in soft.iter_mut() {
        *value = match kind {
            4 => random.below(5) as i8 - 2,
            5 => random.of(&[-128, 127, -127, 126]),
            6 => random.of(&[10, 10, 10, 10, 5, -10]),
            _ => random.bits() as i8,
        };
    }
    soft
}

fn main() {
    let inputs: u64 = std::env::args().nth(1).map_or(400_000, |n| n.parse().expect("the number of inputs"));
    let mut all = Inputs { random: Random::new(1), codes: all(), positions: [0; 63], powers: [0; 6] };
    let mut differ = 0;
    let calls: [(&str, fn(&mut Inputs) -> (u32, bool)); 3] = [("encode", Inputs::encode), ("read", Inputs::read), ("decode", Inputs::decode)];
    for (part, (call, one)) in calls.into_iter().enumerate() {
        let share = if part < 2 { inputs / 4 } else { inputs - 2 * (inputs / 4) };
        let (mut results, mut wrong) = ([0u64; 11], 0);
        for i in 0..share {
            all.random = Random::new(3 * i + part as u64 + 1);
            let (result, fine) = one(&mut all);
            results[(result as usize).min(10)] += 1;
            if !fine {
                wrong += 1;
                if wrong <= 3 {
                    eprintln!("{call} differs at input {i}");
                }
            }
        }
        let given: Vec<String> = (0..11).filter(|&r| results[r] > 0).map(|r| format!("{r}: {}", results[r])).collect();
        println!("{call:<6} {share:>7} compared, {wrong} differ; results {}", given.join(", "));
        differ += wrong;
    }
    let positions = all.positions.iter().filter(|&&n| n > 0).count();
    let powers: Vec<String> = (0..6).filter(|&e| all.powers[e] > 0).map(|e| format!("{e}: {}", all.powers[e])).collect();
    println!("       read's 9 at {positions} positions; its 10 at the powers {}", powers.join(", "));
    println!("all    {inputs:>7} compared, {differ} differ");
    std::process::exit(i32::from(differ > 0));
}
