//! Words for the program: `program lines` prints the header and 10,000 word lines for m = 6, t = 3, order 0, random codewords in noise at 4 dB;
//! `program decodes` makes the same decode calls, to be counted by callgrind.
mod channel;
mod library;
use channel::{deviation, receive, Random};
use std::hint::black_box;

const WORDS: usize = 10_000;

fn each_word(mut take: impl FnMut(&[i8])) {
    let mut random = Random::new(1);
    for _ in 0..WORDS {
        let (mut bytes, mut soft) = ([0; 8], [0; 63]);
        library::encode(6, 3, 0, random.below(1 << 45), &mut bytes);
        receive(&mut random, u64::from_le_bytes(bytes), deviation(45.0 / 63.0, 4.0), &mut soft);
        take(&soft);
    }
}

fn print(soft: &[i8]) {
    let values: Vec<String> = soft.iter().map(|v| v.to_string()).collect();
    println!("{}", values.join(" "));
}

fn decode(soft: &[i8]) {
    let (mut bytes, mut figures) = ([0; 8], [0; 3]);
    library::decode(6, 3, 0, 0, soft, &mut bytes, &mut figures);
    black_box((bytes, figures));
}

fn main() {
    match std::env::args().nth(1).as_deref() {
        Some("lines") => {
            println!("6 3 0 0");
            each_word(print);
        }
        _ => each_word(decode),
    }
}
