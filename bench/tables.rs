//! The tables that bench/cost.rs prints: time, and instructions and entered patterns where there are dumps of callgrind.
use crate::cells::ORDERS;
use crate::counts::Dump;
use crate::times::Clock;
use crate::{Found, CODEC, COUNTED, PROVED};

const PATTERN: &str = "candidates::pattern::pattern"; // the proved function that tries one pattern
const BRANCHING: usize = 0; // the places of plain C's versions among the decodes of a cell
const STRAIGHT: usize = 1;

/// What a cell costs: plain C in its better version, the proved decode, their ratio, and that of plain C's straight version to its branching one.
struct Cost {
    plain: f64,
    proved: f64,
    ratio: f64,
    versions: f64,
}

pub fn print(file: Option<&str>, codec: &Clock, found: &[Found]) {
    print_codec(file, codec);
    let counted: Option<Vec<Cost>> = file.map(|f| (0..found.len()).map(|cell| instructions_of(f, cell)).collect());
    let timed: Vec<Cost> = found.iter().map(|f| time_of(&f.clock)).collect();
    print_cells(counted.as_deref(), &timed, found);
    if let Some(counted) = counted {
        print_range("instructions", &counted);
    }
    print_range("time", &timed);
    if let Some(file) = file {
        print_patterns(file, found);
    }
}

// the number of a cell's call: those of encode and read come first
fn number(cell: usize, call: usize) -> usize {
    CODEC.len() + (PROVED + 1) * cell + call
}

fn instructions(file: &str, number: usize) -> f64 {
    Dump::of(file, number).instructions() / COUNTED as f64
}

fn instructions_of(file: &str, cell: usize) -> Cost {
    let [branching, straight, proved] = [BRANCHING, STRAIGHT, PROVED].map(|call| instructions(file, number(cell, call)));
    let plain = branching.min(straight);
    Cost { plain, proved, ratio: proved / plain, versions: straight / branching }
}

fn time_of(clock: &Clock) -> Cost {
    let versions = clock.ratio(STRAIGHT, BRANCHING);
    let plain = if versions < 1.0 { STRAIGHT } else { BRANCHING };
    Cost { plain: clock.median(plain), proved: clock.median(PROVED), ratio: clock.ratio(PROVED, plain), versions }
}

fn print_codec(file: Option<&str>, codec: &Clock) {
    println!("{:<20}{:>14}{:>14}", "a word", "instructions", "microseconds");
    for (call, title) in ["encode (63,45)", "read (63,45)", "  refused at a^5"].iter().enumerate() {
        let counted = file.map_or("-".into(), |f| grouped(instructions(f, call)));
        println!("{title:<20}{counted:>14}{:>14.3}", codec.median(call));
    }
}

fn print_cells(counted: Option<&[Cost]>, timed: &[Cost], found: &[Found]) {
    println!("\n{:<20}{:>28}{:>28}", "decode, a word", "instructions", "microseconds, medians");
    println!("{:<20}{:>10}{:>10}{:>8}{:>10}{:>10}{:>8}", "", "plain C", "proved", "ratio", "plain C", "proved", "ratio");
    for (cell, f) in found.iter().enumerate() {
        let three = |cost: &Cost| [grouped(cost.plain), grouped(cost.proved), format!("{:.2}", cost.ratio)];
        let [plain, proved, ratio] = counted.map_or_else(|| ["-"; 3].map(String::from), |c| three(&c[cell]));
        print!("{:<20}{plain:>10}{proved:>10}{ratio:>8}", format!("{} o{}", f.cell.code(), f.cell.order));
        println!("{:>10.2}{:>10.2}{:>8.2}", timed[cell].plain, timed[cell].proved, timed[cell].ratio);
    }
}

fn range(ratios: impl Iterator<Item = f64>) -> String {
    let (least, greatest) = ratios.fold((f64::INFINITY, 0.0f64), |(a, b), r| (r.min(a), r.max(b)));
    format!("{least:.2} to {greatest:.2}")
}

fn print_range(what: &str, costs: &[Cost]) {
    let (ratios, above) = (range(costs.iter().map(|c| c.ratio)), costs.iter().filter(|c| c.ratio > 1.0).count());
    println!("{what}: {ratios} times plain C over all {}, {above} above 1", costs.len());
    println!("    plain C with arithmetic in place of its branches on bits: {} times that with them", range(costs.iter().map(|c| c.versions)));
}

// three numbers for each order
fn print_patterns(file: &str, found: &[Found]) {
    println!("\npatterns entered, candidates, and patterns that plain C tries, a word");
    for (code, orders) in found.chunks(ORDERS).enumerate() {
        let three = |(order, f): (usize, &Found)| {
            let entered = Dump::of(file, number(ORDERS * code + order, PROVED)).calls_of(PATTERN) / COUNTED as f64;
            format!("{:>22}", format!("{entered:.1} {:.1} {}", f.candidates, grouped(f.cell.patterns() as f64)))
        };
        let line: String = orders.iter().enumerate().map(three).collect();
        println!("{:<16}{line}", orders[0].cell.code());
    }
}

pub fn grouped(number: f64) -> String {
    let digits = format!("{number:.0}");
    let groups: Vec<&[u8]> = digits.as_bytes().rchunks(3).rev().collect();
    groups.iter().map(|g| std::str::from_utf8(g).unwrap()).collect::<Vec<_>>().join(",")
}
