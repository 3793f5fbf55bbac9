//! Draws what becomes of words of (63,45) against Eb/N0: `picture WORDS FILE`. Wrong words handed on stand in one panel, words wrong or
//! refused in the other, with the same axes. It prints the tables of docs/ORDERS.md too, and writes the picture to FILE.
mod channel;
mod errors;
mod library;
mod orders;
use errors::{Asked, Asking, Code, Point, ORDERS};
use library::CODES;
use std::fmt::Write;

const DRAWN: Code = Code { m: 6, t: 3, k: 45 };
const SHOWN: u32 = 10; // words of a point that is drawn
const COLOURS: [&str; ORDERS + 1] = ["#c2410c", "#a16207", "#0f766e", "#1d4ed8", "#6b7280"];
const HARD: usize = ORDERS; // the look of the curve that is no order's

// the edges of both panels, and the width of their 6 dB
const TOP: f64 = 96.0;
const BOTTOM: f64 = 456.0;
const SPAN: f64 = 296.0;

struct Curve {
    look: usize,
    points: Vec<(f64, f64)>, // Eb/N0 in decibels, and the share of the words
}

impl Curve {
    fn new(all: &[Point], look: usize, count: impl Fn(&Point) -> u32) -> Curve {
        let shown = all.iter().filter(|seen| count(seen) >= SHOWN);
        Curve { look, points: shown.map(|seen| (seen.of.decibels, f64::from(count(seen)) / f64::from(seen.of.words))).collect() }
    }

    fn name(&self) -> Vec<String> {
        if self.look == HARD { vec!["more than 3".into(), "bits wrong".into()] } else { vec![format!("order {}", self.look)] }
    }
}

struct Panel {
    title: &'static str,
    zero: f64, // where 0 dB stands
    edges: (f64, f64),
    lowest: i32,         // the lowest power of ten on the scale
    names_at_zero: bool, // the names stand at the left ends of the curves
    curves: Vec<Curve>,
}

fn text(x: f64, y: f64, anchor: &str, said: &str) -> String {
    format!("<text x='{x:.1}' y='{y:.1}' text-anchor='{anchor}'>{said}</text>\n")
}

fn line(x1: f64, y1: f64, x2: f64, y2: f64, colour: &str) -> String {
    format!("<path d='M{x1:.1} {y1:.1}L{x2:.1} {y2:.1}' stroke='{colour}'/>\n")
}

// a shape for each curve, so that they are told apart without colour
fn mark(look: usize, x: f64, y: f64) -> String {
    let shape = match look {
        0 => "M-4 0A4 4 0 1 1 4 0A4 4 0 1 1 -4 0Z",
        1 => "M0 -5L4.5 3.5L-4.5 3.5Z",
        2 => "M-3.7 -3.7H3.7V3.7H-3.7Z",
        3 => "M0 -5.2L5.2 0L0 5.2L-5.2 0Z",
        _ => "M-3.5 -3.5L3.5 3.5M-3.5 3.5L3.5 -3.5",
    };
    format!("<path transform='translate({x:.1} {y:.1})' d='{shape}' fill='{0}' stroke='{0}' stroke-width='1.5'/>\n", COLOURS[look])
}

fn stroke(look: usize, points: &[(f64, f64)]) -> String {
    let path: Vec<String> = points.iter().map(|(x, y)| format!("{x:.1} {y:.1}")).collect();
    let dashes = if look == HARD { " stroke-dasharray='6 4'" } else { "" };
    format!("<path d='M{}' fill='none' stroke='{}' stroke-width='2'{dashes}/>\n", path.join("L"), COLOURS[look])
}

impl Panel {
    fn place(&self, (decibels, rate): (f64, f64)) -> (f64, f64) {
        (self.zero + SPAN * decibels / 6.0, TOP + (BOTTOM - TOP) * rate.log10() / f64::from(self.lowest))
    }

    fn scale(&self) -> String {
        let ((left, right), mut out) = (self.edges, String::new());
        for power in self.lowest..=0 {
            for digit in if power < 0 { 1..10 } else { 1..2 } {
                let y = self.place((0.0, f64::from(digit) * 10f64.powi(power))).1;
                out += &line(left, y, right, y, if digit == 1 { "#d1d5db" } else { "#f0f1f3" });
            }
            let number = if power == 0 { "1".into() } else { format!("10<tspan dy='-6' font-size='10'>\u{2212}{}</tspan>", -power) };
            out += &text(left - 8.0, self.place((0.0, 10f64.powi(power))).1 + 4.0, "end", &number);
        }
        for step in 0..=6 {
            let x = self.place((f64::from(step), 1.0)).0;
            out += &line(x, TOP, x, BOTTOM, "#d1d5db");
            out += &text(x, BOTTOM + 20.0, "middle", &step.to_string());
        }
        out
    }

    // nothing lies to the left of order 3, and others end to its right; with 400,000 words or more no name meets a curve
    fn name(&self, curve: &Curve) -> String {
        let end = if self.names_at_zero { curve.points.first() } else { curve.points.last() };
        let Some(&end) = end else { return String::new() };
        let (aside, anchor) = if self.names_at_zero || curve.look == 3 { (-12.0, "end") } else { (12.0, "start") };
        let ((x, y), lines) = (self.place(end), curve.name());
        let first = y + 5.0 - 8.0 * (lines.len() - 1) as f64;
        let written = lines.iter().enumerate().map(|(i, said)| text(x + aside, first + 16.0 * i as f64, anchor, said));
        let clear = "stroke='#ffffff' stroke-width='4' paint-order='stroke'"; // of the lines of the scale
        format!("<g fill='{}' font-weight='600' {clear}>\n{}</g>\n", COLOURS[curve.look], written.collect::<String>())
    }

    fn drawn(&self) -> String {
        let small = |letter| format!("<tspan dy='4' font-size='10'>{letter}</tspan>");
        let below = format!("E{}<tspan dy='-4'>/N</tspan>{}<tspan dx='4' dy='-4'>in dB</tspan>", small('b'), small('0'));
        let mut out = format!("<g font-weight='600'>\n{}</g>\n", text(self.edges.0, TOP - 14.0, "start", self.title));
        out += &self.scale();
        out += &text(self.zero + SPAN / 2.0, BOTTOM + 44.0, "middle", &below);
        for curve in self.curves.iter().filter(|curve| !curve.points.is_empty()) {
            let points: Vec<(f64, f64)> = curve.points.iter().map(|&point| self.place(point)).collect();
            out += &stroke(curve.look, &points);
            points.iter().for_each(|&(x, y)| out += &mark(curve.look, x, y));
        }
        out + &self.curves.iter().map(|curve| self.name(curve)).collect::<String>()
    }
}

fn panels(all: &[Point]) -> [Panel; 2] {
    let wrong = |seen: &Point, order: usize| seen.orders[order].wrong.with(Asked::Nothing);
    let handed = (0..ORDERS).map(|order| Curve::new(all, order, move |seen| wrong(seen, order)));
    let lost = (0..ORDERS).map(|order| Curve::new(all, order, move |seen| seen.orders[order].refused + wrong(seen, order)));
    let (handed, mut lost) = (handed.collect::<Vec<_>>(), lost.collect::<Vec<_>>());
    lost.push(Curve::new(all, HARD, |seen| seen.too_many));
    let rates = handed.iter().chain(&lost).flat_map(|curve| &curve.points).map(|point| point.1);
    let lowest = rates.fold(0.1, f64::min).log10().floor() as i32;
    [
        Panel { title: "Wrong words handed on", zero: 144.0, edges: (66.0, 440.0), lowest, names_at_zero: true, curves: handed },
        Panel { title: "Wrong or refused", zero: 486.0, edges: (486.0, 782.0), lowest, names_at_zero: false, curves: lost },
    ]
}

fn drawn(all: &[Point]) -> String {
    let words = orders::thousands(all[0].of.words);
    let mut out = format!(
        "<svg xmlns='http://www.w3.org/2000/svg' viewBox='0 0 900 556' font-family='system-ui, Helvetica, Arial, sans-serif'\n\
         font-size='14' fill='#1f2937'>\n\
         <title>Words of (63,45) that are handed on wrong, and that are wrong or refused, against Eb/N0, for orders 0 to 3</title>\n\
         <rect width='900' height='556' fill='#ffffff'/>\n\
         <text x='66' y='28' font-size='18' font-weight='600'>Words of (63,45) in noise, orders 0 to 3</text>\n\
         <text x='66' y='50' fill='#4b5563'>{words} words a point, the same for all orders; \
         bits sent as +1 and \u{2212}1 in white Gaussian noise, received as signed bytes</text>\n"
    );
    out += &panels(all).iter().map(Panel::drawn).collect::<String>();
    let _ = writeln!(
        out,
        "<text transform='translate(18 {}) rotate(-90)' text-anchor='middle'>share of the words sent</text>\n\
         <g font-size='12' fill='#4b5563'>\n\
         <text x='66' y='528'>More than 3 bits wrong: hard decisions with more than t = 3 errors. \
         It counts received words and is no decoder\u{2019}s result.</text>\n\
         <text x='66' y='545'>A point at which fewer than {SHOWN} words were counted is left out.</text>\n</g>",
        (TOP + BOTTOM) / 2.0
    );
    out + "</svg>\n"
}

// the code of the picture at 0 to 6 dB in halves; then, with a tenth of the words, the others at three points, and hard-sliced words where an
// order that is left out is not 1
fn asked(words: u32) -> Vec<Asking> {
    let code = |(m, t, k): (u32, u32, u32)| Code { m, t, k };
    let curve = (0..13u32).map(|point| Asking { code: DRAWN, decibels: f64::from(point) / 2.0, words, seed: u64::from(point) + 1, sliced: false });
    let others = CODES.map(code).into_iter().filter(|&other| other != DRAWN).flat_map(|code| [3.0, 5.0, 7.0].map(|decibels| (code, decibels)));
    let others = others.enumerate().map(|(i, (code, decibels))| Asking { code, decibels, words: words / 10, seed: 100 + i as u64, sliced: false });
    let sliced = CODES.map(code).into_iter().filter(|code| code.t > 1).flat_map(|code| [3.0, 5.0, 7.0].map(|decibels| (code, decibels)));
    let sliced = sliced.enumerate().map(|(i, (code, decibels))| Asking { code, decibels, words: words / 10, seed: 200 + i as u64, sliced: true });
    curve.chain(others).chain(sliced).collect()
}

fn main() {
    let arguments: Vec<String> = std::env::args().collect();
    let all = errors::measure_all(&asked(arguments[1].parse().expect("the number of words")));
    let (soft, sliced) = all.split_at(all.iter().filter(|seen| !seen.of.sliced).count());
    let (curve, others) = soft.split_at(soft.iter().filter(|seen| seen.of.code == DRAWN).count());
    orders::print(curve, others, sliced);
    std::fs::write(&arguments[2], drawn(curve)).expect("the picture's file");
}
