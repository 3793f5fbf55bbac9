//! Prints the tables of docs/ORDERS.md, in a thousand words sent: what each order refuses and hands on wrong, and what a host gets that
//! asks something more of a word before it takes it.
use crate::errors::{Asked, Order, Point, ORDERS};

const ASKED: [Asked; 14] = [
    Asked::Flips(6), Asked::Flips(5), Asked::Flips(4), Asked::Flips(3), Asked::Distance(144), Asked::Distance(120), Asked::Distance(96),
    Asked::Distance(72), Asked::Distance(64), Asked::Distance(56), Asked::Distance(48), Asked::Distance(40), Asked::Distance(32), Asked::Nearest,
];
const ASKED_OF_OTHERS: [Asked; 5] = [Asked::Distance(96), Asked::Distance(48), Asked::Distance(24), Asked::Distance(0), Asked::Nearest];

pub fn thousands(number: u32) -> String {
    if number < 1000 { number.to_string() } else { format!("{},{:03}", thousands(number / 1000), number % 1000) }
}

// as many digits as a million words bear out
fn in_thousand(count: u32, words: u32) -> String {
    let rate = 1000.0 * f64::from(count) / f64::from(words);
    let digits = if count == 0 || rate >= 100.0 { 0 } else if rate >= 10.0 { 1 } else if rate >= 0.1 { 2 } else { 3 };
    format!("{rate:.digits$}")
}

fn row(first: &str, cells: impl Iterator<Item = String>) {
    println!("| {first} |{}", cells.map(|cell| format!(" {cell} |")).collect::<String>());
}

fn head(first: &str, cells: impl Iterator<Item = String> + Clone) {
    row(first, cells.clone());
    println!("|---|{}", "---|".repeat(cells.count()));
}

// a row for each point, named so
fn losses<'a>(first: &str, points: impl Iterator<Item = &'a Point>, name: impl Fn(&Point) -> String) {
    let orders = (0..ORDERS).flat_map(|order| [format!("order {order} refused"), "wrong".into()]);
    head(first, ["more than t bits wrong".into()].into_iter().chain(orders));
    for seen in points {
        let both = |one: &Order| [one.refused, one.wrong.with(Asked::Nothing)];
        let counts = [seen.too_many].into_iter().chain(seen.orders.iter().flat_map(both));
        row(&name(seen), counts.map(|count| in_thousand(count, seen.of.words)));
    }
}

fn said(asked: Asked) -> String {
    match asked {
        Asked::Nothing => "nothing: wrong, right".into(),
        Asked::Flips(most) => format!("flips at most {most}"),
        Asked::Distance(most) => format!("distance at most {most}"),
        Asked::Nearest => "shown to be nearest".into(),
    }
}

// an order at a point, under its name
struct Column<'a> {
    name: String,
    words: u32,
    order: &'a Order,
}

fn pairs(columns: &[Column], asked: Asked, pair: impl Fn(&Order) -> [u32; 2]) {
    let one = |column: &Column| pair(column.order).map(|count| in_thousand(count, column.words)).join(", ");
    row(&said(asked), columns.iter().map(one));
}

fn hosts(columns: &[Column], asked: &[Asked]) {
    head("asked of a word", columns.iter().map(|column| column.name.clone()));
    pairs(columns, Asked::Nothing, |one| [&one.wrong, &one.right].map(|handed| handed.with(Asked::Nothing)));
    for &asked in asked {
        pairs(columns, asked, |one| [one.wrong.with(asked), one.right.with(Asked::Nothing) - one.right.with(asked)]);
    }
}

fn at(points: &[Point], decibels: f64) -> impl Iterator<Item = &Point> {
    points.iter().filter(move |seen| seen.of.decibels == decibels)
}

fn hosts_of_curve(curve: &[Point]) {
    let column = |seen: &Point, order: usize| format!("{} dB order {order}", seen.of.decibels);
    let points = at(curve, 3.0).chain(at(curve, 4.0)).flat_map(|seen| (1..ORDERS).map(move |order| (seen, order)));
    let columns = points.map(|(seen, order)| Column { name: column(seen, order), words: seen.of.words, order: &seen.orders[order] });
    hosts(&columns.collect::<Vec<_>>(), &ASKED);
}

fn hosts_of_others(others: &[Point]) {
    let column = |seen: &Point| format!("({},{})", seen.of.code.n(), seen.of.code.k);
    let columns = at(others, 3.0).map(|seen| Column { name: column(seen), words: seen.of.words, order: &seen.orders[2] });
    hosts(&columns.collect::<Vec<_>>(), &ASKED_OF_OTHERS);
}

fn code_and_decibels(seen: &Point) -> String {
    format!("({},{}), {}", seen.of.code.n(), seen.of.code.k, seen.of.decibels)
}

/// The points of one code, by rising Eb/N0, those of the others, and those of hard-sliced words.
pub fn print(curve: &[Point], others: &[Point], sliced: &[Point]) {
    println!("(63,45), {} words a point: refused and wrong in a thousand words sent\n", thousands(curve[0].of.words));
    losses("dB", curve.iter(), |seen| seen.of.decibels.to_string());
    println!("\nwrong words taken and right words given up, in a thousand sent, by what a host asks of a word that it is handed\n");
    hosts_of_curve(curve);
    println!("\nthe other codes, {} words a point: refused and wrong in a thousand words sent\n", thousands(others[0].of.words));
    losses("code, dB", others.iter(), code_and_decibels);
    println!("\nthe same at 3 dB and order 2, by what a host asks of a word that it is handed\n");
    hosts_of_others(others);
    println!("\nhard-sliced words, {} words a point: refused and wrong in a thousand words sent\n", thousands(sliced[0].of.words));
    losses("code, dB", sliced.iter(), code_and_decibels);
}
