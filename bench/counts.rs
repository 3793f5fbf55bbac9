//! What callgrind counted. Each call stands between two marks, and callgrind writes a dump when the first is entered and when the second is left:
//! that of call number i, from 0, is FILE.(2i + 2).
use std::hint::black_box;

#[no_mangle]
#[inline(never)]
pub extern "C" fn mark_begin() {
    black_box(());
}

#[no_mangle]
#[inline(never)]
pub extern "C" fn mark_end() {
    black_box(());
}

pub fn marked(call: impl FnOnce()) {
    mark_begin();
    call();
    mark_end();
}

pub struct Dump(String);

impl Dump {
    pub fn of(file: &str, call: usize) -> Dump {
        Dump(std::fs::read_to_string(format!("{file}.{}", 2 * call + 2)).expect("callgrind's dump"))
    }

    pub fn instructions(&self) -> f64 {
        let total = self.0.lines().find_map(|l| l.strip_prefix("totals: ").or(l.strip_prefix("summary: "))).expect("its total");
        total.trim().parse().expect("a number")
    }

    /// How often a function is called: 0 if the compiler has taken it into its caller.
    pub fn calls_of(&self, function: &str) -> f64 {
        let ending = format!(") {function}");
        let number = |line: &str| line.split_once('(').and_then(|(_, rest)| rest.split_once(')')).map(|(id, _)| id.to_string());
        let wanted = self.0.lines().find(|l| l.ends_with(&ending)).and_then(number);
        let (mut here, mut calls) = (false, 0.0);
        for line in self.0.lines() {
            if line.starts_with("cfn=") {
                here = wanted.is_some() && number(line) == wanted;
            } else if let (true, Some(rest)) = (here, line.strip_prefix("calls=")) {
                calls += rest.split(' ').next().and_then(|n| n.parse().ok()).unwrap_or(0.0);
            }
        }
        calls
    }
}
