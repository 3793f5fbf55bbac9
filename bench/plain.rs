//! The decode of bench/plain.c, in the two versions that it is compiled to.

#[derive(Clone, Copy, Default, PartialEq)]
#[repr(C)]
pub struct Answer {
    pub refusal: u32,
    pub distance: u32,
    pub flips: u32,
    pub candidates: u32,
    pub word: u64,
}

extern "C" {
    fn plain_start();
    fn plain_decode(m: u32, t: u32, s: u32, order: u32, soft: *const i8) -> Answer;
    // the same compiled with STRAIGHT
    fn straight_start();
    fn straight_decode(m: u32, t: u32, s: u32, order: u32, soft: *const i8) -> Answer;
}

/// Which of the two that plain.c is compiled to.
#[derive(Clone, Copy, PartialEq)]
pub enum Version {
    Branching, // fewer instructions
    Straight,  // less time
}

/// Fills the tables of both, before the first decode.
pub fn start() {
    unsafe {
        plain_start();
        straight_start();
    }
}

/// It checks nothing: a code of m = 4 to 6 and t = 1 to 3, an order up to 3, and n - s values.
pub fn decode(version: Version, m: u32, t: u32, s: u32, order: u32, soft: &[i8]) -> Answer {
    assert!((4..=6).contains(&m) && (1..=3).contains(&t) && order <= 3 && soft.len() == (1 << m) - 1 - s as usize);
    match version {
        Version::Branching => unsafe { plain_decode(m, t, s, order, soft.as_ptr()) },
        Version::Straight => unsafe { straight_decode(m, t, s, order, soft.as_ptr()) },
    }
}
