//! The time of calls on the same words. They take turns, a round of some words each, and who begins changes from round to round, so that all
//! find the machine in the same state.
use crate::cells::{Call, Word};
use crate::plain::Answer;
use std::time::Instant;

const ROUND: usize = 32; // words

pub struct Clock {
    calls: Vec<Call>,
    rounds: Vec<Vec<f64>>, // of each round the microseconds a word, call by call
}

impl Clock {
    pub fn new(calls: &[Call]) -> Clock {
        Clock { calls: calls.to_vec(), rounds: Vec::new() }
    }

    /// Gives each word once to each call, and gives back the answers of each.
    pub fn take(&mut self, words: &[Word]) -> Vec<Vec<Answer>> {
        let count = self.calls.len();
        let mut answers = vec![vec![Answer::default(); words.len()]; count];
        for (number, words) in words.chunks(ROUND).enumerate() {
            let (begin, mut times) = (number * ROUND, vec![0.0; count]);
            for turn in 0..count {
                let call = (self.rounds.len() + turn) % count;
                times[call] = round(self.calls[call], words, &mut answers[call][begin..begin + words.len()]);
            }
            self.rounds.push(times);
        }
        answers
    }

    /// Microseconds a word of a call, the median over the rounds.
    pub fn median(&self, call: usize) -> f64 {
        median(self.rounds.iter().map(|times| times[call]).collect())
    }

    /// One call's time over another's, the median over the rounds.
    pub fn ratio(&self, call: usize, other: usize) -> f64 {
        median(self.rounds.iter().map(|times| times[call] / times[other]).collect())
    }
}

fn round(call: Call, words: &[Word], answers: &mut [Answer]) -> f64 {
    let start = Instant::now();
    for (word, answer) in words.iter().zip(answers) {
        *answer = call.make(word);
    }
    start.elapsed().as_nanos() as f64 / 1000.0 / words.len() as f64
}

fn median(mut values: Vec<f64>) -> f64 {
    values.sort_by(f64::total_cmp);
    (values[(values.len() - 1) / 2] + values[values.len() / 2]) / 2.0
}
