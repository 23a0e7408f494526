//! The timing of the samples of a track, in order and by their numbers.

use crate::best::samples::{check, Index, Samples};
use crate::boxes::{AnyBox, Tables};
use crate::streams::samples::track;
use crate::{best, codec, naive};
use std::hint::black_box;
use std::time::Instant;

/// The number of samples of the track.
pub const COUNT: u32 = 1_000_000;

/// The distance between two samples that are looked up one after the other, as in `crates/mp4_bench`.
const STRIDE: u32 = 611_953;

/// The number of samples for each sample that a pass looks up.
const ONE_OF: u32 = 10;

/// The number of looked-up samples for each one that the naive look-up is asked for. Each of its look-ups visits half
/// of all runs.
const NAIVE_ONE_OF: usize = 1_000;

/// The number of additional passes in the longer of the codec's two timed calls.
const MORE: u64 = 3;

/// The least seconds for a sample.
pub struct SampleTimes {
    /// Samples in order, with the check of the tables: the codec, and the best effort.
    pub in_order: [f64; 2],
    /// Samples by number: the codec, the best effort, and the naive look-up.
    pub by_number: [f64; 3],
}

/// Returns the numbers of the samples that are looked up, in order.
fn numbers() -> impl Iterator<Item = u32> {
    (1..=u64::from(COUNT / ONE_OF)).map(|turn| (turn * u64::from(STRIDE) % u64::from(COUNT)) as u32)
}

fn best_in_order(tables: Tables) -> u64 {
    check(tables).expect("the tables agree");
    Samples::new(tables).fold(0, |sum, sample| sum.wrapping_add(sample.sum()))
}

fn best_by_number(index: &Index) -> u64 {
    numbers().fold(0, |sum, number| {
        sum.wrapping_add(index.sample(number).unwrap().sum())
    })
}

fn naive_by_number(tables: Tables) -> u64 {
    let found = |number| naive::samples::sample(tables, number).unwrap().sum();
    numbers()
        .step_by(NAIVE_ONE_OF)
        .fold(0, |sum, number| sum.wrapping_add(found(number)))
}

/// Checks that all ways agree on the samples. Panics if they don't.
fn compare(bytes: &[u8], tables: Tables, index: &Index) {
    let sum = best_in_order(tables);
    assert_eq!(
        sum,
        codec::samples_in_order(bytes, 1),
        "the samples in order differ"
    );
    assert_eq!(
        best_by_number(index),
        codec::samples_by_number(bytes, 1),
        "the samples by number differ"
    );
    for (number, sample) in Samples::new(tables).enumerate() {
        assert_eq!(
            Some(sample),
            index.sample(number as u32),
            "an index has another sample"
        );
    }
    for number in numbers().step_by(NAIVE_ONE_OF) {
        let sample = naive::samples::sample(tables, number);
        assert_eq!(
            sample,
            index.sample(number),
            "the naive look-up has another sample"
        );
    }
}

/// Returns the seconds of one pass, after a pass that is not timed.
fn seconds(mut pass: impl FnMut() -> u64) -> f64 {
    black_box(pass());
    let begin = Instant::now();
    black_box(pass());
    begin.elapsed().as_secs_f64()
}

/// The least times of the codec's calls. Each call reads the tables and makes the index, so a call of one pass and a
/// call of `MORE` additional passes are timed.
struct CodecTime {
    once: f64,
    more: f64,
}

impl CodecTime {
    fn time(&mut self, passes: impl Fn(u64) -> u64) {
        self.once = self.once.min(seconds(|| passes(1)));
        self.more = self.more.min(seconds(|| passes(1 + MORE)));
    }

    /// Returns the seconds of one pass.
    fn seconds(&self) -> f64 {
        (self.more - self.once) / MORE as f64
    }
}

/// Returns the least times of `rounds` rounds.
pub fn measure(rounds: usize) -> SampleTimes {
    let bytes = track(COUNT);
    let boxes: Vec<AnyBox> = best::read_boxes(&bytes).expect("the boxes are read");
    let tables = Tables::of(&boxes).expect("all tables are there");
    let index = Index::new(tables);
    compare(&bytes, tables, &index);
    let new = || CodecTime {
        once: f64::MAX,
        more: f64::MAX,
    };
    let (mut in_order, mut by_number) = (new(), new());
    let mut least = [f64::MAX; 3];
    for _ in 0..rounds {
        in_order.time(|times| codec::samples_in_order(&bytes, times));
        by_number.time(|times| codec::samples_by_number(&bytes, times));
        let others = [
            seconds(|| best_in_order(black_box(tables))),
            seconds(|| best_by_number(black_box(&index))),
            seconds(|| naive_by_number(black_box(tables))),
        ];
        for (least, seconds) in least.iter_mut().zip(others) {
            *least = least.min(seconds);
        }
    }
    let each = |seconds: f64| seconds / f64::from(COUNT);
    let looked_up = |seconds: f64| seconds / f64::from(COUNT / ONE_OF);
    let [ordered, found, walked] = least;
    SampleTimes {
        in_order: [each(in_order.seconds()), each(ordered)],
        by_number: [
            looked_up(by_number.seconds()),
            looked_up(found),
            looked_up(walked) * NAIVE_ONE_OF as f64,
        ],
    }
}
