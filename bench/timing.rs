//! The timing of all ways with a stream, in rounds. A pass that is not timed precedes each timed series of passes.

use crate::boxes::{checksum, AnyBox, KeptBox, Member};
use crate::codec::read_fragments;
use crate::subject::{List, Subject};
use crate::{best, naive};
use std::hint::black_box;
use std::time::Instant;

/// The approximate seconds that a round spends on one way of reading or writing.
pub const SECONDS: f64 = 0.002;

/// The number of bytes above which a stream has fewer rounds.
pub const LARGE: usize = 2_000_000;

pub fn rounds_of_large(rounds: usize) -> usize {
    rounds.div_ceil(4)
}

/// A way of reading or writing lists, in the order of the columns.
#[derive(Clone, Copy)]
enum Way {
    Copy,
    Codec,
    Best,
    Naive,
}

const WAYS: [Way; 4] = [Way::Copy, Way::Codec, Way::Best, Way::Naive];

/// A way of reading small boxes without a list of all types, in the order of the columns.
#[derive(Clone, Copy)]
enum SmallWay {
    /// The codec, one box at a time into the same vector.
    CodecEach,
    /// The best effort, in the same way.
    BestEach,
    /// The codec, into a list of only boxes of fragments.
    Fragments,
}

const SMALL_WAYS: [SmallWay; 3] = [SmallWay::CodecEach, SmallWay::BestEach, SmallWay::Fragments];

/// The least seconds of one pass, for each way.
#[derive(Clone, Copy)]
pub struct Times {
    pub read: [f64; 4],
    pub write: [f64; 4],
    /// The times of `SmallWay`. They are `f64::MAX` for streams of a table. The last one is also `f64::MAX` for streams
    /// that have boxes other than those of fragments.
    pub small: [f64; 3],
}

/// The times of the codec's writing. The codec writes only boxes that it has read in the same call. So one call with
/// one writing is timed, and one with `more` additional writings. The time of `more` writings is the difference between
/// the least times of both calls.
#[derive(Clone, Copy)]
pub struct CodecWrite {
    more: u64,
    least_once: f64,
    least_more: f64,
}

impl CodecWrite {
    /// Returns a state with as many additional writings as take about `SECONDS`, and at least four.
    pub fn of(write: impl Fn(u64) -> u64) -> CodecWrite {
        let least = |times| {
            (0..5)
                .map(|_| seconds_inside(1, || write(times)))
                .fold(f64::MAX, f64::min)
        };
        let pass = ((least(9) - least(1)) / 8.0).max(1e-7);
        CodecWrite {
            more: ((SECONDS / pass).ceil() as u64).max(4),
            least_once: f64::MAX,
            least_more: f64::MAX,
        }
    }

    pub fn time(&mut self, write: impl Fn(u64) -> u64) {
        black_box(write(1));
        let once = seconds_inside(1, || write(1));
        let more = seconds_inside(1, || write(1 + self.more));
        self.least_once = self.least_once.min(once);
        self.least_more = self.least_more.min(more);
    }

    /// Returns the seconds of one writing. Panics if the machine was so uneven that more writings took less time.
    pub fn seconds(self) -> f64 {
        let difference = self.least_more - self.least_once;
        assert!(
            difference > 0.0,
            "more rounds are needed on this machine: {} more writings took {difference} s",
            self.more
        );
        difference / self.more as f64
    }
}

/// Returns the seconds of one of `times` passes, after a pass that is not timed.
fn seconds<T>(times: u64, mut pass: impl FnMut() -> T) -> f64 {
    black_box(pass());
    let begin = Instant::now();
    for _ in 0..times {
        black_box(pass());
    }
    begin.elapsed().as_secs_f64() / times as f64
}

/// Returns the seconds of one of the `times` passes that a single call of `passes` makes.
fn seconds_inside(times: u64, passes: impl FnOnce() -> u64) -> f64 {
    let begin = Instant::now();
    black_box(passes());
    begin.elapsed().as_secs_f64() / times as f64
}

/// Returns the seconds of one of `times` passes that a single call makes, after a pass that is not timed.
pub fn seconds_of_codec(times: u64, passes: impl Fn(u64) -> u64) -> f64 {
    black_box(passes(1));
    seconds_inside(times, || passes(times))
}

fn read_best<M: Member>(bytes: &[u8]) -> u64 {
    checksum(&best::read_boxes::<M>(black_box(bytes)).unwrap())
}

fn each_best<M: Member>(bytes: &[u8]) -> u64 {
    best::sum_of_each::<M>(black_box(bytes), checksum).unwrap()
}

fn read_naive<M: Member>(bytes: &[u8]) -> u64 {
    checksum(&naive::read_boxes::<M>(black_box(bytes)).unwrap())
}

fn write_best<M: Member>(boxes: &[M]) -> Vec<u8> {
    best::write_boxes(black_box(boxes)).unwrap()
}

fn write_naive<M: Member>(boxes: &[M]) -> Vec<u8> {
    naive::write_boxes(black_box(boxes)).unwrap()
}

fn time_reading(way: Way, s: &Subject, times: u64) -> f64 {
    let bytes = &s.stream.bytes[..];
    match (way, &s.boxes) {
        (Way::Copy, _) => seconds(times, || black_box(bytes).to_vec()),
        (Way::Codec, _) => seconds_of_codec(times, |times| s.codec.read(bytes, times)),
        (Way::Best, List::Skipping(_)) => seconds(times, || read_best::<AnyBox>(bytes)),
        (Way::Best, List::Keeping(_)) => seconds(times, || read_best::<KeptBox>(bytes)),
        (Way::Naive, List::Skipping(_)) => seconds(times, || read_naive::<AnyBox>(bytes)),
        (Way::Naive, List::Keeping(_)) => seconds(times, || read_naive::<KeptBox>(bytes)),
    }
}

fn time_small(way: SmallWay, s: &Subject, times: u64) -> f64 {
    let bytes = &s.stream.bytes[..];
    match (way, &s.boxes) {
        (SmallWay::CodecEach, _) => {
            seconds_of_codec(times, |times| s.codec.read_each(bytes, times))
        }
        (SmallWay::BestEach, List::Skipping(_)) => seconds(times, || each_best::<AnyBox>(bytes)),
        (SmallWay::BestEach, List::Keeping(_)) => seconds(times, || each_best::<KeptBox>(bytes)),
        (SmallWay::Fragments, _) => seconds_of_codec(times, |times| read_fragments(bytes, times)),
    }
}

/// Returns the seconds of one writing in plain Rust, or of a copy. Unlike the codec, they need no reading in the same
/// call.
fn time_writing(way: Way, s: &Subject, times: u64) -> f64 {
    let written = &s.stream.written[..];
    match (way, &s.boxes) {
        (Way::Copy, _) => seconds(times, || black_box(written).to_vec()),
        (Way::Codec, _) => unreachable!("the codec's writing is timed with its reading"),
        (Way::Best, List::Skipping(boxes)) => seconds(times, || write_best(boxes)),
        (Way::Best, List::Keeping(boxes)) => seconds(times, || write_best(boxes)),
        (Way::Naive, List::Skipping(boxes)) => seconds(times, || write_naive(boxes)),
        (Way::Naive, List::Keeping(boxes)) => seconds(times, || write_naive(boxes)),
    }
}

/// Returns the number of passes that take about `SECONDS`, if one takes the time `least`.
pub fn passes(least: f64) -> u64 {
    if least == f64::MAX {
        1
    } else {
        (SECONDS / least).ceil() as u64
    }
}

/// Makes one round, and updates the least times. The order of the ways rotates from round to round.
fn round_of(s: &Subject, times: &mut Times, codec_write: &mut CodecWrite, round: usize) {
    for turn in 0..WAYS.len() {
        let way = WAYS[(round + turn) % WAYS.len()];
        let i = way as usize;
        let read = time_reading(way, s, passes(times.read[i]));
        times.read[i] = times.read[i].min(read);
        if matches!(way, Way::Codec) {
            codec_write.time(|times| s.codec.write(&s.stream.bytes, times));
        } else {
            let write = time_writing(way, s, passes(times.write[i]));
            times.write[i] = times.write[i].min(write);
        }
    }
    for turn in 0..SMALL_WAYS.len() {
        let way = SMALL_WAYS[(round + turn) % SMALL_WAYS.len()];
        let is_timed = match way {
            SmallWay::Fragments => s.is_of_fragments,
            _ => s.stream.entries.is_none(),
        };
        if is_timed {
            let i = way as usize;
            let read = time_small(way, s, passes(times.small[i]));
            times.small[i] = times.small[i].min(read);
        }
    }
}

/// Returns the least times of `rounds` rounds, or of a quarter of them if the stream is large.
pub fn measure(s: &Subject, rounds: usize) -> Times {
    let mut times = Times {
        read: [f64::MAX; 4],
        write: [f64::MAX; 4],
        small: [f64::MAX; 3],
    };
    let mut codec_write = CodecWrite::of(|times| s.codec.write(&s.stream.bytes, times));
    let rounds = if s.stream.bytes.len() > LARGE {
        rounds_of_large(rounds)
    } else {
        rounds
    };
    for round in 0..rounds {
        round_of(s, &mut times, &mut codec_write, round);
    }
    times.write[Way::Codec as usize] = codec_write.seconds();
    times
}
