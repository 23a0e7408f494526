//! The tables of one track.

use super::builder::{Builder, Numbers};

/// Returns the runs of a table of `samples` samples. Each run is its length, at most `longest`, and a number that is at
/// least `least` and below `end`.
fn runs(numbers: &mut Numbers, samples: u32, longest: u32, least: u32, end: u32) -> Vec<u32> {
    let mut runs = Vec::new();
    let mut left = samples;
    while left > 0 {
        let length = numbers.between(1, longest + 1).min(left);
        runs.extend([length, numbers.between(least, end)]);
        left -= length;
    }
    runs
}

/// Returns the entries of `stsc` and `stco` for samples of these sizes. The chunks follow one another, with a gap
/// between them.
fn chunks(numbers: &mut Numbers, sizes: &[u32]) -> (Vec<u32>, Vec<u32>) {
    let (mut stsc, mut stco) = (Vec::new(), Vec::new());
    let mut offset = 1_000;
    let mut rest = sizes;
    while !rest.is_empty() {
        let samples = numbers.between(1, 17) as usize;
        stsc.extend([stco.len() as u32 + 1, samples as u32, numbers.between(1, 3)]);
        for _ in 0..numbers.between(1, 9) {
            let (chunk, others) = rest.split_at(samples.min(rest.len()));
            if !chunk.is_empty() {
                stco.push(offset);
                offset += chunk.iter().sum::<u32>() + 8;
                rest = others;
            }
        }
    }
    (stsc, stco)
}

/// Returns the tables of an `stbl` for `samples` samples. A run of `stts` has up to 200 samples, a run of `ctts` up to
/// 4, and a chunk up to 16. Every 48th sample is a sync sample.
pub fn track(samples: u32) -> Vec<u8> {
    let mut numbers = Numbers(11);
    let sizes: Vec<u32> = (0..samples).map(|_| numbers.between(100, 4_000)).collect();
    let (stsc, stco) = chunks(&mut numbers, &sizes);
    let stts = runs(&mut numbers, samples, 200, 500, 1_500);
    let ctts = runs(&mut numbers, samples, 4, 0, 4_000);
    let stss: Vec<u32> = (1..=samples).step_by(48).collect();
    let mut b = Builder::default();
    b.table(b"stts", stts.len() as u32 / 2, &stts);
    b.table(b"ctts", ctts.len() as u32 / 2, &ctts);
    b.table(b"stss", stss.len() as u32, &stss);
    b.table(b"stsc", stsc.len() as u32 / 3, &stsc);
    b.full(b"stsz", 0, 0, |b| {
        b.numbers(&[0, samples]);
        b.numbers(&sizes);
    });
    b.table(b"stco", stco.len() as u32, &stco);
    b.bytes
}
