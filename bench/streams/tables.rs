//! Streams of one table.

use super::builder::{Builder, Numbers};

/// Returns a table of `entries` entries of `width` random numbers each. The numbers `front` precede its count.
fn random(code: &[u8; 4], version: u8, entries: u32, front: &[u32], width: u32) -> Vec<u8> {
    let mut numbers = Numbers(u64::from(u32::from_be_bytes(*code)));
    let mut b = Builder::default();
    b.full(code, version, 0, |b| {
        b.numbers(front);
        b.u32(entries);
        for _ in 0..entries * width {
            b.u32(numbers.next());
        }
    });
    b.bytes
}

/// Returns an `stsc` with runs of chunks of 1 to 16 samples.
fn chunks(entries: u32) -> Vec<u8> {
    let mut numbers = Numbers(2);
    let mut b = Builder::default();
    b.full(b"stsc", 0, 0, |b| {
        b.u32(entries);
        let mut chunk = 1;
        for _ in 0..entries {
            b.numbers(&[chunk, numbers.between(1, 17), 1]);
            chunk += numbers.between(1, 5);
        }
    });
    b.bytes
}

/// Returns a `trun` in which each sample has a duration, a size, flags and a composition time.
fn run(entries: u32) -> Vec<u8> {
    let mut numbers = Numbers(3);
    let mut b = Builder::default();
    b.full(b"trun", 0, 0xf01, |b| {
        b.numbers(&[entries, numbers.next()]);
        for _ in 0..entries * 4 {
            b.u32(numbers.next());
        }
    });
    b.bytes
}

/// The kinds of tables. Each has its name, and a function that returns its stream for a number of entries.
pub const KINDS: [(&str, fn(u32) -> Vec<u8>); 10] = [
    ("stsz", |entries| random(b"stsz", 0, entries, &[0], 1)),
    ("stco", |entries| random(b"stco", 0, entries, &[], 1)),
    ("co64", |entries| random(b"co64", 0, entries, &[], 2)),
    ("stss", |entries| random(b"stss", 0, entries, &[], 1)),
    ("stsc", chunks),
    ("stts", |entries| random(b"stts", 0, entries, &[], 2)),
    ("ctts", |entries| random(b"ctts", 0, entries, &[], 2)),
    ("elst, version 0", |entries| {
        random(b"elst", 0, entries, &[], 3)
    }),
    ("elst, version 1", |entries| {
        random(b"elst", 1, entries, &[], 5)
    }),
    ("trun", run),
];
