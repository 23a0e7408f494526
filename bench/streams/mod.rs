//! The measured streams. All are in normal form, so that writing gives the bytes that were read.

mod builder;
mod fragments;
mod movies;
pub mod samples;
mod tables;

use builder::{boxes_of, without};
use tables::KINDS;

/// The numbers of entries of a table.
const LENGTHS: [u32; 4] = [1_000, 10_000, 100_000, 1_000_000];

/// The largest times that the codec should take, relative to the best effort.
#[derive(Clone, Copy)]
pub struct Aims {
    pub reading: f64,
    pub writing: f64,
}

pub struct Stream {
    pub name: String,
    /// The number of entries, if the stream is one table.
    pub entries: Option<u32>,
    /// The number of boxes.
    pub boxes: usize,
    pub aims: Option<Aims>,
    /// True if boxes of other types are kept, and false if they are skipped.
    pub is_kept: bool,
    pub bytes: Vec<u8>,
    /// The bytes to which its boxes are written: the stream without the boxes that are skipped.
    pub written: Vec<u8>,
}

impl Stream {
    fn new(name: &str, bytes: Vec<u8>) -> Stream {
        Stream {
            name: name.to_owned(),
            entries: None,
            boxes: boxes_of(&bytes).count(),
            aims: None,
            is_kept: false,
            written: bytes.clone(),
            bytes,
        }
    }

    fn with_aims(self, reading: f64, writing: f64) -> Stream {
        let aims = Some(Aims { reading, writing });
        Stream { aims, ..self }
    }
}

/// Returns all streams: the tables of each length, and then small boxes.
pub fn all() -> Vec<Stream> {
    LENGTHS
        .into_iter()
        .flat_map(|entries| (0..KINDS.len()).map(move |kind| table(entries, kind)))
        .chain(small())
        .collect()
}

/// Returns the stream at index `place` of `all`, without building the tables of other lengths or kinds.
pub fn nth(place: usize) -> Stream {
    match LENGTHS.get(place / KINDS.len()) {
        Some(entries) => table(*entries, place % KINDS.len()),
        None => small().swap_remove(place - LENGTHS.len() * KINDS.len()),
    }
}

/// Returns a stream of one table with `entries` entries. `elst` has two kinds, for its two versions.
fn table(entries: u32, kind: usize) -> Stream {
    let (name, bytes) = KINDS[kind];
    let mut stream = Stream::new(name, bytes(entries));
    stream.entries = Some(entries);
    if entries == 10_000 {
        stream = stream.with_aims(1.1, 1.0);
    }
    stream
}

/// Returns a stream of `boxes` `mfhd` boxes.
pub fn headers(boxes: u32) -> Vec<u8> {
    fragments::mfhds(boxes)
}

/// Returns streams of boxes of one type, of several types in turn, and of the contents of `moof` and `moov` boxes.
fn small() -> Vec<Stream> {
    let mut streams: Vec<Stream> = fragments::of_one_type(8_000)
        .into_iter()
        .map(|(name, bytes)| Stream::new(name, bytes))
        .collect();
    streams.push(Stream::new("mix", fragments::mix(8_000)).with_aims(1.15, 1.0));
    streams.push(Stream::new("mix", fragments::mix(100_000)).with_aims(1.0, 1.0));
    streams.push(Stream::new("moof content", fragments::moofs(1_000)));
    let movies = movies::movies(150);
    let mut skipping = Stream::new("moov content", movies.clone());
    skipping.written = without(&movies, &movies::OTHER);
    streams.push(skipping);
    let mut keeping = Stream::new("moov content, all kept", movies);
    keeping.is_kept = true;
    streams.push(keeping);
    streams
}
