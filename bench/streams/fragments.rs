//! Streams of the boxes of fragments.

use super::builder::{Builder, Numbers};

fn mfhd(b: &mut Builder, sequence_number: u32) {
    b.full(b"mfhd", 0, 0, |b| b.u32(sequence_number));
}

/// Appends a `tfhd` with a default duration, size and flags.
fn tfhd(b: &mut Builder, track: u32, defaults: [u32; 3]) {
    b.full(b"tfhd", 0, 0x02_0038, |b| {
        b.u32(track);
        b.numbers(&defaults);
    });
}

fn tfdt(b: &mut Builder, time: u64) {
    b.full(b"tfdt", 1, 0, |b| b.u64(time));
}

fn trex(b: &mut Builder, n: &mut Numbers) {
    b.full(b"trex", 0, 0, |b| {
        b.numbers(&[1, 1, n.next(), n.next(), n.next()])
    });
}

/// Appends a `trun` of `samples` samples, with a random number for each field that `flags` name.
fn trun(b: &mut Builder, n: &mut Numbers, version: u8, flags: u32, samples: u32) {
    let options = (flags & 0x05).count_ones();
    let columns = (flags & 0xf00).count_ones();
    b.full(b"trun", version, flags, |b| {
        b.u32(samples);
        for _ in 0..options + samples * columns {
            b.u32(n.next());
        }
    });
}

fn repeat(boxes: u32, mut put: impl FnMut(&mut Builder, &mut Numbers, u32)) -> Vec<u8> {
    let mut numbers = Numbers(1);
    let mut b = Builder::default();
    for i in 0..boxes {
        put(&mut b, &mut numbers, i);
    }
    b.bytes
}

/// Returns a stream of `boxes` `mfhd` boxes.
pub fn mfhds(boxes: u32) -> Vec<u8> {
    repeat(boxes, |b, _, i| mfhd(b, i + 1))
}

/// Returns a stream of `boxes` boxes for each type, with its name.
pub fn of_one_type(boxes: u32) -> Vec<(&'static str, Vec<u8>)> {
    vec![
        ("mfhd", mfhds(boxes)),
        (
            "tfhd, three defaults",
            repeat(boxes, |b, n, _| tfhd(b, 1, [n.next(), n.next(), n.next()])),
        ),
        (
            "tfdt, version 1",
            repeat(boxes, |b, n, _| tfdt(b, u64::from(n.next()) << 8)),
        ),
        ("trex", repeat(boxes, |b, n, _| trex(b, n))),
        (
            "trun, no samples",
            repeat(boxes, |b, n, _| trun(b, n, 0, 0x001, 25)),
        ),
        (
            "trun, one sample, one list",
            repeat(boxes, |b, n, _| trun(b, n, 0, 0x201, 1)),
        ),
        (
            "trun, three samples, two lists",
            repeat(boxes, |b, n, _| trun(b, n, 0, 0x305, 3)),
        ),
    ]
}

/// Returns a stream of `boxes` boxes: `mfhd`, `tfhd`, `tfdt` and `trun` of three samples, in turn.
pub fn mix(boxes: u32) -> Vec<u8> {
    repeat(boxes / 4, |b, n, i| {
        mfhd(b, i + 1);
        tfhd(b, 1, [n.next(), n.next(), n.next()]);
        tfdt(b, u64::from(n.next()) << 8);
        trun(b, n, 0, 0x305, 3);
    })
}

/// Returns the contents of `fragments` `moof` boxes, without the `traf` around the boxes of a track. Each has a track
/// of video with 25 to 60 samples, and a track of audio with 43 or 44. In every second `moof` the video samples have a
/// size and a composition time, and the first has flags, as ffmpeg writes them. In the others each video sample has a
/// duration, a size, flags and a composition time, as packagers write them.
pub fn moofs(fragments: u32) -> Vec<u8> {
    repeat(fragments, |b, n, i| {
        mfhd(b, i + 1);
        let second = u64::from(i);
        tfhd(b, 1, [512, n.between(500, 60_000), 0x0101_0000]);
        tfdt(b, second * 12_800);
        let flags = if i % 2 == 0 { 0xa05 } else { 0xf01 };
        trun(b, n, 1, flags, 25 + i % 36);
        tfhd(b, 2, [1024, n.between(200, 400), 0x0200_0000]);
        tfdt(b, second * 44_100);
        let flags = if i % 2 == 0 { 0x201 } else { 0x301 };
        trun(b, n, 0, flags, 43 + i % 2);
    })
}
