//! Streams of the boxes of a `moov`.

use super::builder::{Builder, Numbers};

/// The codes of boxes in these streams that have none of the 36 types.
pub const OTHER: [&[u8; 4]; 3] = [b"sgpd", b"sbgp", b"udta"];

const UNITY: [u32; 9] = [0x10000, 0, 0, 0, 0x10000, 0, 0, 0, 0x4000_0000];

fn mvhd(b: &mut Builder, n: &mut Numbers) {
    b.full(b"mvhd", 0, 0, |b| {
        b.numbers(&[n.next(), n.next(), 1000, 10_000, 0x10000]);
        b.u16(0x100);
        b.zeros(10);
        b.numbers(&UNITY);
        b.zeros(24);
        b.u32(3);
    });
}

/// Appends the header of track 1, which is video, or of track 2, which is audio.
fn tkhd(b: &mut Builder, n: &mut Numbers, track: u32) {
    b.full(b"tkhd", 0, 3, |b| {
        b.numbers(&[n.next(), n.next(), track, 0, 10_000]);
        b.zeros(8);
        b.u16(0);
        b.u16(track as u16 - 1);
        b.u16(if track == 1 { 0 } else { 0x100 });
        b.u16(0);
        b.numbers(&UNITY);
        b.numbers(&if track == 1 {
            [1280 << 16, 720 << 16]
        } else {
            [0, 0]
        });
    });
}

/// Appends an `mdhd`, with the language `und` for track 1 and `eng` for track 2.
fn mdhd(b: &mut Builder, n: &mut Numbers, track: u32) {
    b.full(b"mdhd", 0, 0, |b| {
        b.numbers(&[n.next(), n.next(), 44_100, 441_000]);
        b.u16(if track == 1 { 0x55c4 } else { 0x15c7 });
        b.u16(0);
    });
}

fn hdlr(b: &mut Builder, kind: &[u8; 4], name: &str) {
    b.full(b"hdlr", 0, 0, |b| {
        b.u32(0);
        b.bytes.extend(kind);
        b.zeros(12);
        b.text(name);
        b.u8(0);
    });
}

fn dinf(b: &mut Builder) {
    b.plain(b"dinf", |b| {
        b.full(b"dref", 0, 0, |b| {
            b.u32(1);
            b.full(b"url ", 0, 1, |_| {});
        });
    });
}

fn random_bytes(b: &mut Builder, n: &mut Numbers, count: u16) {
    b.u16(count);
    for _ in 0..count {
        b.u8(n.next() as u8);
    }
}

fn stsd_of_video(b: &mut Builder, n: &mut Numbers) {
    b.full(b"stsd", 0, 0, |b| {
        b.u32(1);
        b.plain(b"avc1", |b| {
            b.zeros(6);
            b.u16(1);
            b.zeros(16);
            b.u16(1280);
            b.u16(720);
            b.numbers(&[72 << 16, 72 << 16, 0]);
            b.u16(1);
            b.zeros(32);
            b.u16(24);
            b.u16(0xffff);
            b.plain(b"avcC", |b| {
                b.numbers(&[0x0164_001f]);
                b.u8(0xff);
                b.u8(0xe1);
                random_bytes(b, n, 25);
                b.u8(1);
                random_bytes(b, n, 6);
            });
        });
    });
}

fn stsd_of_sound(b: &mut Builder) {
    b.full(b"stsd", 0, 0, |b| {
        b.u32(1);
        b.plain(b"mp4a", |b| {
            b.zeros(6);
            b.u16(1);
            b.zeros(8);
            b.u16(2);
            b.u16(16);
            b.numbers(&[0, 44_100 << 16]);
            b.full(b"esds", 0, 0, |b| {
                for byte in [3, 25, 0, 2, 0, 4, 17, 0x40, 0x15, 0, 0, 0] {
                    b.u8(byte);
                }
                b.numbers(&[128_000, 128_000]);
                for byte in [5, 2, 0x12, 0x10, 6, 0, 0] {
                    b.u8(byte);
                }
            });
        });
    });
}

fn stsz(b: &mut Builder, n: &mut Numbers, samples: u32) {
    b.full(b"stsz", 0, 0, |b| {
        b.numbers(&[0, samples]);
        for _ in 0..samples {
            b.u32(n.between(200, 40_000));
        }
    });
}

fn stco(b: &mut Builder, n: &mut Numbers, chunks: u32) {
    b.full(b"stco", 0, 0, |b| {
        b.u32(chunks);
        let mut offset = 48;
        for _ in 0..chunks {
            b.u32(offset);
            offset += n.between(1_000, 200_000);
        }
    });
}

/// Appends the boxes that a track has before its tables.
fn track_front(b: &mut Builder, n: &mut Numbers, track: u32) {
    tkhd(b, n, track);
    b.table(b"elst", 1, &[10_000, 1024, 0x10000]);
    mdhd(b, n, track);
    if track == 1 {
        hdlr(b, b"vide", "VideoHandler");
        b.full(b"vmhd", 0, 1, |b| b.zeros(8));
        dinf(b);
        stsd_of_video(b, n);
    } else {
        hdlr(b, b"soun", "SoundHandler");
        b.full(b"smhd", 0, 0, |b| b.zeros(4));
        dinf(b);
        stsd_of_sound(b);
    }
}

/// Appends a box of another type, with `bytes` bytes after its header.
fn other(b: &mut Builder, n: &mut Numbers, code: &[u8; 4], bytes: u32) {
    b.plain(code, |b| {
        for _ in 0..bytes {
            b.u8(n.next() as u8);
        }
    });
}

/// Appends a movie of ten seconds of video and audio, with all samples in the tables.
fn whole_movie(b: &mut Builder, n: &mut Numbers) {
    mvhd(b, n);
    track_front(b, n, 1);
    b.table(b"stts", 1, &[250, 512]);
    b.table(b"stss", 3, &[1, 101, 201]);
    let offsets: Vec<u32> = (0..200)
        .flat_map(|_| [n.between(1, 3), 512 * n.between(0, 4)])
        .collect();
    b.table(b"ctts", 200, &offsets);
    b.table(b"stsc", 2, &[1, 13, 1, 20, 3, 1]);
    stsz(b, n, 250);
    stco(b, n, 20);
    track_front(b, n, 2);
    b.table(b"stts", 2, &[430, 1024, 1, 512]);
    b.table(b"stsc", 3, &[1, 22, 1, 2, 21, 1, 20, 12, 1]);
    stsz(b, n, 431);
    stco(b, n, 20);
    other(b, n, b"sgpd", 18);
    other(b, n, b"sbgp", 20);
    b.plain(b"data", |b| {
        b.numbers(&[1, 0]);
        b.text("Lavf60.16.100");
    });
    other(b, n, b"udta", 90);
}

/// Appends the movie of a file of fragments, with empty tables.
fn empty_movie(b: &mut Builder, n: &mut Numbers) {
    mvhd(b, n);
    for track in [1, 2] {
        track_front(b, n, track);
        b.table(b"stts", 0, &[]);
        b.table(b"stsc", 0, &[]);
        stsz(b, n, 0);
        stco(b, n, 0);
    }
    b.full(b"mehd", 1, 0, |b| b.u64(10_000));
    for track in [1, 2] {
        b.full(b"trex", 0, 0, |b| b.numbers(&[track, 1, 0, 0, 0]));
    }
    other(b, n, b"udta", 90);
}

/// Returns a stream of `count` whole movies and `count` empty ones in turn, without the containers around their boxes.
pub fn movies(count: u32) -> Vec<u8> {
    let mut n = Numbers(4);
    let mut b = Builder::default();
    for _ in 0..count {
        whole_movie(&mut b, &mut n);
        empty_movie(&mut b, &mut n);
    }
    b.bytes
}
