//! The timing of a declared box and of the same box with hand-written code. The codec has both.

use crate::codec::Mfhd;
use crate::streams::headers;
use crate::timing::{passes, seconds_of_codec, CodecWrite};

/// The number of boxes.
pub const COUNT: u32 = 8_000;

/// The two ways, in the order of the times.
const WAYS: [Mfhd; 2] = [Mfhd::ByHand, Mfhd::Declared];

/// The least seconds of one pass with hand-written code, and with the declared box.
pub struct DeclaredTimes {
    pub read: [f64; 2],
    pub write: [f64; 2],
}

/// Returns the least times of `rounds` rounds.
pub fn measure(rounds: usize) -> DeclaredTimes {
    let bytes = headers(COUNT);
    for way in WAYS {
        let last = u64::from(bytes[bytes.len() - 1]);
        let read = way.read(&bytes, 1);
        assert_eq!(read, u64::from(COUNT) + last, "the boxes are read");
        let written = way.write(&bytes, 1);
        assert_eq!(written, bytes.len() as u64 + last, "the boxes are written");
    }
    let mut read = [f64::MAX; 2];
    let mut write = WAYS.map(|way| CodecWrite::of(|times| way.write(&bytes, times)));
    for round in 0..rounds {
        for turn in 0..WAYS.len() {
            let i = (round + turn) % WAYS.len();
            let seconds = seconds_of_codec(passes(read[i]), |times| WAYS[i].read(&bytes, times));
            read[i] = read[i].min(seconds);
            write[i].time(|times| WAYS[i].write(&bytes, times));
        }
    }
    DeclaredTimes {
        read,
        write: write.map(CodecWrite::seconds),
    }
}
