//! A stream with its boxes, which is checked before it is timed.

use crate::boxes::{checksum, AnyBox, KeptBox, Member};
use crate::codec::{read_fragments, Codec};
use crate::streams::Stream;
use crate::{best, naive};
use std::fmt::Debug;

pub struct Subject {
    pub stream: Stream,
    pub codec: Codec,
    pub boxes: List,
    /// True if the stream has only boxes of fragments.
    pub is_of_fragments: bool,
}

/// The boxes of a stream as plain Rust reads them.
pub enum List {
    Skipping(Vec<AnyBox>),
    Keeping(Vec<KeptBox>),
}

impl Subject {
    pub fn new(stream: Stream) -> Subject {
        let is_kept = stream.is_kept;
        let codec = Codec { is_kept };
        let boxes = if is_kept {
            List::Keeping(checked(&stream, codec))
        } else {
            List::Skipping(checked(&stream, codec))
        };
        let is_of_fragments = stream.entries.is_none()
            && read_fragments(&stream.bytes, 1) == codec.read(&stream.bytes, 1);
        Subject {
            stream,
            codec,
            boxes,
            is_of_fragments,
        }
    }
}

/// Checks that all ways agree on `stream`, and returns its boxes. Panics if they don't.
fn checked<M: Member + Debug + PartialEq>(stream: &Stream, codec: Codec) -> Vec<M> {
    let (name, bytes, written) = (&stream.name, &stream.bytes, &stream.written);
    let boxes = best::read_boxes(bytes).expect("the best-effort reader refuses the stream");
    let others = naive::read_boxes(bytes).expect("the naive reader refuses the stream");
    assert!(boxes == others, "{name}: the two Rust readers differ");
    assert_eq!(
        codec.read(bytes, 1),
        checksum(&boxes),
        "{name}: the checksums differ"
    );
    let by_one = best::sum_of_each::<M>(bytes, checksum).expect("the best effort refuses a box");
    assert_eq!(
        by_one,
        checksum(&boxes),
        "{name}: the checksums of each differ"
    );
    assert_eq!(
        codec.read_each(bytes, 1),
        by_one,
        "{name}: the codec reads others one at a time"
    );
    let by_best = best::write_boxes(&boxes).expect("the best-effort writer refuses the boxes");
    assert!(
        by_best == *written,
        "{name}: the best-effort writer gives other bytes"
    );
    let by_naive = naive::write_boxes(&boxes).expect("the naive writer refuses the boxes");
    assert!(
        by_naive == *written,
        "{name}: the naive writer gives other bytes"
    );
    assert!(
        codec.rewrite(bytes) == *written,
        "{name}: the codec writes other bytes"
    );
    let last = written.last().map_or(0, |last| u64::from(*last));
    assert_eq!(
        codec.write(bytes, 1),
        written.len() as u64 + last,
        "{name}: the lengths differ"
    );
    boxes
}
