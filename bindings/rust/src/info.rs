//! What a file is: its own facts and its tracks.

use std::str;
use std::time::Duration;

use crate::calls::{called, converted, defaults};
use crate::{raw, Error, FourCC};

/// The samples of a track together, in its tables and its fragments. The largest number stands for all larger ones.
#[derive(Clone, Copy, Debug, PartialEq, Eq, Hash)]
#[non_exhaustive]
pub struct SampleTotals {
    /// The number of samples.
    pub sample_count: u64,
    /// The number of key frames.
    pub key_frames: u64,
    /// The number of bytes.
    pub bytes: u64,
    /// The time at which the last sample ends, in the timescale of the media.
    pub end: u64,
    /// The bits of a second, on average; 0 if the samples last for no time.
    pub bit_rate: u64,
    /// The frames of a second, unless there are fewer than two samples.
    pub frame_rate: Option<FrameRate>,
}

/// The frames of a second: `frames` / `units`.
#[derive(Clone, Copy, Debug, PartialEq, Eq, Hash)]
#[non_exhaustive]
pub struct FrameRate {
    /// The number of frames.
    pub frames: u64,
    /// The number of seconds.
    pub units: u64,
    /// True if all distances between frames are equal. Otherwise the rate is an average.
    pub is_constant: bool,
}

/// The pictures of a track.
#[derive(Clone, Copy, Debug, PartialEq, Eq, Hash)]
#[non_exhaustive]
pub struct Picture {
    /// The width in pixels; 0 if the sample entry is too short.
    pub width: u16,
    /// The height in pixels; 0 if the sample entry is too short.
    pub height: u16,
    /// The shape of a pixel, width to height, if it is stated.
    pub pixel_aspect: Option<(u32, u32)>,
    /// The degrees by which a player turns the pictures clockwise: 0, 90, 180 or 270. None if the matrix of the track
    /// does something else.
    pub rotation: Option<u16>,
}

/// The sound of a track.
#[derive(Clone, Copy, Debug, PartialEq, Eq, Hash)]
#[non_exhaustive]
pub struct Sound {
    /// The sample rate in whole hertz; 0 if it is not known.
    pub sample_rate: u64,
    /// The number of channels of the full range; 0 if it is not known.
    pub channels: u32,
    /// The number of channels of low frequencies.
    pub low_channels: u32,
}

/// The encryption of a track (ISO/IEC 23001-7).
#[derive(Clone, Copy, Debug, PartialEq, Eq, Hash)]
#[non_exhaustive]
pub struct Encryption {
    /// The code of the sample entry before it was encrypted, such as `avc1`.
    pub original: Option<FourCC>,
    /// The scheme, such as `cenc`.
    pub scheme: Option<FourCC>,
    /// The default KID.
    pub kid: Option<[u8; 16]>,
}

/// A track that `mp4inspect info` reports. A box with a fault counts as missing.
#[derive(Clone, Debug, PartialEq, Eq, Hash)]
#[non_exhaustive]
pub struct TrackInfo {
    /// The track_ID; 0 if it is not known.
    pub track_id: u32,
    /// The handler of the media, such as `vide`.
    pub handler: Option<FourCC>,
    /// The kind of media: `video`, `audio`, `subtitles` and so on. It is empty if there is no word for the handler.
    pub kind: String,
    /// The code of the first sample entry.
    pub entry: Option<FourCC>,
    /// The codec and its profile as web pages and playlists name them (RFC 6381), such as `avc1.64001f`. It is empty
    /// without a sample entry.
    pub codec: String,
    /// The language: a tag such as `de-CH`, or three letters such as `deu`. It is empty if it is not known.
    pub language: String,
    /// The number of units of time per second of the media; 0 if it is not known.
    pub timescale: u32,
    /// The duration by the edits, or of the media without edits, rounded down to nanoseconds.
    pub duration: Option<Duration>,
    /// The samples, unless the tables can't be read.
    pub samples: Option<SampleTotals>,
    /// The pictures, if the media have some.
    pub picture: Option<Picture>,
    /// The sound, if the media are sound.
    pub sound: Option<Sound>,
    /// The encryption, if the first sample entry is encrypted.
    pub encryption: Option<Encryption>,
}

/// A file that `mp4inspect info` reports. `info` returns it.
#[derive(Clone, Debug, PartialEq, Eq, Hash)]
#[non_exhaustive]
pub struct FileInfo {
    /// The number of bytes.
    pub length: u64,
    /// The brands: the major brand, then the compatible brands.
    pub brands: Vec<FourCC>,
    /// The duration of the longest track, rounded to thousandths of a second.
    pub duration: Duration,
    /// True if the movie may have fragments, or the file has some.
    pub is_fragmented: bool,
    /// True if the file has a movie whose header can be read. It is progressive if it isn't fragmented.
    pub has_movie: bool,
    /// True if the file has pictures or other items, as HEIF.
    pub has_items: bool,
    /// True if the first `moov` is before the first `mdat`. None without one of them.
    pub moov_first: Option<bool>,
    /// The tracks of the first `moov`, in their order.
    pub tracks: Vec<TrackInfo>,
}

/// Returns a part of the texts that the library wrote, with U+FFFD for what is not UTF-8.
pub(crate) fn text_at(texts: &[u8], part: raw::TextPart) -> Result<String, Error> {
    let end = part.position.saturating_add(part.length);
    let mut rest = texts.get(part.position..end).unwrap_or_default();
    let mut text = String::new();
    loop {
        let (valid, wrong) = match str::from_utf8(rest) {
            Ok(_) => (rest, None),
            Err(why) => (&rest[..why.valid_up_to()], Some(why.error_len().unwrap_or(rest.len() - why.valid_up_to()))),
        };
        // U+FFFD has 3 bytes.
        text.try_reserve(valid.len() + 3)?;
        text.push_str(str::from_utf8(valid).unwrap_or_default());
        match wrong {
            None => return Ok(text),
            Some(length) => {
                text.push('\u{FFFD}');
                rest = &rest[valid.len() + length..];
            }
        }
    }
}

/// Returns a number of ticks as a duration, rounded down to nanoseconds. None if a second has no tick.
fn duration_of(ticks: u64, ticks_per_second: u64) -> Option<Duration> {
    let seconds = ticks.checked_div(ticks_per_second)?;
    let rest = u128::from(ticks % ticks_per_second) * 1_000_000_000 / u128::from(ticks_per_second);
    Some(Duration::new(seconds, rest as u32))
}

impl SampleTotals {
    fn of(it: raw::TrackSamples) -> SampleTotals {
        let rate = FrameRate { frames: it.frames, units: it.frame_units, is_constant: it.is_constant != 0 };
        SampleTotals {
            sample_count: it.sample_count,
            key_frames: it.key_frames,
            bytes: it.bytes,
            end: it.end,
            bit_rate: it.bit_rate,
            frame_rate: (it.frame_units != 0).then(|| rate),
        }
    }
}

impl Picture {
    fn of(it: raw::TrackPicture) -> Picture {
        let aspect = (it.h_spacing, it.v_spacing);
        Picture {
            width: it.width,
            height: it.height,
            pixel_aspect: (aspect != (0, 0)).then(|| aspect),
            rotation: (it.has_rotation != 0).then(|| it.rotation),
        }
    }
}

impl Sound {
    fn of(it: raw::TrackSound) -> Sound {
        Sound { sample_rate: it.sample_rate, channels: it.channels, low_channels: it.low_channels }
    }
}

impl Encryption {
    fn of(it: raw::TrackProtection, entry: u32) -> Encryption {
        Encryption {
            original: (it.original != entry).then(|| it.original.into()),
            scheme: FourCC::known(it.scheme),
            kid: (it.has_kid != 0).then(|| it.kid),
        }
    }
}

impl TrackInfo {
    fn of(it: &raw::TrackInfo, texts: &[u8]) -> Result<TrackInfo, Error> {
        Ok(TrackInfo {
            track_id: it.track_id,
            handler: FourCC::known(it.handler),
            kind: text_at(texts, it.kind)?,
            entry: FourCC::known(it.entry),
            codec: text_at(texts, it.codec)?,
            language: text_at(texts, it.language)?,
            timescale: it.timescale,
            duration: duration_of(it.duration, it.duration_scale),
            samples: (it.has_samples != 0).then(|| SampleTotals::of(it.samples)),
            picture: (it.has_picture != 0).then(|| Picture::of(it.picture)),
            sound: (it.has_sound != 0).then(|| Sound::of(it.sound)),
            encryption: (it.protection.is_encrypted != 0).then(|| Encryption::of(it.protection, it.entry)),
        })
    }
}

/// Returns what `mp4inspect info` knows of the bytes of a file and of its tracks. A box with a fault counts as missing:
/// `check_file` returns the faults.
///
/// ```
/// use mp4_box_codec::{info, FourCC};
///
/// let found = info(b"\0\0\0\x14ftypisom\0\0\x02\0avc1")?;
/// assert_eq!(found.brands, [b"isom", b"avc1"].map(FourCC::from));
/// assert_eq!((found.length, found.has_movie, found.tracks.len()), (20, false, 0));
/// # Ok::<(), mp4_box_codec::Error>(())
/// ```
pub fn info(file: &[u8]) -> Result<FileInfo, Error> {
    type Arrays = (Vec<u32>, Vec<raw::TrackInfo>, Vec<u8>);
    // SAFETY: as in `filled`, for three arrays.
    let ((brands, tracks, texts), found) = called(
        |(brands, tracks, texts): &mut Arrays, found: &mut raw::FileInfo| unsafe {
            let (brand_places, track_places, bytes) = (brands.len(), tracks.len(), texts.len());
            raw::mp4_info(
                file.as_ptr(),
                file.len(),
                brands.as_mut_ptr(),
                brand_places,
                tracks.as_mut_ptr(),
                track_places,
                texts.as_mut_ptr(),
                bytes,
                found,
            )
        },
        |found| Ok((defaults(found.brand_count)?, defaults(found.track_count)?, defaults(found.text_bytes)?)),
    )?;
    Ok(FileInfo {
        length: found.length,
        brands: converted(&brands, |it| Ok(FourCC::from(*it)))?,
        duration: Duration::from_millis(found.milliseconds),
        is_fragmented: found.is_fragmented != 0,
        has_movie: found.has_movie != 0,
        has_items: found.has_items != 0,
        moov_first: match found.order {
            raw::MOOV_FIRST => Some(true),
            raw::MOOV_LAST => Some(false),
            _ => None,
        },
        tracks: converted(&tracks, |it| TrackInfo::of(it, &texts))?,
    })
}

#[cfg(test)]
mod tests {
    use super::{duration_of, text_at};
    use crate::raw::TextPart;
    use std::time::Duration;

    #[test]
    fn durations() {
        assert_eq!(duration_of(5, 0), None);
        assert_eq!(duration_of(7, 2), Some(Duration::from_millis(3500)));
        assert_eq!(duration_of(u64::MAX, u64::MAX), Some(Duration::from_secs(1)));
        assert_eq!(duration_of(u64::MAX - 1, u64::MAX), Some(Duration::new(0, 999_999_999)));
        assert_eq!(duration_of(u64::MAX, 1), Some(Duration::from_secs(u64::MAX)));
    }

    #[test]
    fn texts() {
        let part = |position, length| TextPart { position, length };
        assert_eq!(text_at(b"ab\xFFd", part(1, 2)).unwrap(), "b\u{FFFD}");
        assert_eq!(text_at(b"ab", part(2, 0)).unwrap(), "");
        assert_eq!(text_at(b"ab", part(1, usize::MAX)).unwrap(), "");
    }
}
