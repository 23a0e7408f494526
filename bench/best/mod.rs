//! A best-effort reader and writer, with one bounds test for each run of fields, whole rows in tables, and one pass
//! over a list.

mod entries;
mod flat;
mod fragments;
pub mod samples;
mod sound;
mod tables;
mod texts;

use crate::boxes::*;

fn u16_at(bytes: &[u8], at: usize) -> u16 {
    u16::from_be_bytes(bytes[at..at + 2].try_into().unwrap())
}

fn u32_at(bytes: &[u8], at: usize) -> u32 {
    u32::from_be_bytes(bytes[at..at + 4].try_into().unwrap())
}

fn u64_at(bytes: &[u8], at: usize) -> u64 {
    u64::from_be_bytes(bytes[at..at + 8].try_into().unwrap())
}

fn flags_at(bytes: &[u8], at: usize) -> u32 {
    u32_at(bytes, at) & 0xff_ffff
}

/// Returns `len` bytes starting at offset `at`.
fn fields(bytes: &[u8], at: usize, len: usize) -> Result<&[u8]> {
    let end = at.checked_add(len).ok_or(Error::Io)?;
    bytes.get(at..end).ok_or(Error::Io)
}

/// The header of a box, in the form of 8 bytes or of 16. `start` is the offset of the 8 bytes before the content, and
/// `size` counts from there.
struct Header {
    code: u32,
    start: usize,
    size: u64,
}

fn header(bytes: &[u8], at: usize) -> Result<Header> {
    let head = fields(bytes, at, 8)?;
    let (size, code) = (u32_at(head, 0), u32_at(head, 4));
    if size != 1 {
        let size = u64::from(size);
        return Ok(Header {
            code,
            start: at,
            size,
        });
    }
    let large = u64_at(fields(bytes, at + 8, 8)?, 0);
    test(large == 0 || large >= 16)?;
    Ok(Header {
        code,
        start: at + 8,
        size: large.saturating_sub(8),
    })
}

/// Returns the header of the child at offset `at` of a box of this size, and the bytes starting at the child's `start`.
fn child(bytes: &[u8], at: usize, size: u64) -> Result<(Header, &[u8])> {
    let child = header(bytes, at)?;
    test(child.size <= size)?;
    let rest = &bytes[child.start..];
    Ok((child, rest))
}

/// Appends the box of this code at the front of `b` to `boxes`, where it is built in place. Returns false if it has
/// none of the 36 types.
fn push_any<M: Member>(boxes: &mut Vec<M>, code: u32, b: &[u8], size: u64) -> Result<bool> {
    macro_rules! push {
        ($name:ident, $value:expr) => {
            boxes.push(M::from_any(AnyBox::$name($value?)))
        };
    }
    match code {
        FTYP => push!(Ftyp, texts::read_ftyp(b, size)),
        MVHD => push!(Mvhd, flat::read_mvhd(b)),
        TKHD => push!(Tkhd, flat::read_tkhd(b)),
        MDHD => push!(Mdhd, flat::read_mdhd(b)),
        MEHD => push!(Mehd, flat::read_mehd(b)),
        MFHD => push!(Mfhd, flat::read_mfhd(b)),
        SMHD => push!(Smhd, flat::read_smhd(b)),
        VMHD => push!(Vmhd, flat::read_vmhd(b)),
        TREX => push!(Trex, flat::read_trex(b)),
        TFDT => push!(Tfdt, flat::read_tfdt(b)),
        STCO => push!(Stco, tables::read_stco(b, size)),
        CO64 => push!(Co64, tables::read_co64(b, size)),
        STTS => push!(Stts, tables::read_stts(b, size)),
        CTTS => push!(Ctts, tables::read_ctts(b, size)),
        STSS => push!(Stss, tables::read_stco(b, size)),
        STSZ => push!(Stsz, tables::read_stsz(b, size)),
        STSC => push!(Stsc, tables::read_stsc(b, size)),
        ELST => push!(Elst, tables::read_elst(b, size)),
        TFHD => push!(Tfhd, fragments::read_tfhd(b)),
        TRUN => push!(Trun, fragments::read_trun(b, size)),
        HDLR => push!(Hdlr, texts::read_hdlr(b, size)),
        DATA => push!(Data, texts::read_data(b, size)),
        URL => push!(Url, texts::read_url(b, size)),
        DREF => push!(Dref, texts::read_dref(b, size)),
        DINF => push!(Dinf, texts::read_dinf(b, size)),
        AVCC => push!(AvcC, entries::read_avcc(b)),
        AVC1 => push!(Avc1, entries::read_avc1(b, size)),
        ESDS => push!(Esds, sound::read_esds(b, size)),
        MP4A => push!(Mp4a, sound::read_mp4a(b, size)),
        STSD => push!(Stsd, sound::read_stsd(b, size)),
        EMSG | HVCC | HEV1 | VPCC | VP09 | TX3G => return Err(Error::NotMeasured),
        _ => return Ok(false),
    }
    Ok(true)
}

/// Reads the box at offset `at` and appends it to `boxes`, unless it has another type and `M` skips such boxes. Returns
/// the offset of its end.
fn push_at<M: Member>(boxes: &mut Vec<M>, bytes: &[u8], at: usize) -> Result<usize> {
    let head = header(bytes, at)?;
    let size = if head.size == 0 {
        (bytes.len() - head.start) as u64
    } else {
        head.size
    };
    test(size >= 8)?;
    let end = (head.start as u64)
        .checked_add(size)
        .ok_or(Error::InvalidData)?;
    if end > bytes.len() as u64 {
        return Err(Error::Io);
    }
    if !push_any(boxes, head.code, &bytes[head.start..], size)? {
        let content = &bytes[head.start + 8..end as usize];
        boxes.extend(M::from_other(head.code, content));
    }
    Ok(end as usize)
}

/// Returns the boxes of a stream.
pub fn read_boxes<M: Member>(bytes: &[u8]) -> Result<Vec<M>> {
    let mut boxes = Vec::new();
    let mut at = 0;
    while at < bytes.len() {
        at = push_at(&mut boxes, bytes, at)?;
    }
    Ok(boxes)
}

/// Reads the boxes of a stream one at a time into the same vector. Returns the sum of the results of `each`.
pub fn sum_of_each<M: Member>(bytes: &[u8], each: impl Fn(&[M]) -> u64) -> Result<u64> {
    let mut place = Vec::with_capacity(1);
    let mut sum: u64 = 0;
    let mut at = 0;
    while at < bytes.len() {
        place.clear();
        at = push_at(&mut place, bytes, at)?;
        sum = sum.wrapping_add(each(&place));
    }
    Ok(sum)
}

fn put_u16(out: &mut [u8], at: usize, number: u16) {
    out[at..at + 2].copy_from_slice(&number.to_be_bytes());
}

fn put_u32(out: &mut [u8], at: usize, number: u32) {
    out[at..at + 4].copy_from_slice(&number.to_be_bytes());
}

fn put_u64(out: &mut [u8], at: usize, number: u64) {
    out[at..at + 8].copy_from_slice(&number.to_be_bytes());
}

/// Writes the header of the box that fills `out`.
fn put_header(out: &mut [u8], code: u32) {
    let size = out.len() as u32;
    let head: &mut [u8; 8] = out.first_chunk_mut().unwrap();
    put_u32(head, 0, size);
    put_u32(head, 4, code);
}

/// Writes the header of the box that fills `out`, and its version and flags.
fn put_full(out: &mut [u8], code: u32, version: u8, flags: u32) {
    let size = out.len() as u32;
    let head: &mut [u8; 12] = out.first_chunk_mut().unwrap();
    put_u32(head, 0, size);
    put_u32(head, 4, code);
    put_u32(head, 8, u32::from(version) << 24 | flags);
}

/// Appends `count` zeros to `out` and returns them.
fn zeros(out: &mut Vec<u8>, count: usize) -> &mut [u8] {
    let start = out.len();
    out.resize(start + count, 0);
    &mut out[start..]
}

/// Appends `count` uninitialized bytes to `out` and returns them.
///
/// # Safety
///
/// The caller writes each of these bytes before any is read.
unsafe fn room(out: &mut Vec<u8>, count: usize) -> &mut [u8] {
    out.reserve(count);
    let start = out.len();
    out.set_len(start + count);
    &mut out[start..]
}

/// Appends a box, if it can be written. A box that has at most two possible sizes is built in an array, and most others
/// in zeros at the end of the output.
fn append_any(out: &mut Vec<u8>, value: &AnyBox) -> Result<()> {
    macro_rules! fixed {
        ($b:ident, $put:path, $size:literal) => {{
            test($b.is_writable())?;
            let mut array = [0; $size];
            $put(&mut array, $b);
            out.extend_from_slice(&array)
        }};
        ($b:ident, $put:path, $size:literal, $size_of_version_1:literal) => {
            if $b.version == 1 {
                fixed!($b, $put, $size_of_version_1)
            } else {
                fixed!($b, $put, $size)
            }
        };
    }
    macro_rules! put {
        ($b:ident, $put:path) => {{
            test($b.is_writable())?;
            $put(zeros(out, $b.size() as usize), $b)
        }};
    }
    macro_rules! append {
        ($b:ident, $append:path) => {{
            test($b.is_writable())?;
            out.reserve($b.size() as usize);
            $append(out, $b)
        }};
    }
    match value {
        AnyBox::Ftyp(b) => put!(b, texts::put_ftyp),
        AnyBox::Mvhd(b) => fixed!(b, flat::put_mvhd, 108, 120),
        AnyBox::Tkhd(b) => fixed!(b, flat::put_tkhd, 92, 104),
        AnyBox::Mdhd(b) => fixed!(b, flat::put_mdhd, 32, 44),
        AnyBox::Mehd(b) => fixed!(b, flat::put_mehd, 16, 20),
        AnyBox::Mfhd(b) => fixed!(b, flat::put_mfhd, 16),
        AnyBox::Smhd(b) => fixed!(b, flat::put_smhd, 16),
        AnyBox::Vmhd(b) => fixed!(b, flat::put_vmhd, 20),
        AnyBox::Trex(b) => fixed!(b, flat::put_trex, 32),
        AnyBox::Tfdt(b) => fixed!(b, flat::put_tfdt, 16, 20),
        AnyBox::Stco(b) => append!(b, tables::append_stco),
        AnyBox::Co64(b) => append!(b, tables::append_co64),
        AnyBox::Stts(b) => append!(b, tables::append_stts),
        AnyBox::Ctts(b) => append!(b, tables::append_ctts),
        AnyBox::Stss(b) => append!(b, tables::append_stss),
        AnyBox::Stsz(b) => append!(b, tables::append_stsz),
        AnyBox::Stsc(b) => append!(b, tables::append_stsc),
        AnyBox::Elst(b) => append!(b, tables::append_elst),
        AnyBox::Tfhd(b) => append!(b, fragments::append_tfhd),
        AnyBox::Trun(b) => append!(b, fragments::append_trun),
        AnyBox::Hdlr(b) => put!(b, texts::put_hdlr),
        AnyBox::Data(b) => put!(b, texts::put_data),
        AnyBox::Url(b) => put!(b, texts::put_url),
        AnyBox::Dref(b) => put!(b, texts::put_dref),
        AnyBox::Dinf(b) => put!(b, texts::put_dinf),
        AnyBox::AvcC(b) => put!(b, entries::put_avcc),
        AnyBox::Avc1(b) => put!(b, entries::put_avc1),
        AnyBox::Esds(b) => put!(b, sound::put_esds),
        AnyBox::Mp4a(b) => put!(b, sound::put_mp4a),
        AnyBox::Stsd(b) => put!(b, sound::put_stsd),
        AnyBox::Emsg(_)
        | AnyBox::HvcC(_)
        | AnyBox::Hev1(_)
        | AnyBox::Vpcc(_)
        | AnyBox::Vp09(_)
        | AnyBox::Tx3g(_) => return Err(Error::NotMeasured),
    }
    Ok(())
}

fn append_other(out: &mut Vec<u8>, b: &OtherBox) -> Result<()> {
    test(b.is_writable())?;
    out.reserve(b.size() as usize);
    out.extend((b.size() as u32).to_be_bytes());
    out.extend(b.code.to_be_bytes());
    out.extend(&b.content);
    Ok(())
}

/// Returns the bytes of all boxes, or an error if one can't be written.
pub fn write_boxes<M: Member>(boxes: &[M]) -> Result<Vec<u8>> {
    let mut out = Vec::new();
    for member in boxes {
        match member.held() {
            Ok(value) => append_any(&mut out, value)?,
            Err(other) => append_other(&mut out, other)?,
        }
    }
    Ok(out)
}
