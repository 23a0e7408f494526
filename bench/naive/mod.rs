//! A reader and a writer in the usual style, with a call of `read_exact` or `write_all` for each field.

mod entries;
mod flat;
mod fragments;
pub mod samples;
mod sound;
mod tables;
mod texts;

use crate::boxes::*;
use std::io::{Cursor, Read, Seek, SeekFrom, Write};

type Reader<'a> = Cursor<&'a [u8]>;

fn array<const N: usize>(reader: &mut Reader) -> Result<[u8; N]> {
    let mut bytes = [0; N];
    reader.read_exact(&mut bytes)?;
    Ok(bytes)
}

fn read_u8(reader: &mut Reader) -> Result<u8> {
    let [byte] = array(reader)?;
    Ok(byte)
}

fn read_u16(reader: &mut Reader) -> Result<u16> {
    Ok(u16::from_be_bytes(array(reader)?))
}

fn read_u24(reader: &mut Reader) -> Result<u32> {
    let [a, b, c] = array(reader)?;
    Ok(u32::from_be_bytes([0, a, b, c]))
}

fn read_u32(reader: &mut Reader) -> Result<u32> {
    Ok(u32::from_be_bytes(array(reader)?))
}

fn read_u64(reader: &mut Reader) -> Result<u64> {
    Ok(u64::from_be_bytes(array(reader)?))
}

/// Reads the version and the flags.
fn read_head(reader: &mut Reader) -> Result<(u8, u32)> {
    Ok((read_u8(reader)?, read_u24(reader)?))
}

/// Reads `len` bytes. If the buffer has fewer, returns end of input before it asks for memory.
fn read_bytes(reader: &mut Reader, len: u64) -> Result<Vec<u8>> {
    let left = reader.get_ref().len() as u64 - reader.position().min(reader.get_ref().len() as u64);
    if len > left {
        return Err(Error::Io);
    }
    let mut bytes = vec![0; len as usize];
    reader.read_exact(&mut bytes)?;
    Ok(bytes)
}

fn skip(reader: &mut Reader, bytes: u64) -> Result<()> {
    Ok(reader.seek_relative(bytes as i64)?)
}

/// Skips reserved bytes, which have to be present.
fn skip_present(reader: &mut Reader, bytes: u64) -> Result<()> {
    let end = reader.position() + bytes;
    if end > reader.get_ref().len() as u64 {
        return Err(Error::Io);
    }
    skip(reader, bytes)
}

/// The header of a box, in the form of 8 bytes or of 16. `start` is the offset of the 8 bytes before the content, and
/// `size` counts from there.
struct Header {
    code: u32,
    start: u64,
    size: u64,
}

fn read_header(reader: &mut Reader) -> Result<Header> {
    let mut start = reader.position();
    let mut size = u64::from(read_u32(reader)?);
    let code = read_u32(reader)?;
    if size == 1 {
        size = read_u64(reader)?;
        test(size == 0 || size >= 16)?;
        size = size.saturating_sub(8);
        start += 8;
    }
    Ok(Header { code, start, size })
}

/// Reads the content of the box whose header was just read. Returns `None` if it has none of the 36 types.
fn read_any(reader: &mut Reader, code: u32, size: u64) -> Result<Option<AnyBox>> {
    Ok(Some(match code {
        FTYP => AnyBox::Ftyp(texts::read_ftyp(reader, size)?),
        MVHD => AnyBox::Mvhd(flat::read_mvhd(reader)?),
        TKHD => AnyBox::Tkhd(flat::read_tkhd(reader)?),
        MDHD => AnyBox::Mdhd(flat::read_mdhd(reader)?),
        MEHD => AnyBox::Mehd(flat::read_mehd(reader)?),
        MFHD => AnyBox::Mfhd(flat::read_mfhd(reader)?),
        SMHD => AnyBox::Smhd(flat::read_smhd(reader)?),
        VMHD => AnyBox::Vmhd(flat::read_vmhd(reader)?),
        TREX => AnyBox::Trex(flat::read_trex(reader)?),
        TFDT => AnyBox::Tfdt(flat::read_tfdt(reader)?),
        STCO => AnyBox::Stco(tables::read_table(reader, size, read_u32)?),
        CO64 => AnyBox::Co64(tables::read_table(reader, size, read_u64)?),
        STTS => AnyBox::Stts(tables::read_stts(reader, size)?),
        CTTS => AnyBox::Ctts(tables::read_ctts(reader, size)?),
        STSS => AnyBox::Stss(tables::read_table(reader, size, read_u32)?),
        STSZ => AnyBox::Stsz(tables::read_stsz(reader, size)?),
        STSC => AnyBox::Stsc(tables::read_stsc(reader, size)?),
        ELST => AnyBox::Elst(tables::read_elst(reader, size)?),
        TFHD => AnyBox::Tfhd(fragments::read_tfhd(reader)?),
        TRUN => AnyBox::Trun(fragments::read_trun(reader, size)?),
        HDLR => AnyBox::Hdlr(texts::read_hdlr(reader, size)?),
        DATA => AnyBox::Data(texts::read_data(reader, size)?),
        URL => AnyBox::Url(texts::read_url(reader, size)?),
        DREF => AnyBox::Dref(texts::read_dref(reader, size)?),
        DINF => AnyBox::Dinf(texts::read_dinf(reader, size)?),
        AVCC => AnyBox::AvcC(entries::read_avcc(reader)?),
        AVC1 => AnyBox::Avc1(entries::read_avc1(reader, size)?),
        ESDS => AnyBox::Esds(sound::read_esds(reader, size)?),
        MP4A => AnyBox::Mp4a(sound::read_mp4a(reader, size)?),
        STSD => AnyBox::Stsd(sound::read_stsd(reader, size)?),
        EMSG | HVCC | HEV1 | VPCC | VP09 | TX3G => return Err(Error::NotMeasured),
        _ => return Ok(None),
    }))
}

/// Returns the boxes of a stream.
pub fn read_boxes<M: Member>(bytes: &[u8]) -> Result<Vec<M>> {
    let mut reader = Cursor::new(bytes);
    let mut boxes = Vec::new();
    while reader.position() < bytes.len() as u64 {
        let Header {
            code,
            start,
            mut size,
        } = read_header(&mut reader)?;
        if size == 0 {
            size = bytes.len() as u64 - start;
        }
        test(size >= 8)?;
        let end = start.checked_add(size).ok_or(Error::InvalidData)?;
        if end > bytes.len() as u64 {
            return Err(Error::Io);
        }
        match read_any(&mut reader, code, size)? {
            Some(value) => boxes.push(M::from_any(value)),
            None => {
                let content = &bytes[start as usize + 8..end as usize];
                boxes.extend(M::from_other(code, content));
            }
        }
        reader.seek(SeekFrom::Start(end))?;
    }
    Ok(boxes)
}

fn put_u8<W: Write>(writer: &mut W, number: u8) -> Result<()> {
    Ok(writer.write_all(&[number])?)
}

fn put_u16<W: Write>(writer: &mut W, number: u16) -> Result<()> {
    Ok(writer.write_all(&number.to_be_bytes())?)
}

fn put_u24<W: Write>(writer: &mut W, number: u32) -> Result<()> {
    Ok(writer.write_all(&number.to_be_bytes()[1..])?)
}

fn put_u32<W: Write>(writer: &mut W, number: u32) -> Result<()> {
    Ok(writer.write_all(&number.to_be_bytes())?)
}

fn put_u64<W: Write>(writer: &mut W, number: u64) -> Result<()> {
    Ok(writer.write_all(&number.to_be_bytes())?)
}

/// Writes `count` zeros, at most 32.
fn put_zeros<W: Write>(writer: &mut W, count: usize) -> Result<()> {
    Ok(writer.write_all(&[0; 32][..count])?)
}

fn put_header<W: Write>(writer: &mut W, size: u64, code: u32) -> Result<()> {
    put_u32(writer, size as u32)?;
    put_u32(writer, code)
}

/// Writes the header, the version and the flags.
fn put_head<W: Write>(writer: &mut W, size: u64, code: u32, version: u8, flags: u32) -> Result<()> {
    put_header(writer, size, code)?;
    put_u8(writer, version)?;
    put_u24(writer, flags)
}

fn put_any<W: Write>(writer: &mut W, value: &AnyBox) -> Result<()> {
    match value {
        AnyBox::Ftyp(b) => texts::put_ftyp(writer, b),
        AnyBox::Mvhd(b) => flat::put_mvhd(writer, b),
        AnyBox::Tkhd(b) => flat::put_tkhd(writer, b),
        AnyBox::Mdhd(b) => flat::put_mdhd(writer, b),
        AnyBox::Mehd(b) => {
            flat::put_one_time(writer, MEHD, b.version, b.flags, b.fragment_duration)
        }
        AnyBox::Mfhd(b) => flat::put_mfhd(writer, b),
        AnyBox::Smhd(b) => flat::put_smhd(writer, b),
        AnyBox::Vmhd(b) => flat::put_vmhd(writer, b),
        AnyBox::Trex(b) => flat::put_trex(writer, b),
        AnyBox::Tfdt(b) => {
            flat::put_one_time(writer, TFDT, b.version, b.flags, b.base_media_decode_time)
        }
        AnyBox::Stco(b) => tables::put_table(writer, STCO, b, |w, number| put_u32(w, *number)),
        AnyBox::Co64(b) => tables::put_table(writer, CO64, b, |w, number| put_u64(w, *number)),
        AnyBox::Stts(b) => tables::put_stts(writer, b),
        AnyBox::Ctts(b) => tables::put_ctts(writer, b),
        AnyBox::Stss(b) => tables::put_table(writer, STSS, b, |w, number| put_u32(w, *number)),
        AnyBox::Stsz(b) => tables::put_stsz(writer, b),
        AnyBox::Stsc(b) => tables::put_stsc(writer, b),
        AnyBox::Elst(b) => tables::put_elst(writer, b),
        AnyBox::Tfhd(b) => fragments::put_tfhd(writer, b),
        AnyBox::Trun(b) => fragments::put_trun(writer, b),
        AnyBox::Hdlr(b) => texts::put_hdlr(writer, b),
        AnyBox::Data(b) => texts::put_data(writer, b),
        AnyBox::Url(b) => texts::put_url(writer, b),
        AnyBox::Dref(b) => texts::put_dref(writer, b),
        AnyBox::Dinf(b) => texts::put_dinf(writer, b),
        AnyBox::AvcC(b) => entries::put_avcc(writer, b),
        AnyBox::Avc1(b) => entries::put_avc1(writer, b),
        AnyBox::Esds(b) => sound::put_esds(writer, b),
        AnyBox::Mp4a(b) => sound::put_mp4a(writer, b),
        AnyBox::Stsd(b) => sound::put_stsd(writer, b),
        AnyBox::Emsg(_)
        | AnyBox::HvcC(_)
        | AnyBox::Hev1(_)
        | AnyBox::Vpcc(_)
        | AnyBox::Vp09(_)
        | AnyBox::Tx3g(_) => Err(Error::NotMeasured),
    }
}

/// Returns the bytes of all boxes. Each box is checked before it is written.
pub fn write_boxes<M: Member>(boxes: &[M]) -> Result<Vec<u8>> {
    let mut out = Vec::new();
    for member in boxes {
        match member.held() {
            Ok(value) => {
                test(value.is_writable())?;
                put_any(&mut out, value)?;
            }
            Err(other) => {
                test(other.is_writable())?;
                put_header(&mut out, other.size(), other.code)?;
                out.write_all(&other.content)?;
            }
        }
    }
    Ok(out)
}
