//! Sample descriptions, and the sample entry of audio.

use super::*;

/// Reads the tag and the declared length of a descriptor.
fn read_descriptor(reader: &mut Reader) -> Result<(u8, u64)> {
    let tag = read_u8(reader)?;
    let mut length = 0;
    for _ in 0..4 {
        let byte = read_u8(reader)?;
        length = length << 7 | u64::from(byte & 127);
        if byte < 128 {
            break;
        }
    }
    Ok((tag, length))
}

fn read_decoder_specific(reader: &mut Reader) -> Result<DecoderSpecific> {
    let mut bits = [0; 8];
    bits[0] = read_u8(reader)?;
    bits[1] = read_u8(reader)?;
    let len = DecoderSpecific::len_of([bits[0], bits[1]]);
    reader.read_exact(&mut bits[2..len])?;
    Ok(DecoderSpecific::from_bits(u64::from_be_bytes(bits)))
}

fn read_decoder_config(reader: &mut Reader, length: u64) -> Result<DecoderConfig> {
    let end = reader.position() + length;
    let object_type_indication = read_u8(reader)?;
    let kind = read_u8(reader)?;
    let mut config = DecoderConfig {
        object_type_indication,
        stream_type: kind >> 2,
        up_stream: kind & 2,
        buffer_size_db: read_u24(reader)?,
        max_bitrate: read_u32(reader)?,
        avg_bitrate: read_u32(reader)?,
        dec_specific: DecoderSpecific::default(),
    };
    while reader.position() < end {
        match read_descriptor(reader)? {
            (5, _) => config.dec_specific = read_decoder_specific(reader)?,
            (_, length) => skip(reader, length)?,
        }
    }
    Ok(config)
}

fn read_es_descriptor(reader: &mut Reader, length: u64) -> Result<EsDescriptor> {
    let end = reader.position() + length;
    let mut es_desc = EsDescriptor {
        es_id: read_u16(reader)?,
        ..EsDescriptor::default()
    };
    skip_present(reader, 1)?;
    while reader.position() < end {
        match read_descriptor(reader)? {
            (4, length) => es_desc.dec_config = read_decoder_config(reader, length)?,
            (6, _) => skip_present(reader, 1)?,
            (_, length) => skip(reader, length)?,
        }
    }
    Ok(es_desc)
}

pub fn read_esds(reader: &mut Reader, size: u64) -> Result<EsdsBox> {
    let end = reader.position() - 8 + size;
    let (version, flags) = read_head(reader)?;
    let mut es_desc = None;
    while reader.position() < end {
        let (tag, length) = read_descriptor(reader)?;
        if tag != 3 {
            break;
        }
        es_desc = Some(read_es_descriptor(reader, length)?);
    }
    Ok(EsdsBox {
        version,
        flags,
        es_desc: es_desc.ok_or(Error::InvalidData)?,
    })
}

pub fn read_mp4a(reader: &mut Reader, size: u64) -> Result<Mp4aBox> {
    skip_present(reader, 6)?;
    let data_reference_index = read_u16(reader)?;
    skip_present(reader, 8)?;
    let channelcount = read_u16(reader)?;
    let samplesize = read_u16(reader)?;
    skip_present(reader, 4)?;
    let samplerate = read_u32(reader)?;
    let mut esds = None;
    if size > 36 {
        let child = read_header(reader)?;
        test(child.size <= size)?;
        if child.code == ESDS {
            esds = Some(read_esds(reader, child.size)?);
        }
    }
    Ok(Mp4aBox {
        data_reference_index,
        channelcount,
        samplesize,
        samplerate,
        esds,
    })
}

pub fn read_stsd(reader: &mut Reader, size: u64) -> Result<StsdBox> {
    let (version, flags) = read_head(reader)?;
    read_u32(reader)?;
    let mut stsd = StsdBox {
        version,
        flags,
        avc1: None,
        hev1: None,
        vp09: None,
        mp4a: None,
        tx3g: None,
    };
    if size > 16 {
        let entry = read_header(reader)?;
        test(entry.size <= size)?;
        match entry.code {
            AVC1 => stsd.avc1 = Some(entries::read_avc1(reader, entry.size)?),
            MP4A => stsd.mp4a = Some(read_mp4a(reader, entry.size)?),
            HEV1 | VP09 | TX3G => return Err(Error::NotMeasured),
            _ => {}
        }
    }
    Ok(stsd)
}

fn put_descriptor<W: Write>(writer: &mut W, tag: u8, length: usize) -> Result<()> {
    put_u8(writer, tag)?;
    put_u8(writer, length as u8)
}

pub fn put_esds<W: Write>(writer: &mut W, b: &EsdsBox) -> Result<()> {
    let config = &b.es_desc.dec_config;
    let specific = &config.dec_specific;
    let n = specific.len();
    put_head(writer, b.size(), ESDS, b.version, b.flags)?;
    put_descriptor(writer, 3, 23 + n)?;
    put_u16(writer, b.es_desc.es_id)?;
    put_u8(writer, 0)?;
    put_descriptor(writer, 4, 15 + n)?;
    put_u8(writer, config.object_type_indication)?;
    put_u8(writer, config.stream_type << 2 | config.up_stream & 2 | 1)?;
    put_u24(writer, config.buffer_size_db)?;
    put_u32(writer, config.max_bitrate)?;
    put_u32(writer, config.avg_bitrate)?;
    put_descriptor(writer, 5, n)?;
    writer.write_all(&specific.bits().to_be_bytes()[..n])?;
    put_descriptor(writer, 6, 0)?;
    put_u8(writer, 0)
}

pub fn put_mp4a<W: Write>(writer: &mut W, b: &Mp4aBox) -> Result<()> {
    put_header(writer, b.size(), MP4A)?;
    put_zeros(writer, 6)?;
    put_u16(writer, b.data_reference_index)?;
    put_zeros(writer, 8)?;
    put_u16(writer, b.channelcount)?;
    put_u16(writer, b.samplesize)?;
    put_zeros(writer, 4)?;
    put_u32(writer, b.samplerate)?;
    b.esds.iter().try_for_each(|esds| put_esds(writer, esds))
}

pub fn put_stsd<W: Write>(writer: &mut W, b: &StsdBox) -> Result<()> {
    put_head(writer, b.size(), STSD, b.version, b.flags)?;
    put_u32(writer, u32::from(b.size() > 16))?;
    if let Some(entry) = &b.avc1 {
        entries::put_avc1(writer, entry)
    } else if let Some(entry) = &b.mp4a {
        put_mp4a(writer, entry)
    } else {
        Ok(())
    }
}
