//! Sample descriptions, and the sample entry of audio.

use super::*;

/// Returns the tag of the descriptor at offset `at`, the offset of its content, and its declared length.
fn descriptor(bytes: &[u8], at: usize) -> Result<(u8, usize, u64)> {
    let tag = fields(bytes, at, 1)?[0];
    let mut length = 0;
    let mut at = at + 1;
    for _ in 0..4 {
        let byte = fields(bytes, at, 1)?[0];
        at += 1;
        length = length << 7 | u64::from(byte & 127);
        if byte < 128 {
            break;
        }
    }
    Ok((tag, at, length))
}

fn decoder_specific(bytes: &[u8], at: usize) -> Result<(DecoderSpecific, usize)> {
    let first = fields(bytes, at, 2)?;
    let len = DecoderSpecific::len_of([first[0], first[1]]);
    let mut bits = [0; 8];
    bits[..len].copy_from_slice(fields(bytes, at, len)?);
    let specific = DecoderSpecific::from_bits(u64::from_be_bytes(bits));
    Ok((specific, at + len))
}

/// Returns the descriptor whose content begins at offset `at` with this declared length, and the offset of its end.
fn decoder_config(bytes: &[u8], at: usize, length: u64) -> Result<(DecoderConfig, usize)> {
    let b = fields(bytes, at, 13)?;
    let mut config = DecoderConfig {
        object_type_indication: b[0],
        stream_type: b[1] >> 2,
        up_stream: b[1] & 2,
        buffer_size_db: u32_at(b, 1) & 0xff_ffff,
        max_bitrate: u32_at(b, 5),
        avg_bitrate: u32_at(b, 9),
        dec_specific: DecoderSpecific::default(),
    };
    let end = at as u64 + length;
    let mut at = at + 13;
    while (at as u64) < end {
        let (tag, content, length) = descriptor(bytes, at)?;
        at = if tag == 5 {
            let (specific, end) = decoder_specific(bytes, content)?;
            config.dec_specific = specific;
            end
        } else {
            content + length as usize
        };
    }
    Ok((config, at))
}

fn es_descriptor(bytes: &[u8], at: usize, length: u64) -> Result<(EsDescriptor, usize)> {
    let mut descriptor_read = EsDescriptor {
        es_id: u16_at(fields(bytes, at, 3)?, 0),
        ..EsDescriptor::default()
    };
    let end = at as u64 + length;
    let mut at = at + 3;
    while (at as u64) < end {
        let (tag, content, length) = descriptor(bytes, at)?;
        at = match tag {
            4 => {
                let (config, end) = decoder_config(bytes, content, length)?;
                descriptor_read.dec_config = config;
                end
            }
            6 => {
                fields(bytes, content, 1)?;
                content + 1
            }
            _ => content + length as usize,
        };
    }
    Ok((descriptor_read, at))
}

pub fn read_esds(bytes: &[u8], size: u64) -> Result<EsdsBox> {
    let head = fields(bytes, 8, 4)?;
    let mut es_desc = None;
    let mut at = 12;
    while (at as u64) < size {
        let (tag, content, length) = descriptor(bytes, at)?;
        if tag != 3 {
            break;
        }
        let (read, end) = es_descriptor(bytes, content, length)?;
        es_desc = Some(read);
        at = end;
    }
    Ok(EsdsBox {
        version: head[0],
        flags: flags_at(head, 0),
        es_desc: es_desc.ok_or(Error::InvalidData)?,
    })
}

pub fn read_mp4a(bytes: &[u8], size: u64) -> Result<Mp4aBox> {
    let b = fields(bytes, 8, 28)?;
    let mut esds = None;
    if size > 36 {
        let (head, rest) = child(bytes, 36, size)?;
        if head.code == ESDS {
            esds = Some(read_esds(rest, head.size)?);
        }
    }
    Ok(Mp4aBox {
        data_reference_index: u16_at(b, 6),
        channelcount: u16_at(b, 16),
        samplesize: u16_at(b, 18),
        samplerate: u32_at(b, 24),
        esds,
    })
}

pub fn read_stsd(bytes: &[u8], size: u64) -> Result<StsdBox> {
    let head = fields(bytes, 8, 8)?;
    let mut stsd = StsdBox {
        version: head[0],
        flags: flags_at(head, 0),
        avc1: None,
        hev1: None,
        vp09: None,
        mp4a: None,
        tx3g: None,
    };
    if size > 16 {
        let (entry, rest) = child(bytes, 16, size)?;
        match entry.code {
            AVC1 => stsd.avc1 = Some(entries::read_avc1(rest, entry.size)?),
            MP4A => stsd.mp4a = Some(read_mp4a(rest, entry.size)?),
            HEV1 | VP09 | TX3G => return Err(Error::NotMeasured),
            _ => {}
        }
    }
    Ok(stsd)
}

/// Writes the four descriptors at fixed offsets, which is possible because their lengths are below 128.
fn put_es_descriptor(out: &mut [u8], es_desc: &EsDescriptor) {
    let config = &es_desc.dec_config;
    let specific = &config.dec_specific;
    let n = specific.len();
    out[0] = 3;
    out[1] = 23 + n as u8;
    put_u16(out, 2, es_desc.es_id);
    out[5] = 4;
    out[6] = 15 + n as u8;
    out[7] = config.object_type_indication;
    put_u32(out, 8, config.buffer_size_db);
    out[8] = config.stream_type << 2 | config.up_stream & 2 | 1;
    put_u32(out, 12, config.max_bitrate);
    put_u32(out, 16, config.avg_bitrate);
    out[20] = 5;
    out[21] = n as u8;
    out[22..22 + n].copy_from_slice(&specific.bits().to_be_bytes()[..n]);
    out[22 + n] = 6;
}

pub fn put_esds(out: &mut [u8], b: &EsdsBox) {
    put_full(out, ESDS, b.version, b.flags);
    put_es_descriptor(&mut out[12..], &b.es_desc);
}

pub fn put_mp4a(out: &mut [u8], b: &Mp4aBox) {
    put_header(out, MP4A);
    let head: &mut [u8; 36] = out.first_chunk_mut().unwrap();
    put_u16(head, 14, b.data_reference_index);
    put_u16(head, 24, b.channelcount);
    put_u16(head, 26, b.samplesize);
    put_u32(head, 32, b.samplerate);
    if let Some(esds) = &b.esds {
        put_esds(&mut out[36..], esds);
    }
}

pub fn put_stsd(out: &mut [u8], b: &StsdBox) {
    put_full(out, STSD, b.version, b.flags);
    put_u32(out, 12, u32::from(out.len() > 16));
    let out = &mut out[16..];
    if let Some(entry) = &b.avc1 {
        entries::put_avc1(out, entry);
    } else if let Some(entry) = &b.mp4a {
        put_mp4a(out, entry);
    }
}
