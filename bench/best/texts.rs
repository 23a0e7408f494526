//! Boxes of codes and strings, and references to data.

use super::*;

/// Returns `len` bytes starting at offset `at`, or end of input if the buffer has fewer. The size of a box gives `len`.
fn rest(bytes: &[u8], at: usize, len: u64) -> Result<&[u8]> {
    fields(bytes, at, usize::try_from(len).map_err(|_| Error::Io)?)
}

/// Returns the text of `bytes`, or `other` if they are not UTF-8.
fn text_or(bytes: &[u8], other: &str) -> String {
    std::str::from_utf8(bytes).unwrap_or(other).to_owned()
}

pub fn read_ftyp(bytes: &[u8], size: u64) -> Result<FtypBox> {
    test(size >= 16 && size.is_multiple_of(4))?;
    let content = rest(bytes, 8, size - 8)?;
    let (codes, _) = content.as_chunks::<4>();
    Ok(FtypBox {
        major_brand: codes[0],
        minor_version: u32::from_be_bytes(codes[1]),
        compatible_brands: codes[2..].to_vec(),
    })
}

pub fn read_hdlr(bytes: &[u8], size: u64) -> Result<HdlrBox> {
    let head = fields(bytes, 8, 12)?;
    test(size >= 33)?;
    Ok(HdlrBox {
        version: head[0],
        flags: flags_at(head, 0),
        handler_type: *head.last_chunk().unwrap(),
        name: text_or(rest(bytes, 32, size - 33)?, "null"),
    })
}

pub fn read_data(bytes: &[u8], size: u64) -> Result<DataBox> {
    let number = u32_at(fields(bytes, 8, 4)?, 0);
    let data_type = DataType::from_number(number).ok_or(Error::InvalidData)?;
    fields(bytes, 12, 4)?;
    test(size >= 16)?;
    Ok(DataBox {
        data_bytes: rest(bytes, 16, size - 16)?.to_vec(),
        data_type,
    })
}

pub fn read_url(bytes: &[u8], size: u64) -> Result<UrlBox> {
    let head = fields(bytes, 8, 4)?;
    let location = if size < 13 {
        String::new()
    } else {
        text_or(rest(bytes, 12, size - 13)?, "")
    };
    Ok(UrlBox {
        version: head[0],
        flags: flags_at(head, 0),
        location,
    })
}

/// Returns the header of the child at offset `at` of a `dref` or `dinf`, the bytes starting at its `start`, and the
/// offset of its end, which is below 2^64.
fn next_child(bytes: &[u8], at: usize, size: u64) -> Result<(Header, &[u8], usize)> {
    let head = header(bytes, at)?;
    test(head.size >= 8)?;
    test(head.size <= size)?;
    let end = (head.start as u64)
        .checked_add(head.size)
        .ok_or(Error::InvalidData)?;
    let rest = &bytes[head.start..];
    Ok((head, rest, end as usize))
}

pub fn read_dref(bytes: &[u8], size: u64) -> Result<DrefBox> {
    let head = fields(bytes, 8, 8)?;
    let mut url = None;
    let mut at = 16;
    for _ in 0..u32_at(head, 4) {
        if at as u64 >= size {
            break;
        }
        let (child, b, end) = next_child(bytes, at, size)?;
        if child.code == URL {
            url = Some(read_url(b, child.size)?);
        }
        at = end;
    }
    Ok(DrefBox {
        version: head[0],
        flags: flags_at(head, 0),
        url,
    })
}

pub fn read_dinf(bytes: &[u8], size: u64) -> Result<DinfBox> {
    let mut dref = None;
    let mut at = 8;
    while (at as u64) < size {
        let (child, b, end) = next_child(bytes, at, size)?;
        if child.code == DREF {
            dref = Some(read_dref(b, child.size)?);
        }
        at = end;
    }
    dref.map(|dref| DinfBox { dref }).ok_or(Error::InvalidData)
}

pub fn put_ftyp(out: &mut [u8], b: &FtypBox) {
    put_header(out, FTYP);
    out[8..12].copy_from_slice(&b.major_brand);
    put_u32(out, 12, b.minor_version);
    out[16..].copy_from_slice(b.compatible_brands.as_flattened());
}

pub fn put_hdlr(out: &mut [u8], b: &HdlrBox) {
    put_full(out, HDLR, b.version, b.flags);
    out[16..20].copy_from_slice(&b.handler_type);
    out[32..32 + b.name.len()].copy_from_slice(b.name.as_bytes());
}

pub fn put_data(out: &mut [u8], b: &DataBox) {
    put_header(out, DATA);
    put_u32(out, 8, b.data_type as u32);
    out[16..].copy_from_slice(&b.data_bytes);
}

pub fn put_url(out: &mut [u8], b: &UrlBox) {
    put_full(out, URL, b.version, b.flags);
    out[12..12 + b.location.len()].copy_from_slice(b.location.as_bytes());
}

pub fn put_dref(out: &mut [u8], b: &DrefBox) {
    put_full(out, DREF, b.version, b.flags);
    if let Some(url) = &b.url {
        put_u32(out, 12, 1);
        put_url(&mut out[16..], url);
    }
}

pub fn put_dinf(out: &mut [u8], b: &DinfBox) {
    put_header(out, DINF);
    put_dref(&mut out[8..], &b.dref);
}
