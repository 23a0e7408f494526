//! Boxes of codes and strings, and references to data.

use super::*;

fn text_or(bytes: Vec<u8>, other: &str) -> String {
    String::from_utf8(bytes).unwrap_or_else(|_| other.to_owned())
}

pub fn read_ftyp(reader: &mut Reader, size: u64) -> Result<FtypBox> {
    test(size >= 16 && size.is_multiple_of(4))?;
    let major_brand = array(reader)?;
    let minor_version = read_u32(reader)?;
    let mut compatible_brands = Vec::new();
    for _ in 0..(size - 16) / 4 {
        compatible_brands.push(array(reader)?);
    }
    Ok(FtypBox {
        major_brand,
        minor_version,
        compatible_brands,
    })
}

pub fn read_hdlr(reader: &mut Reader, size: u64) -> Result<HdlrBox> {
    let (version, flags) = read_head(reader)?;
    skip_present(reader, 4)?;
    let handler_type = array(reader)?;
    skip(reader, 12)?;
    test(size >= 33)?;
    Ok(HdlrBox {
        version,
        flags,
        handler_type,
        name: text_or(read_bytes(reader, size - 33)?, "null"),
    })
}

pub fn read_data(reader: &mut Reader, size: u64) -> Result<DataBox> {
    let data_type = DataType::from_number(read_u32(reader)?).ok_or(Error::InvalidData)?;
    skip_present(reader, 4)?;
    test(size >= 16)?;
    Ok(DataBox {
        data_bytes: read_bytes(reader, size - 16)?,
        data_type,
    })
}

pub fn read_url(reader: &mut Reader, size: u64) -> Result<UrlBox> {
    let (version, flags) = read_head(reader)?;
    let location = if size < 13 {
        String::new()
    } else {
        text_or(read_bytes(reader, size - 13)?, "")
    };
    Ok(UrlBox {
        version,
        flags,
        location,
    })
}

/// Reads the header of the next child of a `dref` or `dinf` of this size. Returns it with the offset of the child's
/// end.
fn next_child(reader: &mut Reader, size: u64) -> Result<(Header, u64)> {
    let head = read_header(reader)?;
    test(head.size >= 8)?;
    test(head.size <= size)?;
    let end = head
        .start
        .checked_add(head.size)
        .ok_or(Error::InvalidData)?;
    Ok((head, end))
}

pub fn read_dref(reader: &mut Reader, size: u64) -> Result<DrefBox> {
    let start = reader.position() - 8;
    let (version, flags) = read_head(reader)?;
    let count = read_u32(reader)?;
    let mut url = None;
    for _ in 0..count {
        if reader.position() >= start + size {
            break;
        }
        let (child, end) = next_child(reader, size)?;
        if child.code == URL {
            url = Some(read_url(reader, child.size)?);
        }
        reader.seek(SeekFrom::Start(end))?;
    }
    Ok(DrefBox {
        version,
        flags,
        url,
    })
}

pub fn read_dinf(reader: &mut Reader, size: u64) -> Result<DinfBox> {
    let start = reader.position() - 8;
    let mut dref = None;
    while reader.position() < start + size {
        let (child, end) = next_child(reader, size)?;
        if child.code == DREF {
            dref = Some(read_dref(reader, child.size)?);
        }
        reader.seek(SeekFrom::Start(end))?;
    }
    dref.map(|dref| DinfBox { dref }).ok_or(Error::InvalidData)
}

pub fn put_ftyp<W: Write>(writer: &mut W, b: &FtypBox) -> Result<()> {
    put_header(writer, b.size(), FTYP)?;
    writer.write_all(&b.major_brand)?;
    put_u32(writer, b.minor_version)?;
    for brand in &b.compatible_brands {
        writer.write_all(brand)?;
    }
    Ok(())
}

pub fn put_hdlr<W: Write>(writer: &mut W, b: &HdlrBox) -> Result<()> {
    put_head(writer, b.size(), HDLR, b.version, b.flags)?;
    put_u32(writer, 0)?;
    writer.write_all(&b.handler_type)?;
    put_zeros(writer, 12)?;
    writer.write_all(b.name.as_bytes())?;
    put_u8(writer, 0)
}

pub fn put_data<W: Write>(writer: &mut W, b: &DataBox) -> Result<()> {
    put_header(writer, b.size(), DATA)?;
    put_u32(writer, b.data_type as u32)?;
    put_u32(writer, 0)?;
    Ok(writer.write_all(&b.data_bytes)?)
}

pub fn put_url<W: Write>(writer: &mut W, b: &UrlBox) -> Result<()> {
    put_head(writer, b.size(), URL, b.version, b.flags)?;
    if !b.location.is_empty() {
        writer.write_all(b.location.as_bytes())?;
        put_u8(writer, 0)?;
    }
    Ok(())
}

pub fn put_dref<W: Write>(writer: &mut W, b: &DrefBox) -> Result<()> {
    put_head(writer, b.size(), DREF, b.version, b.flags)?;
    put_u32(writer, u32::from(b.url.is_some()))?;
    b.url.iter().try_for_each(|url| put_url(writer, url))
}

pub fn put_dinf<W: Write>(writer: &mut W, b: &DinfBox) -> Result<()> {
    put_header(writer, b.size(), DINF)?;
    put_dref(writer, &b.dref)
}
