//! Tables of samples and of chunks.

use super::*;

fn read_entries<T>(
    reader: &mut Reader,
    count: u32,
    room: u64,
    width: u64,
    read: impl Fn(&mut Reader) -> Result<T>,
) -> Result<Vec<T>> {
    test(u64::from(count) <= room / width)?;
    let mut entries = Vec::with_capacity(count as usize);
    for _ in 0..count {
        entries.push(read(reader)?);
    }
    Ok(entries)
}

pub fn read_table<T: Entry>(
    reader: &mut Reader,
    size: u64,
    read: impl Fn(&mut Reader) -> Result<T>,
) -> Result<Table<T>> {
    let (version, flags) = read_head(reader)?;
    let count = read_u32(reader)?;
    let entries = read_entries(reader, count, size.saturating_sub(16), T::ROW, read)?;
    Ok(Table {
        version,
        flags,
        entries,
    })
}

pub fn read_stts(reader: &mut Reader, size: u64) -> Result<SttsBox> {
    read_table(reader, size, |reader| {
        Ok(SttsEntry {
            sample_count: read_u32(reader)?,
            sample_delta: read_u32(reader)?,
        })
    })
}

pub fn read_ctts(reader: &mut Reader, size: u64) -> Result<CttsBox> {
    read_table(reader, size, |reader| {
        Ok(CttsEntry {
            sample_count: read_u32(reader)?,
            sample_offset: read_u32(reader)? as i32,
        })
    })
}

pub fn read_stsc(reader: &mut Reader, size: u64) -> Result<StscBox> {
    let mut table = read_table(reader, size, |reader| {
        Ok(StscEntry {
            first_chunk: read_u32(reader)?,
            samples_per_chunk: read_u32(reader)?,
            sample_description_index: read_u32(reader)?,
            first_sample: 0,
        })
    })?;
    number_chunks(&mut table.entries).ok_or(Error::InvalidData)?;
    Ok(table)
}

pub fn read_stsz(reader: &mut Reader, size: u64) -> Result<StszBox> {
    let (version, flags) = read_head(reader)?;
    let sample_size = read_u32(reader)?;
    let sample_count = read_u32(reader)?;
    let count = if sample_size == 0 { sample_count } else { 0 };
    let sample_sizes = read_entries(reader, count, size.saturating_sub(20), 4, read_u32)?;
    Ok(StszBox {
        version,
        flags,
        sample_size,
        sample_count,
        sample_sizes,
    })
}

pub fn read_elst(reader: &mut Reader, size: u64) -> Result<ElstBox> {
    let (version, flags) = read_head(reader)?;
    let count = read_u32(reader)?;
    let width = if version == 1 { 20 } else { 12 };
    let number = |reader: &mut Reader| {
        if version == 1 {
            read_u64(reader)
        } else {
            Ok(u64::from(read_u32(reader)?))
        }
    };
    let entries = read_entries(reader, count, size.saturating_sub(16), width, |reader| {
        Ok(ElstEntry {
            segment_duration: number(reader)?,
            media_time: number(reader)?,
            media_rate: read_u16(reader)?,
            media_rate_fraction: read_u16(reader)?,
        })
    })?;
    Ok(ElstBox {
        version,
        flags,
        entries,
    })
}

pub fn put_table<W: Write, T: Entry>(
    writer: &mut W,
    code: u32,
    table: &Table<T>,
    put: impl Fn(&mut W, &T) -> Result<()>,
) -> Result<()> {
    put_head(writer, table.size(), code, table.version, table.flags)?;
    put_u32(writer, table.entries.len() as u32)?;
    for entry in &table.entries {
        put(writer, entry)?;
    }
    Ok(())
}

pub fn put_stts<W: Write>(writer: &mut W, b: &SttsBox) -> Result<()> {
    put_table(writer, STTS, b, |writer, entry| {
        put_u32(writer, entry.sample_count)?;
        put_u32(writer, entry.sample_delta)
    })
}

pub fn put_ctts<W: Write>(writer: &mut W, b: &CttsBox) -> Result<()> {
    put_table(writer, CTTS, b, |writer, entry| {
        put_u32(writer, entry.sample_count)?;
        put_u32(writer, entry.sample_offset as u32)
    })
}

pub fn put_stsc<W: Write>(writer: &mut W, b: &StscBox) -> Result<()> {
    put_table(writer, STSC, b, |writer, entry| {
        put_u32(writer, entry.first_chunk)?;
        put_u32(writer, entry.samples_per_chunk)?;
        put_u32(writer, entry.sample_description_index)
    })
}

pub fn put_stsz<W: Write>(writer: &mut W, b: &StszBox) -> Result<()> {
    put_head(writer, b.size(), STSZ, b.version, b.flags)?;
    put_u32(writer, b.sample_size)?;
    put_u32(writer, b.sample_count)?;
    b.sample_sizes
        .iter()
        .try_for_each(|size| put_u32(writer, *size))
}

pub fn put_elst<W: Write>(writer: &mut W, b: &ElstBox) -> Result<()> {
    put_head(writer, b.size(), ELST, b.version, b.flags)?;
    put_u32(writer, b.entries.len() as u32)?;
    for entry in &b.entries {
        if b.version == 1 {
            put_u64(writer, entry.segment_duration)?;
            put_u64(writer, entry.media_time)?;
        } else {
            put_u32(writer, entry.segment_duration as u32)?;
            put_u32(writer, entry.media_time as u32)?;
        }
        put_u16(writer, entry.media_rate)?;
        put_u16(writer, entry.media_rate_fraction)?;
    }
    Ok(())
}
