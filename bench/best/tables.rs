//! Tables of samples and of chunks.

use super::*;

/// Returns the rows of a table at offset `at`. The count is checked against the box's size before any memory is asked
/// for.
pub fn rows<const E: usize>(bytes: &[u8], size: u64, at: usize, count: u32) -> Result<&[[u8; E]]> {
    test(u64::from(count) <= size.saturating_sub(at as u64) / E as u64)?;
    let (rows, _) = fields(bytes, at, count as usize * E)?.as_chunks::<E>();
    Ok(rows)
}

fn read_table<const E: usize, T>(
    bytes: &[u8],
    size: u64,
    entry: impl FnMut(&[u8; E]) -> T,
) -> Result<Table<T>> {
    let head = fields(bytes, 8, 8)?;
    let rows = rows::<E>(bytes, size, 16, u32_at(head, 4))?;
    Ok(Table {
        version: head[0],
        flags: flags_at(head, 0),
        entries: rows.iter().map(entry).collect(),
    })
}

pub fn read_stco(bytes: &[u8], size: u64) -> Result<StcoBox> {
    read_table(bytes, size, |row| u32::from_be_bytes(*row))
}

pub fn read_co64(bytes: &[u8], size: u64) -> Result<Co64Box> {
    read_table(bytes, size, |row| u64::from_be_bytes(*row))
}

pub fn read_stts(bytes: &[u8], size: u64) -> Result<SttsBox> {
    read_table(bytes, size, |row: &[u8; 8]| SttsEntry {
        sample_count: u32_at(row, 0),
        sample_delta: u32_at(row, 4),
    })
}

pub fn read_ctts(bytes: &[u8], size: u64) -> Result<CttsBox> {
    read_table(bytes, size, |row: &[u8; 8]| CttsEntry {
        sample_count: u32_at(row, 0),
        sample_offset: u32_at(row, 4) as i32,
    })
}

/// Reads an `stsc` in one loop, which also computes the first sample of each entry.
pub fn read_stsc(bytes: &[u8], size: u64) -> Result<StscBox> {
    let first_chunk = bytes.get(16..20).map_or(0, |first| u32_at(first, 0));
    let mut numbering = Numbering::from(first_chunk);
    let mut is_numbered = true;
    let table = read_table(bytes, size, |row: &[u8; 12]| {
        let (first_chunk, samples_per_chunk) = (u32_at(row, 0), u32_at(row, 4));
        let first_sample = numbering.next(first_chunk, samples_per_chunk);
        is_numbered &= first_sample.is_some();
        StscEntry {
            first_chunk,
            samples_per_chunk,
            sample_description_index: u32_at(row, 8),
            first_sample: first_sample.unwrap_or(0),
        }
    })?;
    test(is_numbered)?;
    Ok(table)
}

pub fn read_stsz(bytes: &[u8], size: u64) -> Result<StszBox> {
    let head = fields(bytes, 8, 12)?;
    let (sample_size, sample_count) = (u32_at(head, 4), u32_at(head, 8));
    let rows = if sample_size == 0 {
        rows::<4>(bytes, size, 20, sample_count)?
    } else {
        &[]
    };
    Ok(StszBox {
        version: head[0],
        flags: flags_at(head, 0),
        sample_size,
        sample_count,
        sample_sizes: rows.iter().map(|row| u32::from_be_bytes(*row)).collect(),
    })
}

pub fn read_elst(bytes: &[u8], size: u64) -> Result<ElstBox> {
    let head = fields(bytes, 8, 8)?;
    let (version, count) = (head[0], u32_at(head, 4));
    let entries = if version == 1 {
        rows::<20>(bytes, size, 16, count)?
            .iter()
            .map(|row| ElstEntry {
                segment_duration: u64_at(row, 0),
                media_time: u64_at(row, 8),
                media_rate: u16_at(row, 16),
                media_rate_fraction: u16_at(row, 18),
            })
            .collect()
    } else {
        rows::<12>(bytes, size, 16, count)?
            .iter()
            .map(|row| ElstEntry {
                segment_duration: u64::from(u32_at(row, 0)),
                media_time: u64::from(u32_at(row, 4)),
                media_rate: u16_at(row, 8),
                media_rate_fraction: u16_at(row, 10),
            })
            .collect()
    };
    Ok(ElstBox {
        version,
        flags: flags_at(head, 0),
        entries,
    })
}

/// The number of rows that are read or written at a time if several lists hold them, so that they stay in the nearest
/// cache.
pub const BLOCK: usize = 512;

fn append_rows<const E: usize, T>(
    out: &mut Vec<u8>,
    entries: &[T],
    put: impl Fn(&mut [u8; E], &T),
) {
    // SAFETY: `put` writes all bytes of each row.
    let room = unsafe { room(out, E * entries.len()) };
    let (rows, _) = room.as_chunks_mut::<E>();
    for (row, entry) in rows.iter_mut().zip(entries) {
        put(row, entry);
    }
}

/// Appends the header of a box of this size, its version and flags, and the number after them.
pub fn append_front(out: &mut Vec<u8>, size: u64, code: u32, version: u8, flags: u32, number: u32) {
    let flags = u32::from(version) << 24 | flags;
    let words = [size as u32, code, flags, number].map(u32::to_be_bytes);
    out.extend_from_slice(words.as_flattened());
}

fn append_table<const E: usize, T: Entry>(
    out: &mut Vec<u8>,
    code: u32,
    table: &Table<T>,
    put: impl Fn(&mut [u8; E], &T),
) {
    let count = table.entries.len() as u32;
    let (version, flags) = (table.version, table.flags);
    append_front(out, table.size(), code, version, flags, count);
    append_rows(out, &table.entries, put);
}

pub fn append_stco(out: &mut Vec<u8>, b: &StcoBox) {
    append_table(out, STCO, b, |row, offset| *row = offset.to_be_bytes());
}

pub fn append_stss(out: &mut Vec<u8>, b: &StssBox) {
    append_table(out, STSS, b, |row, number| *row = number.to_be_bytes());
}

pub fn append_co64(out: &mut Vec<u8>, b: &Co64Box) {
    append_table(out, CO64, b, |row, offset| *row = offset.to_be_bytes());
}

pub fn append_stts(out: &mut Vec<u8>, b: &SttsBox) {
    append_table(out, STTS, b, |row: &mut [u8; 8], entry| {
        put_u32(row, 0, entry.sample_count);
        put_u32(row, 4, entry.sample_delta);
    });
}

pub fn append_ctts(out: &mut Vec<u8>, b: &CttsBox) {
    append_table(out, CTTS, b, |row: &mut [u8; 8], entry| {
        put_u32(row, 0, entry.sample_count);
        put_u32(row, 4, entry.sample_offset as u32);
    });
}

pub fn append_stsc(out: &mut Vec<u8>, b: &StscBox) {
    append_table(out, STSC, b, |row: &mut [u8; 12], entry| {
        put_u32(row, 0, entry.first_chunk);
        put_u32(row, 4, entry.samples_per_chunk);
        put_u32(row, 8, entry.sample_description_index);
    });
}

pub fn append_stsz(out: &mut Vec<u8>, b: &StszBox) {
    append_front(out, b.size(), STSZ, b.version, b.flags, b.sample_size);
    out.extend_from_slice(&b.sample_count.to_be_bytes());
    append_rows(out, &b.sample_sizes, |row, size| *row = size.to_be_bytes());
}

pub fn append_elst(out: &mut Vec<u8>, b: &ElstBox) {
    let count = b.entries.len() as u32;
    append_front(out, b.size(), ELST, b.version, b.flags, count);
    if b.version == 1 {
        append_rows(out, &b.entries, |row: &mut [u8; 20], entry| {
            put_u64(row, 0, entry.segment_duration);
            put_u64(row, 8, entry.media_time);
            put_u16(row, 16, entry.media_rate);
            put_u16(row, 18, entry.media_rate_fraction);
        });
    } else {
        append_rows(out, &b.entries, |row: &mut [u8; 12], entry| {
            put_u32(row, 0, entry.segment_duration as u32);
            put_u32(row, 4, entry.media_time as u32);
            put_u16(row, 8, entry.media_rate);
            put_u16(row, 10, entry.media_rate_fraction);
        });
    }
}
