//! The boxes of a fragment whose fields depend on flags.

use super::tables::{append_front, rows, BLOCK};
use super::*;

/// Returns the number at offset `at` and moves the offset past it, or returns `None` if `is_there` is false.
fn option_at(bytes: &[u8], at: &mut usize, is_there: bool) -> Result<Option<u32>> {
    if !is_there {
        return Ok(None);
    }
    let field = fields(bytes, *at, 4)?;
    *at += 4;
    Ok(Some(u32_at(field, 0)))
}

pub fn read_tfhd(bytes: &[u8]) -> Result<TfhdBox> {
    let head = fields(bytes, 8, 8)?;
    let flags = flags_at(head, 0);
    let mut at = 16;
    let base_data_offset = if flags & 0x01 != 0 {
        let field = fields(bytes, at, 8)?;
        at += 8;
        Some(u64_at(field, 0))
    } else {
        None
    };
    let mut option = |flag: u32| option_at(bytes, &mut at, flags & flag != 0);
    Ok(TfhdBox {
        version: head[0],
        flags,
        track_id: u32_at(head, 4),
        base_data_offset,
        sample_description_index: option(0x02)?,
        default_sample_duration: option(0x08)?,
        default_sample_size: option(0x10)?,
        default_sample_flags: option(0x20)?,
    })
}

/// Reads the rows of a run into one list for each flag, in the order of the fields in a row. The rows are read in
/// blocks, which stay in the nearest cache until all lists have their part.
fn read_columns<const E: usize>(
    run: &mut TrunBox,
    bytes: &[u8],
    size: u64,
    at: usize,
) -> Result<()> {
    let rows = rows::<E>(bytes, size, at, run.sample_count)?;
    let flags = run.flags;
    let mut columns = [
        (0x100, &mut run.sample_durations),
        (0x200, &mut run.sample_sizes),
        (0x400, &mut run.sample_flags),
        (0x800, &mut run.sample_cts),
    ];
    for (flag, column) in &mut columns {
        if flags & *flag != 0 {
            column.reserve_exact(rows.len());
        }
    }
    for block in rows.chunks(BLOCK) {
        let mut at = 0;
        for (flag, column) in &mut columns {
            if flags & *flag != 0 {
                column.extend(block.iter().map(|row| u32_at(row, at)));
                at += 4;
            }
        }
    }
    Ok(())
}

pub fn read_trun(bytes: &[u8], size: u64) -> Result<TrunBox> {
    let head = fields(bytes, 8, 8)?;
    let flags = flags_at(head, 0);
    let mut at = 16;
    let mut option = |flag: u32| option_at(bytes, &mut at, flags & flag != 0);
    let data_offset = option(0x01)?.map(|offset| offset as i32);
    let first_sample_flags = option(0x04)?;
    let mut run = TrunBox {
        version: head[0],
        flags,
        sample_count: u32_at(head, 4),
        data_offset,
        first_sample_flags,
        sample_durations: Vec::new(),
        sample_sizes: Vec::new(),
        sample_flags: Vec::new(),
        sample_cts: Vec::new(),
    };
    match run.row() {
        0 => {}
        4 => read_columns::<4>(&mut run, bytes, size, at)?,
        8 => read_columns::<8>(&mut run, bytes, size, at)?,
        12 => read_columns::<12>(&mut run, bytes, size, at)?,
        _ => read_columns::<16>(&mut run, bytes, size, at)?,
    }
    Ok(run)
}

#[inline]
fn append_option(out: &mut Vec<u8>, option: Option<u32>) {
    if let Some(number) = option {
        out.extend_from_slice(&number.to_be_bytes());
    }
}

pub fn append_tfhd(out: &mut Vec<u8>, b: &TfhdBox) {
    append_front(out, b.size(), TFHD, b.version, b.flags, b.track_id);
    if let Some(offset) = b.base_data_offset {
        out.extend_from_slice(&offset.to_be_bytes());
    }
    append_option(out, b.sample_description_index);
    append_option(out, b.default_sample_duration);
    append_option(out, b.default_sample_size);
    append_option(out, b.default_sample_flags);
}

/// Writes the rows starting at sample `start`, one list after the other.
fn put_columns<const E: usize>(out: &mut [u8], run: &TrunBox, start: usize) {
    let (rows, _) = out.as_chunks_mut::<E>();
    let mut at = 0;
    let mut put = |flag: u32, column: &[u32]| {
        if run.flags & flag != 0 {
            for (row, number) in rows.iter_mut().zip(&column[start..]) {
                put_u32(row, at, *number);
            }
            at += 4;
        }
    };
    put(0x100, &run.sample_durations);
    put(0x200, &run.sample_sizes);
    put(0x400, &run.sample_flags);
    put(0x800, &run.sample_cts);
}

/// Writes the rows starting at sample `start`, all four lists at once.
fn put_full_rows(out: &mut [u8], run: &TrunBox, start: usize) {
    let (rows, _) = out.as_chunks_mut::<16>();
    let first = run.sample_durations[start..]
        .iter()
        .zip(&run.sample_sizes[start..]);
    let last = run.sample_flags[start..]
        .iter()
        .zip(&run.sample_cts[start..]);
    for (row, ((duration, size), (flags, cts))) in rows.iter_mut().zip(first.zip(last)) {
        put_u32(row, 0, *duration);
        put_u32(row, 4, *size);
        put_u32(row, 8, *flags);
        put_u32(row, 12, *cts);
    }
}

fn put_rows(out: &mut [u8], run: &TrunBox, start: usize) {
    match run.row() {
        0 => {}
        4 => put_columns::<4>(out, run, start),
        8 => put_columns::<8>(out, run, start),
        12 => put_columns::<12>(out, run, start),
        _ => put_full_rows(out, run, start),
    }
}

/// Appends the rows of a short run, one number after the other.
fn append_numbers(out: &mut Vec<u8>, run: &TrunBox, samples: usize) {
    for i in 0..samples {
        for (flag, column) in run.columns() {
            if run.flags & flag != 0 {
                out.extend_from_slice(&column[i].to_be_bytes());
            }
        }
    }
}

/// Appends a `trun`, with its rows in blocks if there are at least eight.
pub fn append_trun(out: &mut Vec<u8>, run: &TrunBox) {
    let (version, flags) = (run.version, run.flags);
    append_front(out, run.size(), TRUN, version, flags, run.sample_count);
    append_option(out, run.data_offset.map(|offset| offset as u32));
    append_option(out, run.first_sample_flags);
    let row = run.row();
    let samples = if row == 0 {
        0
    } else {
        run.sample_count as usize
    };
    if samples < 8 {
        append_numbers(out, run, samples);
        return;
    }
    for start in (0..samples).step_by(BLOCK) {
        let rows = BLOCK.min(samples - start);
        // SAFETY: `put_rows` writes all bytes of each row.
        put_rows(unsafe { room(out, row * rows) }, run, start);
    }
}
