//! The boxes of a fragment whose fields depend on flags.

use super::*;

fn read_option(reader: &mut Reader, is_there: bool) -> Result<Option<u32>> {
    if is_there {
        Ok(Some(read_u32(reader)?))
    } else {
        Ok(None)
    }
}

pub fn read_tfhd(reader: &mut Reader) -> Result<TfhdBox> {
    let (version, flags) = read_head(reader)?;
    let has = |flag: u32| flags & flag != 0;
    Ok(TfhdBox {
        version,
        flags,
        track_id: read_u32(reader)?,
        base_data_offset: if has(0x01) {
            Some(read_u64(reader)?)
        } else {
            None
        },
        sample_description_index: read_option(reader, has(0x02))?,
        default_sample_duration: read_option(reader, has(0x08))?,
        default_sample_size: read_option(reader, has(0x10))?,
        default_sample_flags: read_option(reader, has(0x20))?,
    })
}

pub fn read_trun(reader: &mut Reader, size: u64) -> Result<TrunBox> {
    let (version, flags) = read_head(reader)?;
    let has = |flag: u32| flags & flag != 0;
    let sample_count = read_u32(reader)?;
    let data_offset = read_option(reader, has(0x01))?.map(|offset| offset as i32);
    let first_sample_flags = read_option(reader, has(0x04))?;
    let list = |flag: u32| Vec::with_capacity(if has(flag) { sample_count as usize } else { 0 });
    let mut run = TrunBox {
        version,
        flags,
        sample_count,
        data_offset,
        first_sample_flags,
        sample_durations: Vec::new(),
        sample_sizes: Vec::new(),
        sample_flags: Vec::new(),
        sample_cts: Vec::new(),
    };
    test(u64::from(sample_count) * run.row() as u64 <= size.saturating_sub(run.head() as u64))?;
    run.sample_durations = list(0x100);
    run.sample_sizes = list(0x200);
    run.sample_flags = list(0x400);
    run.sample_cts = list(0x800);
    if run.row() == 0 {
        return Ok(run);
    }
    for _ in 0..sample_count {
        if has(0x100) {
            run.sample_durations.push(read_u32(reader)?);
        }
        if has(0x200) {
            run.sample_sizes.push(read_u32(reader)?);
        }
        if has(0x400) {
            run.sample_flags.push(read_u32(reader)?);
        }
        if has(0x800) {
            run.sample_cts.push(read_u32(reader)?);
        }
    }
    Ok(run)
}

fn put_options<W: Write>(writer: &mut W, options: &[Option<u32>]) -> Result<()> {
    for number in options.iter().flatten() {
        put_u32(writer, *number)?;
    }
    Ok(())
}

pub fn put_tfhd<W: Write>(writer: &mut W, b: &TfhdBox) -> Result<()> {
    put_head(writer, b.size(), TFHD, b.version, b.flags)?;
    put_u32(writer, b.track_id)?;
    if let Some(offset) = b.base_data_offset {
        put_u64(writer, offset)?;
    }
    put_options(
        writer,
        &[b.sample_description_index, b.default_sample_duration],
    )?;
    put_options(writer, &[b.default_sample_size, b.default_sample_flags])
}

pub fn put_trun<W: Write>(writer: &mut W, b: &TrunBox) -> Result<()> {
    put_head(writer, b.size(), TRUN, b.version, b.flags)?;
    put_u32(writer, b.sample_count)?;
    let offset = b.data_offset.map(|offset| offset as u32);
    put_options(writer, &[offset, b.first_sample_flags])?;
    if b.row() == 0 {
        return Ok(());
    }
    for i in 0..b.sample_count as usize {
        for (flag, column) in b.columns() {
            if b.flags & flag != 0 {
                put_u32(writer, column[i])?;
            }
        }
    }
    Ok(())
}
