//! Boxes of fixed fields.

use super::*;

fn timed_head(reader: &mut Reader) -> Result<(u8, u32)> {
    let (version, flags) = read_head(reader)?;
    test(version < 2)?;
    Ok((version, flags))
}

fn read_time(reader: &mut Reader, version: u8) -> Result<u64> {
    if version == 1 {
        read_u64(reader)
    } else {
        Ok(u64::from(read_u32(reader)?))
    }
}

fn read_matrix(reader: &mut Reader) -> Result<Matrix> {
    let mut numbers = [0; 9];
    for number in &mut numbers {
        *number = read_u32(reader)? as i32;
    }
    Ok(Matrix::from_numbers(numbers))
}

pub fn read_mvhd(reader: &mut Reader) -> Result<MvhdBox> {
    let (version, flags) = timed_head(reader)?;
    let creation_time = read_time(reader, version)?;
    let modification_time = read_time(reader, version)?;
    let timescale = read_u32(reader)?;
    let duration = read_time(reader, version)?;
    let rate = read_u32(reader)?;
    let volume = read_u16(reader)?;
    skip_present(reader, 10)?;
    let matrix = read_matrix(reader)?;
    skip_present(reader, 24)?;
    Ok(MvhdBox {
        version,
        flags,
        creation_time,
        modification_time,
        timescale,
        duration,
        rate,
        volume,
        matrix,
        next_track_id: read_u32(reader)?,
    })
}

pub fn read_tkhd(reader: &mut Reader) -> Result<TkhdBox> {
    let (version, flags) = timed_head(reader)?;
    let creation_time = read_time(reader, version)?;
    let modification_time = read_time(reader, version)?;
    let track_id = read_u32(reader)?;
    skip_present(reader, 4)?;
    let duration = read_time(reader, version)?;
    skip_present(reader, 8)?;
    let layer = read_u16(reader)?;
    let alternate_group = read_u16(reader)?;
    let volume = read_u16(reader)?;
    skip_present(reader, 2)?;
    Ok(TkhdBox {
        version,
        flags,
        creation_time,
        modification_time,
        track_id,
        duration,
        layer,
        alternate_group,
        volume,
        matrix: read_matrix(reader)?,
        width: read_u32(reader)?,
        height: read_u32(reader)?,
    })
}

pub fn read_mdhd(reader: &mut Reader) -> Result<MdhdBox> {
    let (version, flags) = timed_head(reader)?;
    Ok(MdhdBox {
        version,
        flags,
        creation_time: read_time(reader, version)?,
        modification_time: read_time(reader, version)?,
        timescale: read_u32(reader)?,
        duration: read_time(reader, version)?,
        language: language_of(read_u16(reader)?),
    })
}

pub fn read_mehd(reader: &mut Reader) -> Result<MehdBox> {
    let (version, flags) = timed_head(reader)?;
    Ok(MehdBox {
        version,
        flags,
        fragment_duration: read_time(reader, version)?,
    })
}

pub fn read_tfdt(reader: &mut Reader) -> Result<TfdtBox> {
    let (version, flags) = timed_head(reader)?;
    Ok(TfdtBox {
        version,
        flags,
        base_media_decode_time: read_time(reader, version)?,
    })
}

pub fn read_mfhd(reader: &mut Reader) -> Result<MfhdBox> {
    let (version, flags) = read_head(reader)?;
    Ok(MfhdBox {
        version,
        flags,
        sequence_number: read_u32(reader)?,
    })
}

pub fn read_smhd(reader: &mut Reader) -> Result<SmhdBox> {
    let (version, flags) = read_head(reader)?;
    Ok(SmhdBox {
        version,
        flags,
        balance: read_u16(reader)? as i16,
    })
}

pub fn read_vmhd(reader: &mut Reader) -> Result<VmhdBox> {
    let (version, flags) = read_head(reader)?;
    Ok(VmhdBox {
        version,
        flags,
        graphics_mode: read_u16(reader)?,
        op_color: RgbColor {
            red: read_u16(reader)?,
            green: read_u16(reader)?,
            blue: read_u16(reader)?,
        },
    })
}

pub fn read_trex(reader: &mut Reader) -> Result<TrexBox> {
    let (version, flags) = read_head(reader)?;
    Ok(TrexBox {
        version,
        flags,
        track_id: read_u32(reader)?,
        default_sample_description_index: read_u32(reader)?,
        default_sample_duration: read_u32(reader)?,
        default_sample_size: read_u32(reader)?,
        default_sample_flags: read_u32(reader)?,
    })
}

fn put_time<W: Write>(writer: &mut W, version: u8, time: u64) -> Result<()> {
    if version == 1 {
        put_u64(writer, time)
    } else {
        put_u32(writer, time as u32)
    }
}

fn put_matrix<W: Write>(writer: &mut W, matrix: &Matrix) -> Result<()> {
    matrix
        .numbers()
        .iter()
        .try_for_each(|number| put_u32(writer, *number as u32))
}

pub fn put_mvhd<W: Write>(writer: &mut W, b: &MvhdBox) -> Result<()> {
    put_head(writer, b.size(), MVHD, b.version, b.flags)?;
    put_time(writer, b.version, b.creation_time)?;
    put_time(writer, b.version, b.modification_time)?;
    put_u32(writer, b.timescale)?;
    put_time(writer, b.version, b.duration)?;
    put_u32(writer, b.rate)?;
    put_u16(writer, b.volume)?;
    put_zeros(writer, 10)?;
    put_matrix(writer, &b.matrix)?;
    put_zeros(writer, 24)?;
    put_u32(writer, b.next_track_id)
}

pub fn put_tkhd<W: Write>(writer: &mut W, b: &TkhdBox) -> Result<()> {
    put_head(writer, b.size(), TKHD, b.version, b.flags)?;
    put_time(writer, b.version, b.creation_time)?;
    put_time(writer, b.version, b.modification_time)?;
    put_u32(writer, b.track_id)?;
    put_zeros(writer, 4)?;
    put_time(writer, b.version, b.duration)?;
    put_zeros(writer, 8)?;
    put_u16(writer, b.layer)?;
    put_u16(writer, b.alternate_group)?;
    put_u16(writer, b.volume)?;
    put_zeros(writer, 2)?;
    put_matrix(writer, &b.matrix)?;
    put_u32(writer, b.width)?;
    put_u32(writer, b.height)
}

pub fn put_mdhd<W: Write>(writer: &mut W, b: &MdhdBox) -> Result<()> {
    put_head(writer, b.size(), MDHD, b.version, b.flags)?;
    put_time(writer, b.version, b.creation_time)?;
    put_time(writer, b.version, b.modification_time)?;
    put_u32(writer, b.timescale)?;
    put_time(writer, b.version, b.duration)?;
    put_u16(writer, language_number(&b.language))?;
    put_zeros(writer, 2)
}

pub fn put_one_time<W: Write>(
    writer: &mut W,
    code: u32,
    version: u8,
    flags: u32,
    time: u64,
) -> Result<()> {
    let size = if version == 1 { 20 } else { 16 };
    put_head(writer, size, code, version, flags)?;
    put_time(writer, version, time)
}

pub fn put_mfhd<W: Write>(writer: &mut W, b: &MfhdBox) -> Result<()> {
    put_head(writer, b.size(), MFHD, b.version, b.flags)?;
    put_u32(writer, b.sequence_number)
}

pub fn put_smhd<W: Write>(writer: &mut W, b: &SmhdBox) -> Result<()> {
    put_head(writer, b.size(), SMHD, b.version, b.flags)?;
    put_u16(writer, b.balance as u16)?;
    put_zeros(writer, 2)
}

pub fn put_vmhd<W: Write>(writer: &mut W, b: &VmhdBox) -> Result<()> {
    put_head(writer, b.size(), VMHD, b.version, b.flags)?;
    put_u16(writer, b.graphics_mode)?;
    put_u16(writer, b.op_color.red)?;
    put_u16(writer, b.op_color.green)?;
    put_u16(writer, b.op_color.blue)
}

pub fn put_trex<W: Write>(writer: &mut W, b: &TrexBox) -> Result<()> {
    put_head(writer, b.size(), TREX, b.version, b.flags)?;
    put_u32(writer, b.track_id)?;
    put_u32(writer, b.default_sample_description_index)?;
    put_u32(writer, b.default_sample_duration)?;
    put_u32(writer, b.default_sample_size)?;
    put_u32(writer, b.default_sample_flags)
}
