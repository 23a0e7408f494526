//! Boxes of fixed fields.

use super::*;

/// Returns the version and the flags of a box with times, and a run of fields that begins with them. The run has
/// `lens[version]` bytes.
fn timed(bytes: &[u8], lens: [usize; 2]) -> Result<(u8, u32, &[u8])> {
    let version = fields(bytes, 8, 4)?[0];
    test(version < 2)?;
    let run = fields(bytes, 8, lens[usize::from(version)])?;
    Ok((version, flags_at(run, 0), run))
}

/// The three times of a box, the number after the second time, and the fields after the duration. Their widths depend
/// on the version.
struct Times<'a> {
    creation: u64,
    modification: u64,
    number: u32,
    duration: u64,
    rest: &'a [u8],
}

/// Returns the times of a run of fields, with `between` bytes between the number and the duration.
fn times_of(run: &[u8], version: u8, between: usize) -> Times<'_> {
    if version == 1 {
        Times {
            creation: u64_at(run, 4),
            modification: u64_at(run, 12),
            number: u32_at(run, 20),
            duration: u64_at(run, 24 + between),
            rest: &run[32 + between..],
        }
    } else {
        Times {
            creation: u64::from(u32_at(run, 4)),
            modification: u64::from(u32_at(run, 8)),
            number: u32_at(run, 12),
            duration: u64::from(u32_at(run, 16 + between)),
            rest: &run[20 + between..],
        }
    }
}

fn matrix_at(bytes: &[u8], at: usize) -> Matrix {
    let (rows, _) = bytes[at..at + 36].as_chunks::<4>();
    Matrix::from_numbers(std::array::from_fn(|i| i32::from_be_bytes(rows[i])))
}

pub fn read_mvhd(bytes: &[u8]) -> Result<MvhdBox> {
    let (version, flags, run) = timed(bytes, [100, 112])?;
    let times = times_of(run, version, 0);
    let rest: &[u8; 80] = times.rest.first_chunk().ok_or(Error::Io)?;
    Ok(MvhdBox {
        version,
        flags,
        creation_time: times.creation,
        modification_time: times.modification,
        timescale: times.number,
        duration: times.duration,
        rate: u32_at(rest, 0),
        volume: u16_at(rest, 4),
        matrix: matrix_at(rest, 16),
        next_track_id: u32_at(rest, 76),
    })
}

pub fn read_tkhd(bytes: &[u8]) -> Result<TkhdBox> {
    let (version, flags, run) = timed(bytes, [84, 96])?;
    let times = times_of(run, version, 4);
    let rest: &[u8; 60] = times.rest.first_chunk().ok_or(Error::Io)?;
    Ok(TkhdBox {
        version,
        flags,
        creation_time: times.creation,
        modification_time: times.modification,
        track_id: times.number,
        duration: times.duration,
        layer: u16_at(rest, 8),
        alternate_group: u16_at(rest, 10),
        volume: u16_at(rest, 12),
        matrix: matrix_at(rest, 16),
        width: u32_at(rest, 52),
        height: u32_at(rest, 56),
    })
}

pub fn read_mdhd(bytes: &[u8]) -> Result<MdhdBox> {
    let (version, flags, run) = timed(bytes, [22, 34])?;
    let times = times_of(run, version, 0);
    Ok(MdhdBox {
        version,
        flags,
        creation_time: times.creation,
        modification_time: times.modification,
        timescale: times.number,
        duration: times.duration,
        language: language_of(u16_at(times.rest, 0)),
    })
}

/// Returns the version, the flags and the time of a box with one time.
fn one_time(bytes: &[u8]) -> Result<(u8, u32, u64)> {
    let (version, flags, run) = timed(bytes, [8, 12])?;
    let time = if version == 1 {
        u64_at(run, 4)
    } else {
        u64::from(u32_at(run, 4))
    };
    Ok((version, flags, time))
}

pub fn read_mehd(bytes: &[u8]) -> Result<MehdBox> {
    let (version, flags, fragment_duration) = one_time(bytes)?;
    Ok(MehdBox {
        version,
        flags,
        fragment_duration,
    })
}

pub fn read_tfdt(bytes: &[u8]) -> Result<TfdtBox> {
    let (version, flags, base_media_decode_time) = one_time(bytes)?;
    Ok(TfdtBox {
        version,
        flags,
        base_media_decode_time,
    })
}

pub fn read_mfhd(bytes: &[u8]) -> Result<MfhdBox> {
    let b = fields(bytes, 8, 8)?;
    Ok(MfhdBox {
        version: b[0],
        flags: flags_at(b, 0),
        sequence_number: u32_at(b, 4),
    })
}

pub fn read_smhd(bytes: &[u8]) -> Result<SmhdBox> {
    let b = fields(bytes, 8, 6)?;
    Ok(SmhdBox {
        version: b[0],
        flags: flags_at(b, 0),
        balance: u16_at(b, 4) as i16,
    })
}

pub fn read_vmhd(bytes: &[u8]) -> Result<VmhdBox> {
    let b = fields(bytes, 8, 12)?;
    Ok(VmhdBox {
        version: b[0],
        flags: flags_at(b, 0),
        graphics_mode: u16_at(b, 4),
        op_color: RgbColor {
            red: u16_at(b, 6),
            green: u16_at(b, 8),
            blue: u16_at(b, 10),
        },
    })
}

pub fn read_trex(bytes: &[u8]) -> Result<TrexBox> {
    let b = fields(bytes, 8, 24)?;
    Ok(TrexBox {
        version: b[0],
        flags: flags_at(b, 0),
        track_id: u32_at(b, 4),
        default_sample_description_index: u32_at(b, 8),
        default_sample_duration: u32_at(b, 12),
        default_sample_size: u32_at(b, 16),
        default_sample_flags: u32_at(b, 20),
    })
}

/// Writes three times and a number starting at offset 12, in the form that `times_of` reads. Returns the bytes after
/// them.
fn put_times(
    out: &mut [u8],
    version: u8,
    between: usize,
    [creation, modification, duration]: [u64; 3],
    number: u32,
) -> &mut [u8] {
    if version == 1 {
        put_u64(out, 12, creation);
        put_u64(out, 20, modification);
        put_u32(out, 28, number);
        put_u64(out, 32 + between, duration);
        &mut out[40 + between..]
    } else {
        put_u32(out, 12, creation as u32);
        put_u32(out, 16, modification as u32);
        put_u32(out, 20, number);
        put_u32(out, 24 + between, duration as u32);
        &mut out[28 + between..]
    }
}

fn put_matrix(out: &mut [u8], at: usize, matrix: &Matrix) {
    let (rows, _) = out[at..at + 36].as_chunks_mut::<4>();
    for (row, number) in rows.iter_mut().zip(matrix.numbers()) {
        *row = number.to_be_bytes();
    }
}

pub fn put_mvhd(out: &mut [u8], b: &MvhdBox) {
    put_full(out, MVHD, b.version, b.flags);
    let times = [b.creation_time, b.modification_time, b.duration];
    let rest = put_times(out, b.version, 0, times, b.timescale);
    let rest: &mut [u8; 80] = rest.first_chunk_mut().unwrap();
    put_u32(rest, 0, b.rate);
    put_u16(rest, 4, b.volume);
    put_matrix(rest, 16, &b.matrix);
    put_u32(rest, 76, b.next_track_id);
}

pub fn put_tkhd(out: &mut [u8], b: &TkhdBox) {
    put_full(out, TKHD, b.version, b.flags);
    let times = [b.creation_time, b.modification_time, b.duration];
    let rest = put_times(out, b.version, 4, times, b.track_id);
    let rest: &mut [u8; 60] = rest.first_chunk_mut().unwrap();
    put_u16(rest, 8, b.layer);
    put_u16(rest, 10, b.alternate_group);
    put_u16(rest, 12, b.volume);
    put_matrix(rest, 16, &b.matrix);
    put_u32(rest, 52, b.width);
    put_u32(rest, 56, b.height);
}

pub fn put_mdhd(out: &mut [u8], b: &MdhdBox) {
    put_full(out, MDHD, b.version, b.flags);
    let times = [b.creation_time, b.modification_time, b.duration];
    let rest = put_times(out, b.version, 0, times, b.timescale);
    put_u16(rest, 0, language_number(&b.language));
}

#[inline]
fn put_one_time(out: &mut [u8], code: u32, version: u8, flags: u32, time: u64) {
    put_full(out, code, version, flags);
    if version == 1 {
        put_u64(out, 12, time);
    } else {
        put_u32(out, 12, time as u32);
    }
}

#[inline]
pub fn put_mehd(out: &mut [u8], b: &MehdBox) {
    put_one_time(out, MEHD, b.version, b.flags, b.fragment_duration)
}

#[inline]
pub fn put_tfdt(out: &mut [u8], b: &TfdtBox) {
    put_one_time(out, TFDT, b.version, b.flags, b.base_media_decode_time)
}

#[inline]
pub fn put_mfhd(out: &mut [u8], b: &MfhdBox) {
    let out: &mut [u8; 16] = out.first_chunk_mut().unwrap();
    put_full(out, MFHD, b.version, b.flags);
    put_u32(out, 12, b.sequence_number);
}

#[inline]
pub fn put_smhd(out: &mut [u8], b: &SmhdBox) {
    put_full(out, SMHD, b.version, b.flags);
    put_u16(out, 12, b.balance as u16);
}

#[inline]
pub fn put_vmhd(out: &mut [u8], b: &VmhdBox) {
    let out: &mut [u8; 20] = out.first_chunk_mut().unwrap();
    put_full(out, VMHD, b.version, b.flags);
    put_u16(out, 12, b.graphics_mode);
    put_u16(out, 14, b.op_color.red);
    put_u16(out, 16, b.op_color.green);
    put_u16(out, 18, b.op_color.blue);
}

#[inline]
pub fn put_trex(out: &mut [u8], b: &TrexBox) {
    let out: &mut [u8; 32] = out.first_chunk_mut().unwrap();
    put_full(out, TREX, b.version, b.flags);
    put_u32(out, 12, b.track_id);
    put_u32(out, 16, b.default_sample_description_index);
    put_u32(out, 20, b.default_sample_duration);
    put_u32(out, 24, b.default_sample_size);
    put_u32(out, 28, b.default_sample_flags);
}
