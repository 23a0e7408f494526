//! The sample entry of AVC video.

use super::*;

fn read_sets(reader: &mut Reader, count: u8) -> Result<Vec<NalUnit>> {
    let mut sets = Vec::with_capacity(usize::from(count));
    for _ in 0..count {
        let len = read_u16(reader)?;
        let bytes = read_bytes(reader, u64::from(len))?;
        sets.push(NalUnit { bytes });
    }
    Ok(sets)
}

pub fn read_avcc(reader: &mut Reader) -> Result<AvcCBox> {
    let configuration_version = read_u8(reader)?;
    let avc_profile_indication = read_u8(reader)?;
    let profile_compatibility = read_u8(reader)?;
    let avc_level_indication = read_u8(reader)?;
    let length_size_minus_one = read_u8(reader)? & 3;
    let count = read_u8(reader)? & 31;
    let sequence_parameter_sets = read_sets(reader, count)?;
    let count = read_u8(reader)?;
    Ok(AvcCBox {
        configuration_version,
        avc_profile_indication,
        profile_compatibility,
        avc_level_indication,
        length_size_minus_one,
        sequence_parameter_sets,
        picture_parameter_sets: read_sets(reader, count)?,
    })
}

pub fn read_avc1(reader: &mut Reader, size: u64) -> Result<Avc1Box> {
    skip_present(reader, 6)?;
    let data_reference_index = read_u16(reader)?;
    skip_present(reader, 16)?;
    let width = read_u16(reader)?;
    let height = read_u16(reader)?;
    let horizresolution = read_u32(reader)?;
    let vertresolution = read_u32(reader)?;
    skip_present(reader, 4)?;
    let frame_count = read_u16(reader)?;
    skip_present(reader, 32)?;
    let depth = read_u16(reader)?;
    skip_present(reader, 2)?;
    let child = read_header(reader)?;
    test(child.size <= size)?;
    test(child.code == AVCC)?;
    Ok(Avc1Box {
        data_reference_index,
        width,
        height,
        horizresolution,
        vertresolution,
        frame_count,
        depth,
        avcc: read_avcc(reader)?,
    })
}

fn put_sets<W: Write>(writer: &mut W, sets: &[NalUnit]) -> Result<()> {
    for set in sets {
        put_u16(writer, set.bytes.len() as u16)?;
        writer.write_all(&set.bytes)?;
    }
    Ok(())
}

pub fn put_avcc<W: Write>(writer: &mut W, b: &AvcCBox) -> Result<()> {
    put_header(writer, b.size(), AVCC)?;
    put_u8(writer, b.configuration_version)?;
    put_u8(writer, b.avc_profile_indication)?;
    put_u8(writer, b.profile_compatibility)?;
    put_u8(writer, b.avc_level_indication)?;
    put_u8(writer, b.length_size_minus_one | 0xfc)?;
    put_u8(writer, b.sequence_parameter_sets.len() as u8 | 0xe0)?;
    put_sets(writer, &b.sequence_parameter_sets)?;
    put_u8(writer, b.picture_parameter_sets.len() as u8)?;
    put_sets(writer, &b.picture_parameter_sets)
}

pub fn put_avc1<W: Write>(writer: &mut W, b: &Avc1Box) -> Result<()> {
    put_header(writer, b.size(), AVC1)?;
    put_zeros(writer, 6)?;
    put_u16(writer, b.data_reference_index)?;
    put_zeros(writer, 16)?;
    put_u16(writer, b.width)?;
    put_u16(writer, b.height)?;
    put_u32(writer, b.horizresolution)?;
    put_u32(writer, b.vertresolution)?;
    put_zeros(writer, 4)?;
    put_u16(writer, b.frame_count)?;
    put_zeros(writer, 32)?;
    put_u16(writer, b.depth)?;
    put_u16(writer, 0xffff)?;
    put_avcc(writer, &b.avcc)
}
