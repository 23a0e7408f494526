//! The sample entry of AVC video.

use super::*;

/// Returns `count` parameter sets starting at offset `at`, and moves the offset past them.
fn sets_at(bytes: &[u8], at: &mut usize, count: u8) -> Result<Vec<NalUnit>> {
    let mut sets = Vec::with_capacity(usize::from(count));
    for _ in 0..count {
        let len = usize::from(u16_at(fields(bytes, *at, 2)?, 0));
        let bytes = fields(bytes, *at + 2, len)?.to_vec();
        *at += 2 + len;
        sets.push(NalUnit { bytes });
    }
    Ok(sets)
}

pub fn read_avcc(bytes: &[u8]) -> Result<AvcCBox> {
    let head = fields(bytes, 8, 6)?;
    let mut at = 14;
    let sequence_parameter_sets = sets_at(bytes, &mut at, head[5] & 31)?;
    let count = fields(bytes, at, 1)?[0];
    at += 1;
    Ok(AvcCBox {
        configuration_version: head[0],
        avc_profile_indication: head[1],
        profile_compatibility: head[2],
        avc_level_indication: head[3],
        length_size_minus_one: head[4] & 3,
        sequence_parameter_sets,
        picture_parameter_sets: sets_at(bytes, &mut at, count)?,
    })
}

pub fn read_avc1(bytes: &[u8], size: u64) -> Result<Avc1Box> {
    let b = fields(bytes, 8, 78)?;
    let (head, rest) = child(bytes, 86, size)?;
    test(head.code == AVCC)?;
    Ok(Avc1Box {
        data_reference_index: u16_at(b, 6),
        width: u16_at(b, 24),
        height: u16_at(b, 26),
        horizresolution: u32_at(b, 28),
        vertresolution: u32_at(b, 32),
        frame_count: u16_at(b, 40),
        depth: u16_at(b, 74),
        avcc: read_avcc(rest)?,
    })
}

fn put_sets(out: &mut [u8], sets: &[NalUnit], mut at: usize) -> usize {
    for set in sets {
        let end = at + 2 + set.bytes.len();
        put_u16(out, at, set.bytes.len() as u16);
        out[at + 2..end].copy_from_slice(&set.bytes);
        at = end;
    }
    at
}

pub fn put_avcc(out: &mut [u8], b: &AvcCBox) {
    put_header(out, AVCC);
    let head: &mut [u8; 14] = out.first_chunk_mut().unwrap();
    head[8] = b.configuration_version;
    head[9] = b.avc_profile_indication;
    head[10] = b.profile_compatibility;
    head[11] = b.avc_level_indication;
    head[12] = b.length_size_minus_one | 0xfc;
    head[13] = b.sequence_parameter_sets.len() as u8 | 0xe0;
    let at = put_sets(out, &b.sequence_parameter_sets, 14);
    out[at] = b.picture_parameter_sets.len() as u8;
    put_sets(out, &b.picture_parameter_sets, at + 1);
}

pub fn put_avc1(out: &mut [u8], b: &Avc1Box) {
    put_header(out, AVC1);
    let head: &mut [u8; 86] = out.first_chunk_mut().unwrap();
    put_u16(head, 14, b.data_reference_index);
    put_u16(head, 32, b.width);
    put_u16(head, 34, b.height);
    put_u32(head, 36, b.horizresolution);
    put_u32(head, 40, b.vertresolution);
    put_u16(head, 48, b.frame_count);
    put_u16(head, 82, b.depth);
    put_u16(head, 84, 0xffff);
    put_avcc(&mut out[86..], &b.avcc);
}
