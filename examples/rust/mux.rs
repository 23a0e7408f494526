//! Puts a stream of AVC video with start codes into a file: mux IN WIDTH HEIGHT PICTURES_PER_SECOND OUT.

use mp4_box_codec::*;

/// Returns the units between the start codes of a stream.
fn units(stream: &[u8]) -> Vec<&[u8]> {
    let begins = stream.windows(3).enumerate().filter(|it| it.1 == [0, 0, 1]).map(|it| it.0 + 3);
    let begins: Vec<usize> = begins.chain([stream.len() + 3]).collect();
    let trimmed = |it: &[usize]| {
        let unit = &stream[it[0]..it[1] - 3];
        &unit[..unit.len() - unit.iter().rev().take_while(|it| **it == 0).count()]
    };
    begins.windows(2).map(trimmed).filter(|it| it.len() > 1).collect()
}

fn main() -> Result<(), Box<dyn std::error::Error>> {
    let given = |index| std::env::args().nth(index).ok_or("usage: mux IN WIDTH HEIGHT PICTURES_PER_SECOND OUT");
    let (width, height, timescale) = (given(2)?.parse()?, given(3)?.parse()?, given(4)?.parse()?);
    let (stream, out) = (std::fs::read(given(1)?)?, given(5)?);
    let (mut media, mut stss, mut stsz) = (vec![], StssBox::default(), StszBox::default());
    let (mut sps, mut pps): (&[u8], &[u8]) = (&[], &[]);
    for unit in units(&stream) {
        match unit[0] % 32 {
            7 => sps = unit,
            8 => pps = unit,
            kind @ (1 | 5) => {
                // The first slice of a picture begins with a bit of 1.
                if unit[1] >= 0x80 {
                    stsz.sample_sizes.push(0);
                    stss.entries.extend((kind == 5).then(|| stsz.sample_sizes.len() as u32));
                }
                *stsz.sample_sizes.last_mut().ok_or("a picture lacks its first slice")? += unit.len() as u32 + 4;
                media.extend((unit.len() as u32).to_be_bytes());
                media.extend(unit);
            }
            _ => {}
        }
    }
    let entry = Avc1Box { width, height, avcc: AvcCBox::new(sps, pps)?, ..Avc1Box::default() };
    let (sample_count, duration) = (stsz.sample_sizes.len() as u32, stsz.sample_sizes.len() as u64);
    stsz.sample_count = sample_count;
    let (first_chunk, samples_per_chunk, sample_description_index) = (1, sample_count, 1);
    let chunk = StscEntry { first_chunk, samples_per_chunk, sample_description_index, first_sample: 1 };
    let ftyp = FtypBox { major_brand: b"isom".into(), compatible_brands: vec![b"avc1".into()], minor_version: 512 };
    let (ftyp, mdat) = (ftyp.to_bytes()?, container(b"mdat", &[&media])?);
    let stsd = StsdBox { entry: Some(SampleEntry::Avc1(entry)), ..StsdBox::default() }.to_bytes()?;
    let stts =
        SttsBox { entries: vec![SttsEntry { sample_count, sample_delta: 1 }], ..SttsBox::default() }.to_bytes()?;
    let stsc = StscBox { entries: vec![chunk], ..StscBox::default() }.to_bytes()?;
    let stco = StcoBox { entries: vec![ftyp.len() as u32 + 8], ..StcoBox::default() }.to_bytes()?;
    let stbl = container(b"stbl", &[&stsd, &stts, &stss.to_bytes()?, &stsz.to_bytes()?, &stsc, &stco])?;
    let dref = DrefBox { url: Some(UrlBox { flags: 1, ..UrlBox::default() }), ..DrefBox::default() }.to_bytes()?;
    let minf = container(b"minf", &[&VmhdBox::default().to_bytes()?, &container(b"dinf", &[&dref])?, &stbl])?;
    let hdlr = HdlrBox { handler_type: b"vide".into(), ..HdlrBox::default() }.to_bytes()?;
    let mdhd = MdhdBox { timescale, duration, ..MdhdBox::default() }.to_bytes()?;
    let tkhd = TkhdBox { track_id: 1, duration, width: width.into(), height: height.into(), ..TkhdBox::default() };
    let trak = container(b"trak", &[&tkhd.to_bytes()?, &container(b"mdia", &[&mdhd, &hdlr, &minf])?])?;
    let mvhd = MvhdBox { timescale, duration, next_track_id: 2, ..MvhdBox::default() }.to_bytes()?;
    Ok(std::fs::write(out, [ftyp, mdat, container(b"moov", &[&mvhd, &trak])?].concat())?)
}
