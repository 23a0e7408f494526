//! Writes the AVC video of a track as a stream with start codes: elementary FILE TRACK_ID OUT.

use std::error::Error;
use std::io::Write;

use mp4_box_codec::{fragment_samples, samples, tree, SampleEntry, StsdBox, TkhdBox};

const START: [u8; 4] = [0, 0, 0, 1];

fn main() -> Result<(), Box<dyn Error>> {
    let arguments: Vec<String> = std::env::args().skip(1).collect();
    if arguments.len() != 3 {
        return Err("usage: elementary FILE TRACK_ID OUT".into());
    }
    let (file, track_id) = (std::fs::read(&arguments[0])?, arguments[1].parse::<u32>()?);
    let tree = tree(&file)?;
    let moov = tree.find("moov").ok_or("the file has no moov")?;
    let mut out = std::io::BufWriter::new(std::fs::File::create(&arguments[2])?);
    for trak in moov.children().filter(|it| it.code == "trak") {
        if trak.require("tkhd")?.read::<TkhdBox>(&file)?.track_id != track_id {
            continue;
        }
        let stsd: StsdBox = trak.require("mdia/minf/stbl/stsd")?.read(&file)?;
        let avcc = match stsd.entry {
            Some(SampleEntry::Avc1(entry)) => entry.avcc,
            _ => return Err("the track is not AVC video".into()),
        };
        for set in avcc.sequence_parameter_sets.iter().chain(&avcc.picture_parameter_sets) {
            out.write_all(&[&START[..], &set.bytes].concat())?;
        }
        for sample in samples(&file, track_id)?.iter().chain(&fragment_samples(&file, track_id)?) {
            for unit in avcc.units(sample.bytes(&file).ok_or("a sample is not in the file")?) {
                out.write_all(&[&START[..], unit?].concat())?;
            }
        }
        out.flush()?;
        return Ok(());
    }
    Err("no track has the track_ID".into())
}
