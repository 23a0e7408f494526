//! Writes a playlist (HLS, RFC 8216) whose segments are the fragments of a file: playlist FILE TRACK_ID.

use std::error::Error;

use mp4_box_codec::{fragment_samples, list, tracks};

fn main() -> Result<(), Box<dyn Error>> {
    let arguments: Vec<String> = std::env::args().skip(1).collect();
    if arguments.len() != 2 {
        return Err("usage: playlist FILE TRACK_ID".into());
    }
    let (file, track_id) = (std::fs::read(&arguments[0])?, arguments[1].parse::<u32>()?);
    let name = arguments[0].rsplit('/').next().unwrap_or_default();
    let tracks = tracks(&file)?;
    let track = tracks.iter().find(|it| it.track_id() == track_id).ok_or("no track has the track_ID")?;
    let boxes = list(&file)?;
    let moov = boxes.iter().find(|it| it.code == "moov").ok_or("the file has no moov")?;

    // A segment begins at a moof, and ends at the next one.
    let begins: Vec<u64> = boxes.iter().filter(|it| it.code == "moof").map(|it| it.position).collect();
    let mut units = vec![0; begins.len()];
    for sample in fragment_samples(&file, track_id)? {
        let after = begins.partition_point(|it| *it <= sample.offset);
        *units.get_mut(after.wrapping_sub(1)).ok_or("a sample is before the fragments")? += u64::from(sample.duration);
    }
    let seconds: Vec<f64> = units.iter().map(|it| *it as f64 / f64::from(track.timescale())).collect();
    let longest = seconds.iter().copied().fold(0.0, f64::max).ceil();
    println!("#EXTM3U\n#EXT-X-VERSION:7\n#EXT-X-TARGETDURATION:{longest}\n#EXT-X-PLAYLIST-TYPE:VOD");
    println!("#EXT-X-MAP:URI=\"{name}\",BYTERANGE=\"{}@0\"", moov.position + moov.length);
    for (index, begin) in begins.iter().enumerate() {
        let end = begins.get(index + 1).copied().unwrap_or(file.len() as u64);
        println!("#EXTINF:{:.6},\n#EXT-X-BYTERANGE:{}@{begin}\n{name}", seconds[index], end - begin);
    }
    println!("#EXT-X-ENDLIST");
    Ok(())
}
