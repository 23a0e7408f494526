//! Lists the tracks of a file: tracks FILE.

use std::error::Error;

use mp4_box_codec::info;

fn main() -> Result<(), Box<dyn Error>> {
    let path = std::env::args().nth(1).ok_or("usage: tracks FILE")?;
    let file = std::fs::read(path)?;
    for track in info(&file)?.tracks {
        let (width, height) = track.picture.map_or((0, 0), |it| (it.width, it.height));
        let count = track.samples.map_or(0, |it| it.sample_count);
        let seconds = track.duration.unwrap_or_default().as_secs_f64();
        print!("track {}: {}, {}, {}, ", track.track_id, track.kind, track.codec, track.language);
        println!("{width} x {height}, {seconds:.3} s, {count} samples");
    }
    Ok(())
}
