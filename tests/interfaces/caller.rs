//! Writes what the crate for Rust finds in a file, for `test_one_answer.py`. The arguments are the path of the file and
//! track_IDs.
//!
//! The first line has the boxes: for each the depth, the code, the position and the length, with commas between them.
//! Then come two lines for each track_ID: the track_ID, `tables` or `fragments`, and the samples or the error. A sample
//! is its offset, size, decode time, duration, composition offset, 1 if it is a sync sample, and description.

use std::env;
use std::fs;

use mp4_box_codec::{fragment_samples, samples, tree, Error, Sample};

/// Writes the samples of a track, or the error.
fn write(track_id: u32, what: &str, found: Result<Vec<Sample>, Error>) {
    print!("{track_id} {what} ");
    match found {
        Err(Error::Fault(fault)) => println!("{fault:?}"),
        Err(error) => println!("{error:?}"),
        Ok(samples) => {
            for it in samples {
                print!("{},{},{},{},", it.offset, it.size, it.start_time, it.duration);
                print!("{},{},{} ", it.rendering_offset, u8::from(it.is_sync), it.description);
            }
            println!();
        }
    }
}

fn main() {
    let arguments: Vec<String> = env::args().skip(1).collect();
    let file = fs::read(&arguments[0]).unwrap();
    for it in &tree(&file).unwrap() {
        print!("{},{},{},{} ", it.depth, u32::from(it.code), it.position, it.length);
    }
    println!();
    for track_id in &arguments[1..] {
        let track_id = track_id.parse().unwrap();
        write(track_id, "tables", samples(&file, track_id));
        write(track_id, "fragments", fragment_samples(&file, track_id));
    }
}
