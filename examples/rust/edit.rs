//! Changes the language of a track: edit IN TRACK_ID LANGUAGE OUT. The new file is pieces of the old one and new bytes.

use std::error::Error;
use std::fs::{self, File};

use mp4_box_codec::{edit, Change};

fn main() -> Result<(), Box<dyn Error>> {
    let arguments: Vec<String> = std::env::args().skip(1).collect();
    if arguments.len() != 4 {
        return Err("usage: edit IN TRACK_ID LANGUAGE OUT".into());
    }
    let (file, track_id) = (fs::read(&arguments[0])?, arguments[1].parse()?);
    let new = edit(&file, &[Change::Language { track_id, language: &arguments[2] }])?;
    new.write_to(&mut File::create(&arguments[3])?)?;
    Ok(())
}
