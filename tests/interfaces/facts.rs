//! Writes the faults of a file and what is known of it, for `test_one_answer.py`, like `facts.c`.

use std::env;
use std::fs;

use mp4_box_codec::{check_file, info, FourCC, TrackInfo};

fn text(text: &str) -> String {
    text.bytes().fold(".".to_string(), |all, it| format!("{all}{it:02x}"))
}

fn code(code: Option<FourCC>) -> String {
    format!("{:08x}", code.map_or(0, u32::from))
}

fn or_none(found: Option<String>) -> String {
    found.unwrap_or_else(|| "-".to_string())
}

fn track(it: &TrackInfo) {
    let duration = it.duration.map(|it| format!("{}.{:09}", it.as_secs(), it.subsec_nanos()));
    let samples = it.samples.map(|s| {
        let front = format!("{}/{}/{}/{}", s.sample_count, s.key_frames, s.bytes, s.bit_rate);
        if it.timescale > 0 {
            format!("{front}/{}/{}", s.end, it.timescale)
        } else {
            front
        }
    });
    let picture = it.picture.map(|p| {
        let (across, down) = p.pixel_aspect.unwrap_or_default();
        let turn = p.rotation.map_or(String::new(), |it| it.to_string());
        let rate = it.samples.and_then(|it| it.frame_rate);
        let rate = rate.map_or(String::new(), |it| format!("/{}/{}/{}", it.frames, it.units, u8::from(it.is_constant)));
        format!("{}x{}/{across}:{down}/{turn}{rate}", p.width, p.height)
    });
    let sound = it.sound.map(|it| format!("{}/{}/{}", it.sample_rate, it.channels, it.low_channels));
    let encryption = it.encryption.map(|it| {
        let kid = it.kid.map_or(String::new(), |it| it.iter().fold(String::new(), |all, it| format!("{all}{it:02x}")));
        format!("{}/{}/{kid}", code(it.original), code(it.scheme))
    });
    print!("track {} {} {} ", it.track_id, code(it.handler), code(it.entry));
    print!("{} {} {} ", text(&it.kind), text(&it.codec), text(&it.language));
    print!("{} {} {} ", or_none(duration), or_none(samples), or_none(picture));
    println!("{} {}", or_none(sound), or_none(encryption));
}

fn main() {
    let file = fs::read(env::args().nth(1).unwrap()).unwrap();
    for it in check_file(&file).unwrap() {
        println!("fault {} {} {} {} {}", it.position, it.code, it.severity, text(&it.path), text(&it.text));
    }
    let found = info(&file).unwrap();
    let order = found.moov_first.map_or(0, |it| if it { 1 } else { 2 });
    print!("file {} {} {} {order}", found.length, found.duration.as_millis(), u8::from(found.is_fragmented));
    for it in &found.brands {
        print!(" {}", code(Some(*it)));
    }
    println!();
    found.tracks.iter().for_each(track);
}
