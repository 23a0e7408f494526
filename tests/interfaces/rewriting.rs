//! Rewrites a file by the crate for Rust, for `test_rewriting.py`, with the arguments and the output of `rewriting.c`.

use std::env;
use std::fs::{self, File};
use std::time::Duration;

use mp4_box_codec::{cut, defragment, edit, faststart, fragment, Change, Error, FourCC, FragmentOptions};

fn bytes_of(digits: &str) -> Vec<u8> {
    (0..digits.len() / 2).map(|at| u8::from_str_radix(&digits[2 * at..2 * at + 2], 16).unwrap()).collect()
}

/// A change as the words have it.
struct Words {
    kind: u32,
    track_id: u32,
    value: u32,
    number: u64,
    path: String,
    bytes: Vec<u8>,
    brands: Vec<FourCC>,
}

impl Words {
    fn of(word: &str) -> Words {
        let parts: Vec<&str> = word.split(',').collect();
        let number = |at: usize| parts[at].parse::<u32>().unwrap();
        let bytes = bytes_of(parts[5]);
        Words {
            kind: number(0),
            track_id: number(1),
            value: number(2),
            number: parts[3].parse().unwrap(),
            path: String::from_utf8(bytes_of(parts[4])).unwrap(),
            brands: bytes.chunks_exact(4).map(|it| FourCC::new(it.try_into().unwrap())).collect(),
            bytes,
        }
    }

    fn text(&self) -> &str {
        std::str::from_utf8(&self.bytes).unwrap()
    }

    fn change(&self) -> Change<'_> {
        let (path, bytes, track_id) = (self.path.as_str(), self.bytes.as_slice(), self.track_id);
        match self.kind {
            1 => Change::Remove(path),
            2 => Change::Insert { path, before: (self.number != u64::MAX).then(|| self.number), boxes: bytes },
            3 => Change::Replace { path, bytes },
            4 => Change::Brands(&self.brands),
            5 => Change::Language { track_id, language: self.text() },
            6 => Change::Rotate { track_id, degrees: self.value },
            7 if self.value == 1 => Change::Enable(track_id),
            7 => Change::Disable(track_id),
            8 => Change::NoTags,
            9 if self.value == 0xA96E_616D => Change::Title(self.text()),
            9 => Change::Tag { code: FourCC::from(self.value), text: self.text() },
            10 => Change::Cover(bytes),
            _ => Change::DropTrack(track_id),
        }
    }
}

fn main() -> Result<(), Box<dyn std::error::Error>> {
    let arguments: Vec<String> = env::args().skip(1).collect();
    let (file, words) = (fs::read(&arguments[1])?, &arguments[3..]);
    let number = |at: usize| words[at].parse::<u64>().unwrap();
    let changes: Vec<Words> =
        if arguments[0] == "edit" { words.iter().map(|it| Words::of(it)).collect() } else { Vec::new() };
    let found = match arguments[0].as_str() {
        "faststart" => faststart(&file),
        "edit" => edit(&file, &changes.iter().map(Words::change).collect::<Vec<_>>()),
        "defragment" => defragment(&file),
        "cut" => cut(&file, Duration::from_nanos(number(0)), Duration::from_nanos(number(1))),
        _ => {
            let least = Some(Duration::from_nanos(number(0)));
            let (has_sidx, has_mfra, has_styp) = (number(1) != 0, number(2) != 0, number(3) != 0);
            fragment(&file, &FragmentOptions { least, has_sidx, has_mfra, has_styp })
        }
    };
    match found {
        Ok(new) => {
            new.write_to(&mut File::create(&arguments[2])?)?;
            assert_eq!(new.to_vec()?, fs::read(&arguments[2])?);
            assert_eq!(new.pieces().map(|it| it.bytes().len() as u64).sum::<u64>(), new.length());
            let (from, to) = new.moved().unwrap_or_default();
            println!("done {} {} {from} {to}", new.fragments(), new.samples());
        }
        Err(Error::Refused { reason }) => println!("refused {reason}"),
        Err(error) => return Err(error.into()),
    }
    Ok(())
}
