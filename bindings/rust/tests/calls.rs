//! Calls each function once, with bytes that were worked out from docs/LAYOUT.md, and with faults.

use mp4_box_codec::*;
use std::fmt::Debug;

/// Returns a box of this name with these bytes after its header.
fn boxed(name: &str, content: &[u8]) -> Vec<u8> {
    [&(8 + content.len() as u32).to_be_bytes()[..], name.as_bytes(), content].concat()
}

/// Returns a box of this name with version, flags and a content of numbers of 32 bits.
fn table_box(name: &str, version: u8, flags: u32, numbers: &[u32]) -> Vec<u8> {
    let mut content = (u32::from(version) << 24 | flags).to_be_bytes().to_vec();
    numbers.iter().for_each(|it| content.extend(it.to_be_bytes()));
    boxed(name, &content)
}

/// Returns a box of this name that contains these boxes.
fn nested(name: &str, parts: &[Vec<u8>]) -> Vec<u8> {
    boxed(name, &parts.concat())
}

/// Checks that a box with these bytes is read as `value`, and written as the same bytes.
fn both<B: WriteBox + PartialEq + Debug>(bytes: &[u8], value: &B) {
    assert_eq!(B::read_box(bytes).as_ref(), Ok(value));
    assert_eq!(value.to_bytes().as_deref(), Ok(bytes));
    let mut written = Vec::new();
    assert_eq!(value.write_box(&mut written), Ok(bytes.len() as u64));
    assert_eq!(written, bytes);
}

/// Returns the error of a fault.
fn fault<T>(fault: Fault) -> Result<T, Error> {
    Err(Error::Fault(fault))
}

/// Checks that a box is not written.
fn unwritable<B: WriteBox>(value: &B) {
    assert_eq!(value.to_bytes(), Err(Error::Unwritable(B::CODE)));
}

#[test]
fn codes() {
    let code = FourCC::new(b"\xA9nam");
    assert_eq!((code.to_string(), format!("{code:?}")), ("©nam".to_string(), "'©nam'".to_string()));
    assert_eq!(("©nam".parse::<FourCC>(), u32::from(code)), (Ok(code), 0xA96E616D));
    assert!(code == "©nam" && code != "nam" && code != *"©name");
    assert_eq!(FourCC::from([0, 1, b' ', 0x7F]).to_string(), "\\x00\\x01 \\x7f");
    for text in ["", "moo", "moovx", "mo\u{100}v"] {
        assert_eq!(text.parse::<FourCC>(), fault(Fault::InvalidData), "{text}");
    }
}

#[test]
fn numbers() {
    assert_eq!(FixedPointU16::new(0xFFFF).raw_value(), 0xFFFF_0000);
    assert_eq!((FixedPointU8::new_raw(0x0180).value(), FixedPointU8::new_raw(0x0180).to_f64()), (1, 1.5));
    assert_eq!((FixedPointI8::new(-128).raw_value(), FixedPointI8::new_raw(-2).to_f64()), (-0x8000, -0.0078125));
    assert_eq!(FixedPointI8::new_raw(-0x180).to_string(), "-1.5");
    let kinds = [b"vide", b"soun", b"sbtl", b"subt", b"text"].map(|it| TrackType::try_from(FourCC::from(it)).unwrap());
    assert_eq!(kinds.map(|it| it.to_string()), ["Video", "Audio", "Subtitle", "Subtitle", "Subtitle"]);
    assert_eq!(TrackType::try_from(FourCC::new(b"hint")), fault(Fault::InvalidData));
    assert_eq!(DataType::try_from(21), Ok(DataType::TempoCpil));
    assert_eq!(DataType::try_from(2), fault(Fault::InvalidData));
}

#[test]
fn spans() {
    let file = b"\0\0\0\x08free\0\0\0\x01mdat\0\0\0\0\0\0\0\x12ab\0\0\0\0wide";
    let found = list(file).unwrap();
    let places: Vec<_> = found.iter().map(|it| (it.position, it.length, it.code.to_string())).collect();
    assert_eq!(places, [(0, 8, "free".into()), (8, 18, "mdat".into()), (26, 8, "wide".into())]);
    assert_eq!(found[1].bytes(file), Some(&file[8..26]));
    assert_eq!(found[1].content(file), Some(&b"ab"[..]));
    assert_eq!(found[2].content(file), Some(&b""[..]));
    assert_eq!(found[1].bytes(&file[..25]), None);
    assert_eq!(list(b""), Ok(vec![]));
    assert_eq!(list(b"\0\0\0\x08fre"), fault(Fault::EndOfInput));
    assert_eq!(list(b"\0\0\0\x07free"), fault(Fault::InvalidData));
}

#[test]
fn trees() {
    let file = b"\0\0\0\x20moov\0\0\0\x08trak\0\0\0\x10trak\0\0\0\x08mdia\0\0\0\x07free";
    let found = tree(file).unwrap();
    let places: Vec<_> = found.iter().map(|it| (it.depth, it.position, it.length, u32::from(it.code))).collect();
    let [moov, trak, mdia, free] = [b"moov", b"trak", b"mdia", b"free"].map(|it| u32::from(FourCC::new(it)));
    assert_eq!(places, [(0, 0, 32, moov), (1, 8, 8, trak), (1, 16, 16, trak), (2, 24, 8, mdia), (0, 32, 8, free)]);
    let whats: Vec<_> = found.iter().map(|it| it.what).collect();
    assert_eq!(whats, [What::Parent, What::Parent, What::Parent, What::Parent, What::Small]);
    let paths: Result<Vec<_>, _> = (&found).into_iter().map(|it| it.path()).collect();
    assert_eq!(paths.unwrap(), ["moov", "moov/trak", "moov/trak[1]", "moov/trak[1]/mdia", "free"]);
    assert_eq!(found.children().map(|it| it.code.to_string()).collect::<Vec<_>>(), ["moov", "free"]);
    let second = found.find("moov/trak[1]").unwrap();
    assert_eq!((second.bytes(file), second.parent()), (Some(&file[16..32]), found.find("moov")));
    assert_eq!(second.children().next(), second.find("mdia"));
    let faults: Vec<_> = found.iter().filter_map(|it| it.fault()).collect();
    assert_eq!(faults, [Fault::SmallSize]);
    assert_eq!(tree_of(&mut std::io::Cursor::new(file)), Ok(found.clone()));
    assert_eq!(tree(b"").unwrap().iter().count(), 0);
    let fault_of = |file: &[u8]| tree(file).unwrap().iter().next().unwrap().fault();
    assert_eq!((fault_of(b"free"), fault_of(b"\0\0\0\x09free")), (Some(Fault::NoHeader), Some(Fault::Cut)));
}

#[test]
fn errors_with_a_place() {
    let file = b"\0\0\0\x28moov\0\0\0\x08trak\0\0\0\x18trak\0\0\0\x10mdia\0\0\0\x08mdhd";
    let found = tree(file).unwrap();
    let mdhd = found.find("moov/trak[1]/mdia/mdhd").unwrap();
    let at = |position, path: &str, fault| Error::At { position, path: path.into(), fault };
    let expected = || at(32, "moov/trak[1]/mdia/mdhd", Fault::EndOfInput);
    assert_eq!(mdhd.read::<MdhdBox>(file), Err(expected()));
    assert_eq!(mdhd.fields(file), Err(expected()));
    assert_eq!(mdhd.read_from::<MdhdBox, _>(&mut std::io::Cursor::new(file)), Err(expected()));
    assert_eq!(mdhd.read::<MdhdBox>(&file[..39]), Err(expected()));
    assert_eq!(mdhd.read::<TkhdBox>(file).unwrap_err().fault(), Some(Fault::InvalidData));
    let missing = found.find("moov/trak[1]").unwrap().require("tkhd");
    assert_eq!(missing, Err(at(16, "moov/trak[1]", Fault::BoxNotFound)));
    assert_eq!(missing.unwrap_err().to_string(), "moov/trak[1] at 16: box not found");
    assert_eq!(tracks(file), Err(at(8, "moov/trak", Fault::BoxNotFound)));
    let cut = tree(&file[..39]).unwrap();
    let mdia = cut.find("moov/trak[1]/mdia").unwrap();
    assert_eq!(mdia.fields(&file[..39]), Err(at(24, "moov/trak[1]/mdia", Fault::Cut)));
    let shown: Box<dyn std::error::Error> = Box::new(expected());
    assert_eq!(shown.source().unwrap().to_string(), "unexpected end of input");
    let failed = Error::from(std::io::Error::from(std::io::ErrorKind::NotFound));
    assert_eq!(failed, std::io::Error::new(std::io::ErrorKind::NotFound, "gone").into());
    assert_eq!(failed.fault(), None);
}

#[test]
fn tables_of_one_number() {
    let entries = vec![0x85868788, 0x898A8B8C];
    let numbers = [2, 0x85868788, 0x898A8B8C];
    let (version, flags) = (0x81, 0x828384);
    both(&table_box("stco", 0x81, 0x828384, &numbers), &StcoBox { version, flags, entries: entries.clone() });
    both(&table_box("stss", 0x81, 0x828384, &numbers), &StssBox { version, flags, entries });
    let expected = Co64Box { version: 0, flags: 1, entries: vec![0x8182838485868788] };
    both(&table_box("co64", 0, 1, &[1, 0x81828384, 0x85868788]), &expected);
    both(&table_box("stss", 0, 0, &[0]), &StssBox::default());
    unwritable(&StssBox { flags: 1 << 24, ..StssBox::default() });
}

#[test]
fn tables_of_rows() {
    let row = |sample_count, sample_delta| SttsEntry { sample_count, sample_delta };
    let stts = SttsBox { entries: vec![row(3, 4), row(5, 0xFFFFFFFF)], ..SttsBox::default() };
    both(&table_box("stts", 0, 0, &[2, 3, 4, 5, 0xFFFFFFFF]), &stts);
    let entries = vec![CttsEntry { sample_count: 3, sample_offset: -2 }];
    both(&table_box("ctts", 1, 0, &[1, 3, 0xFFFFFFFE]), &CttsBox { version: 1, flags: 0, entries });
    let row = |first_chunk, samples_per_chunk, sample_description_index, first_sample| StscEntry {
        first_chunk,
        samples_per_chunk,
        sample_description_index,
        first_sample,
    };
    let stsc = StscBox { entries: vec![row(1, 4, 1, 1), row(3, 5, 2, 9)], ..StscBox::default() };
    both(&table_box("stsc", 0, 0, &[2, 1, 4, 1, 3, 5, 2]), &stsc);
}

#[test]
fn signs_of_edits() {
    let edit = |segment_duration, media_time, media_rate, media_rate_fraction| ElstEntry {
        segment_duration,
        media_time,
        media_rate,
        media_rate_fraction,
    };
    let numbers = [3, 7, 0xFFFFFFFF, 0x00010002, 8, 0x7FFFFFFF, 0xFFFFFFFE, 9, 0x80000000, 0];
    let entries = vec![edit(7, -1, 1, 2), edit(8, 0x7FFFFFFF, -1, -2), edit(9, -0x80000000, 0, 0)];
    let elst = ElstBox { version: 0, flags: 1, entries };
    both(&table_box("elst", 0, 1, &numbers), &elst);
    let numbers = [2, 1, 7, 0xFFFFFFFF, 0xFFFFFFFF, 0x00010000, 0, 8, 0x7FFFFFFF, 0xFFFFFFFF, 0x00010000];
    let entries = vec![edit(0x1_0000_0007, -1, 1, 0), edit(8, i64::MAX, 1, 0)];
    both(&table_box("elst", 1, 0, &numbers), &ElstBox { version: 1, flags: 0, entries });
    for time in [0x80000000, -0x80000001] {
        unwritable(&ElstBox { entries: vec![edit(7, time, 1, 0)], ..elst.clone() });
    }
    unwritable(&ElstBox { entries: vec![edit(1 << 32, 0, 1, 0)], ..elst });
}

#[test]
fn sizes_and_runs() {
    let (sample_count, sample_sizes) = (2, vec![8, 9]);
    let sizes = StszBox { version: 1, flags: 2, sample_size: 0, sample_count, sample_sizes };
    both(&table_box("stsz", 1, 2, &[0, 2, 8, 9]), &sizes);
    unwritable(&StszBox { sample_count: 3, ..sizes.clone() });
    unwritable(&StszBox { sample_size: 3, ..sizes });
    both(&table_box("stsz", 0, 0, &[6, 2]), &StszBox { sample_size: 6, sample_count: 2, ..StszBox::default() });
    both(&table_box("trun", 0, 0, &[9]), &TrunBox { sample_count: 9, ..TrunBox::default() });
}

#[test]
fn signs_of_composition_offsets() {
    let row = |offset| TrunEntry { duration: Some(5), size: Some(6), flags: None, composition_offset: Some(offset) };
    let run = TrunBox {
        version: 1,
        flags: 0xB05,
        sample_count: 2,
        data_offset: Some(-3),
        first_sample_flags: Some(4),
        entries: vec![row(-2), row(0x7FFFFFFF)],
    };
    both(&table_box("trun", 1, 0xB05, &[2, 0xFFFFFFFD, 4, 5, 6, 0xFFFFFFFE, 5, 6, 0x7FFFFFFF]), &run);
    assert_eq!(TrunBox { flags: 0, ..run.clone() }.to_bytes(), run.to_bytes());
    let plain = TrunBox { version: 0, entries: vec![row(0xFFFFFFFE), row(0)], ..run.clone() };
    both(&table_box("trun", 0, 0xB05, &[2, 0xFFFFFFFD, 4, 5, 6, 0xFFFFFFFE, 5, 6, 0]), &plain);
    for offset in [-1, 1 << 32] {
        unwritable(&TrunBox { entries: vec![row(0), row(offset)], ..plain.clone() });
    }
    for offset in [1 << 31, -(1 << 31) - 1] {
        unwritable(&TrunBox { entries: vec![row(0), row(offset)], ..run.clone() });
    }
    unwritable(&TrunBox { entries: vec![row(0), TrunEntry { size: None, ..row(0) }], ..run.clone() });
    unwritable(&TrunBox { entries: vec![row(0), TrunEntry { flags: Some(0), ..row(0) }], ..run.clone() });
    unwritable(&TrunBox { sample_count: 3, ..run });
}

#[test]
fn faults() {
    let dinf = b"\0\0\0\x08dinf";
    assert_eq!((check(dinf), normal(dinf)), (fault(Fault::BoxNotFound), fault(Fault::BoxNotFound)));
    let stco_box = table_box("stco", 0, 0, &[1, 2]);
    for length in 0..stco_box.len() {
        assert_eq!(StcoBox::read_box(&stco_box[..length]), fault(Fault::EndOfInput));
    }
    assert_eq!(StssBox::read_box(&stco_box), fault(Fault::InvalidData));
    assert_eq!((check(&stco_box), normal(&stco_box)), (Ok(()), Ok(stco_box)));
    assert_eq!(Error::Other(77).to_string(), "status 77");
    assert_eq!(Error::Unwritable(StcoBox::CODE).to_string()[..26], *"the box 'stco' can't be wr");
}

#[test]
fn fields_of_boxes() {
    let stss_box = table_box("stss", 0, 0x828384, &[2, 1, 0xFFFFFFFF]);
    assert_eq!(fields(&stss_box).unwrap(), r#"{"version":0,"flags":8553348,"sample_number":[1,4294967295]}"#);
    let mfro = table_box("mfro", 0, 0, &[0x81828384]);
    assert_eq!(fields(&mfro).unwrap(), r#"{"version":0,"flags":0,"parent_size":2172814212}"#);
    assert_eq!(fields(&mfro[..15]), fault(Fault::EndOfInput));
    assert_eq!(fields(&table_box("mfro", 1, 0, &[0])), fault(Fault::InvalidData));
    assert_eq!(fields(b"\0\0\0\x08moov"), fault(Fault::UnknownBox));
}

/// Returns a track header of this track_ID.
fn header(track_id: u8) -> Vec<u8> {
    let mut tkhd = vec![0; 84];
    tkhd[15] = track_id;
    tkhd[77] = 0x81;
    tkhd[81] = 0x82;
    nested("tkhd", &[tkhd])
}

/// Returns a movie with a track of track_ID 7, which has three samples in two chunks.
fn movie() -> Vec<u8> {
    let stbl = [
        nested("stsd", &[vec![0, 0, 0, 0, 0, 0, 0, 2], boxed("avc1", &[]), boxed("Opus", &[])]),
        table_box("stsz", 0, 0, &[0, 3, 3, 4, 5]),
        table_box("stsc", 0, 0, &[1, 1, 2, 1]),
        table_box("stco", 0, 0, &[2, 100, 107]),
        table_box("stts", 0, 0, &[1, 3, 10]),
        table_box("stss", 0, 0, &[2, 1, 3]),
    ];
    let mdhd = table_box("mdhd", 0, 0, &[0, 0, 1000, 2500, 0x15C70000]);
    let mut hdlr = vec![0; 25];
    hdlr[8..12].copy_from_slice(b"vide");
    let minf = nested("minf", &[nested("stbl", &stbl)]);
    let mdia = nested("mdia", &[mdhd, nested("hdlr", &[hdlr]), minf]);
    nested("moov", &[nested("trak", &[header(7), mdia])])
}

#[test]
fn finding() {
    let file = movie();
    let found = find(&file, "moov/trak/mdia/minf/stbl/stts").unwrap().unwrap();
    let position = file.windows(4).position(|it| it == b"stts").unwrap() as u64 - 4;
    let expected = Place { position, length: 24, header_length: 8, code: FourCC::new(b"stts"), is_whole: true };
    assert_eq!((found, found.bytes(&file).map(|it| it.len())), (expected, Some(24)));
    assert_eq!(find(&file, "moov/trak[1]"), Ok(None));
    assert_eq!(find(&file, "moov/trak["), Err(Error::InvalidPath));
    assert!(!find(b"\0\0\0\x09free", "free").unwrap().unwrap().is_whole);
}

#[test]
fn tracks_of_a_movie() {
    let file = movie();
    let found = tracks(&file).unwrap();
    assert_eq!(tracks_of(&mut std::io::Cursor::new(&file)), Ok(found.clone()));
    let track = &found[0];
    assert_eq!((found.len(), track.track_id(), track.track_type()), (1, 7, Some(TrackType::Video)));
    assert_eq!((track.language(), track.timescale(), track.duration().as_millis()), ("eng", 1000, 2500));
    assert_eq!((track.width(), track.height(), track.box_type()), (0x81, 0x82, Some(FourCC::new(b"avc1"))));
    assert_eq!(track.box_types.iter().map(FourCC::to_string).collect::<Vec<_>>(), ["avc1", "Opus"]);
    assert_eq!(track.samples(&file), samples(&file, 7));
    assert_eq!((track.position, track.path.as_str()), (8, "moov/trak"));
    assert_eq!(tracks(b""), fault(Fault::BoxNotFound));
    // The stts counts two samples, and the stsz three.
    let position = find(&file, "moov/trak/mdia/minf/stbl/stts").unwrap().unwrap().position as usize;
    let mut shorter = file.clone();
    shorter[position + 19] = 2;
    let error = tracks(&shorter).unwrap()[0].samples(&shorter).unwrap_err();
    assert_eq!(error, Error::At { position: 8, path: "moov/trak".into(), fault: Fault::DurationsDisagree });
}

#[test]
fn faults_of_a_file() {
    let found = check_file(b"\0\0\0\x10moov\0\0\0\x09trac").unwrap();
    let lines: Vec<_> = found.iter().map(FileFault::to_string).collect();
    assert_eq!(lines, ["0 moov: there is no mvhd", "8 moov/trac: unexpected end of input"]);
    assert_eq!((found[0].code, found[0].severity), (FaultCode::BoxMissing, Severity::Error));
    assert_eq!((found[1].position, found[1].code), (8, FaultCode::BoxCut));
    let header = table_box("mfhd", 0, 0, &[1]);
    let [second] = <[FileFault; 1]>::try_from(check_file(&nested("moof", &[header.clone(), header])).unwrap()).unwrap();
    assert_eq!(
        (second.code, second.severity, second.path.as_str()),
        (FaultCode::BoxRepeated, Severity::Warning, "moof/mfhd[1]")
    );
    assert_eq!(
        second.to_string(),
        "24 moof/mfhd[1]: warning: a moof may have only one mfhd, and there is one before this at 8"
    );
    assert_eq!((second.code.to_string().as_str(), second.severity.to_string().as_str()), ("box-repeated", "warning"));
    let none: Vec<_> = check_file(b"").unwrap().iter().map(|it| it.code).collect();
    assert_eq!(none, [FaultCode::MovieMissing]);
    assert_eq!(check_file(&nested("moof", &[table_box("mfhd", 0, 0, &[1])])), Ok(vec![]));
}

/// A stored movie, of which `tests/c/info.c` has the same facts.
fn stored(name: &str) -> Option<Vec<u8>> {
    let folder = std::env::var("TEST_MOVIES").ok()?;
    Some(std::fs::read(format!("{folder}/{name}.mp4")).unwrap())
}

#[test]
fn facts_of_stored_movies() {
    let (video, fragments) = match (stored("video"), stored("fragments")) {
        (Some(video), Some(fragments)) => (video, fragments),
        _ => return,
    };
    let found = info(&video).unwrap();
    assert_eq!(found.brands, [b"isom", b"isom", b"iso2", b"avc1", b"mp41"].map(FourCC::from));
    assert_eq!((found.length, found.duration.as_millis(), found.moov_first), (1857, 2000, Some(false)));
    assert_eq!((found.has_movie, found.is_fragmented, found.has_items), (true, false, false));
    let track = &found.tracks[0];
    assert_eq!((track.kind.as_str(), track.codec.as_str(), track.language.as_str()), ("video", "avc1.64000a", "deu"));
    assert_eq!((track.track_id, track.timescale, track.duration), (1, 10240, Some(std::time::Duration::from_secs(2))));
    let samples = track.samples.unwrap();
    assert_eq!((samples.sample_count, samples.key_frames, samples.bytes, samples.end), (20, 2, 902, 20480));
    let rate = samples.frame_rate.unwrap();
    assert_eq!((rate.frames, rate.units, rate.is_constant, samples.bit_rate), (10240, 1024, true, 3608));
    let picture = track.picture.unwrap();
    assert_eq!((picture.width, picture.height, picture.rotation), (32, 32, Some(0)));
    assert_eq!((picture.pixel_aspect, track.sound, track.encryption), (Some((1, 1)), None, None));
    let found = info(&fragments).unwrap();
    assert_eq!((found.is_fragmented, found.moov_first, found.tracks.len()), (true, Some(true), 2));
    let sound = &found.tracks[1];
    assert_eq!(
        (sound.kind.as_str(), sound.codec.as_str(), sound.duration.unwrap().as_millis()),
        ("audio", "mp4a.40.2", 1200)
    );
    let channels = sound.sound.unwrap();
    assert_eq!((channels.sample_rate, channels.channels, channels.low_channels), (8000, 1, 0));
    let listed: Vec<_> =
        tracks_of(&mut std::io::Cursor::new(&fragments)).unwrap().into_iter().map(|it| it.info).collect();
    assert_eq!(listed, found.tracks);
}

#[test]
fn samples_of_fragments() {
    let defaults = [table_box("trex", 0, 0, &[1, 1, 10, 4, 0]), table_box("trex", 0, 0, &[2, 1, 7, 5, 0x10000])];
    let media = nested("mdia", &[nested("minf", &[nested("stbl", &[])])]);
    let track = |number| nested("trak", &[header(number), media.clone()]);
    let tracks = [track(1), track(2), nested("mvex", &defaults)];
    let run = table_box("trun", 0, 0x201, &[2, 140, 3, 6]);
    let first = nested("traf", &[table_box("tfhd", 0, 0, &[1]), table_box("tfdt", 0, 0, &[1000]), run]);
    let second = nested("traf", &[table_box("tfhd", 0, 0, &[2]), table_box("trun", 0, 0, &[3])]);
    let mut file = nested("moov", &tracks);
    let data = file.len() as u64 + 140;
    file.extend(nested("moof", &[table_box("mfhd", 0, 0, &[1]), first, second]));
    let found = |track| -> Result<Vec<_>, Error> {
        let samples = fragment_samples(&file, track)?;
        Ok(samples.iter().map(|it| (it.offset, it.size, it.start_time, it.is_sync)).collect::<Vec<_>>())
    };
    assert_eq!(found(1), Ok(vec![(data, 3, 1000, true), (data + 3, 6, 1010, true)]));
    assert_eq!(found(2), Ok(vec![(data + 9, 5, 0, false), (data + 14, 5, 7, false), (data + 19, 5, 14, false)]));
    assert_eq!(found(3), Err(Error::TrakNotFound(3)));
}

#[test]
fn samples_of_a_track() {
    let file = movie();
    let found = samples(&file, 7).unwrap();
    let places: Vec<_> = found.iter().map(|it| (it.offset, it.size, it.start_time, it.chunk, it.is_sync)).collect();
    assert_eq!(places, [(100, 3, 0, 1, true), (103, 4, 10, 1, false), (107, 5, 20, 2, true)]);
    assert_eq!(found[0].bytes(&file), Some(&file[100..103]));
    assert_eq!(found[0].bytes(&file[..102]), None);
    let moved = [boxed("free", b"ab"), file.clone()].concat();
    assert_eq!(samples(&moved, 7).as_ref(), Ok(&found));
    assert_eq!(samples(&file, 8), Err(Error::TrakNotFound(8)));
    assert_eq!(samples(&file, 8).unwrap_err().to_string(), "no track has the track_ID 8");
    let position = find(&file, "moov/trak/mdia/minf/stbl/stts").unwrap().unwrap().position as usize;
    let mut shorter = file.clone();
    shorter[position + 19] = 2;
    assert_eq!(samples(&shorter, 7), fault(Fault::DurationsDisagree));
}

#[test]
fn several_threads() {
    let (file, expected) = (movie(), samples(&movie(), 7).unwrap());
    std::thread::scope(|scope| {
        for _ in 0..8 {
            scope.spawn(|| {
                for _ in 0..100 {
                    assert_eq!(samples(&file, 7).as_ref(), Ok(&expected));
                }
            });
        }
    });
}

#[test]
fn new_files() {
    let free = boxed("free", b"text");
    let (front, moov) = (boxed("ftyp", b"isom\0\0\0\0"), boxed("moov", b""));
    let file = [front.clone(), free.clone(), moov.clone()].concat();
    let new = edit(&file, &[Change::Remove("free")]).unwrap();
    let pieces = [Piece::Old { position: 0, bytes: &file[..16] }, Piece::New(&moov)];
    assert_eq!(new.pieces().collect::<Vec<_>>(), pieces);
    assert_eq!((new.length(), new.to_vec()), (24, Ok([&file[..16], &file[28..]].concat())));
    assert_eq!((new.fragments(), new.samples(), new.moved()), (0, 0, None));

    let changes = [
        Change::Insert { path: "/", before: Some(0), boxes: &free },
        Change::Insert { path: "moov", before: None, boxes: &free },
    ];
    let new = edit(&file, &changes).unwrap();
    let wanted = [free.clone(), file[..28].to_vec(), nested("moov", &[free.clone()])].concat();
    assert_eq!(new.pieces().next(), Some(Piece::New(&free)));
    assert_eq!(new.to_vec(), Ok(wanted.clone()));
    let mut written = Vec::new();
    assert_eq!(new.write_to(&mut written), Ok(()));
    assert_eq!(written, wanted);

    let file = [boxed("mdat", b"media"), moov.clone()].concat();
    let new = faststart(&file).unwrap();
    assert_eq!((new.to_vec(), new.moved()), (Ok([moov, boxed("mdat", b"media")].concat()), Some((13, 0))));
    let refused = |found: Result<NewFile<'_>, Error>| match found {
        Err(Error::Refused { reason }) => reason,
        found => panic!("{found:?}"),
    };
    let (no_options, second) = (FragmentOptions::default(), std::time::Duration::from_secs(1));
    assert_eq!(refused(faststart(&front)), "there is no moov");
    assert_eq!(refused(fragment(&file, &no_options)), "no track has samples");
    assert_eq!(refused(defragment(&file)), "the file is not fragmented");
    assert_eq!(refused(cut(&front, second, second)), "the part has to end after it begins");
    assert_eq!(refused(cut(&front, std::time::Duration::ZERO, second)), "there is no moov");
    assert_eq!(refused(edit(&file, &[Change::NoTags, Change::Remove("moo")])), "change 1: this is not a path");
    assert_eq!(refused(edit(&file, &[Change::Brands(&[])])), "change 0: these are not codes of four bytes");
    assert_eq!(refused(edit(&file, &[Change::Enable(7)])), "no track has the track_ID 7");
    let error = edit(&file, &[Change::Disable(7)]).unwrap_err();
    assert_eq!((error.to_string().as_str(), error.fault()), ("no track has the track_ID 7", None));
}

#[test]
fn what_the_library_is() {
    let numbers: Vec<u32> = env!("CARGO_PKG_VERSION").split('.').map(|it| it.parse().unwrap()).collect();
    assert_eq!(version(), numbers[0] * 1_000_000 + numbers[1] * 1000 + numbers[2]);
    assert_eq!(status_text(2), "invalid data");
}

#[test]
fn many_rows() {
    let numbers: Vec<u32> = [1_000_000].into_iter().chain(1..=1_000_000).collect();
    assert_eq!(StssBox::read_box(&table_box("stss", 0, 0, &numbers)).unwrap().entries, numbers[1..]);
}

#[test]
fn headers() {
    let box_of = table_box("mehd", 1, 0x828384, &[0x85868788, 0x898A8B8C]);
    both(&box_of, &MehdBox { fragment_duration: 0x85868788898A8B8C, flags: 0x828384, version: 1 });
    let box_of = table_box("mdhd", 0, 7, &[0x81828384, 0x85868788, 0x898A8B8C, 0x8D8E8F90, 0x15C70000]);
    let mdhd = MdhdBox {
        creation_time: 0x81828384,
        modification_time: 0x85868788,
        timescale: 0x898A8B8C,
        duration: 0x8D8E8F90,
        language: "eng".into(),
        flags: 7,
        version: 0,
    };
    both(&box_of, &mdhd);
    for language in ["en", "engl", "ENG", "e g", "eng\0", "\u{e9}g"] {
        unwritable(&MdhdBox { language: language.into(), ..mdhd.clone() });
    }
    unwritable(&MdhdBox { version: 2, ..mdhd.clone() });
    unwritable(&MdhdBox { duration: 1 << 32, ..mdhd });
    let box_of = boxed("smhd", &[9, 0, 0, 1, 0xFF, 0xFE, 0, 0]);
    let smhd = SmhdBox { flags: 1, balance: FixedPointI8::new_raw(-2), version: 9 };
    both(&box_of, &smhd);
    assert_eq!(VmhdBox::read_box(&box_of), fault(Fault::InvalidData));
    assert_eq!(SmhdBox::read_box(&box_of[..15]), fault(Fault::EndOfInput));
    unwritable(&SmhdBox { flags: 1 << 24, ..smhd });
    let op_color = RgbColor { red: 0x8182, green: 0x8384, blue: 0x8586 };
    let vmhd = VmhdBox { version: 9, flags: 1, graphics_mode: 0x8788, op_color };
    both(&boxed("vmhd", b"\x09\0\0\x01\x87\x88\x81\x82\x83\x84\x85\x86"), &vmhd);
    let some = TfhdBox { flags: 0x28, track_id: 5, ..TfhdBox::default() };
    let tfhd = TfhdBox { default_sample_duration: Some(6), default_sample_flags: Some(7), ..some };
    let box_of = table_box("tfhd", 0, 0x28, &[5, 6, 7]);
    both(&box_of, &tfhd);
    assert_eq!(TfhdBox { flags: 0x13, ..tfhd }.to_bytes(), Ok(box_of));
    let trex = TrexBox {
        version: 0,
        flags: 1,
        track_id: 2,
        default_sample_description_index: 3,
        default_sample_duration: 4,
        default_sample_size: 5,
        default_sample_flags: 6,
    };
    both(&table_box("trex", 0, 1, &[2, 3, 4, 5, 6]), &trex);
    both(&table_box("mfhd", 1, 2, &[3]), &MfhdBox { version: 1, flags: 2, sequence_number: 3 });
    both(&table_box("tfdt", 1, 0, &[1, 2]), &TfdtBox { version: 1, flags: 0, base_media_decode_time: 0x1_0000_0002 });
}

#[test]
fn movie_and_track_headers() {
    let matrix = Matrix { a: 1, b: -2, u: 3, c: 4, d: 5, v: 6, x: 7, y: 8, w: 9 };
    let numbers = [1, 0xFFFFFFFE, 3, 4, 5, 6, 7, 8, 9];
    let times = [0x81828384, 0x85868788, 0x898A8B8C, 0x8D8E8F90];
    let content = [&times[..], &[0x18000, 0x01800000, 0, 0], &numbers, &[0; 6], &[0x91929394]].concat();
    let mvhd = MvhdBox {
        version: 0,
        flags: 1,
        creation_time: 0x81828384,
        modification_time: 0x85868788,
        timescale: 0x898A8B8C,
        duration: 0x8D8E8F90,
        rate: FixedPointU16::new_raw(0x18000),
        volume: FixedPointU8::new_raw(0x180),
        matrix,
        next_track_id: 0x91929394,
    };
    both(&table_box("mvhd", 0, 1, &content), &mvhd);
    let sizes = [0x01400000, 0x00F08000];
    let content = [&times[..3], &[0, 0x8D8E8F90, 0, 0], &[0xFFFE0003, 0x01000000], &numbers[..], &sizes[..]].concat();
    let tkhd = TkhdBox {
        version: 0,
        flags: 7,
        creation_time: 0x81828384,
        modification_time: 0x85868788,
        track_id: 0x898A8B8C,
        duration: 0x8D8E8F90,
        layer: -2,
        alternate_group: 3,
        volume: FixedPointU8::new(1),
        matrix,
        width: FixedPointU16::new(320),
        height: FixedPointU16::new_raw(0xF08000),
    };
    both(&table_box("tkhd", 0, 7, &content), &tkhd);
    assert_eq!(Matrix::default(), Matrix { a: 0x10000, b: 0, u: 0, c: 0, d: 0x10000, v: 0, x: 0, y: 0, w: 1 << 30 });
}

#[test]
fn brands_and_handlers() {
    let brands = FtypBox {
        major_brand: FourCC::new(b"iso6"),
        minor_version: 0x81828384,
        compatible_brands: [b"isom", b"avc1"].map(FourCC::from).to_vec(),
    };
    both(&boxed("ftyp", b"iso6\x81\x82\x83\x84isomavc1"), &brands);
    let box_of = boxed("hdlr", b"\x85\x86\x87\x88\0\0\0\0vide\0\0\0\0\0\0\0\0\0\0\0\0Vid\xC3\xA9o\0");
    let handler_type = FourCC::new(b"vide");
    let handler = HdlrBox { version: 0x85, flags: 0x868788, handler_type, name: "Vid\u{e9}o".into() };
    both(&box_of, &handler);
    unwritable(&HdlrBox { flags: 1 << 24, ..handler });
    let box_of = boxed("data", b"\0\0\0\x0D\0\0\0\0\xFF\xD8");
    assert_eq!(DataBox::read_box(&box_of), Ok(DataBox { data_type: DataType::Image, data: vec![0xFF, 0xD8] }));
}

#[test]
fn references() {
    let location = boxed("url ", b"\x85\x86\x87\x88a/b\0");
    let entry = UrlBox { version: 0x85, flags: 0x868788, location: "a/b".into() };
    assert_eq!(UrlBox::read_box(&location), Ok(entry.clone()));
    let box_of = boxed("dref", &[&b"\x95\x96\x97\x98\0\0\0\x01"[..], &location].concat());
    let dref = DrefBox { version: 0x95, flags: 0x969798, url: Some(entry) };
    assert_eq!(DinfBox::read_box(&boxed("dinf", &box_of)), Ok(DinfBox { dref: dref.clone() }));
    both(&box_of, &dref);
    both(&boxed("dref", b"\x95\x96\x97\x98\0\0\0\0"), &DrefBox { url: None, ..dref });
    assert_eq!(DinfBox::read_box(&boxed("dinf", b"")), fault(Fault::BoxNotFound));
}

#[test]
fn event_messages() {
    let numbers = b"\x81\x82\x83\x84\x91\x92\x93\x94\xA1\xA2\xA3\xA4\xB1\xB2\xB3\xB4";
    let event = EmsgBox {
        version: 0,
        flags: 0x868788,
        timescale: 0x81828384,
        presentation_time: None,
        presentation_time_delta: Some(0x91929394),
        event_duration: 0xA1A2A3A4,
        id: 0xB1B2B3B4,
        scheme_id_uri: "urn:x".into(),
        value: "v1".into(),
        message_data: vec![1, 0xFF],
    };
    both(&boxed("emsg", &[&b"\0\x86\x87\x88urn:x\0v1\0"[..], numbers, &[1, 0xFF]].concat()), &event);
    let later = EmsgBox {
        version: 1,
        presentation_time: Some(0x91929394_C1C2C3C4),
        presentation_time_delta: None,
        ..event.clone()
    };
    let numbers = [&numbers[..8], b"\xC1\xC2\xC3\xC4", &numbers[8..]].concat();
    both(&boxed("emsg", &[&b"\x01\x86\x87\x88"[..], &numbers, b"urn:x\0v1\0\x01\xFF"].concat()), &later);
    unwritable(&EmsgBox { value: "a\0b".into(), ..event.clone() });
    unwritable(&EmsgBox { version: 1, ..event.clone() });
    unwritable(&EmsgBox { version: 0, ..later });
    unwritable(&EmsgBox { presentation_time: Some(0), ..event.clone() });
    unwritable(&EmsgBox { version: 2, ..event });
}

/// Checks an `stsd` with this entry.
fn described(inside: &[u8], entry: Option<SampleEntry>) {
    let count = u8::from(entry.is_some());
    let box_of = boxed("stsd", &[&[0x71, 0x72, 0x73, 0x74, 0, 0, 0, count], inside].concat());
    both(&box_of, &StsdBox { version: 0x71, flags: 0x727374, entry });
}

#[test]
fn entries_of_video() {
    let mut fields = [0; 78];
    fields[6..8].copy_from_slice(&[0x81, 0x82]);
    fields[24..36].copy_from_slice(&[0x83, 0x84, 0x85, 0x86, 0, 0x48, 0x80, 0, 0, 0x49, 0, 0]);
    fields[40..42].copy_from_slice(&[0x87, 0x88]);
    fields[74..78].copy_from_slice(&[0, 0x18, 0xFF, 0xFF]);
    let sets = boxed("avcC", b"\x81\x64\x92\x1F\xFE\xE2\0\x03\x67\x64\x1F\0\x01\x41\x01\0\x02\x68\xEE");
    let avcc = AvcCBox {
        configuration_version: 0x81,
        avc_profile_indication: 0x64,
        profile_compatibility: 0x92,
        avc_level_indication: 0x1F,
        length_size_minus_one: 2,
        sequence_parameter_sets: vec![NalUnit { bytes: vec![0x67, 0x64, 0x1F] }, vec![0x41].into()],
        picture_parameter_sets: vec![vec![0x68, 0xEE].into()],
    };
    assert_eq!(AvcCBox::read_box(&sets), Ok(avcc.clone()));
    let units: Vec<_> = avcc.units(b"\0\0\x01a\0\0\x02b").collect();
    assert_eq!(units, [Ok(&b"a"[..]), fault(Fault::EndOfInput)]);
    assert_eq!((avcc.units(b"\0\0").count(), avcc.units(b"").count()), (1, 0));
    let made = AvcCBox::new(&[0x67, 0x64, 0x1F, 0x28, 1], &[0x68]).unwrap();
    assert_eq!(
        (made.avc_profile_indication, made.profile_compatibility, made.avc_level_indication),
        (0x64, 0x1F, 0x28)
    );
    assert_eq!((made.sequence_parameter_sets.len(), made.units(b"\0\0\0\x01a").count()), (1, 1));
    assert_eq!(AvcCBox::new(&[0x67, 0x64, 0x1F], &[]), fault(Fault::EndOfInput));
    let entry = Avc1Box {
        data_reference_index: 0x8182,
        width: 0x8384,
        height: 0x8586,
        horizresolution: FixedPointU16::new_raw(0x488000),
        vertresolution: FixedPointU16::new(0x49),
        frame_count: 0x8788,
        depth: 24,
        avcc,
    };
    let video = boxed("avc1", &[&fields[..], &sets].concat());
    assert_eq!(Avc1Box::read_box(&video), Ok(entry.clone()));
    described(&video, Some(SampleEntry::Avc1(entry)));
    let other = boxed("hev1", &[&fields[..], b"\0\0\0\x09hvcC\xB7"].concat());
    let hvcc = HvcCBox { configuration_version: 0xB7 };
    assert_eq!(HvcCBox::read_box(b"\0\0\0\x09hvcC\xB7"), Ok(hvcc));
    let entry = Hev1Box::read_box(&other).unwrap();
    assert_eq!((entry.width, entry.depth, entry.hvcc), (0x8384, 24, hvcc));
    described(&other, Some(SampleEntry::Hev1(entry)));
    let config = boxed("vpcC", b"\x01\x82\x83\x84\x85\x86\x87\x91\x92\x93\0\0");
    let vpcc = VpccBox::read_box(&config).unwrap();
    assert_eq!((vpcc.bit_depth, vpcc.chroma_subsampling, vpcc.video_full_range_flag), (8, 3, true));
    assert_eq!((vpcc.flags, vpcc.profile, vpcc.level, vpcc.matrix_coefficients), (0x828384, 0x85, 0x86, 0x93));
    let other = boxed("vp09", &[&fields[..], &config].concat());
    let entry = Vp09Box::read_box(&other).unwrap();
    assert_eq!((entry.width, entry.height, entry.end_code), (0x8384, 0x8586, 0xFFFF));
    assert_eq!(entry.horizresolution, [72, 0x8000]);
    described(&other, Some(SampleEntry::Vp09(entry)));
}

#[test]
fn entries_of_sound_and_text() {
    let fields = b"\0\0\0\0\0\0\x81\x82\0\0\0\0\0\0\0\0\x83\x84\x85\x86\0\0\0\0\x91\x92\x93\x94";
    let sound = boxed("mp4a", fields);
    let plain = Mp4aBox {
        data_reference_index: 0x8182,
        channelcount: 0x8384,
        samplesize: 0x8586,
        samplerate: FixedPointU16::new_raw(0x91929394),
        esds: None,
    };
    assert_eq!(Mp4aBox::read_box(&sound), Ok(plain));
    described(&sound, Some(SampleEntry::Mp4a(plain)));
    let entry = SampleEntry::Mp4a(Mp4aBox {
        esds: Some(EsdsBox {
            version: 0,
            flags: 1,
            es_desc: ESDescriptor {
                es_id: 0x8182,
                dec_config: DecoderConfigDescriptor {
                    buffer_size_db: 0x838485,
                    max_bitrate: 0x86878889,
                    avg_bitrate: 0x8A8B8C8D,
                    dec_specific: DecoderSpecificDescriptor {
                        profile: 2,
                        freq_index: 3,
                        chan_conf: 4,
                        ..DecoderSpecificDescriptor::default()
                    },
                    ..DecoderConfigDescriptor::default()
                },
            },
        }),
        ..plain
    });
    let stsd = StsdBox { entry: Some(entry), ..StsdBox::default() };
    let bytes = stsd.to_bytes().unwrap();
    assert_eq!(StsdBox::read_box(&bytes), Ok(stsd.clone()));
    let esds = tree(&bytes).unwrap().find("stsd/mp4a/esds").unwrap().read::<EsdsBox>(&bytes).unwrap();
    assert!(matches!(stsd.entry, Some(SampleEntry::Mp4a(Mp4aBox { esds: Some(it), .. })) if it == esds));
    let text = SampleEntry::Tx3g(Tx3gBox::default());
    assert_eq!(text.code(), "tx3g");
    let stsd = StsdBox { entry: Some(text), ..StsdBox::default() };
    assert_eq!(StsdBox::read_box(&stsd.to_bytes().unwrap()), Ok(stsd));
    described(b"", None);
}

/// Checks that each field is written up to its limit, and not above.
#[test]
fn limits() {
    macro_rules! flags {
        ($($name:ident)*) => {
            $(let most = $name { flags: 0xFFFFFF, version: 1, ..$name::default() };
            assert_eq!($name::read_box(&most.to_bytes().unwrap()), Ok(most.clone()));
            unwritable(&$name { flags: 1 << 24, ..most });)*
        };
    }
    flags! {
        MvhdBox TkhdBox MdhdBox MehdBox MfhdBox SmhdBox VmhdBox TrexBox TfdtBox StszBox StcoBox Co64Box StssBox SttsBox
        CttsBox StscBox ElstBox HdlrBox DrefBox StsdBox
    }
    macro_rules! times {
        ($($name:ident $($field:ident)*;)*) => {
            $($(for (version, most) in [(0, u64::from(u32::MAX)), (1, u64::MAX)] {
                let value = $name { version, $field: most, ..$name::default() };
                assert_eq!($name::read_box(&value.to_bytes().unwrap()), Ok(value));
            }
            unwritable(&$name { $field: 1 << 32, ..$name::default() });)*
            for version in [2, 255] {
                unwritable(&$name { version, ..$name::default() });
            })*
        };
    }
    times! {
        MvhdBox creation_time modification_time duration;
        TkhdBox creation_time modification_time duration;
        MdhdBox creation_time modification_time duration;
        MehdBox fragment_duration;
        TfdtBox base_media_decode_time;
    }
    let sets = |count| vec![NalUnit { bytes: vec![1] }; count];
    let entry = |sequence, picture| {
        let (sequence_parameter_sets, picture_parameter_sets) = (sets(sequence), sets(picture));
        let avcc = AvcCBox { sequence_parameter_sets, picture_parameter_sets, ..AvcCBox::default() };
        StsdBox { entry: Some(SampleEntry::Avc1(Avc1Box { avcc, ..Avc1Box::default() })), ..StsdBox::default() }
    };
    let most = entry(31, 255);
    assert_eq!(StsdBox::read_box(&most.to_bytes().unwrap()), Ok(most));
    unwritable(&entry(32, 0));
    unwritable(&entry(0, 256));
}

#[test]
fn containers() {
    let free = b"\0\0\0\x08free";
    assert_eq!(container(b"moov", &[free, b"", free]).unwrap(), nested("moov", &[free.repeat(2)]));
    assert_eq!(container(FourCC::new(b"free"), &[]).unwrap(), free);
}
