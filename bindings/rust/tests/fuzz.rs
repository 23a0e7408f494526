//! Passes changed boxes and files to the functions of the crate. No call may panic, and what is written is read back as
//! the same bytes. `TEST_COUNT` is the number of inputs; without it they are 100,000.

use mp4_box_codec::*;

/// Numbers that look random, by Marsaglia's xorshift.
struct Random(u64);

impl Random {
    /// Returns a number below `end`.
    fn below(&mut self, end: usize) -> usize {
        self.0 ^= self.0 << 13;
        self.0 ^= self.0 >> 7;
        self.0 ^= self.0 << 17;
        (self.0 % end as u64) as usize
    }
}

fn bytes_of<B: WriteBox>(value: &B) -> Vec<u8> {
    value.to_bytes().unwrap()
}

/// Returns boxes of many types, and a movie with them.
fn boxes() -> Vec<Vec<u8>> {
    let sets = AvcCBox::new(&[0x67, 0x64, 0, 0x0D, 1, 2], &[0x68, 0xEB]).unwrap();
    let entries = [
        SampleEntry::Avc1(Avc1Box { avcc: sets, ..Avc1Box::default() }),
        SampleEntry::Hev1(Hev1Box::default()),
        SampleEntry::Vp09(Vp09Box::default()),
        SampleEntry::Mp4a(Mp4aBox {
            esds: Some(EsdsBox {
                es_desc: ESDescriptor {
                    es_id: 1,
                    dec_config: DecoderConfigDescriptor {
                        dec_specific: DecoderSpecificDescriptor {
                            profile: 2,
                            freq_index: 3,
                            chan_conf: 2,
                            sample_rate: 0,
                        },
                        ..DecoderConfigDescriptor::default()
                    },
                },
                ..EsdsBox::default()
            }),
            ..Mp4aBox::default()
        }),
        SampleEntry::Tx3g(Tx3gBox::default()),
    ];
    let stsd = entries.map(|it| bytes_of(&StsdBox { entry: Some(it), ..StsdBox::default() }));
    let url = Some(UrlBox { location: "a/b".into(), ..UrlBox::default() });
    let dref = bytes_of(&DrefBox { url, ..DrefBox::default() });
    let stts = SttsBox { entries: vec![SttsEntry { sample_count: 3, sample_delta: 10 }], ..SttsBox::default() };
    let ctts = CttsBox { entries: vec![CttsEntry { sample_count: 3, sample_offset: -1 }], ..CttsBox::default() };
    let chunk = StscEntry { first_chunk: 1, samples_per_chunk: 2, sample_description_index: 1, first_sample: 1 };
    let stsc = StscBox { entries: vec![chunk], ..StscBox::default() };
    let stsz = StszBox { sample_count: 3, sample_sizes: vec![3, 4, 5], ..StszBox::default() };
    let edit = ElstEntry { segment_duration: 9, media_time: -1, media_rate: 1, media_rate_fraction: 0 };
    let tables = [
        bytes_of(&stts),
        bytes_of(&ctts),
        bytes_of(&stsc),
        bytes_of(&stsz),
        bytes_of(&StssBox { entries: vec![1, 3], ..StssBox::default() }),
        bytes_of(&StcoBox { entries: vec![8, 15], ..StcoBox::default() }),
        bytes_of(&Co64Box { entries: vec![8, 15], ..Co64Box::default() }),
    ];
    let elst = bytes_of(&ElstBox { version: 1, entries: vec![edit], ..ElstBox::default() });
    let run = TrunEntry { duration: Some(1), size: Some(2), flags: None, composition_offset: Some(-3) };
    let trun = bytes_of(&TrunBox { version: 1, sample_count: 2, entries: vec![run; 2], ..TrunBox::default() });
    let tfhd = bytes_of(&TfhdBox { track_id: 1, default_sample_flags: Some(7), ..TfhdBox::default() });
    let tfdt = bytes_of(&TfdtBox::default());
    let mdhd = bytes_of(&MdhdBox { language: "eng".into(), ..MdhdBox::default() });
    let hdlr = bytes_of(&HdlrBox { handler_type: FourCC::new(b"vide"), name: "é".into(), ..HdlrBox::default() });
    let tkhd = bytes_of(&TkhdBox { track_id: 1, ..TkhdBox::default() });
    let others = [
        bytes_of(&MvhdBox::default()),
        bytes_of(&MehdBox::default()),
        bytes_of(&MfhdBox::default()),
        bytes_of(&SmhdBox::default()),
        bytes_of(&VmhdBox::default()),
        bytes_of(&TrexBox { track_id: 1, ..TrexBox::default() }),
        bytes_of(&FtypBox { compatible_brands: vec![FourCC::new(b"isom")], ..FtypBox::default() }),
        bytes_of(&EmsgBox { presentation_time_delta: Some(1), message_data: vec![1, 2], ..EmsgBox::default() }),
        container(b"dinf", &[&dref]).unwrap(),
        b"\0\0\0\x15data\0\0\0\x01\0\0\0\0Title".to_vec(),
    ];
    let around = |code: &[u8; 4], parts: &[&[u8]]| container(code, parts).unwrap();
    let stbl = around(b"stbl", &[&stsd[0], &tables[0], &tables[1], &tables[2], &tables[3], &tables[4], &tables[5]]);
    let mdia = around(b"mdia", &[&mdhd, &hdlr, &around(b"minf", &[&others[4], &others[8], &stbl])]);
    let trak = around(b"trak", &[&tkhd, &around(b"edts", &[&elst]), &mdia]);
    let moov = around(b"moov", &[&others[0], &trak, &around(b"mvex", &[&others[5]])]);
    let moof = around(b"moof", &[&others[2], &around(b"traf", &[&tfhd, &tfdt, &trun])]);
    let mut found = vec![[moov, moof, around(b"mdat", &[&[0; 20]])].concat()];
    found.extend(stsd);
    found.extend(tables);
    found.extend([elst, trun, tfhd, tfdt, mdhd, hdlr, tkhd, dref]);
    found.extend(others);
    found.extend(extra_boxes());
    found
}

/// Returns boxes of the module `extra`: with lists, groups, texts, and fields that may be absent.
fn extra_boxes() -> [Vec<u8>; 9] {
    let reference = extra::TrefReference { reference_type: FourCC::new(b"hint"), track_ids: vec![3, 4] };
    let group = extra::SgpdEntry { roll_distance: Some(-1), ..Default::default() };
    let groups = extra::SgpdBox {
        version: 1,
        grouping_type: FourCC::new(b"roll"),
        default_length: Some(2),
        entry_count: 2,
        entries: Some(vec![group; 2]),
        ..Default::default()
    };
    let part = extra::SubsSubsample { subsample_size: 5, ..Default::default() };
    let parts = extra::SubsEntry { sample_delta: 1, subsamples: vec![part; 2] };
    let colours = extra::ColrBox {
        colour_type: FourCC::new(b"nclx"),
        colour_primaries: Some(1),
        transfer_characteristics: Some(1),
        matrix_coefficients: Some(1),
        full_range_flag: Some(true),
        ..Default::default()
    };
    let value = extra::DataBox { data_type: 21, number: Some(-2), ..Default::default() };
    [
        bytes_of(&extra::TrefBox { references: vec![reference] }),
        bytes_of(&groups),
        bytes_of(&extra::SubsBox { entries: vec![parts], ..Default::default() }),
        bytes_of(&colours),
        bytes_of(&value),
        bytes_of(&extra::KindBox { scheme_uri: "é".into(), ..Default::default() }),
        bytes_of(&extra::PsshBox { version: 1, kid: Some(vec![[1; 16]; 2]), data: vec![2], ..Default::default() }),
        bytes_of(&extra::GminBox { balance: FixedPointI8::new(-1), ..Default::default() }),
        bytes_of(&extra::Tx3gBox::default()),
    ]
}

/// Reads a box, writes it, and reads it again.
fn again<B: WriteBox>(bytes: &[u8]) -> usize {
    let value = match B::read_box(bytes) {
        Ok(value) => value,
        Err(_) => return 0,
    };
    if let Ok(written) = value.to_bytes() {
        let read = B::read_box(&written).unwrap_or_else(|why| panic!("{} from {bytes:02x?}: {why}", B::CODE));
        assert_eq!(read.to_bytes().as_ref(), Ok(&written), "{} from {bytes:02x?}", B::CODE);
    }
    1
}

/// Reads a box into a struct of `extra`, and writes it. Its fields have to stay the same.
fn extra_again(bytes: &[u8]) -> usize {
    let value = match extra::ExtraBox::read_box(bytes) {
        Ok(value) => value,
        Err(why) => {
            let is_other = why == Fault::UnknownBox.into() || why == Fault::EndOfInput.into();
            assert!(is_other || fields(bytes) == Err(why), "{bytes:02x?}");
            return 0;
        }
    };
    assert_eq!(value.to_json(), fields(bytes), "{bytes:02x?}");
    1
}

/// Calls `again` for the boxes that are written, and only reads the others. Returns how many are read.
macro_rules! read_all {
    ($bytes:expr; $($name:ident)*; $($other:ident)*) => {
        $(again::<$name>($bytes) +)* $(usize::from($other::read_box($bytes).is_ok()) +)* 0
    };
}

/// Returns whether the codes of a box and of the boxes around it have only letters and digits.
fn is_plain(it: TreeBox<'_>) -> bool {
    it.code.value.iter().all(u8::is_ascii_alphanumeric) && it.parent().map_or(true, is_plain)
}

/// Calls the functions for the bytes of a file. Returns how many boxes are read into structs.
fn call(file: &[u8]) -> usize {
    let _ = (check(file), list(file), normal(file), tracks(file), find(file, "moov/trak/mdia/mdhd"));
    for it in check_file(file).unwrap() {
        assert!(it.position <= file.len() as u64 && !it.path.is_empty() && !it.text.is_empty(), "{it}");
    }
    let known = info(file).unwrap();
    let listed = tree(file).unwrap();
    let traks = listed.find("moov").map_or(0, |moov| moov.children().filter(|it| it.code == "trak").count());
    assert_eq!((known.length, known.tracks.len()), (file.len() as u64, traks));
    let read = tracks_of(&mut std::io::Cursor::new(file)).map(|found| found.into_iter().map(|it| it.info).collect());
    assert_eq!(read.unwrap_or_else(|_| known.tracks.clone()), known.tracks);
    for sample in samples(file, 1).into_iter().chain(fragment_samples(file, 1)).flatten().take(100) {
        sample.bytes(file);
    }
    let mut count = 0;
    let tree = tree(file).unwrap();
    for it in &tree {
        let path = it.path().unwrap();
        assert_eq!(
            it.parent().map(|around| around.children().any(|beside| beside == it)),
            (it.depth > 0).then_some(true)
        );
        if it.what == What::NoHeader {
            continue;
        }
        if is_plain(it) {
            assert_eq!(tree.find(&path).map(|found| found.position), Some(it.position), "{path}");
        }
        let _ = it.fields(file);
        count += it.bytes(file).map_or(0, |bytes| {
            extra_again(bytes) + read_all! { bytes;
                MvhdBox TkhdBox MdhdBox MehdBox MfhdBox SmhdBox VmhdBox TrexBox TfdtBox TfhdBox StszBox StcoBox Co64Box
                StssBox SttsBox CttsBox StscBox ElstBox TrunBox FtypBox HdlrBox DrefBox EmsgBox StsdBox;
                DataBox UrlBox DinfBox HvcCBox Hev1Box VpccBox Vp09Box Tx3gBox EsdsBox Mp4aBox AvcCBox Avc1Box
            }
        });
    }
    count
}

#[test]
fn changed_boxes() {
    let (boxes, mut random, mut count) = (boxes(), Random(0x9E37_79B9_7F4A_7C15), 0);
    for it in &boxes {
        assert!(call(it) > 0, "{it:02x?} is not read");
    }
    let inputs = std::env::var("TEST_COUNT").ok().and_then(|it| it.parse().ok()).unwrap_or(100_000);
    for _ in 0..inputs {
        // The movie, the first, takes a hundred times as long as the other boxes.
        let first = usize::from(random.below(100) > 0);
        let mut bytes = boxes[first * random.below(boxes.len())].clone();
        for _ in 0..1 + random.below(3) {
            let at = random.below(bytes.len().max(1));
            match random.below(8) {
                0 => bytes.truncate(at),
                1 => bytes.splice(at..at, [0; 3]).for_each(drop),
                2 if at < bytes.len() => {
                    let _ = bytes.remove(at);
                }
                _ if at < bytes.len() => bytes[at] = [0, 1, 0x7F, 0xFF, random.below(256) as u8][random.below(5)],
                _ => {}
            }
        }
        count += call(&bytes);
    }
    println!("fuzz: {inputs} inputs, in which {count} boxes are read");
    assert!(count > inputs / 10, "only {count} boxes are read");
}
