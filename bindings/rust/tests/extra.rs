//! Reads and writes the boxes of the module `extra`, with bytes that were worked out from the standards.

use mp4_box_codec::extra::*;
use mp4_box_codec::{
    box_from_json, fields, Error, Fault, FixedPointI8, FourCC, JsonFault, ReadBox, RgbaColor, WriteBox,
};
use std::collections::BTreeSet;
use std::fmt::Debug;

/// Returns a box of this name with these bytes after its header.
fn boxed(name: &[u8; 4], parts: &[&[u8]]) -> Vec<u8> {
    let content = parts.concat();
    [&(8 + content.len() as u32).to_be_bytes(), &name[..], &content].concat()
}

/// Checks that a box with these bytes is read as `value`, and written as the same bytes.
fn both<B: WriteBox + PartialEq + Debug>(name: &[u8; 4], parts: &[&[u8]], value: &B) {
    let bytes = boxed(name, parts);
    assert_eq!(B::read_box(&bytes).as_ref(), Ok(value));
    assert_eq!(value.to_bytes().as_ref(), Ok(&bytes));
    let json = fields(&bytes).unwrap();
    assert_eq!(value.to_json().as_ref(), Ok(&json));
    assert_eq!(B::from_json(&json).as_ref(), Ok(value));
}

#[test]
fn numbers_and_codes() {
    both(b"pasp", &[&[0, 0, 0, 4, 0, 0, 0, 3]], &PaspBox { h_spacing: 4, v_spacing: 3 });
    let colours = ColrBox {
        colour_type: FourCC::new(b"nclx"),
        colour_primaries: Some(9),
        transfer_characteristics: Some(16),
        matrix_coefficients: Some(9),
        full_range_flag: Some(true),
        ..ColrBox::default()
    };
    both(b"colr", &[b"nclx", &[0, 9, 0, 16, 0, 9, 0x80]], &colours);
    assert_eq!(colours.transfer_characteristics_name(), Some("SMPTE ST 2084"));
    assert_eq!(ColrBox { colour_primaries: Some(3), ..colours.clone() }.colour_primaries_name(), None);
    both(b"colr", &[b"nclx", &[0, 9, 0, 16, 0, 9, 0x81]], &ColrBox { reserved: Some(1), ..colours });
    let profile = ColrBox { colour_type: "prof".parse().unwrap(), icc_profile: Some(vec![1, 2]), ..ColrBox::default() };
    both(b"colr", &[b"prof\x01\x02"], &profile);
    let brands = ["msdh", "\u{FF}\u{80}\"\\"].map(|it| it.parse().unwrap());
    let segment = StypBox { major_brand: brands[0], minor_version: 1, compatible_brands: brands.to_vec() };
    both(b"styp", &[b"msdh\0\0\0\x01msdh\xFF\x80\"\\"], &segment);
    let offsets =
        CslgBox { version: 1, composition_to_dts_shift: -1, composition_end_time: 1 << 40, ..Default::default() };
    both(b"cslg", &[&[1, 0, 0, 0], &[0xFF; 8], &[0; 26], &[1, 0, 0, 0, 0, 0]], &offsets);
}

#[test]
fn bytes_and_lists() {
    let key = |first: u8| std::array::from_fn::<u8, 16, _>(|at| first + at as u8);
    let track = TencBox {
        version: 1,
        default_crypt_byte_block: Some(1),
        default_skip_byte_block: Some(9),
        default_is_protected: 1,
        default_kid: key(0x10),
        default_constant_iv: Some(vec![0xA0; 8]),
        ..TencBox::default()
    };
    both(b"tenc", &[&[1, 0, 0, 0, 0, 0x19, 1, 0], &key(0x10), &[8], &[0xA0; 8]], &track);
    // The box has fewer bytes than it counts, and keeps their number.
    let cut = TencBox { default_constant_iv_size: Some(9), ..track };
    both(b"tenc", &[&[1, 0, 0, 0, 0, 0x19, 1, 0], &key(0x10), &[9], &[0xA0; 8]], &cut);
    let system = PsshBox {
        version: 1,
        system_id: key(0x20),
        kid: Some(vec![key(0x30), key(0x40)]),
        data: vec![7, 8],
        ..PsshBox::default()
    };
    let parts: [&[u8]; 6] = [&[1, 0, 0, 0], &key(0x20), &[0, 0, 0, 2], &key(0x30), &key(0x40), &[0, 0, 0, 2, 7, 8]];
    both(b"pssh", &parts, &system);
    both(
        b"pixi",
        &[&[0, 0, 0, 0, 3, 8, 8, 10]],
        &PixiBox { bits_per_channel: Some(vec![8, 8, 10]), ..PixiBox::default() },
    );
    let hint = TrefReference { reference_type: FourCC::new(b"hint"), track_ids: vec![3, 4] };
    both(b"tref", &[&boxed(b"hint", &[&[0, 0, 0, 3, 0, 0, 0, 4]])], &TrefBox { references: vec![hint] });
    let set = AvccBox {
        configuration_version: 1,
        avc_profile_indication: 66,
        avc_level_indication: 30,
        length_size_minus_one: 3,
        num_of_sequence_parameter_sets: 1,
        sequence_parameter_set_nal_unit: vec![vec![0x67, 0x42]],
        picture_parameter_set_nal_unit: vec![vec![0x68], vec![]],
        ..AvccBox::default()
    };
    both(b"avcC", &[&[1, 66, 0, 30, 0xFF, 0xE1, 0, 2, 0x67, 0x42, 2, 0, 1, 0x68, 0, 0]], &set);
    assert_eq!(set.avc_profile_indication_name(), Some("Baseline"));
}

#[test]
fn texts_and_values() {
    let role = |value: &str, value_hex| KindBox {
        scheme_uri: "urn:a".into(),
        value: value.into(),
        value_hex,
        ..KindBox::default()
    };
    both(b"kind", &[&[0; 4], b"urn:a\0\"\\\n\x01\xC3\xA9\xF0\x9F\x8E\xAC\0"], &role("\"\\\n\u{1}é🎬", None));
    // A text that isn't UTF-8 has its bytes beside it.
    both(b"kind", &[&[0; 4], b"urn:a\0a\xFF\0"], &role("a\u{FFFD}", Some(vec![b'a', 0xFF])));
    let value = |data_type: u32| DataBox { data_type, ..DataBox::default() };
    let title = DataBox { text: Some("Blue".into()), language: Some(Letters::Text("deu".into())), ..value(1) };
    both(b"data", &[&[0, 0, 0, 1, 0, 0, 0x10, 0xB5], b"Blue"], &title);
    // A type of another set isn't a well-known one.
    let other = DataBox { type_set: Some(2), data_bytes: Some(vec![3]), ..value(1) };
    both(b"data", &[&[2, 0, 0, 1, 0, 0, 0, 0, 3]], &other);
    assert_eq!((title.data_type_name(), other.data_type_name()), (Some("text"), None));
    let listed = DataBox { country: Some(Letters::Number(7)), number: Some(-2), ..value(21) };
    both(b"data", &[&[0, 0, 0, 21, 0, 7, 0, 0, 0xFE]], &listed);
    both(b"data", &[&[0, 0, 0, 22, 0, 0, 0, 0], &[0xFF; 8]], &DataBox { number: Some(u64::MAX.into()), ..value(22) });
    let sound = GminBox { balance: FixedPointI8::new_raw(-0x180), graphicsmode: 64, ..GminBox::default() };
    both(b"gmin", &[&[0, 0, 0, 0, 0, 64, 0, 0, 0, 0, 0, 0, 0xFE, 0x80, 0, 0]], &sound);
    // A number is rounded to the nearest that the field has, however small it is.
    for number in [1e-25, -f64::MIN_POSITIVE, 0.4 / 65536.0, f64::from_bits(1)] {
        assert_eq!(TextBox { a: number, ..TextBox::default() }.to_bytes(), TextBox::default().to_bytes());
    }
    let small = 1.0 / f64::from(1 << 30);
    let place = TextBox { a: 1.0, b: -0.5, u: small, d: 1.0 / 65536.0, w: -2.0, ..TextBox::default() };
    let rows: [[u32; 3]; 3] = [[0x1_0000, 0xFFFF_8000, 1], [0, 1, 0], [0, 0, 0x8000_0000]];
    let content: Vec<u8> = rows.concat().into_iter().flat_map(u32::to_be_bytes).collect();
    both(b"text", &[&content], &place);
}

#[test]
fn entries_and_groups() {
    let reference = |size| SidxReference {
        referenced_size: size,
        subsegment_duration: 5,
        starts_with_sap: true,
        sap_type: 1,
        ..SidxReference::default()
    };
    let index = SidxBox {
        reference_id: 1,
        timescale: 1000,
        references: vec![reference(100), reference(200)],
        ..SidxBox::default()
    };
    let rows: [u32; 12] = [0, 1, 1000, 0, 0, 2, 100, 5, 0x9000_0000, 200, 5, 0x9000_0000];
    let content: Vec<u8> = rows.into_iter().flat_map(u32::to_be_bytes).collect();
    both(b"sidx", &[&content], &index);
    let red = RgbaColor { red: 1, green: 2, blue: 3, alpha: 4 };
    let entry = Tx3gBox {
        data_reference_index: 1,
        display_flags: 0x20,
        horizontal_justification: 1,
        vertical_justification: -1,
        background_color_rgba: red,
        default_text_box: Tx3gDefaultTextBox { top: -1, left: 0, bottom: 5, right: 6 },
        default_style: Tx3gDefaultStyle { font_id: 7, font_size: 18, text_color_rgba: red, ..Default::default() },
    };
    let content: [&[u8]; 6] = [
        &[0, 0, 0, 0, 0, 0, 0, 1],
        &[0, 0, 0, 0x20, 1, 0xFF, 1, 2, 3, 4],
        &[0xFF, 0xFF, 0, 0, 0, 5, 0, 6],
        &[0, 0, 0, 0, 0, 7, 0, 18],
        &[1, 2, 3, 4],
        &[],
    ];
    both(b"tx3g", &content, &entry);
    let group = SgpdEntry {
        is_protected: Some(1),
        per_sample_iv_size: Some(0),
        crypt_byte_block: Some(1),
        skip_byte_block: Some(9),
        kid: Some([5; 16]),
        constant_iv: Some(vec![6; 8]),
        ..SgpdEntry::default()
    };
    let groups = SgpdBox {
        version: 1,
        grouping_type: FourCC::new(b"seig"),
        default_length: Some(29),
        entry_count: 1,
        entries: Some(vec![group]),
        ..SgpdBox::default()
    };
    let content: [&[u8]; 5] = [&[1, 0, 0, 0], b"seig\0\0\0\x1D\0\0\0\x01", &[0, 0x19, 1, 0], &[5; 16], &[8]];
    both(b"sgpd", &[&content.concat(), &[6; 8]], &groups);
}

/// Returns the path and the number of the reason with which a box is refused.
fn reason<T: Debug>(found: Result<T, Error>) -> (String, u32) {
    match found.unwrap_err() {
        Error::Json { fault: JsonFault { path, reason, .. }, .. } => (path, reason),
        why => panic!("{why}"),
    }
}

#[test]
fn refusals() {
    // The numbers are those of the header: MP4_JSON_OUT_OF_RANGE is 9.
    let refused = |path: &str, reason| (path.to_string(), reason);
    let reference = SidxReference { sap_type: 8, ..SidxReference::default() };
    let index = SidxBox { references: vec![SidxReference::default(), reference], ..SidxBox::default() };
    let error = index.to_bytes().unwrap_err();
    assert_eq!(error.to_string(), "the box 'sidx' can't be written: references[1].SAP_type does not fit the field");
    assert_eq!((error.fault(), reason(index.to_bytes())), (None, refused("references[1].SAP_type", 9)));
    let colours = ColrBox { colour_type: FourCC::new(b"nclx"), ..ColrBox::default() };
    assert_eq!(reason(colours.to_bytes()), refused("colour_primaries", 17));
    let icc_profile = Some(vec![1]);
    let other = ColrBox { colour_type: FourCC::new(b"prof"), colour_primaries: Some(1), icc_profile, ..colours };
    assert_eq!(reason(other.to_json()), refused("colour_primaries", 15));
    assert_eq!(reason(TextBox { v: f64::NAN, ..TextBox::default() }.to_bytes()), refused("v", 5));
    for v in [2.0, -2.1, 1e9] {
        assert_eq!(reason(TextBox { v, ..TextBox::default() }.to_bytes()), refused("v", 9), "{v}");
    }
    assert_eq!(reason(TencBox { version: 2, ..TencBox::default() }.to_bytes()), refused("version", 10));
    let role = KindBox { value: "b".into(), value_hex: Some(vec![0xFF]), ..KindBox::default() };
    assert_eq!(reason(role.to_bytes()), refused("value", 18));
    assert_eq!(reason(PaspBox::from_json("{")), refused("", 1));
    assert_eq!(reason(PaspBox::from_json(r#"{"hSpacing":4}"#)), refused("vSpacing", 17));
    assert_eq!(reason(PaspBox::from_json(r#"{"hSpacing":4,"vSpacing":3,"zSpacing":3}"#)), refused("zSpacing", 15));
    assert_eq!(reason(PaspBox::from_json(r#"{"hSpacing":4294967296,"vSpacing":3}"#)), refused("hSpacing", 9));
}

#[test]
fn faults_and_other_boxes() {
    let bytes = boxed(b"pasp", &[&[0; 8]]);
    assert_eq!(PaspBox::read_box(&bytes[..15]), Err(Fault::EndOfInput.into()));
    assert_eq!(PaspBox::read_box(&bytes[..5]), Err(Fault::EndOfInput.into()));
    assert_eq!(BtrtBox::read_box(&bytes), Err(Fault::InvalidData.into()));
    assert_eq!(BtrtBox::read_box(&boxed(b"free", &[])), Err(Fault::InvalidData.into()));
    let found = ExtraBox::read_box(&bytes).unwrap();
    assert_eq!((found.code(), &found), (PaspBox::CODE, &PaspBox::default().into()));
    assert_eq!(ExtraBox::read_box(&boxed(b"free", &[])), Err(Fault::UnknownBox.into()));
    assert_eq!(ExtraBox::read_box(&bytes[..7]), Err(Fault::EndOfInput.into()));
    // The structs of the codec have JSON too.
    let media = mp4_box_codec::MdhdBox { timescale: 30000, language: "eng".into(), ..Default::default() };
    assert_eq!(mp4_box_codec::MdhdBox::from_json(&media.to_json().unwrap()), Ok(media));
}

/// Reads the boxes of the file that `TEST_BOXES` names, a line of hexadecimal digits for each. Nothing of their JSON
/// may get lost, and a box of each type is written in its own bytes.
#[test]
fn listed_boxes() {
    let lines = match std::env::var("TEST_BOXES") {
        Ok(path) => std::fs::read_to_string(path).unwrap(),
        Err(_) => return,
    };
    let (mut codes, mut same) = (BTreeSet::new(), BTreeSet::new());
    for line in lines.lines() {
        let digits: Vec<u8> = line.chars().map(|it| it.to_digit(16).unwrap() as u8).collect();
        let bytes: Vec<u8> = digits.chunks(2).map(|it| it[0] << 4 | it[1]).collect();
        let (found, json) = (ExtraBox::read_box(&bytes), fields(&bytes));
        codes.insert(bytes[4..8].to_vec());
        let (value, json) = match (found, json) {
            (Ok(value), Ok(json)) => (value, json),
            (found, json) => {
                assert_eq!(found.map(|_| String::new()), json, "{line}");
                continue;
            }
        };
        let written = value.to_bytes().unwrap_or_else(|why| panic!("{line}: {why}"));
        assert_eq!(box_from_json(value.code(), &json).as_ref(), Ok(&written), "{line}");
        assert_eq!(value.to_json(), Ok(json), "{line}");
        assert_eq!(ExtraBox::read_box(&written), Ok(value), "{line}");
        if written == bytes {
            same.insert(bytes[4..8].to_vec());
        }
    }
    assert!(!codes.is_empty());
    assert_eq!(same, codes);
}
