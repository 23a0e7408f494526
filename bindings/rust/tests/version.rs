//! Calls a library of another version, 0.2.7, which `tests/c/test_bindings.py` puts before the right one.

use mp4_box_codec::*;

#[test]
#[ignore = "needs a library of another version"]
fn another_version_is_refused() {
    assert_eq!(version(), 2007);
    let why = || Error::OtherVersion(2007);
    let text = "libmp4_box_codec is version 0.2.7, and this crate needs version 0.1.x";
    assert_eq!((why().to_string().as_str(), status_text(0).as_str()), (text, text));

    let bytes = b"\0\0\0\x08free";
    let mut found = vec![check(bytes).err(), list(bytes).err(), normal(bytes).err(), fields(bytes).err()];
    found.extend([find(bytes, "free").err(), samples(bytes, 1).err(), fragment_samples(bytes, 1).err()]);
    found.extend([tree(bytes).err(), tree_of(&mut std::io::Cursor::new(bytes)).err(), tracks(bytes).err()]);
    found.extend([check_file(bytes).err(), info(bytes).err()]);

    macro_rules! errors {
        ($($name:ident)*; $($write:ident)*) => {
            found.extend([$($name::read_box(bytes).err(),)* $($write::default().to_bytes().err(),)*])
        };
    }
    errors! {
        MvhdBox TkhdBox MdhdBox MehdBox MfhdBox SmhdBox VmhdBox TrexBox TfdtBox TfhdBox StszBox StcoBox Co64Box
        StssBox SttsBox CttsBox StscBox ElstBox TrunBox FtypBox HdlrBox DataBox UrlBox DrefBox DinfBox EmsgBox HvcCBox
        Hev1Box VpccBox Vp09Box Tx3gBox EsdsBox Mp4aBox AvcCBox Avc1Box StsdBox;
        MvhdBox TkhdBox MdhdBox MehdBox MfhdBox SmhdBox VmhdBox TrexBox TfdtBox TfhdBox StszBox StcoBox Co64Box
        StssBox SttsBox CttsBox StscBox ElstBox TrunBox FtypBox HdlrBox DrefBox StsdBox
    }
    found.push(EmsgBox { presentation_time_delta: Some(0), ..EmsgBox::default() }.to_bytes().err());
    found.extend([extra::PaspBox::read_box(bytes).err(), extra::PaspBox::from_json("{}").err()]);
    found.extend([extra::PaspBox::default().to_bytes().err(), FtypBox::default().to_json().err()]);
    assert_eq!(found.len(), 76);
    assert!(found.iter().all(|it| *it == Some(why())), "{found:?}");
}
