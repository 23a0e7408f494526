//! Refuses requests for memory: a call ends with `OutOfMemory`, and never with an abort.

use mp4_box_codec::*;
use std::alloc::{GlobalAlloc, Layout, System};
use std::cell::Cell;
use std::io;

thread_local! {
    /// The number of requests of this thread that are still granted.
    static GRANTED: Cell<usize> = const { Cell::new(usize::MAX) };
}

struct Counting;

/// Returns whether one more request is granted.
fn granted() -> bool {
    GRANTED.with(|it| {
        let left = it.get();
        it.set(if left == usize::MAX { left } else { left.saturating_sub(1) });
        left > 0
    })
}

// SAFETY: the memory is that of `System`, or a request is refused.
unsafe impl GlobalAlloc for Counting {
    unsafe fn alloc(&self, layout: Layout) -> *mut u8 {
        if granted() {
            System.alloc(layout)
        } else {
            std::ptr::null_mut()
        }
    }

    unsafe fn realloc(&self, old: *mut u8, layout: Layout, length: usize) -> *mut u8 {
        if granted() {
            System.realloc(old, layout, length)
        } else {
            std::ptr::null_mut()
        }
    }

    unsafe fn dealloc(&self, old: *mut u8, layout: Layout) {
        System.dealloc(old, layout)
    }
}

#[global_allocator]
static ALLOCATOR: Counting = Counting;

/// Calls with 0 requests granted, with 1, and so on, until a call succeeds with `requests` of them. All calls before it
/// have to end with `OutOfMemory`.
fn each_refused<T>(requests: usize, call: impl Fn() -> Result<T, Error>) {
    for count in 0..=requests {
        GRANTED.with(|it| it.set(count));
        let found = call();
        GRANTED.with(|it| it.set(usize::MAX));
        match found {
            Ok(_) => assert_eq!(count, requests),
            Err(why) => {
                assert_eq!(why, Error::OutOfMemory);
                assert!(count < requests, "{count} of {requests} requests");
            }
        }
    }
}

#[test]
fn refused_requests() {
    // Two lists and two sets.
    each_refused(4, || AvcCBox::new(&[0x67, 1, 2, 3], &[0x68]));
    let avcc = AvcCBox {
        sequence_parameter_sets: vec![vec![1, 2].into(), vec![3].into()],
        picture_parameter_sets: vec![vec![4].into()],
        ..AvcCBox::default()
    };
    let entry = SampleEntry::Avc1(Avc1Box { avcc, ..Avc1Box::default() });
    let sample = StsdBox { version: 0, flags: 0, entry: Some(entry) };
    let (scheme_id_uri, value, message_data) = ("urn:x".to_string(), "v".to_string(), vec![1]);
    let event = EmsgBox { scheme_id_uri, value, message_data, presentation_time_delta: Some(1), ..EmsgBox::default() };
    let location = UrlBox { version: 0, flags: 0, location: "a/b".to_string() };
    let references = DrefBox { version: 0, flags: 0, url: Some(location) };
    let brands = FtypBox { compatible_brands: vec![FourCC::default(); 2], ..FtypBox::default() };

    // The lengths of the sets, their bytes, and the output.
    each_refused(3, || sample.to_bytes());
    let bytes = sample.to_bytes().unwrap();
    // The lengths and bytes again, two lists of sets, and three sets.
    each_refused(7, || StsdBox::read_box(&bytes));
    each_refused(7, || Avc1Box::read_box(&bytes[16..]));
    each_refused(7, || AvcCBox::read_box(&bytes[102..]));
    // Each text and the message take one request.
    each_refused(1, || event.to_bytes());
    let bytes = event.to_bytes().unwrap();
    each_refused(3, || EmsgBox::read_box(&bytes));
    each_refused(1, || references.to_bytes());
    let bytes = references.to_bytes().unwrap();
    each_refused(1, || DrefBox::read_box(&bytes));
    // The numbers of the brands, and the output or the brands.
    each_refused(2, || brands.to_bytes());
    let bytes = brands.to_bytes().unwrap();
    each_refused(2, || FtypBox::read_box(&bytes));
    // The spans of the library, and those of the crate.
    each_refused(2, || list(&bytes));
    // The brands of the library, and those of the crate.
    each_refused(2, || info(&bytes));
    // The JSON of 104 bytes takes five requests, for 8 to 128 bytes, and the output one.
    let reference = extra::TrefReference { reference_type: FourCC::new(b"hint"), track_ids: vec![3, 4] };
    let references = extra::TrefBox { references: vec![reference; 2] };
    each_refused(6, || references.to_bytes());
    each_refused(7, || references.to_json());
    // The JSON, the list of references, and the code and the numbers of each.
    let bytes = references.to_bytes().unwrap();
    each_refused(6, || extra::TrefBox::read_box(&bytes));
    each_refused(2, || extra::TrefBox::from_json(r#"{"references":[]}"#));
    // The JSON, two texts, and the bytes of one.
    let role = extra::KindBox { value: "\u{FFFD}".into(), value_hex: Some(vec![0xFF]), ..extra::KindBox::default() };
    let bytes = role.to_bytes().unwrap();
    each_refused(4, || extra::KindBox::read_box(&bytes));

    // The output, and the text of the language.
    let media = MdhdBox::default();
    each_refused(1, || media.to_bytes());
    let bytes = media.to_bytes().unwrap();
    each_refused(1, || MdhdBox::read_box(&bytes));
    each_refused(1, || container(FourCC::new(b"moov"), &[&bytes]));
    // The rows and the texts of the library, the faults, and a path and a text for each of the two.
    each_refused(7, || check_file(b"\0\0\0\x10moov\0\0\0\x09trac"));

    // The rows of the changes, their data, the pieces and the new bytes; the pieces, and the output.
    let movie = b"\0\0\0\x08free\0\0\0\x08moov";
    each_refused(4, || edit(movie, &[Change::Title("Blue")]));
    each_refused(2, || faststart(movie)?.to_vec());

    // A list of 9 boxes grows twice after the first request: its capacities are 4, 8 and 16.
    let file = b"\0\0\0\x08free".repeat(9);
    each_refused(3, || tree(&file));
    each_refused(3, || tree_of(&mut io::Cursor::new(&file)));
}

#[test]
fn refused_path() {
    let file = b"\0\0\0\x18moov\0\0\0\x10trak\0\0\0\x08mdia";
    let tree = tree(file).unwrap();
    let mdia = tree.find("moov/trak/mdia").unwrap();
    let refused = |count| {
        GRANTED.with(|it| it.set(count));
        let found = mdia.fields(file);
        GRANTED.with(|it| it.set(usize::MAX));
        found.unwrap_err()
    };
    assert_eq!(refused(0), Error::OutOfMemory);
    assert!(matches!(refused(usize::MAX), Error::At { position: 16, fault: Fault::UnknownBox, .. }));
}
