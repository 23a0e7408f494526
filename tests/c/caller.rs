//! Calls every function of `include/mp4_box_codec.h` from Rust: for the number of rows, for the rows, with an array
//! that is too short, with bytes that are cut, and with no bytes. Bytes and rows were worked out from `docs/LAYOUT.md`.

const OK: u32 = 0;
const END_OF_INPUT: u32 = 1;
const INVALID_DATA: u32 = 2;
const BOX_NOT_FOUND: u32 = 3;
const NO_ROOM: u32 = 100;
const UNKNOWN_BOX: u32 = 102;

#[repr(C)]
#[derive(Clone, Copy, Debug, Default, PartialEq)]
struct Span {
    position: u64,
    length: u64,
    header_length: u64,
    code: u32,
}

#[repr(C)]
#[derive(Clone, Copy, Debug, Default, PartialEq)]
struct Place {
    position: u64,
    length: u64,
    header_length: u64,
    code: u32,
    is_whole: u8,
}

#[repr(C)]
#[derive(Clone, Copy, Debug, Default, PartialEq)]
struct Sample {
    offset: u64,
    decode_time: u64,
    rendering_offset: i64,
    size: u32,
    duration: u32,
    description: u32,
    chunk: u32,
    sync: u8,
}

#[repr(C)]
#[derive(Clone, Copy, Debug, Default, PartialEq)]
struct Table {
    count: usize,
    flags: u32,
    version: u8,
}

#[repr(C)]
#[derive(Clone, Copy, Debug, Default, PartialEq)]
struct StszTable {
    count: usize,
    flags: u32,
    sample_size: u32,
    sample_count: u32,
    version: u8,
}

#[repr(C)]
#[derive(Clone, Copy, Debug, Default, PartialEq)]
struct SttsRow {
    sample_count: u32,
    sample_delta: u32,
}

#[repr(C)]
#[derive(Clone, Copy, Debug, Default, PartialEq)]
struct CttsRow {
    sample_count: u32,
    sample_offset: i32,
}

#[repr(C)]
#[derive(Clone, Copy, Debug, Default, PartialEq)]
struct StscRow {
    first_chunk: u32,
    samples_per_chunk: u32,
    sample_description_index: u32,
    first_sample: u32,
}

#[repr(C)]
#[derive(Clone, Copy, Debug, Default, PartialEq)]
struct ElstRow {
    segment_duration: u64,
    media_time: u64,
    media_rate: u16,
    media_rate_fraction: u16,
}

#[repr(C)]
#[derive(Clone, Copy, Debug, Default, PartialEq)]
struct TrunTable {
    count: usize,
    flags: u32,
    sample_count: u32,
    data_offset: i32,
    first_sample_flags: u32,
    version: u8,
}

#[repr(C)]
#[derive(Clone, Copy, Debug, Default, PartialEq)]
struct TrunRow {
    duration: u32,
    size: u32,
    flags: u32,
    composition_offset: u32,
}

/// A function that returns rows.
type Call<R, T> = unsafe extern "C" fn(*const u8, usize, *mut R, usize, *mut T) -> u32;

unsafe extern "C" {
    fn mp4_check(bytes: *const u8, length: usize) -> u32;
    fn mp4_list(bytes: *const u8, length: usize, spans: *mut Span, places: usize, count: *mut usize) -> u32;
    fn mp4_normal(bytes: *const u8, length: usize, out: *mut u8, places: usize, count: *mut usize) -> u32;
    fn mp4_fields(bytes: *const u8, length: usize, text: *mut u8, places: usize, count: *mut usize) -> u32;
    fn mp4_stsz(bytes: *const u8, length: usize, sizes: *mut u32, places: usize, table: *mut StszTable) -> u32;
    fn mp4_stco(bytes: *const u8, length: usize, offsets: *mut u32, places: usize, table: *mut Table) -> u32;
    fn mp4_co64(bytes: *const u8, length: usize, offsets: *mut u64, places: usize, table: *mut Table) -> u32;
    fn mp4_stss(bytes: *const u8, length: usize, samples: *mut u32, places: usize, table: *mut Table) -> u32;
    fn mp4_stts(bytes: *const u8, length: usize, rows: *mut SttsRow, places: usize, table: *mut Table) -> u32;
    fn mp4_ctts(bytes: *const u8, length: usize, rows: *mut CttsRow, places: usize, table: *mut Table) -> u32;
    fn mp4_stsc(bytes: *const u8, length: usize, rows: *mut StscRow, places: usize, table: *mut Table) -> u32;
    fn mp4_elst(bytes: *const u8, length: usize, rows: *mut ElstRow, places: usize, table: *mut Table) -> u32;
    fn mp4_trun(bytes: *const u8, length: usize, rows: *mut TrunRow, places: usize, table: *mut TrunTable) -> u32;
    fn mp4_find(bytes: *const u8, length: usize, path: *const u8, path_length: usize, place: *mut Place) -> u32;
    fn mp4_samples(
        bytes: *const u8, length: usize, id: u32, rows: *mut Sample, places: usize, count: *mut usize,
    ) -> u32;
    fn mp4_fragment_samples(
        bytes: *const u8,
        length: usize,
        id: u32,
        rows: *mut Sample,
        places: usize,
        count: *mut usize,
    ) -> u32;
    fn mp4_status_text(status: u32, text: *mut u8, places: usize, count: *mut usize) -> u32;
    fn mp4_version() -> u32;
}

/// Calls `function` with `bytes`. The pointers are those of slices, as the header requires of the caller.
fn call<R, T>(function: Call<R, T>, bytes: &[u8], rows: &mut [R], told: &mut T) -> u32 {
    unsafe { function(bytes.as_ptr(), bytes.len(), rows.as_mut_ptr(), rows.len(), told) }
}

fn check(bytes: &[u8]) -> u32 {
    unsafe { mp4_check(bytes.as_ptr(), bytes.len()) }
}

/// Asks for the number of rows, and then for the rows, once more with an array that is too short, and over cut bytes.
fn hands<R, T>(function: Call<R, T>, bytes: &[u8], rows: &[R], told: T)
where
    R: Copy + Default + PartialEq + std::fmt::Debug,
    T: Copy + Default + PartialEq + std::fmt::Debug,
{
    let mut found = T::default();
    assert_eq!(call(function, bytes, &mut [], &mut found), NO_ROOM);
    assert_eq!(found, told);

    let mut array = vec![R::default(); rows.len() + 2];
    found = T::default();
    assert_eq!(call(function, bytes, &mut array, &mut found), OK);
    assert_eq!(found, told);
    assert_eq!(array[..rows.len()], *rows);
    assert_eq!(array[rows.len()..], [R::default(); 2]);

    let mut short = vec![R::default(); rows.len() - 1];
    assert_eq!(call(function, bytes, &mut short, &mut found), NO_ROOM);
    assert_eq!(short, vec![R::default(); rows.len() - 1]);

    found = T::default();
    assert_eq!(call(function, &bytes[..bytes.len() - 1], &mut array, &mut found), END_OF_INPUT);
    assert_eq!(found, T::default());
}

/// Calls a function of a table, which also refuses a box of another type, and no bytes.
fn hands_table<R, T>(function: Call<R, T>, bytes: &[u8], rows: &[R], told: T)
where
    R: Copy + Default + PartialEq + std::fmt::Debug,
    T: Copy + Default + PartialEq + std::fmt::Debug,
{
    hands(function, bytes, rows, told);
    let mut found = T::default();
    assert_eq!(call(function, b"\0\0\0\x08free", &mut [], &mut found), INVALID_DATA);
    assert_eq!(call(function, &[], &mut [], &mut found), END_OF_INPUT);
    assert_eq!(found, T::default());
}

/// Checks the functions that find boxes and samples, and those for the version and the texts of the library.
fn others(stream: &[u8]) {
    let (mut place, mut count, mut rows, mut text) = (Place::default(), 9, [Sample::default()], [0; 40]);
    let find = |path: &[u8], place: &mut Place| unsafe {
        mp4_find(stream.as_ptr(), stream.len(), path.as_ptr(), path.len(), place)
    };
    assert_eq!(find(b"stco[1]", &mut place), BOX_NOT_FOUND);
    assert_eq!(find(b"stc", &mut place), INVALID_DATA);
    assert_eq!(place, Place::default());
    assert_eq!(find(b"free", &mut place), OK);
    let free = u32::from_be_bytes(*b"free");
    assert_eq!(place, Place { position: 0, length: 17, header_length: 16, code: free, is_whole: 1 });
    let small = b"\0\0\0\x01free\0\0\0\0\0\0\0\x0F!!!!";
    assert_eq!(unsafe { mp4_find(small.as_ptr(), small.len(), b"free".as_ptr(), 4, &mut place) }, OK);
    assert_eq!(place, Place { position: 0, length: 15, header_length: 16, code: free, is_whole: 0 });
    let samples = unsafe { mp4_samples(stream.as_ptr(), stream.len(), 1, rows.as_mut_ptr(), 1, &mut count) };
    assert_eq!((samples, count, rows), (BOX_NOT_FOUND, 9, [Sample::default()]));
    let samples = unsafe { mp4_fragment_samples(stream.as_ptr(), stream.len(), 1, rows.as_mut_ptr(), 1, &mut count) };
    assert_eq!((samples, count, rows), (BOX_NOT_FOUND, 9, [Sample::default()]));
    assert_eq!(unsafe { mp4_status_text(NO_ROOM, text.as_mut_ptr(), text.len(), &mut count) }, OK);
    assert_eq!(&text[..count], b"the array has too few places");
    assert_eq!(unsafe { mp4_version() }, 1000);
}

fn main() {
    let stream = b"\0\0\0\x01free\0\0\0\0\0\0\0\x11!\0\0\0\x10stco\0\0\0\0\0\0\0\0";
    let normal = b"\0\0\0\x09free!\0\0\0\x10stco\0\0\0\0\0\0\0\0";
    assert_eq!(check(stream), OK);
    assert_eq!(check(&[]), OK);
    assert_eq!(check(&stream[..32]), END_OF_INPUT);
    assert_eq!(check(b"\0\0\0\x07free"), INVALID_DATA);
    assert_eq!(check(b"\0\0\0\x08dinf"), BOX_NOT_FOUND);

    let spans = [
        Span { position: 0, length: 17, header_length: 16, code: u32::from_be_bytes(*b"free") },
        Span { position: 17, length: 16, header_length: 8, code: u32::from_be_bytes(*b"stco") },
    ];
    hands(mp4_list, stream, &spans, 2);
    hands(mp4_normal, stream, normal, normal.len());
    let text = b"{\"hSpacing\":4,\"vSpacing\":3}";
    hands(mp4_fields, b"\0\0\0\x10pasp\0\0\0\x04\0\0\0\x03", text, text.len());
    let mut count = 9;
    assert_eq!(call(mp4_list, &[], &mut [], &mut count), OK);
    assert_eq!(count, 0);
    count = 9;
    assert_eq!(call(mp4_normal, &[], &mut [], &mut count), OK);
    assert_eq!(count, 0);
    assert_eq!(call(mp4_fields, &stream[..17], &mut [], &mut count), UNKNOWN_BOX);
    assert_eq!(count, 0);

    let one = Table { count: 1, flags: 0x020304, version: 5 };
    let stsz = b"\0\0\0\x18stsz\x05\x02\x03\x04\0\0\0\0\0\0\0\x01\x81\x82\x83\x84";
    let told = StszTable { count: 1, flags: 0x020304, sample_size: 0, sample_count: 1, version: 5 };
    hands_table(mp4_stsz, stsz, &[0x81828384], told);
    hands_table(mp4_stco, b"\0\0\0\x14stco\x05\x02\x03\x04\0\0\0\x01\x81\x82\x83\x84", &[0x81828384], one);
    let co64 = b"\0\0\0\x18co64\x05\x02\x03\x04\0\0\0\x01\x81\x82\x83\x84\x85\x86\x87\x88";
    hands_table(mp4_co64, co64, &[0x8182838485868788], one);
    hands_table(mp4_stss, b"\0\0\0\x14stss\x05\x02\x03\x04\0\0\0\x01\x81\x82\x83\x84", &[0x81828384], one);
    let stts = b"\0\0\0\x18stts\x05\x02\x03\x04\0\0\0\x01\x81\x82\x83\x84\x85\x86\x87\x88";
    hands_table(mp4_stts, stts, &[SttsRow { sample_count: 0x81828384, sample_delta: 0x85868788 }], one);
    let ctts = b"\0\0\0\x18ctts\x05\x02\x03\x04\0\0\0\x01\x81\x82\x83\x84\xff\xff\xff\xfd";
    hands_table(mp4_ctts, ctts, &[CttsRow { sample_count: 0x81828384, sample_offset: -3 }], one);
    let stsc = b"\0\0\0\x1cstsc\x05\x02\x03\x04\0\0\0\x01\x81\x82\x83\x84\x85\x86\x87\x88\x89\x8a\x8b\x8c";
    let run = StscRow {
        first_chunk: 0x81828384,
        samples_per_chunk: 0x85868788,
        sample_description_index: 0x898a8b8c,
        first_sample: 1,
    };
    hands_table(mp4_stsc, stsc, &[run], one);
    let elst = b"\0\0\0\x1celst\x05\x02\x03\x04\0\0\0\x01\x81\x82\x83\x84\xff\xff\xff\xff\x89\x8a\x8b\x8c";
    let edit = ElstRow {
        segment_duration: 0x81828384,
        media_time: 0xffffffff,
        media_rate: 0x898a,
        media_rate_fraction: 0x8b8c,
    };
    hands_table(mp4_elst, elst, &[edit], one);
    let trun = b"\0\0\0\x18trun\x05\0\x0a\0\0\0\0\x01\x81\x82\x83\x84\x85\x86\x87\x88";
    let told = TrunTable { count: 1, flags: 0xa00, sample_count: 1, version: 5, ..TrunTable::default() };
    let sample = TrunRow { size: 0x81828384, composition_offset: 0x85868788, ..TrunRow::default() };
    hands_table(mp4_trun, trun, &[sample], told);
    others(stream);
    println!("caller, in Rust: 18 functions");
}
