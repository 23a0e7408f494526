//! The codec's functions, from the library of `crates/mp4_bench`.

#[link(name = "mp4_bench", kind = "static")]
extern "C" {
    fn mp4_read(bytes: *const u8, len: usize, times: u64) -> u64;
    fn mp4_read_kept(bytes: *const u8, len: usize, times: u64) -> u64;
    fn mp4_read_each(bytes: *const u8, len: usize, times: u64) -> u64;
    fn mp4_read_each_kept(bytes: *const u8, len: usize, times: u64) -> u64;
    fn mp4_read_fragments(bytes: *const u8, len: usize, times: u64) -> u64;
    fn mp4_write(bytes: *const u8, len: usize, times: u64) -> u64;
    fn mp4_write_kept(bytes: *const u8, len: usize, times: u64) -> u64;
    fn mp4_rewrite(bytes: *const u8, len: usize, out: *mut u8, room: usize) -> u64;
    fn mp4_rewrite_kept(bytes: *const u8, len: usize, out: *mut u8, room: usize) -> u64;
    fn mp4_samples_in_order(bytes: *const u8, len: usize, times: u64) -> u64;
    fn mp4_samples_by_number(bytes: *const u8, len: usize, times: u64) -> u64;
    fn mp4_read_mfhd(bytes: *const u8, len: usize, times: u64) -> u64;
    fn mp4_read_declared(bytes: *const u8, len: usize, times: u64) -> u64;
    fn mp4_write_mfhd(bytes: *const u8, len: usize, times: u64) -> u64;
    fn mp4_write_declared(bytes: *const u8, len: usize, times: u64) -> u64;
    fn mp4_member_size() -> u64;
    fn mp4_kept_member_size() -> u64;
    fn mp4_fragment_member_size() -> u64;
}

/// The codec with lists that either skip or keep boxes of other types.
#[derive(Clone, Copy)]
pub struct Codec {
    pub is_kept: bool,
}

impl Codec {
    /// Reads a stream `times` times. Returns the sum of the checksums of its boxes.
    pub fn read(self, bytes: &[u8], times: u64) -> u64 {
        let (start, len) = (bytes.as_ptr(), bytes.len());
        // SAFETY: the pointer and the length are those of a slice.
        unsafe {
            if self.is_kept {
                mp4_read_kept(start, len, times)
            } else {
                mp4_read(start, len, times)
            }
        }
    }

    /// Reads a stream `times` times, one box at a time into the same vector. Returns the sum of the checksums of its
    /// boxes.
    pub fn read_each(self, bytes: &[u8], times: u64) -> u64 {
        let (start, len) = (bytes.as_ptr(), bytes.len());
        // SAFETY: the pointer and the length are those of a slice.
        unsafe {
            if self.is_kept {
                mp4_read_each_kept(start, len, times)
            } else {
                mp4_read_each(start, len, times)
            }
        }
    }

    /// Reads a stream once, and writes its boxes `times` times. Returns the sum of the lengths and of the last bytes.
    pub fn write(self, bytes: &[u8], times: u64) -> u64 {
        let (start, len) = (bytes.as_ptr(), bytes.len());
        // SAFETY: the pointer and the length are those of a slice.
        unsafe {
            if self.is_kept {
                mp4_write_kept(start, len, times)
            } else {
                mp4_write(start, len, times)
            }
        }
    }

    /// Returns the bytes to which the boxes of a stream are written after reading.
    pub fn rewrite(self, bytes: &[u8]) -> Vec<u8> {
        let (start, len) = (bytes.as_ptr(), bytes.len());
        let mut out = vec![0; len];
        // SAFETY: the pointers and the lengths are those of a slice and of a vector, which do not overlap.
        let written = unsafe {
            if self.is_kept {
                mp4_rewrite_kept(start, len, out.as_mut_ptr(), len)
            } else {
                mp4_rewrite(start, len, out.as_mut_ptr(), len)
            }
        };
        assert_ne!(written, u64::MAX, "the codec refuses the stream");
        out.truncate(written as usize);
        out
    }
}

/// Reads a stream of boxes of fragments `times` times, into lists of only these boxes. Returns the sum of the checksums
/// of its boxes.
pub fn read_fragments(bytes: &[u8], times: u64) -> u64 {
    // SAFETY: the pointer and the length are those of a slice.
    unsafe { mp4_read_fragments(bytes.as_ptr(), bytes.len(), times) }
}

/// Reads the tables of a track once, and visits its samples in order `times` times. Returns the sum of all their
/// fields.
pub fn samples_in_order(bytes: &[u8], times: u64) -> u64 {
    // SAFETY: the pointer and the length are those of a slice.
    unsafe { mp4_samples_in_order(bytes.as_ptr(), bytes.len(), times) }
}

/// Reads the tables of a track once, makes an index once, and looks up one of every ten samples, `times` times. Returns
/// the sum of all their fields.
pub fn samples_by_number(bytes: &[u8], times: u64) -> u64 {
    // SAFETY: the pointer and the length are those of a slice.
    unsafe { mp4_samples_by_number(bytes.as_ptr(), bytes.len(), times) }
}

/// The `mfhd` of the codec, or the same box as a declared one.
#[derive(Clone, Copy)]
pub enum Mfhd {
    ByHand,
    Declared,
}

/// A function that processes a slice a number of times.
type Times = unsafe extern "C" fn(*const u8, usize, u64) -> u64;

fn over(call: Times, bytes: &[u8], times: u64) -> u64 {
    // SAFETY: the pointer and the length are those of a slice.
    unsafe { call(bytes.as_ptr(), bytes.len(), times) }
}

impl Mfhd {
    /// Reads a stream of `mfhd` boxes `times` times, each time into a new list, and writes the last box of the list.
    /// Returns the sum of the numbers of boxes and of the last bytes.
    pub fn read(self, bytes: &[u8], times: u64) -> u64 {
        let ways: [Times; 2] = [mp4_read_mfhd, mp4_read_declared];
        over(ways[self as usize], bytes, times)
    }

    /// Reads a stream of `mfhd` boxes once, and writes them `times` times. Returns the sum of the lengths and of the
    /// last bytes.
    pub fn write(self, bytes: &[u8], times: u64) -> u64 {
        let ways: [Times; 2] = [mp4_write_mfhd, mp4_write_declared];
        over(ways[self as usize], bytes, times)
    }
}

/// Returns the number of bytes that a member of a list takes in memory.
pub fn member_size() -> u64 {
    // SAFETY: the function takes nothing.
    unsafe { mp4_member_size() }
}

/// Returns the number of bytes that a member of a list takes in memory if the list keeps other boxes.
pub fn kept_member_size() -> u64 {
    // SAFETY: the function takes nothing.
    unsafe { mp4_kept_member_size() }
}

/// Returns the number of bytes that a member of a list takes in memory if the list has only boxes of fragments.
pub fn fragment_member_size() -> u64 {
    // SAFETY: the function takes nothing.
    unsafe { mp4_fragment_member_size() }
}
