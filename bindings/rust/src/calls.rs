//! Calls of the library: each checks its version first, and turns its status into an error.

use crate::{raw, version, Error, FourCC};

/// Returns the number of a text of digits.
const fn number(text: &str) -> u32 {
    let (digits, mut at, mut found) = (text.as_bytes(), 0, 0);
    while at < digits.len() {
        found = found * 10 + (digits[at] - b'0') as u32;
        at += 1;
    }
    found
}

pub(crate) const MAJOR: u32 = number(env!("CARGO_PKG_VERSION_MAJOR"));
pub(crate) const MINOR: u32 = number(env!("CARGO_PKG_VERSION_MINOR"));

/// Returns whether the library of a version has the calls of a version of this crate. Before 1.0.0 a minor version may
/// change them, so the major and the minor version have to be equal.
fn is_for(version: u32, major: u32, minor: u32) -> bool {
    version / 1_000_000 == major && version / 1000 % 1000 == minor
}

/// Refuses a library of another version. All functions except `version` call this before they call the library.
pub(crate) fn library() -> Result<(), Error> {
    let found = version();
    if is_for(found, MAJOR, MINOR) {
        Ok(())
    } else {
        Err(Error::OtherVersion(found))
    }
}

/// Returns `value` if the status of a call that reads says that it succeeded.
pub(crate) fn result_of<T>(status: u32, value: T) -> Result<T, Error> {
    if status == raw::OK {
        Ok(value)
    } else {
        Err(Error::of_status(status))
    }
}

/// Returns the struct that a call fills.
pub(crate) fn read_by<S: Default>(call: impl FnOnce(&mut S) -> u32) -> Result<S, Error> {
    library()?;
    let mut found = S::default();
    result_of(call(&mut found), found)
}

/// Returns an empty vector with a capacity of `count` values.
pub(crate) fn roomy<R>(count: usize) -> Result<Vec<R>, Error> {
    let mut rows = Vec::new();
    rows.try_reserve_exact(count)?;
    Ok(rows)
}

/// Returns a vector of `count` default values.
pub(crate) fn defaults<R: Clone + Default>(count: usize) -> Result<Vec<R>, Error> {
    let mut rows = roomy(count)?;
    rows.resize(count, R::default());
    Ok(rows)
}

/// Returns a vector of what `each` returns for the values of `rows`.
pub(crate) fn converted<A, B>(rows: &[A], each: impl Fn(&A) -> Result<B, Error>) -> Result<Vec<B>, Error> {
    let mut found = roomy(rows.len())?;
    for row in rows {
        found.push(each(row)?);
    }
    Ok(found)
}

/// A summary that a function fills: the number of rows of each of its arrays, and possibly other fields.
pub(crate) trait Summary: Default {
    /// Returns the number of rows.
    fn count(&self) -> usize;
}

impl Summary for usize {
    fn count(&self) -> usize {
        *self
    }
}

macro_rules! summaries {
    ($($name:ident: $($count:ident).*;)*) => {
        $(impl Summary for raw::$name {
            fn count(&self) -> usize {
                self.$($count).*
            }
        })*
    };
}

summaries! {
    Table: count;
    StszTable: count;
    TrunTable: count;
    Ftyp: count;
    Hdlr: count;
    Data: count;
    Url: count;
    Dref: url.count;
}

/// Calls a function twice: first for the number of rows, and then for the rows.
pub(crate) fn filled<R: Clone + Default, S: Summary>(
    fill: raw::Fills<R, S>,
    bytes: &[u8],
) -> Result<(Vec<R>, S), Error> {
    // SAFETY: pointers of slices and vectors are aligned and never null, and have the bytes and values that are passed
    // as lengths. All of these have values. None overlap, since the memory to write is borrowed mutably.
    filled_by(|rows: &mut Vec<R>, found: &mut S| unsafe {
        fill(bytes.as_ptr(), bytes.len(), rows.as_mut_ptr(), rows.len(), found)
    })
}

/// Uses a call twice: first for the number of rows, and then for the rows.
pub(crate) fn filled_by<R: Clone + Default, S: Summary>(
    call: impl Fn(&mut Vec<R>, &mut S) -> u32,
) -> Result<(Vec<R>, S), Error> {
    called(|arrays: &mut Vec<R>, found: &mut S| call(arrays, found), |found| defaults(found.count()))
}

/// Uses a call twice: first with no arrays, for the numbers of their elements, and then with those of `room`. Returns
/// the status of the last call too.
pub(crate) fn answered<A: Default, S: Default>(
    call: impl Fn(&mut A, &mut S) -> u32,
    room: impl Fn(&S) -> Result<A, Error>,
) -> Result<(u32, A, S), Error> {
    library()?;
    let (mut arrays, mut found) = (A::default(), S::default());
    let mut status = call(&mut arrays, &mut found);
    if status == raw::NO_ROOM {
        arrays = room(&found)?;
        status = call(&mut arrays, &mut found);
    }
    Ok((status, arrays, found))
}

/// Uses a call twice, like `answered`. Its last status has to be that of a success.
pub(crate) fn called<A: Default, S: Default>(
    call: impl Fn(&mut A, &mut S) -> u32,
    room: impl Fn(&S) -> Result<A, Error>,
) -> Result<(A, S), Error> {
    let (status, arrays, found) = answered(call, room)?;
    result_of(status, (arrays, found))
}

/// Returns the bytes of the box `code` that a call writes to a vector. The first call returns their number.
pub(crate) fn written(code: FourCC, call: impl Fn(&mut Vec<u8>, &mut usize) -> u32) -> Result<Vec<u8>, Error> {
    let refused = Error::of_status(raw::INVALID_DATA);
    match filled_by(call) {
        Err(why) if why == refused => Err(Error::Unwritable(code)),
        found => Ok(found?.0),
    }
}

#[cfg(test)]
mod tests {
    use super::{is_for, number, MAJOR, MINOR};
    use crate::version;

    /// Checks that a library is for the crate if its major and minor version are those of the crate: here 0.1 and
    /// 12.34.
    #[test]
    fn versions() {
        for found in [1000, 1001, 1999] {
            assert!(is_for(found, 0, 1), "{found}");
        }
        for found in [0, 999, 2000, 10_000, 11_000, 1_000_000, 1_001_000, 100_001_000, u32::MAX] {
            assert!(!is_for(found, 0, 1), "{found}");
        }
        assert!(is_for(12_034_056, 12, 34));
        for found in [12_033_056, 12_035_056, 11_034_056, 13_034_056, 1_234_000, 12_340_000] {
            assert!(!is_for(found, 12, 34), "{found}");
        }
        assert_eq!([number("0"), number("7"), number("1203")], [0, 7, 1203]);
        assert!(is_for(version(), MAJOR, MINOR));
    }
}
