//! Boxes that are made from the JSON of their fields.

use std::fmt;

use crate::calls::{called, defaults, filled_by};
use crate::info::text_at;
use crate::{raw, Error, Fault, FourCC};

/// The fault of the JSON of a box. It is shown with the path: `references[3].SAP_type does not fit the field`.
#[derive(Clone, Debug, PartialEq, Eq, Hash)]
#[non_exhaustive]
pub struct JsonFault {
    /// The path of the member, such as `references[3].SAP_type`, or an empty text for the whole JSON.
    pub path: String,
    /// The number of the reason, of those of `MP4_JSON_NOT_JSON` to `MP4_JSON_NOT_KEPT` in the header
    /// `mp4_box_codec.h`. It never changes.
    pub reason: u32,
    /// The words for people. They may change.
    pub text: String,
}

impl fmt::Display for JsonFault {
    fn fmt(&self, f: &mut fmt::Formatter<'_>) -> fmt::Result {
        let path = if self.path.is_empty() { "the text" } else { self.path.as_str() };
        write!(f, "{path} {}", self.text)
    }
}

/// Returns the bytes of the box with the code `code` whose fields are those of the JSON object `json`, under the names
/// of `fields` and in any order. Counts of lists and meanings of numbers may be left out. `Fault::InvalidData` if
/// `json` is not that of such a box, for which `check_json` gives the reason, and `Fault::UnknownBox` for a code that
/// `fields` doesn't read.
///
/// ```
/// use mp4_box_codec::{box_from_json, fields, Error};
///
/// let frma = box_from_json(b"frma".into(), r#"{"data_format": "avc1"}"#)?;
/// assert_eq!(frma, b"\0\0\0\x0Cfrmaavc1");
/// assert_eq!(fields(&frma)?, r#"{"data_format":"avc1"}"#);
/// # Ok::<(), Error>(())
/// ```
pub fn box_from_json(code: FourCC, json: &str) -> Result<Vec<u8>, Error> {
    // SAFETY: as in `filled`.
    let found = filled_by(|bytes: &mut Vec<u8>, length: &mut usize| unsafe {
        raw::mp4_box_from_json(code.into(), json.as_ptr(), json.len(), bytes.as_mut_ptr(), bytes.len(), length)
    });
    Ok(found?.0)
}

/// Returns the bytes of a box, like `box_from_json`. A refusal has the path of the member.
pub(crate) fn made(code: FourCC, json: &str) -> Result<Vec<u8>, Error> {
    match box_from_json(code, json) {
        Err(Error::Fault(Fault::InvalidData)) => Err(match check_json(code, json)? {
            Some(fault) => Error::Json { code, fault },
            None => Error::Unwritable(code), // it would have 2^32 bytes or more
        }),
        found => found,
    }
}

/// Returns why `box_from_json` refuses `json` as the JSON of a box with the code `code`, or `None` if it doesn't.
///
/// ```
/// use mp4_box_codec::{check_json, Error};
///
/// let fault = check_json(b"pasp".into(), r#"{"hSpacing": 4294967296, "vSpacing": 3}"#)?.unwrap();
/// assert_eq!((fault.path.as_str(), fault.reason), ("hSpacing", 9));
/// assert_eq!(fault.to_string(), "hSpacing does not fit the field");
/// # Ok::<(), Error>(())
/// ```
pub fn check_json(code: FourCC, json: &str) -> Result<Option<JsonFault>, Error> {
    // SAFETY: as in `filled`.
    let (texts, found) = called(
        |texts: &mut Vec<u8>, found: &mut raw::JsonFault| unsafe {
            let (places, to) = (texts.len(), texts.as_mut_ptr());
            raw::mp4_check_json(code.into(), json.as_ptr(), json.len(), to, places, found)
        },
        |found| defaults(found.text_bytes),
    )?;
    if found.reason == 0 {
        return Ok(None);
    }
    let (path, text) = (text_at(&texts, found.path)?, text_at(&texts, found.text)?);
    Ok(Some(JsonFault { path, reason: found.reason, text }))
}
