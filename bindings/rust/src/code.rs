//! Codes of four characters.

use std::fmt::{self, Write};
use std::str::FromStr;

use crate::{Error, Fault};

/// A code of four characters: the type of a box, a brand or a handler.
///
/// A character is one byte. Texts show the byte `0xA9` as `©`, as in the metadata of QuickTime.
///
/// ```
/// use mp4_box_codec::FourCC;
///
/// let code = FourCC::new(b"moov");
/// assert_eq!(code, "moov");
/// assert_eq!(code.to_string(), "moov");
/// assert_eq!("moov".parse::<FourCC>(), Ok(code));
/// assert_eq!(FourCC::new(b"\xA9nam").to_string(), "©nam");
/// ```
#[derive(Clone, Copy, Default, PartialEq, Eq, PartialOrd, Ord, Hash)]
pub struct FourCC {
    /// The four bytes.
    pub value: [u8; 4],
}

impl FourCC {
    /// Returns the code with the bytes `value`.
    pub const fn new(value: &[u8; 4]) -> FourCC {
        FourCC { value: *value }
    }

    /// Returns the code of a number of the library, or `None` for the number 0.
    pub(crate) fn known(number: u32) -> Option<FourCC> {
        (number != 0).then(|| FourCC::from(number))
    }
}

impl From<[u8; 4]> for FourCC {
    fn from(value: [u8; 4]) -> FourCC {
        FourCC { value }
    }
}

impl From<&[u8; 4]> for FourCC {
    fn from(value: &[u8; 4]) -> FourCC {
        FourCC::new(value)
    }
}

/// Takes the first character from the highest byte.
impl From<u32> for FourCC {
    fn from(number: u32) -> FourCC {
        FourCC { value: number.to_be_bytes() }
    }
}

/// Puts the first character into the highest byte.
impl From<FourCC> for u32 {
    fn from(code: FourCC) -> u32 {
        u32::from_be_bytes(code.value)
    }
}

/// Reads four characters, each of them up to U+00FF. Another text is `Fault::InvalidData`.
impl FromStr for FourCC {
    type Err = Error;

    fn from_str(text: &str) -> Result<FourCC, Error> {
        let (mut value, mut letters) = ([0; 4], text.chars());
        for byte in &mut value {
            *byte = letters.next().and_then(|it| u8::try_from(u32::from(it)).ok()).ok_or(Fault::InvalidData)?;
        }
        match letters.next() {
            None => Ok(FourCC { value }),
            Some(_) => Err(Fault::InvalidData.into()),
        }
    }
}

impl PartialEq<str> for FourCC {
    fn eq(&self, other: &str) -> bool {
        other.chars().eq(self.value.iter().map(|it| char::from(*it)))
    }
}

impl PartialEq<&str> for FourCC {
    fn eq(&self, other: &&str) -> bool {
        *self == **other
    }
}

/// Shows the four characters. Control characters are shown as `\xNN`.
impl fmt::Display for FourCC {
    fn fmt(&self, f: &mut fmt::Formatter<'_>) -> fmt::Result {
        for &byte in &self.value {
            match char::from(byte) {
                it if it.is_control() => write!(f, "\\x{byte:02x}")?,
                it => f.write_char(it)?,
            }
        }
        Ok(())
    }
}

impl fmt::Debug for FourCC {
    fn fmt(&self, f: &mut fmt::Formatter<'_>) -> fmt::Result {
        write!(f, "'{self}'")
    }
}
