//! The boxes in plain Rust: the 36 types of the codec, with the same fields, and an enum of all types.

mod entries;
mod flat;
mod fragments;
mod samples;
mod sound;
mod tables;
mod texts;

pub use entries::*;
pub use flat::*;
pub use fragments::*;
pub use samples::*;
pub use sound::*;
pub use tables::*;
pub use texts::*;

#[derive(Debug)]
pub enum Error {
    Io,
    InvalidData,
    /// A box of a type that no measured stream has. Such a box is neither read nor written.
    NotMeasured,
}

impl From<std::io::Error> for Error {
    fn from(_: std::io::Error) -> Error {
        Error::Io
    }
}

pub type Result<T> = std::result::Result<T, Error>;

pub fn test(holds: bool) -> Result<()> {
    if holds {
        Ok(())
    } else {
        Err(Error::InvalidData)
    }
}

/// The size of a box and the check before it is written, for both writers. By default a box can't be written, which
/// holds for types that no measured stream has.
pub trait Measured {
    /// Returns the number of bytes, with the header.
    fn size(&self) -> u64 {
        0
    }

    /// Returns whether each number fits its field and the box meets the conditions of its layout.
    fn is_writable(&self) -> bool {
        false
    }
}

/// Returns whether the flags of a box and its size fit their fields.
fn head_fits(flags: u32, size: u64) -> bool {
    flags < 1 << 24 && size < 1 << 32
}

macro_rules! boxes {
    ($($name:ident($held:ty) $code:ident $bytes:literal;)*) => {
        $(pub const $code: u32 = u32::from_be_bytes(*$bytes);)*

        /// A box of any type. Types of no measured stream are here so that a member of a list has its full size.
        #[allow(dead_code)]
        #[derive(Debug, PartialEq)]
        pub enum AnyBox {
            $($name($held),)*
        }

        impl AnyBox {
            pub fn code(&self) -> u32 {
                match self {
                    $(AnyBox::$name(_) => $code,)*
                }
            }
        }

        impl Measured for AnyBox {
            fn size(&self) -> u64 {
                match self {
                    $(AnyBox::$name(b) => b.size(),)*
                }
            }

            fn is_writable(&self) -> bool {
                match self {
                    $(AnyBox::$name(b) => b.is_writable(),)*
                }
            }
        }
    };
}

boxes! {
    Ftyp(FtypBox) FTYP b"ftyp";
    Mvhd(MvhdBox) MVHD b"mvhd";
    Tkhd(TkhdBox) TKHD b"tkhd";
    Mdhd(MdhdBox) MDHD b"mdhd";
    Mehd(MehdBox) MEHD b"mehd";
    Mfhd(MfhdBox) MFHD b"mfhd";
    Smhd(SmhdBox) SMHD b"smhd";
    Vmhd(VmhdBox) VMHD b"vmhd";
    Trex(TrexBox) TREX b"trex";
    Tfdt(TfdtBox) TFDT b"tfdt";
    Stco(StcoBox) STCO b"stco";
    Co64(Co64Box) CO64 b"co64";
    Stts(SttsBox) STTS b"stts";
    Ctts(CttsBox) CTTS b"ctts";
    Stss(StssBox) STSS b"stss";
    Stsz(StszBox) STSZ b"stsz";
    Stsc(StscBox) STSC b"stsc";
    Elst(ElstBox) ELST b"elst";
    Tfhd(TfhdBox) TFHD b"tfhd";
    Trun(TrunBox) TRUN b"trun";
    Hdlr(HdlrBox) HDLR b"hdlr";
    Data(DataBox) DATA b"data";
    Emsg(EmsgBox) EMSG b"emsg";
    Url(UrlBox) URL b"url ";
    Dref(DrefBox) DREF b"dref";
    Dinf(DinfBox) DINF b"dinf";
    AvcC(AvcCBox) AVCC b"avcC";
    Avc1(Avc1Box) AVC1 b"avc1";
    HvcC(HvcCBox) HVCC b"hvcC";
    Hev1(Hev1Box) HEV1 b"hev1";
    Vpcc(VpccBox) VPCC b"vpcC";
    Vp09(Vp09Box) VP09 b"vp09";
    Tx3g(Tx3gBox) TX3G b"tx3g";
    Esds(EsdsBox) ESDS b"esds";
    Mp4a(Mp4aBox) MP4A b"mp4a";
    Stsd(StsdBox) STSD b"stsd";
}

/// A box of any type. A box of another type has its code and content. Both variants are stored inline, as in the codec.
#[allow(clippy::large_enum_variant)]
#[derive(Debug, PartialEq)]
pub enum KeptBox {
    Any(AnyBox),
    Other(OtherBox),
}

#[derive(Debug, PartialEq)]
pub struct OtherBox {
    pub code: u32,
    pub content: Vec<u8>,
}

impl Measured for OtherBox {
    fn size(&self) -> u64 {
        8 + self.content.len() as u64
    }

    fn is_writable(&self) -> bool {
        self.size() < 1 << 32
    }
}

/// A member of the list into which a stream is read.
pub trait Member: Sized {
    fn from_any(value: AnyBox) -> Self;

    /// Returns a box of another type, or `None` if lists of this type skip it.
    fn from_other(code: u32, content: &[u8]) -> Option<Self>;

    /// Returns the box if it has one of the 36 types, and the other box as the error otherwise.
    fn held(&self) -> std::result::Result<&AnyBox, &OtherBox>;
}

impl Member for AnyBox {
    #[inline(always)]
    fn from_any(value: AnyBox) -> AnyBox {
        value
    }

    fn from_other(_: u32, _: &[u8]) -> Option<AnyBox> {
        None
    }

    fn held(&self) -> std::result::Result<&AnyBox, &OtherBox> {
        Ok(self)
    }
}

impl Member for KeptBox {
    #[inline(always)]
    fn from_any(value: AnyBox) -> KeptBox {
        KeptBox::Any(value)
    }

    fn from_other(code: u32, content: &[u8]) -> Option<KeptBox> {
        let content = content.to_vec();
        Some(KeptBox::Other(OtherBox { code, content }))
    }

    fn held(&self) -> std::result::Result<&AnyBox, &OtherBox> {
        match self {
            KeptBox::Any(value) => Ok(value),
            KeptBox::Other(other) => Err(other),
        }
    }
}

/// Returns the sum of the codes and the sizes of `boxes`, modulo 2^64.
pub fn checksum<M: Member>(boxes: &[M]) -> u64 {
    boxes.iter().fold(0, |sum: u64, member| {
        let (code, size) = match member.held() {
            Ok(value) => (value.code(), value.size()),
            Err(other) => (other.code, other.size()),
        };
        sum.wrapping_add(u64::from(code)).wrapping_add(size)
    })
}
