//! Boxes of strings and references.

use crate::calls::{called, converted, defaults, filled, written};
use crate::{raw, DataType, Error, FourCC, ReadBox, WriteBox};

/// Returns the text of bytes that the library ensures are UTF-8.
fn text(bytes: Vec<u8>) -> String {
    String::from_utf8(bytes).unwrap_or_default()
}

/// The type of a file (4.3).
#[derive(Clone, Debug, Default, PartialEq, Eq, Hash)]
pub struct FtypBox {
    /// The brand that describes the file best.
    pub major_brand: FourCC,
    /// The version of the major brand.
    pub minor_version: u32,
    /// All brands with whose rules the file complies.
    pub compatible_brands: Vec<FourCC>,
}

impl ReadBox for FtypBox {
    const CODE: FourCC = FourCC::new(b"ftyp");

    fn read_box(bytes: &[u8]) -> Result<FtypBox, Error> {
        let (brands, it) = filled(raw::mp4_ftyp, bytes)?;
        let compatible_brands = converted(&brands, |it: &u32| Ok(FourCC::from(*it)))?;
        Ok(FtypBox { major_brand: it.major_brand.into(), minor_version: it.minor_version, compatible_brands })
    }
}

impl WriteBox for FtypBox {
    fn to_bytes(&self) -> Result<Vec<u8>, Error> {
        let brands = converted(&self.compatible_brands, |it| Ok(u32::from(*it)))?;
        let (major_brand, minor_version) = (self.major_brand.into(), self.minor_version);
        let fields = raw::Ftyp { count: 0, major_brand, minor_version };
        // SAFETY: as in `filled`.
        written(FtypBox::CODE, |out, length| unsafe {
            raw::mp4_write_ftyp(&fields, brands.as_ptr(), brands.len(), out.as_mut_ptr(), out.len(), length)
        })
    }
}

/// The kind of media of a track (8.4.3).
#[derive(Clone, Debug, Default, PartialEq, Eq, Hash)]
pub struct HdlrBox {
    /// The version of the box.
    pub version: u8,
    /// The 24 bits of the flags.
    pub flags: u32,
    /// The kind: `vide`, `soun` or another code. `TrackType::try_from` takes it.
    pub handler_type: FourCC,
    /// A name for people to read.
    pub name: String,
}

impl ReadBox for HdlrBox {
    const CODE: FourCC = FourCC::new(b"hdlr");

    fn read_box(bytes: &[u8]) -> Result<HdlrBox, Error> {
        let (name, it) = filled(raw::mp4_hdlr, bytes)?;
        let handler_type = it.handler_type.into();
        Ok(HdlrBox { version: it.version, flags: it.flags, handler_type, name: text(name) })
    }
}

impl WriteBox for HdlrBox {
    fn to_bytes(&self) -> Result<Vec<u8>, Error> {
        let (name, handler_type) = (&self.name, self.handler_type.into());
        let fields = raw::Hdlr { count: 0, flags: self.flags, handler_type, version: self.version };
        // SAFETY: as in `filled`.
        written(HdlrBox::CODE, |out, length| unsafe {
            raw::mp4_write_hdlr(&fields, name.as_ptr(), name.len(), out.as_mut_ptr(), out.len(), length)
        })
    }
}

/// The value of a metadata item (QuickTime's metadata).
#[derive(Clone, Debug, Default, PartialEq, Eq, Hash)]
pub struct DataBox {
    /// The bytes of the value.
    pub data: Vec<u8>,
    /// The type of the value.
    pub data_type: DataType,
}

impl ReadBox for DataBox {
    const CODE: FourCC = FourCC::new(b"data");

    fn read_box(bytes: &[u8]) -> Result<DataBox, Error> {
        let (data, it) = filled(raw::mp4_data, bytes)?;
        Ok(DataBox { data, data_type: DataType::try_from(it.data_type)? })
    }
}

/// The location of media data (8.7.2).
#[derive(Clone, Debug, Default, PartialEq, Eq, Hash)]
pub struct UrlBox {
    /// The version of the box.
    pub version: u8,
    /// The 24 bits of the flags. 1: the data is in the same file.
    pub flags: u32,
    /// The location; empty if there is none.
    pub location: String,
}

impl UrlBox {
    fn of(location: Vec<u8>, it: &raw::Url) -> UrlBox {
        UrlBox { version: it.version, flags: it.flags, location: text(location) }
    }
}

impl ReadBox for UrlBox {
    const CODE: FourCC = FourCC::new(b"url ");

    fn read_box(bytes: &[u8]) -> Result<UrlBox, Error> {
        let (location, it) = filled(raw::mp4_url, bytes)?;
        Ok(UrlBox::of(location, &it))
    }
}

/// The data references of a track (8.7.2), of which the codec keeps the last `url `.
#[derive(Clone, Debug, Default, PartialEq, Eq, Hash)]
pub struct DrefBox {
    /// The version of the box.
    pub version: u8,
    /// The 24 bits of the flags.
    pub flags: u32,
    /// The last reference.
    pub url: Option<UrlBox>,
}

impl DrefBox {
    fn of(location: Vec<u8>, it: &raw::Dref) -> DrefBox {
        let url = (it.has_url == 1).then(|| UrlBox::of(location, &it.url));
        DrefBox { version: it.version, flags: it.flags, url }
    }
}

impl ReadBox for DrefBox {
    const CODE: FourCC = FourCC::new(b"dref");

    fn read_box(bytes: &[u8]) -> Result<DrefBox, Error> {
        let (location, it) = filled(raw::mp4_dref, bytes)?;
        Ok(DrefBox::of(location, &it))
    }
}

impl WriteBox for DrefBox {
    fn to_bytes(&self) -> Result<Vec<u8>, Error> {
        let none = UrlBox::default();
        let url = self.url.as_ref().unwrap_or(&none);
        let location = &url.location;
        let fields = raw::Dref {
            url: raw::Url { count: 0, flags: url.flags, version: url.version },
            flags: self.flags,
            version: self.version,
            has_url: u8::from(self.url.is_some()),
        };
        // SAFETY: as in `filled`.
        written(DrefBox::CODE, |out, length| unsafe {
            raw::mp4_write_dref(&fields, location.as_ptr(), location.len(), out.as_mut_ptr(), out.len(), length)
        })
    }
}

/// The box around the data references of a track (8.7.1).
#[derive(Clone, Debug, Default, PartialEq, Eq, Hash)]
pub struct DinfBox {
    /// The data references.
    pub dref: DrefBox,
}

impl ReadBox for DinfBox {
    const CODE: FourCC = FourCC::new(b"dinf");

    fn read_box(bytes: &[u8]) -> Result<DinfBox, Error> {
        let (location, it) = filled(raw::mp4_dinf, bytes)?;
        Ok(DinfBox { dref: DrefBox::of(location, &it) })
    }
}

/// An event message (ISO/IEC 23009-1, 5.10.3.3).
#[derive(Clone, Debug, Default, PartialEq, Eq, Hash)]
pub struct EmsgBox {
    /// The version of the box: 0 or 1.
    pub version: u8,
    /// The 24 bits of the flags.
    pub flags: u32,
    /// Units per second.
    pub timescale: u32,
    /// The time from the start of the presentation, in version 1 only.
    pub presentation_time: Option<u64>,
    /// The time from the start of the segment, in version 0 only.
    pub presentation_time_delta: Option<u32>,
    /// The duration, in the timescale.
    pub event_duration: u32,
    /// The number of the message.
    pub id: u32,
    /// The scheme of the message.
    pub scheme_id_uri: String,
    /// The value that belongs to the scheme.
    pub value: String,
    /// The message.
    pub message_data: Vec<u8>,
}

impl ReadBox for EmsgBox {
    const CODE: FourCC = FourCC::new(b"emsg");

    fn read_box(bytes: &[u8]) -> Result<EmsgBox, Error> {
        type Arrays = (Vec<u8>, Vec<u8>, Vec<u8>);
        // SAFETY: as in `filled`.
        let call = |(scheme, value, message): &mut Arrays, it: &mut raw::Emsg| unsafe {
            let (first, second, third) = (scheme.as_mut_ptr(), value.as_mut_ptr(), message.as_mut_ptr());
            let (bytes, length) = (bytes.as_ptr(), bytes.len());
            raw::mp4_emsg(bytes, length, first, scheme.len(), second, value.len(), third, message.len(), it)
        };
        let room = |it: &raw::Emsg| -> Result<Arrays, Error> {
            let (scheme, value) = (defaults(it.scheme_id_uri_count)?, defaults(it.value_count)?);
            Ok((scheme, value, defaults(it.message_data_count)?))
        };
        let ((scheme, value, message_data), it) = called(call, room)?;
        Ok(EmsgBox {
            version: it.version,
            flags: it.flags,
            timescale: it.timescale,
            presentation_time: (it.version == 1).then_some(it.presentation_time),
            presentation_time_delta: (it.version == 0).then_some(it.presentation_time_delta),
            event_duration: it.event_duration,
            id: it.id,
            scheme_id_uri: text(scheme),
            value: text(value),
            message_data,
        })
    }
}

/// Writes the time of the version. `Error::Unwritable` also if the time of the version is absent, or the other present.
impl WriteBox for EmsgBox {
    fn to_bytes(&self) -> Result<Vec<u8>, Error> {
        let (presentation_time, presentation_time_delta) =
            match (self.version, self.presentation_time, self.presentation_time_delta) {
                (0, None, Some(delta)) => (0, delta),
                (1, Some(time), None) => (time, 0),
                _ => return Err(Error::Unwritable(EmsgBox::CODE)),
            };
        let fields = raw::Emsg {
            presentation_time,
            presentation_time_delta,
            timescale: self.timescale,
            event_duration: self.event_duration,
            id: self.id,
            flags: self.flags,
            version: self.version,
            ..raw::Emsg::default()
        };
        let (scheme, value, message) = (&self.scheme_id_uri, &self.value, &self.message_data);
        // SAFETY: as in `filled`.
        written(EmsgBox::CODE, |out, length| unsafe {
            let (first, second, third) = (scheme.as_ptr(), value.as_ptr(), message.as_ptr());
            let (bytes, places) = (out.as_mut_ptr(), out.len());
            let (scheme, value, message) = (scheme.len(), value.len(), message.len());
            raw::mp4_write_emsg(&fields, first, scheme, second, value, third, message, bytes, places, length)
        })
    }
}
