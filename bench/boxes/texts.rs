//! Boxes of codes and strings, and references to data.

use super::{head_fits, Measured};

#[derive(Debug, PartialEq)]
pub struct FtypBox {
    pub major_brand: [u8; 4],
    pub minor_version: u32,
    pub compatible_brands: Vec<[u8; 4]>,
}

#[derive(Debug, PartialEq)]
pub struct HdlrBox {
    pub version: u8,
    pub flags: u32,
    pub handler_type: [u8; 4],
    pub name: String,
}

#[derive(Clone, Copy, Debug, PartialEq)]
pub enum DataType {
    Binary = 0,
    Text = 1,
    Image = 13,
    TempoCpil = 21,
}

impl DataType {
    pub fn from_number(number: u32) -> Option<DataType> {
        match number {
            0 => Some(DataType::Binary),
            1 => Some(DataType::Text),
            13 => Some(DataType::Image),
            21 => Some(DataType::TempoCpil),
            _ => None,
        }
    }
}

#[derive(Debug, PartialEq)]
pub struct DataBox {
    pub data_bytes: Vec<u8>,
    pub data_type: DataType,
}

/// An event message, which no measured stream has.
#[allow(dead_code)]
#[derive(Debug, PartialEq)]
pub struct EmsgBox {
    pub version: u8,
    pub flags: u32,
    pub timescale: u32,
    pub presentation_time: Option<u64>,
    pub presentation_time_delta: Option<u32>,
    pub event_duration: u32,
    pub id: u32,
    pub scheme_id_uri: String,
    pub value: String,
    pub message_data: Vec<u8>,
}

#[derive(Debug, PartialEq)]
pub struct UrlBox {
    pub version: u8,
    pub flags: u32,
    pub location: String,
}

#[derive(Debug, PartialEq)]
pub struct DrefBox {
    pub version: u8,
    pub flags: u32,
    pub url: Option<UrlBox>,
}

#[derive(Debug, PartialEq)]
pub struct DinfBox {
    pub dref: DrefBox,
}

impl Measured for FtypBox {
    fn size(&self) -> u64 {
        16 + 4 * self.compatible_brands.len() as u64
    }

    fn is_writable(&self) -> bool {
        self.size() < 1 << 32
    }
}

impl Measured for HdlrBox {
    fn size(&self) -> u64 {
        33 + self.name.len() as u64
    }

    fn is_writable(&self) -> bool {
        head_fits(self.flags, self.size())
    }
}

impl Measured for DataBox {
    fn size(&self) -> u64 {
        16 + self.data_bytes.len() as u64
    }

    fn is_writable(&self) -> bool {
        self.size() < 1 << 32
    }
}

impl Measured for EmsgBox {}

impl Measured for UrlBox {
    /// Returns the number of bytes. An empty location has none.
    fn size(&self) -> u64 {
        if self.location.is_empty() {
            12
        } else {
            13 + self.location.len() as u64
        }
    }

    fn is_writable(&self) -> bool {
        head_fits(self.flags, self.size())
    }
}

impl Measured for DrefBox {
    fn size(&self) -> u64 {
        16 + self.url.as_ref().map_or(0, UrlBox::size)
    }

    fn is_writable(&self) -> bool {
        head_fits(self.flags, self.size()) && self.url.as_ref().is_none_or(UrlBox::is_writable)
    }
}

impl Measured for DinfBox {
    fn size(&self) -> u64 {
        8 + self.dref.size()
    }

    fn is_writable(&self) -> bool {
        self.size() < 1 << 32 && self.dref.is_writable()
    }
}
