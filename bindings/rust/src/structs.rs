//! Defines the structs of `extra`, which are read from JSON and written as JSON.

use crate::calls::library;
use crate::json::made;
use crate::members::{json_of, Member, Reader};
use crate::{fields, Error, Fault, ReadBox};

/// Returns the value of the box at the front of `bytes`.
pub(crate) fn read<B: ReadBox + Member>(bytes: &[u8]) -> Result<B, Error> {
    library()?;
    if bytes.get(4..8).map_or(false, |it| it != B::CODE.value) {
        return Err(Fault::InvalidData.into());
    }
    Reader::whole(B::CODE, &fields(bytes)?)
}

/// Returns the bytes of a box with this value.
pub(crate) fn written<B: ReadBox + Member>(value: &B) -> Result<Vec<u8>, Error> {
    made(B::CODE, &json_of(value)?)
}

/// Returns a number of bytes that a box has, unless it is the number of `bytes`.
pub(crate) fn other_count(count: Option<u8>, bytes: &Option<Vec<u8>>) -> Option<u8> {
    count.filter(|it| bytes.as_ref().map_or(true, |bytes| bytes.len() != usize::from(*it)))
}

/// A number of a field that may have a meaning.
pub(crate) trait Meant {
    fn number(&self) -> Option<u64>;
}

macro_rules! meant {
    ($($type:ty)*) => {
        $(impl Meant for $type {
            fn number(&self) -> Option<u64> {
                Some(u64::from(*self))
            }
        })*
    };
}

meant! { u8 u16 u32 }

impl<T: Meant> Meant for Option<T> {
    fn number(&self) -> Option<u64> {
        self.as_ref().and_then(T::number)
    }
}

/// Returns the meaning of a number by a table.
pub(crate) fn meaning(field: &impl Meant, table: &[(u64, &'static str)]) -> Option<&'static str> {
    let number = field.number()?;
    table.iter().find(|it| it.0 == number).map(|it| it.1)
}

/// Reads a field: as its type says, or as a list of numbers.
macro_rules! take_as {
    ($reader:ident) => {
        Some(Member::take($reader)?)
    };
    ($reader:ident numbers) => {
        Some(take_numbers($reader)?)
    };
}

/// Writes a field in the form that `take_as` reads.
macro_rules! show_as {
    ($writer:ident, $value:expr) => {
        Member::show($value, $writer)
    };
    ($writer:ident, $value:expr, numbers) => {
        show_numbers($value, $writer)
    };
}

/// Defines structs with the names of their fields in JSON. A struct with a code is that of a box. Members of the JSON
/// that a struct is `without` follow from others. A field may be the count `of` another one. It may have a method that
/// returns the meaning of its number.
macro_rules! structs {
    ($($(#[$words:meta])* $name:ident $($code:literal)? $(without $($derived:literal)+)? {
        $($(#[$field_words:meta])* $field:ident: $type:ty = $json:literal $(as $how:ident)? $(of $bytes:ident)?
            $(=> $method:ident $(unless $set:ident)? { $($value:literal $meaning:literal,)* })?,)*
    })*) => {
        $($(#[$words])*
        #[derive(Clone, Debug, Default, PartialEq)]
        pub struct $name {
            $($(#[$field_words])* pub $field: $type,)*
        }

        impl Member for $name {
            fn take(reader: &mut Reader<'_>) -> Result<$name, Error> {
                $(let mut $field: Option<$type> = None;)*
                reader.object(|reader, name| {
                    match name {
                        $($json => $field = take_as!(reader $($how)?),)*
                        $($($derived)|+ => return reader.pass(),)?
                        _ => return Ok(false),
                    }
                    Ok(true)
                })?;
                #[allow(unused_mut)]
                let mut found = $name {
                    $($field: $field.or_else(Member::absent).ok_or_else(|| reader.unknown())?,)*
                };
                $($(found.$field = other_count(found.$field, &found.$bytes);)?)*
                Ok(found)
            }

            fn show(&self, writer: &mut Writer) -> fmt::Result {
                writer.object(|writer| {
                    $(writer.member($json, &self.$field, |writer| {
                        show_as!(writer, &self.$field $(, $how)?)
                    })?;)*
                    Ok(())
                })
            }
        }

        $(impl ReadBox for $name {
            const CODE: FourCC = FourCC::new($code);

            fn read_box(bytes: &[u8]) -> Result<$name, Error> {
                read(bytes)
            }
        }

        impl WriteBox for $name {
            fn to_bytes(&self) -> Result<Vec<u8>, Error> {
                written(self)
            }
        })?

        structs!(methods $name $($($field $method $(unless $set)? { $($value $meaning,)* })?)*);)*
    };
    (methods $name:ident) => {};
    (methods $name:ident $($field:ident $method:ident $(unless $set:ident)? {
        $($value:literal $meaning:literal,)*
    })+) => {
        impl $name {
            $(
            #[doc = concat!(
                "Returns the meaning of `", stringify!($field), "`"
                $(, ", unless `", stringify!($set), "` is set")?, ":\n"
            )]
            $(#[doc = concat!("- ", $value, ": ", $meaning)])*
            pub fn $method(&self) -> Option<&'static str> {
                $(if self.$set.map_or(false, |it| it != 0) {
                    return None;
                })?
                meaning(&self.$field, &[$(($value, $meaning)),*])
            })+
        }
    };
}

/// Defines the enum of all boxes.
macro_rules! variants {
    ($($name:ident($type:ident),)*) => {
        /// A box of any type of this module.
        #[derive(Clone, Debug, PartialEq)]
        #[non_exhaustive]
        pub enum ExtraBox {
            $(
            #[doc = concat!("A [`", stringify!($type), "`].")]
            $name($type),)*
        }

        impl ExtraBox {
            /// Reads the box at the front of `bytes`, which begin with its header. `Fault::UnknownBox` for a box of
            /// another type. Only the code counts: an `alac` in an `stsd` is a sample entry, and not an `AlacBox`.
            pub fn read_box(bytes: &[u8]) -> Result<ExtraBox, Error> {
                let code = bytes.get(4..8).ok_or(Fault::EndOfInput)?;
                $(if code == $type::CODE.value {
                    return $type::read_box(bytes).map(ExtraBox::$name);
                })*
                Err(Fault::UnknownBox.into())
            }

            /// Returns the code of the box.
            pub fn code(&self) -> FourCC {
                match self {
                    $(ExtraBox::$name(_) => $type::CODE,)*
                }
            }

            /// Returns the bytes of the box, including its header, like `WriteBox::to_bytes`.
            pub fn to_bytes(&self) -> Result<Vec<u8>, Error> {
                match self {
                    $(ExtraBox::$name(it) => it.to_bytes(),)*
                }
            }

            /// Returns the fields of the box as JSON, like `WriteBox::to_json`.
            pub fn to_json(&self) -> Result<String, Error> {
                match self {
                    $(ExtraBox::$name(it) => it.to_json(),)*
                }
            }
        }

        $(impl From<$type> for ExtraBox {
            fn from(it: $type) -> ExtraBox {
                ExtraBox::$name(it)
            }
        })*
    };
}

pub(crate) use {show_as, structs, take_as, variants};
