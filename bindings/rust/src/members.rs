//! Reads and writes the JSON of boxes, member by member. The text that is read is always one that the library wrote.

use std::fmt::{self, Write};
use std::str::{self, FromStr};

use crate::{Error, FixedPointI8, FourCC, RgbaColor};

/// The letters of a country or a language, or a number that has none.
#[derive(Clone, Debug, PartialEq, Eq, Hash)]
pub enum Letters {
    /// The two letters of a country, or the three of a language.
    Text(String),
    /// A number.
    Number(u16),
}

impl Default for Letters {
    fn default() -> Letters {
        Letters::Number(0)
    }
}

// ---- Reading

/// Reads JSON in the form in which the library writes it, without spaces.
pub(crate) struct Reader<'a> {
    code: FourCC,
    rest: &'a [u8],
}

impl<'a> Reader<'a> {
    /// Returns the value that a text has, of a box with this code.
    pub(crate) fn whole<T: Member>(code: FourCC, text: &'a str) -> Result<T, Error> {
        let mut reader = Reader { code, rest: text.as_bytes() };
        let found = T::take(&mut reader)?;
        if reader.rest.is_empty() {
            Ok(found)
        } else {
            Err(reader.unknown())
        }
    }

    /// Returns the error of a text that the crate doesn't know.
    pub(crate) fn unknown(&self) -> Error {
        Error::UnknownFields(self.code)
    }

    fn next(&mut self) -> Result<u8, Error> {
        let (first, rest) = self.rest.split_first().ok_or_else(|| self.unknown())?;
        self.rest = rest;
        Ok(*first)
    }

    /// Returns the bytes before the first one that `is_end` holds for, and continues at that one.
    fn before(&mut self, is_end: impl Fn(u8) -> bool) -> &'a [u8] {
        let length = self.rest.iter().position(|it| is_end(*it)).unwrap_or(self.rest.len());
        let (found, rest) = self.rest.split_at(length);
        self.rest = rest;
        found
    }

    fn expect(&mut self, byte: u8) -> Result<(), Error> {
        if self.next()? == byte {
            Ok(())
        } else {
            Err(self.unknown())
        }
    }

    /// Reads a list or an object from `begin` to `end`. `each` reads what is between commas.
    fn between(
        &mut self,
        begin: u8,
        end: u8,
        mut each: impl FnMut(&mut Self) -> Result<(), Error>,
    ) -> Result<(), Error> {
        self.expect(begin)?;
        if self.rest.first() == Some(&end) {
            return self.expect(end);
        }
        loop {
            each(self)?;
            match self.next()? {
                b',' => {}
                it if it == end => return Ok(()),
                _ => return Err(self.unknown()),
            }
        }
    }

    /// Reads an object. `each` reads the value of the member with a name, and returns whether the name is known.
    pub(crate) fn object(&mut self, mut each: impl FnMut(&mut Self, &str) -> Result<bool, Error>) -> Result<(), Error> {
        self.between(b'{', b'}', |reader| {
            reader.expect(b'"')?;
            let name = str::from_utf8(reader.before(|it| it == b'"')).map_err(|_| reader.unknown())?;
            reader.expect(b'"')?;
            reader.expect(b':')?;
            if each(reader, name)? {
                Ok(())
            } else {
                Err(reader.unknown())
            }
        })
    }

    /// Passes a number or a text.
    pub(crate) fn pass(&mut self) -> Result<bool, Error> {
        if self.rest.first() == Some(&b'"') {
            self.text()?;
        } else {
            self.number::<f64>()?;
        }
        Ok(true)
    }

    fn number<T: FromStr>(&mut self) -> Result<T, Error> {
        let found = str::from_utf8(self.before(|it| matches!(it, b',' | b']' | b'}'))).ok();
        found.and_then(|it| it.parse().ok()).ok_or_else(|| self.unknown())
    }

    fn text(&mut self) -> Result<String, Error> {
        self.expect(b'"')?;
        let mut found = String::new();
        loop {
            let plain = str::from_utf8(self.before(|it| matches!(it, b'"' | b'\\'))).map_err(|_| self.unknown())?;
            found.try_reserve(plain.len() + 4)?; // a character of four bytes may follow
            found.push_str(plain);
            if self.next()? == b'"' {
                return Ok(found);
            }
            found.push(self.escaped()?);
        }
    }

    /// Returns the character of an escape, of which the backslash was read.
    fn escaped(&mut self) -> Result<char, Error> {
        Ok(match self.next()? {
            it @ (b'"' | b'\\' | b'/') => char::from(it),
            b'b' => '\u{8}',
            b'f' => '\u{C}',
            b'n' => '\n',
            b'r' => '\r',
            b't' => '\t',
            b'u' => {
                let first = self.unit()?;
                let mut units = [first, 0];
                let mut count = 1;
                if (0xD800..0xDC00).contains(&first) {
                    self.expect(b'\\')?;
                    self.expect(b'u')?;
                    units[1] = self.unit()?;
                    count = 2;
                }
                let found = char::decode_utf16(units.into_iter().take(count)).next();
                found.and_then(Result::ok).ok_or_else(|| self.unknown())?
            }
            _ => return Err(self.unknown()),
        })
    }

    /// Returns the unit of UTF-16 that four digits have.
    fn unit(&mut self) -> Result<u16, Error> {
        let high = self.pair()?;
        Ok(u16::from(high) << 8 | u16::from(self.pair()?))
    }

    /// Returns the byte of two hexadecimal digits.
    fn pair(&mut self) -> Result<u8, Error> {
        let (high, low) = (char::from(self.next()?).to_digit(16), char::from(self.next()?).to_digit(16));
        let number = high.zip(low).map(|(high, low)| high << 4 | low);
        number.and_then(|it| u8::try_from(it).ok()).ok_or_else(|| self.unknown())
    }
}

// ---- Writing

/// Writes JSON. A request for memory that is refused ends it with an error.
pub(crate) struct Writer {
    text: String,
}

/// Returns the JSON of a value.
pub(crate) fn json_of(value: &impl Member) -> Result<String, Error> {
    let mut writer = Writer { text: String::new() };
    value.show(&mut writer).map_err(|_| Error::OutOfMemory)?;
    Ok(writer.text)
}

impl Write for Writer {
    fn write_str(&mut self, text: &str) -> fmt::Result {
        self.text.try_reserve(text.len()).map_err(|_| fmt::Error)?;
        self.text.push_str(text);
        Ok(())
    }
}

impl Writer {
    /// Writes a comma, unless a list or an object begins here.
    fn separate(&mut self) -> fmt::Result {
        if matches!(self.text.as_bytes().last(), Some(b'[' | b'{')) {
            Ok(())
        } else {
            self.write_char(',')
        }
    }

    pub(crate) fn object(&mut self, members: impl FnOnce(&mut Self) -> fmt::Result) -> fmt::Result {
        self.write_char('{')?;
        members(self)?;
        self.write_char('}')
    }

    /// Writes a member with its name, unless the box lacks it.
    pub(crate) fn member(
        &mut self,
        name: &str,
        value: &impl Member,
        show: impl FnOnce(&mut Self) -> fmt::Result,
    ) -> fmt::Result {
        if value.is_absent() {
            return Ok(());
        }
        self.separate()?;
        write!(self, "\"{name}\":")?;
        show(self)
    }

    fn list<T>(&mut self, items: &[T], show: impl Fn(&T, &mut Self) -> fmt::Result) -> fmt::Result {
        self.write_char('[')?;
        for it in items {
            self.separate()?;
            show(it, self)?;
        }
        self.write_char(']')
    }

    fn text(&mut self, text: &str) -> fmt::Result {
        self.write_char('"')?;
        for it in text.chars() {
            match it {
                '"' | '\\' => write!(self, "\\{it}")?,
                it if it < ' ' => write!(self, "\\u{:04x}", u32::from(it))?,
                it => self.write_char(it)?,
            }
        }
        self.write_char('"')
    }

    fn hex(&mut self, bytes: &[u8]) -> fmt::Result {
        self.write_char('"')?;
        for it in bytes {
            for digit in [it >> 4, it & 15] {
                self.write_char(char::from_digit(digit.into(), 16).ok_or(fmt::Error)?)?;
            }
        }
        self.write_char('"')
    }
}

// ---- Members

/// The value of a member.
pub(crate) trait Member: Sized {
    fn take(reader: &mut Reader<'_>) -> Result<Self, Error>;

    fn show(&self, writer: &mut Writer) -> fmt::Result;

    /// Reads a list. One of bytes is a text of hexadecimal digits.
    fn take_list(reader: &mut Reader<'_>) -> Result<Vec<Self>, Error> {
        let mut found = Vec::new();
        reader.between(b'[', b']', |reader| {
            let value = Self::take(reader)?;
            found.try_reserve(1)?;
            found.push(value);
            Ok(())
        })?;
        Ok(found)
    }

    fn show_list(list: &[Self], writer: &mut Writer) -> fmt::Result {
        writer.list(list, Self::show)
    }

    /// Returns the value of a member that is absent, if it may be.
    fn absent() -> Option<Self> {
        None
    }

    fn is_absent(&self) -> bool {
        false
    }
}

/// Implements `Member` for numbers, by the type that they are read and written as.
macro_rules! numbers {
    ($($type:ty: $as:ty, |$value:ident| $shown:expr, |$read:ident| $of:expr, { $($list:tt)* };)*) => {
        $(impl Member for $type {
            fn take(reader: &mut Reader<'_>) -> Result<$type, Error> {
                let $read = reader.number::<$as>()?;
                $of.ok_or_else(|| reader.unknown())
            }

            fn show(&self, writer: &mut Writer) -> fmt::Result {
                let $value = *self;
                write!(writer, "{}", $shown)
            }

            $($list)*
        })*
    };
}

numbers! {
    bool: u8, |it| u8::from(it), |it| (it < 2).then_some(it == 1), {};
    u8: u8, |it| it, |it| Some(it), {
        fn take_list(reader: &mut Reader<'_>) -> Result<Vec<u8>, Error> {
            reader.expect(b'"')?;
            let mut found = Vec::new();
            let digits = reader.before(|it| it == b'"');
            found.try_reserve_exact(digits.len() / 2)?;
            let mut inside = Reader { code: reader.code, rest: digits };
            while !inside.rest.is_empty() {
                found.push(inside.pair()?);
            }
            reader.expect(b'"')?;
            Ok(found)
        }

        fn show_list(list: &[u8], writer: &mut Writer) -> fmt::Result {
            writer.hex(list)
        }
    };
    u16: u16, |it| it, |it| Some(it), {};
    u32: u32, |it| it, |it| Some(it), {};
    u64: u64, |it| it, |it| Some(it), {};
    i8: i8, |it| it, |it| Some(it), {};
    i16: i16, |it| it, |it| Some(it), {};
    i32: i32, |it| it, |it| Some(it), {};
    i64: i64, |it| it, |it| Some(it), {};
    i128: i128, |it| it, |it| Some(it), {};
    f64: f64, |it| Plain(it), |it| Some(it), {};
    FixedPointI8: f64, |it| Plain(it.to_f64()), |it| fixed_of(it), {};
}

/// Returns the number with 8 bits after the point.
fn fixed_of(number: f64) -> Option<FixedPointI8> {
    let raw = number * 256.0;
    (f64::from(i16::MIN) <= raw && raw <= f64::from(i16::MAX)).then_some(FixedPointI8::new_raw(raw as i16))
}

/// A number in the form of JSON, with an exponent. The library takes 37 digits at most, so one that each field rounds
/// to 0 is 0. One that isn't finite is `null`, which the library refuses with the path.
struct Plain(f64);

impl fmt::Display for Plain {
    fn fmt(&self, f: &mut fmt::Formatter<'_>) -> fmt::Result {
        if self.0.abs() < 1e-12 {
            f.write_str("0")
        } else if self.0.is_finite() {
            fmt::LowerExp::fmt(&self.0, f)
        } else {
            f.write_str("null")
        }
    }
}

impl Member for String {
    fn take(reader: &mut Reader<'_>) -> Result<String, Error> {
        reader.text()
    }

    fn show(&self, writer: &mut Writer) -> fmt::Result {
        writer.text(self)
    }
}

impl Member for Letters {
    fn take(reader: &mut Reader<'_>) -> Result<Letters, Error> {
        if reader.rest.first() == Some(&b'"') {
            reader.text().map(Letters::Text)
        } else {
            reader.number().map(Letters::Number)
        }
    }

    fn show(&self, writer: &mut Writer) -> fmt::Result {
        match self {
            Letters::Text(it) => it.show(writer),
            Letters::Number(it) => it.show(writer),
        }
    }
}

/// A text of four characters, each with the number of its byte.
impl Member for FourCC {
    fn take(reader: &mut Reader<'_>) -> Result<FourCC, Error> {
        reader.text()?.parse().map_err(|_| reader.unknown())
    }

    fn show(&self, writer: &mut Writer) -> fmt::Result {
        let mut bytes = [0; 8];
        let mut length = 0;
        for it in self.value {
            length += char::from(it).encode_utf8(&mut bytes[length..]).len();
        }
        writer.text(str::from_utf8(&bytes[..length]).map_err(|_| fmt::Error)?)
    }
}

/// A text of hexadecimal digits.
impl<const N: usize> Member for [u8; N] {
    fn take(reader: &mut Reader<'_>) -> Result<[u8; N], Error> {
        let mut found = [0; N];
        reader.expect(b'"')?;
        for it in &mut found {
            *it = reader.pair()?;
        }
        reader.expect(b'"')?;
        Ok(found)
    }

    fn show(&self, writer: &mut Writer) -> fmt::Result {
        writer.hex(self)
    }
}

impl<T: Member> Member for Vec<T> {
    fn take(reader: &mut Reader<'_>) -> Result<Vec<T>, Error> {
        T::take_list(reader)
    }

    fn show(&self, writer: &mut Writer) -> fmt::Result {
        T::show_list(self, writer)
    }
}

impl<T: Member> Member for Option<T> {
    fn take(reader: &mut Reader<'_>) -> Result<Option<T>, Error> {
        T::take(reader).map(Some)
    }

    fn show(&self, writer: &mut Writer) -> fmt::Result {
        self.as_ref().map_or(Ok(()), |it| it.show(writer))
    }

    fn absent() -> Option<Option<T>> {
        Some(None)
    }

    fn is_absent(&self) -> bool {
        self.is_none()
    }
}

impl Member for RgbaColor {
    fn take(reader: &mut Reader<'_>) -> Result<RgbaColor, Error> {
        let mut parts = [None; 4];
        reader.object(|reader, name| {
            let part = ["red", "green", "blue", "alpha"].iter().position(|it| *it == name);
            if let Some(it) = part.and_then(|it| parts.get_mut(it)) {
                *it = Some(reader.number()?);
            }
            Ok(part.is_some())
        })?;
        match parts {
            [Some(red), Some(green), Some(blue), Some(alpha)] => Ok(RgbaColor { red, green, blue, alpha }),
            _ => Err(reader.unknown()),
        }
    }

    fn show(&self, writer: &mut Writer) -> fmt::Result {
        let RgbaColor { red, green, blue, alpha } = self;
        write!(writer, r#"{{"red":{red},"green":{green},"blue":{blue},"alpha":{alpha}}}"#)
    }
}

/// Reads a list of numbers of 8 bits, which isn't shown as hexadecimal digits.
pub(crate) fn take_numbers(reader: &mut Reader<'_>) -> Result<Option<Vec<u8>>, Error> {
    let mut found = Vec::new();
    reader.between(b'[', b']', |reader| {
        found.try_reserve(1)?;
        found.push(reader.number()?);
        Ok(())
    })?;
    Ok(Some(found))
}

pub(crate) fn show_numbers(list: &Option<Vec<u8>>, writer: &mut Writer) -> fmt::Result {
    list.as_ref().map_or(Ok(()), |it| writer.list(it, u8::show))
}

#[cfg(test)]
mod tests {
    use super::{json_of, Letters, Member, Reader};
    use crate::extra::{DataBox, PaspBox, TextBox, TrefBox, TrefReference};
    use crate::{Error, FixedPointI8, FourCC};

    fn read<T: Member>(text: &str) -> Result<T, Error> {
        Reader::whole(FourCC::new(b"pasp"), text)
    }

    /// Checks that a text is refused.
    fn unknown<T: Member + std::fmt::Debug + PartialEq>(text: &str) {
        assert_eq!(read::<T>(text), Err(Error::UnknownFields(FourCC::new(b"pasp"))), "{text}");
    }

    #[test]
    fn values() {
        assert_eq!(read(r#""a\"\\\/\b\f\n\r\t\u00e9\ud83c\uDFAC🎬""#), Ok("a\"\\/\u{8}\u{c}\n\r\té🎬🎬".to_string()));
        assert_eq!(read("-9223372036854775808"), Ok(i64::MIN));
        assert_eq!(read("18446744073709551615"), Ok(i128::from(u64::MAX)));
        assert_eq!(read("-1.5"), Ok(FixedPointI8::new_raw(-0x180)));
        assert_eq!(read(r#""00Ff""#), Ok(vec![0_u8, 0xFF]));
        assert_eq!(read(r#""00ff""#), Ok([0_u8, 0xFF]));
        assert_eq!(read(r#"["00",""]"#), Ok(vec![vec![0_u8], vec![]]));
        assert_eq!(read(r#""deu""#), Ok(Letters::Text("deu".into())));
        assert_eq!(read("7"), Ok(Letters::Number(7)));
        for text in [r#"""#, r#""\x""#, r#""\ud83c""#, r#""\udfac""#, r#""\ud83c\u0041""#, r#""\u00g0""#, "a", ""] {
            unknown::<String>(text);
        }
        for text in ["256", "-1", "1.0", "", "x", "1 ", "[1]"] {
            unknown::<u8>(text);
        }
        for text in ["128", "-128.5", "NaN", "inf"] {
            unknown::<FixedPointI8>(text);
        }
        unknown::<bool>("2");
        unknown::<FourCC>(r#""abc""#);
        unknown::<FourCC>("\"abc\u{100}\"");
        for text in [r#""0""#, r#""0g""#, r#""00"#, "[0]", r#""+1""#] {
            unknown::<Vec<u8>>(text);
        }
        unknown::<[u8; 2]>(r#""00""#);
        unknown::<[u8; 2]>(r#""000000""#);
    }

    #[test]
    fn objects() {
        assert_eq!(read(r#"{"vSpacing":3,"hSpacing":4}"#), Ok(PaspBox { h_spacing: 4, v_spacing: 3 }));
        for text in [
            r#"{"hSpacing":4}"#,
            r#"{"hSpacing":4,"vSpacing":3,"zSpacing":3}"#,
            r#"{"hSpacing":4,"vSpacing":3,}"#,
            r#"{"hSpacing":4"vSpacing":3}"#,
            r#"{"hSpacing":4,"vSpacing":3}}"#,
            r#"{hSpacing:4,"vSpacing":3}"#,
            r#"[4,3]"#,
            "{}",
        ] {
            unknown::<PaspBox>(text);
        }
        let reference = TrefReference { reference_type: FourCC::new(b"h\"\xE9\n"), track_ids: vec![3, 4] };
        let value = TrefBox { references: vec![reference; 2] };
        let text = json_of(&value).unwrap();
        assert_eq!(read(&text), Ok(value));
        let ends = text.char_indices().map(|(at, _)| at);
        ends.for_each(|at| unknown::<TrefBox>(&text[..at]));
        let value = DataBox { number: Some(-2), text: Some("\u{7F}\u{1}".into()), ..DataBox::default() };
        assert_eq!(json_of(&value).as_deref(), Ok("{\"data_type\":0,\"text\":\"\u{7F}\\u0001\",\"number\":-2}"));
        let value = TextBox { a: 1e-9, u: f64::INFINITY, ..TextBox::default() };
        let wanted = r#"{"a":1e-9,"b":0,"u":null,"c":0,"d":0,"v":0,"x":0,"y":0,"w":0}"#;
        assert_eq!(json_of(&value).as_deref(), Ok(wanted));
    }
}
