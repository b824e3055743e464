//! Writes the JSON of a context from what serde serializes, and names the value that has none.

use crate::error::Refusal;
use crate::Error;
use serde::ser::{self, Serialize};
use std::fmt::{self, Display, Write};

/// The reader of the library refuses deeper JSON.
const DEEPEST: usize = 127;
/// A path has at most this many parts in a message.
const MOST_PARTS: usize = 16;

/// Returns the JSON of a value.
pub(crate) fn to_json<T: Serialize + ?Sized>(value: &T) -> Result<String, Error> {
    let mut writer = Writer::default();
    match value.serialize(&mut writer) {
        Ok(()) => Ok(writer.json),
        Err(unfit) => Err(unfit.refused()),
    }
}

/// A part of the path to a value.
#[derive(Debug)]
enum Part {
    /// A key in quotes, as JSON has it.
    Key(String),
    Index(usize),
}

/// A value that has no JSON, or that the library does not take.
#[derive(Debug)]
struct Unfit {
    code: &'static str,
    name: &'static str,
    what: String,
    /// The path to the value, its last part first.
    parts: Vec<Part>,
}
impl Unfit {
    fn new(code: &'static str, name: &'static str, what: impl Display) -> Unfit {
        Unfit { code, name, what: what.to_string(), parts: Vec::new() }
    }
    fn no_json(what: impl Display) -> Unfit {
        Unfit::new("X1", "NotJson", what)
    }
    /// Adds the part of the path that leads to what the error is about.
    fn within(mut self, part: Part) -> Unfit {
        self.parts.push(part);
        self
    }
    fn refused(self) -> Error {
        let path = path(self.parts.iter().rev());
        Error::Refused(Box::new(Refusal {
            code: self.code.into(),
            name: self.name.into(),
            reason: format!("{} {}", self.code, self.name),
            explanation: Some(format!("{path}: {}", self.what)),
            path: Some(path),
            ..Refusal::default()
        }))
    }
}
impl std::error::Error for Unfit {}
impl Display for Unfit {
    fn fmt(&self, f: &mut fmt::Formatter<'_>) -> fmt::Result {
        f.write_str(&self.what)
    }
}
impl ser::Error for Unfit {
    fn custom<T: Display>(message: T) -> Unfit {
        Unfit::no_json(message)
    }
}

/// Returns a path as templates write it: `order.lines[3].price`, or `order["a b"]`.
fn path<'a>(parts: impl ExactSizeIterator<Item = &'a Part>) -> String {
    let (mut path, count) = (String::new(), parts.len());
    for part in parts.take(MOST_PARTS) {
        match part {
            Part::Index(at) => path.extend(["[", &at.to_string(), "]"]),
            Part::Key(key) => match word_of(key) {
                Some(word) if path.is_empty() => path += word,
                Some(word) => path.extend([".", word]),
                None => path.extend(["[", key, "]"]),
            },
        }
    }
    if count > MOST_PARTS {
        path += "...";
    }
    if path.is_empty() {
        path += "the context";
    }
    path
}

/// Returns a key without its quotes if it is a word, which a path names after a dot.
fn word_of(key: &str) -> Option<&str> {
    let word = key.strip_prefix('"')?.strip_suffix('"')?;
    let is_word = word.chars().all(|letter| letter == '_' || letter.is_alphanumeric());
    (is_word && !word.starts_with(char::is_numeric) && !word.is_empty()).then_some(word)
}

/// Returns a text in quotes, as JSON has it.
fn quoted(text: &str) -> String {
    let mut json = String::with_capacity(text.len() + 2);
    json.push('"');
    for letter in text.chars() {
        match letter {
            '"' | '\\' => json.extend(['\\', letter]),
            '\0'..='\x1f' => json.extend(["\\u", &format!("{:04x}", u32::from(letter))]),
            _ => json.push(letter),
        }
    }
    json.push('"');
    json
}

/// The JSON that is written so far.
#[derive(Default)]
struct Writer {
    json: String,
    level: usize,
}
impl Writer {
    /// Opens a list or a map of a variant, or of none.
    fn open(&mut self, variant: Option<&'static str>, is_list: bool) -> Result<Parts<'_>, Unfit> {
        if let Some(variant) = variant {
            self.deepen()?;
            self.json.extend(["{", &quoted(variant), ":"]);
        }
        self.deepen()?;
        self.json.push(if is_list { '[' } else { '{' });
        Ok(Parts { writer: self, variant, is_list, count: 0, key: String::new() })
    }
    fn deepen(&mut self) -> Result<(), Unfit> {
        self.level += 1;
        if self.level > DEEPEST {
            return Err(Unfit::no_json(format_args!("nested deeper than {DEEPEST} levels")));
        }
        Ok(())
    }
    fn write(&mut self, value: impl Display) -> Result<(), Unfit> {
        write!(self.json, "{value}").map_err(Unfit::no_json)
    }
    fn write_number<T: TryInto<i64>>(&mut self, number: T) -> Result<(), Unfit> {
        match number.try_into() {
            Ok(number) => self.write(number),
            Err(_) => Err(Unfit::new("X4", "OutOfRange", "an integer of more than 64 bits")),
        }
    }
    fn refuse_float(number: f64) -> Result<(), Unfit> {
        let what = if number.is_finite() { String::new() } else { format!(" ({number})") };
        Err(Unfit::new("X3", "NotWhole", format_args!("a float{what}")))
    }
}

/// A list or a map whose parts are written one after another.
struct Parts<'a> {
    writer: &'a mut Writer,
    variant: Option<&'static str>,
    is_list: bool,
    count: usize,
    /// The key of the value that is next, in quotes.
    key: String,
}
impl Parts<'_> {
    fn separate(&mut self) {
        if self.count > 0 {
            self.writer.json.push(',');
        }
        self.count += 1;
    }
    /// Adds the variant to the path of an error.
    fn placed(&self, unfit: Unfit) -> Unfit {
        match self.variant {
            Some(variant) => unfit.within(Part::Key(quoted(variant))),
            None => unfit,
        }
    }
    fn write_item<T: Serialize + ?Sized>(&mut self, value: &T) -> Result<(), Unfit> {
        self.separate();
        let part = Part::Index(self.count - 1);
        value.serialize(&mut *self.writer).map_err(|unfit| self.placed(unfit.within(part)))
    }
    /// Keeps the key of the value that is next.
    fn write_key<T: Serialize + ?Sized>(&mut self, key: &T) -> Result<(), Unfit> {
        let mut writer = Writer { level: self.writer.level, ..Writer::default() };
        let written = key.serialize(&mut writer);
        if written.is_err() || !writer.json.starts_with('"') {
            let shown = if written.is_ok() { format!(": {}", writer.json) } else { String::new() };
            return Err(self.placed(Unfit::no_json(format_args!("a key that is no text{shown}"))));
        }
        self.key = writer.json;
        Ok(())
    }
    fn write_value<T: Serialize + ?Sized>(&mut self, value: &T) -> Result<(), Unfit> {
        self.separate();
        self.writer.json += &self.key;
        self.writer.json.push(':');
        value.serialize(&mut *self.writer).map_err(|unfit| {
            let part = Part::Key(self.key.clone());
            self.placed(unfit.within(part))
        })
    }
    fn write_field<T: Serialize + ?Sized>(
        &mut self,
        key: &'static str,
        value: &T,
    ) -> Result<(), Unfit> {
        self.key = quoted(key);
        self.write_value(value)
    }
    fn close(self) -> Result<(), Unfit> {
        self.writer.level -= 1;
        self.writer.json.push(if self.is_list { ']' } else { '}' });
        if self.variant.is_some() {
            self.writer.level -= 1;
            self.writer.json.push('}');
        }
        Ok(())
    }
}

/// Declares the calls for numbers that may fit.
macro_rules! numbers {
    ($($name:ident: $type:ty,)+) => {
        $(fn $name(self, number: $type) -> Result<(), Unfit> {
            self.write_number(number)
        })+
    };
}

impl<'a> ser::Serializer for &'a mut Writer {
    type Ok = ();
    type Error = Unfit;
    type SerializeSeq = Parts<'a>;
    type SerializeTuple = Parts<'a>;
    type SerializeTupleStruct = Parts<'a>;
    type SerializeTupleVariant = Parts<'a>;
    type SerializeMap = Parts<'a>;
    type SerializeStruct = Parts<'a>;
    type SerializeStructVariant = Parts<'a>;

    numbers! {
        serialize_i8: i8,
        serialize_i16: i16,
        serialize_i32: i32,
        serialize_i64: i64,
        serialize_i128: i128,
        serialize_u8: u8,
        serialize_u16: u16,
        serialize_u32: u32,
        serialize_u64: u64,
        serialize_u128: u128,
    }
    fn serialize_bool(self, is: bool) -> Result<(), Unfit> {
        self.write(is)
    }
    fn serialize_f32(self, number: f32) -> Result<(), Unfit> {
        Writer::refuse_float(number.into())
    }
    fn serialize_f64(self, number: f64) -> Result<(), Unfit> {
        Writer::refuse_float(number)
    }
    fn serialize_char(self, letter: char) -> Result<(), Unfit> {
        self.write(quoted(letter.encode_utf8(&mut [0; 4])))
    }
    fn serialize_str(self, text: &str) -> Result<(), Unfit> {
        self.write(quoted(text))
    }
    fn serialize_bytes(self, _: &[u8]) -> Result<(), Unfit> {
        Err(Unfit::no_json("bytes"))
    }
    fn serialize_none(self) -> Result<(), Unfit> {
        self.write("null")
    }
    fn serialize_some<T: Serialize + ?Sized>(self, value: &T) -> Result<(), Unfit> {
        value.serialize(self)
    }
    fn serialize_unit(self) -> Result<(), Unfit> {
        self.write("null")
    }
    fn serialize_unit_struct(self, _: &'static str) -> Result<(), Unfit> {
        self.write("null")
    }
    fn serialize_unit_variant(
        self,
        _: &'static str,
        _: u32,
        variant: &'static str,
    ) -> Result<(), Unfit> {
        self.write(quoted(variant))
    }
    fn serialize_newtype_struct<T: Serialize + ?Sized>(
        self,
        _: &'static str,
        value: &T,
    ) -> Result<(), Unfit> {
        value.serialize(self)
    }
    fn serialize_newtype_variant<T: Serialize + ?Sized>(
        self,
        _: &'static str,
        _: u32,
        variant: &'static str,
        value: &T,
    ) -> Result<(), Unfit> {
        let mut parts = self.open(None, false)?;
        parts.write_field(variant, value)?;
        parts.close()
    }
    fn serialize_seq(self, _: Option<usize>) -> Result<Parts<'a>, Unfit> {
        self.open(None, true)
    }
    fn serialize_tuple(self, _: usize) -> Result<Parts<'a>, Unfit> {
        self.open(None, true)
    }
    fn serialize_tuple_struct(self, _: &'static str, _: usize) -> Result<Parts<'a>, Unfit> {
        self.open(None, true)
    }
    fn serialize_tuple_variant(
        self,
        _: &'static str,
        _: u32,
        variant: &'static str,
        _: usize,
    ) -> Result<Parts<'a>, Unfit> {
        self.open(Some(variant), true)
    }
    fn serialize_map(self, _: Option<usize>) -> Result<Parts<'a>, Unfit> {
        self.open(None, false)
    }
    fn serialize_struct(self, _: &'static str, _: usize) -> Result<Parts<'a>, Unfit> {
        self.open(None, false)
    }
    fn serialize_struct_variant(
        self,
        _: &'static str,
        _: u32,
        variant: &'static str,
        _: usize,
    ) -> Result<Parts<'a>, Unfit> {
        self.open(Some(variant), false)
    }
}

/// Declares how the items of a list, or the fields of a map, are written.
macro_rules! parts {
    ($($kind:ident, $name:ident, $write:ident($($key:ident)?);)+) => {
        $(impl ser::$kind for Parts<'_> {
            type Ok = ();
            type Error = Unfit;
            fn $name<T: Serialize + ?Sized>(
                &mut self,
                $($key: &'static str,)?
                value: &T,
            ) -> Result<(), Unfit> {
                self.$write($($key,)? value)
            }
            fn end(self) -> Result<(), Unfit> {
                self.close()
            }
        })+
    };
}
parts! {
    SerializeSeq, serialize_element, write_item();
    SerializeTuple, serialize_element, write_item();
    SerializeTupleStruct, serialize_field, write_item();
    SerializeTupleVariant, serialize_field, write_item();
    SerializeStruct, serialize_field, write_field(key);
    SerializeStructVariant, serialize_field, write_field(key);
}
impl ser::SerializeMap for Parts<'_> {
    type Ok = ();
    type Error = Unfit;
    fn serialize_key<T: Serialize + ?Sized>(&mut self, key: &T) -> Result<(), Unfit> {
        self.write_key(key)
    }
    fn serialize_value<T: Serialize + ?Sized>(&mut self, value: &T) -> Result<(), Unfit> {
        self.write_value(value)
    }
    fn end(self) -> Result<(), Unfit> {
        self.close()
    }
}
