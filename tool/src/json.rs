//! JSON, written a value at a time.

use doilycairn::Refusal;
use std::ffi::OsStr;
use std::io::{self, Write};
use std::os::unix::ffi::OsStrExt;

/// The fields of an object, in order.
pub type Fields<'a> = Vec<(&'static str, Json<'a>)>;

/// A value. Lists are made while they are written, so that a long one takes no memory.
pub enum Json<'a> {
    Null,
    Bool(bool),
    Whole(i64),
    Real(f64),
    Text(String),
    List(Box<dyn Iterator<Item = Json<'a>> + 'a>),
    Object(Fields<'a>),
}

impl<'a> Json<'a> {
    pub fn text(text: impl Into<String>) -> Self {
        Json::Text(text.into())
    }

    pub fn list(items: impl IntoIterator<Item = Json<'a>, IntoIter: 'a>) -> Self {
        Json::List(Box::new(items.into_iter()))
    }

    /// Whole numbers.
    pub fn numbers<N: Into<i64>>(numbers: impl IntoIterator<Item = N, IntoIter: 'a>) -> Self {
        Json::list(numbers.into_iter().map(|number| Json::Whole(number.into())))
    }

    /// Writes it as a line.
    pub fn write_line(self, out: &mut dyn Write) -> io::Result<()> {
        self.write(out)?;
        out.write_all(b"\n")
    }

    /// Writes it.
    fn write(self, out: &mut dyn Write) -> io::Result<()> {
        match self {
            Json::Null => out.write_all(b"null"),
            Json::Bool(value) => write!(out, "{value}"),
            Json::Whole(value) => write!(out, "{value}"),
            Json::Real(value) if value.is_finite() => write!(out, "{value}"),
            Json::Real(_) => out.write_all(b"null"),
            Json::Text(text) => write_text(&text, out),
            Json::List(items) => write_list(items, out),
            Json::Object(fields) => write_object(fields, out),
        }
    }
}

fn write_list<'a>(items: impl Iterator<Item = Json<'a>>, out: &mut dyn Write) -> io::Result<()> {
    out.write_all(b"[")?;
    for (i, item) in items.enumerate() {
        out.write_all(if i == 0 { b"" } else { b"," })?;
        item.write(out)?;
    }
    out.write_all(b"]")
}

fn write_object(fields: Fields, out: &mut dyn Write) -> io::Result<()> {
    out.write_all(b"{")?;
    for (i, (name, value)) in fields.into_iter().enumerate() {
        out.write_all(if i == 0 { b"" } else { b"," })?;
        write_text(name, out)?;
        out.write_all(b":")?;
        value.write(out)?;
    }
    out.write_all(b"}")
}

fn write_text(text: &str, out: &mut dyn Write) -> io::Result<()> {
    out.write_all(b"\"")?;
    for c in text.chars() {
        match c {
            '"' | '\\' => write!(out, "\\{c}")?,
            '\n' => out.write_all(b"\\n")?,
            '\0'..='\u{1f}' | '\u{7f}' => write!(out, "\\u{:04x}", u32::from(c))?,
            _ => write!(out, "{c}")?,
        }
    }
    out.write_all(b"\"")
}

/// A path as a field; where it is not UTF-8, its bytes in hexadecimal follow as a second field.
pub fn path_fields<'a>(name: &'static str, hex: &'static str, path: &OsStr) -> Fields<'a> {
    let mut fields = vec![(name, Json::text(path.to_string_lossy()))];
    if path.to_str().is_none() {
        let digits = path.as_bytes().iter().map(|byte| format!("{byte:02x}"));
        fields.push((hex, Json::Text(digits.collect())));
    }
    fields
}

/// A refusal as two fields: its number, and the block whose entry is bad; null where there is none.
pub fn refusal_fields<'a>(refusal: Option<Refusal>) -> Fields<'a> {
    let whole = |number: Option<u32>| number.map_or(Json::Null, |n| Json::Whole(n.into()));
    vec![
        ("refusal", whole(refusal.map(Refusal::number))),
        ("block", whole(refusal.and_then(Refusal::block))),
    ]
}

#[cfg(test)]
mod tests {
    use super::*;

    fn written(json: Json) -> String {
        let mut out = vec![];
        json.write(&mut out).unwrap();
        String::from_utf8(out).unwrap()
    }

    #[test]
    fn every_kind_of_value() {
        let object = Json::Object(vec![
            ("a", Json::list([Json::Null, Json::Bool(true), Json::Whole(-5)])),
            ("b", Json::numbers([1i16, 2])),
            ("c", Json::list([Json::Real(0.5), Json::Real(f64::NAN), Json::Object(vec![])])),
        ]);
        assert_eq!(written(object), r#"{"a":[null,true,-5],"b":[1,2],"c":[0.5,null,{}]}"#);
    }

    #[test]
    fn text_is_escaped() {
        assert_eq!(written(Json::text("a\"\\\n\t\u{7f}é")), r#""a\"\\\n\u0009\u007fé""#);
    }

    #[test]
    fn a_path_that_is_not_utf_8_keeps_its_bytes() {
        let fields = path_fields("p", "p_hex", OsStr::from_bytes(b"a\xff"));
        assert_eq!(written(Json::Object(fields)), "{\"p\":\"a\u{fffd}\",\"p_hex\":\"61ff\"}");
        assert_eq!(path_fields("p", "p_hex", OsStr::new("a")).len(), 1);
    }

    #[test]
    fn a_refusal_has_its_number_and_block() {
        let fields = |refusal| written(Json::Object(refusal_fields(refusal)));
        assert_eq!(fields(None), r#"{"refusal":null,"block":null}"#);
        assert_eq!(fields(Some(Refusal::BadHead)), r#"{"refusal":15,"block":null}"#);
        let bad = Refusal::BadLength { block: 0 };
        assert_eq!(fields(Some(bad)), r#"{"refusal":21,"block":0}"#);
    }
}
