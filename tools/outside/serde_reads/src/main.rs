//! Reads index lines from standard input, and prints a line of JSON for each: what `serde_json` reads as a
//! tree and as a typed record. Each is an object with the five members that count, or the text of the error.

use serde::de::{Deserialize, Deserializer, Error, IgnoredAny, MapAccess, Visitor};
use serde_json::{json, Value};
use std::fmt;
use std::io::{self, BufRead, Write};

/// The members of an index line that count.
#[derive(Default)]
struct Line {
    name: Option<String>,
    vers: Option<String>,
    yanked: Option<bool>,
    rust_version: Option<Option<String>>,
    pubtime: Option<Option<String>>,
}

impl Line {
    /// What is printed; an error where the name or the version is missing.
    fn shown(self) -> Result<Value, String> {
        Ok(json!({
            "name": self.name.ok_or("no `name`")?,
            "vers": self.vers.ok_or("no `vers`")?,
            "yanked": self.yanked.unwrap_or(false),
            "rust_version": self.rust_version.flatten(),
            "pubtime": self.pubtime.flatten(),
        }))
    }
}

/// Reads the value of a key that may come once.
fn once<'de, A: MapAccess<'de>, T: Deserialize<'de>>(
    field: &mut Option<T>,
    key: &'static str,
    map: &mut A,
) -> Result<(), A::Error> {
    if field.is_some() {
        return Err(A::Error::duplicate_field(key));
    }
    *field = Some(map.next_value()?);
    Ok(())
}

/// Reads a line as a derived `Deserialize` does.
struct LineVisitor;

impl<'de> Visitor<'de> for LineVisitor {
    type Value = Line;

    fn expecting(&self, formatter: &mut fmt::Formatter) -> fmt::Result {
        formatter.write_str("an index line")
    }

    fn visit_map<A: MapAccess<'de>>(self, mut map: A) -> Result<Line, A::Error> {
        let mut line = Line::default();
        while let Some(key) = map.next_key::<String>()? {
            match key.as_str() {
                "name" => once(&mut line.name, "name", &mut map)?,
                "vers" => once(&mut line.vers, "vers", &mut map)?,
                "yanked" => once(&mut line.yanked, "yanked", &mut map)?,
                "rust_version" => once(&mut line.rust_version, "rust_version", &mut map)?,
                "pubtime" => once(&mut line.pubtime, "pubtime", &mut map)?,
                _ => {
                    map.next_value::<IgnoredAny>()?;
                }
            }
        }
        Ok(line)
    }
}

impl<'de> Deserialize<'de> for Line {
    fn deserialize<D: Deserializer<'de>>(deserializer: D) -> Result<Line, D::Error> {
        deserializer.deserialize_map(LineVisitor)
    }
}

/// What a line is as a typed record.
fn typed(line: &[u8]) -> Result<Value, String> {
    let line: Line = serde_json::from_slice(line).map_err(|error| error.to_string())?;
    line.shown()
}

/// The string of a value, if it is one.
fn text(value: Option<&Value>) -> Option<String> {
    value.and_then(Value::as_str).map(str::to_owned)
}

/// What a line is as a tree, of which members are looked up. A `pubtime` that is no string is unknown.
fn tree(line: &[u8]) -> Result<Value, String> {
    let value: Value = serde_json::from_slice(line).map_err(|error| error.to_string())?;
    let yanked = match value.get("yanked") {
        None => None,
        Some(value) => Some(value.as_bool().ok_or("`yanked` is no boolean")?),
    };
    let rust_version = match value.get("rust_version") {
        None | Some(Value::Null) => None,
        Some(value) => Some(text(Some(value)).ok_or("`rust_version` is no string")?),
    };
    let line = Line {
        name: text(value.get("name")),
        vers: text(value.get("vers")),
        yanked,
        rust_version: Some(rust_version),
        pubtime: Some(text(value.get("pubtime"))),
    };
    line.shown()
}

fn main() -> io::Result<()> {
    let mut out = io::BufWriter::new(io::stdout().lock());
    for line in io::stdin().lock().split(b'\n') {
        let line = line?;
        let both = [tree(&line), typed(&line)];
        let both = both.map(|read| read.unwrap_or_else(Value::String));
        writeln!(out, "{}", Value::from(both.to_vec()))?;
    }
    out.flush()
}
