//! Manifests whose entries stand on a line each.

use crate::version::{admits, parts, Version};
use std::io::Write;
use std::ops::Range;

/// An entry: where its name and its requirement stand, and the greatest versions that were offered.
pub struct Entry {
    pub name: Range<usize>,
    requirement: Range<usize>,
    least: Version,
    count: usize,
    compatible: Option<Version>,
    latest: Option<Version>,
}

impl Entry {
    /// Takes a version where it is greater than those before.
    pub fn offer(&mut self, version: Version) {
        if self.latest.map_or(true, |it| it < version) {
            self.latest = Some(version);
        }
        if self.compatible.map_or(true, |it| it < version) && admits(&self.least, self.count, &version) {
            self.compatible = Some(version);
        }
    }
}

/// The entries of a manifest, as they stand there.
pub struct Manifest {
    pub entries: Vec<Entry>,
}

/// The first place where a text stands in another.
fn find(text: &[u8], wanted: &[u8]) -> Option<usize> {
    text.windows(wanted.len()).position(|window| window == wanted)
}

/// The entry on a line that begins at an offset.
fn entry(line: &[u8], at: usize) -> Option<Entry> {
    let name = line.iter().position(|byte| *byte == b' ')?;
    let value = line.get(name..)?.strip_prefix(b" = ")?;
    let start = name
        + 3
        + match value.first()? {
            b'"' => 1,
            b'{' if find(value, b" path = ").is_none() => find(value, b"version = \"")? + 11,
            _ => return None,
        };
    let length = line[start..].iter().position(|byte| *byte == b'"')?;
    let (least, count) = parts(&line[start..start + length])?;
    let requirement = at + start..at + start + length;
    Some(Entry { name: at..at + name, requirement, least, count, compatible: None, latest: None })
}

impl Manifest {
    /// Reads the entries of the dependency tables of a text.
    pub fn read(text: &[u8]) -> Self {
        let (mut entries, mut at, mut wanted) = (Vec::new(), 0, false);
        for line in text.split(|byte| *byte == b'\n') {
            if line.starts_with(b"[") {
                wanted = line.ends_with(b"dependencies]");
            } else if wanted {
                entries.extend(entry(line, at));
            }
            at += line.len() + 1;
        }
        Manifest { entries }
    }

    /// The text with its requirements raised; the rows of those that change come behind `rows`.
    pub fn raise(&self, text: &[u8], incompatible: bool, rows: &mut Vec<u8>) -> Vec<u8> {
        let mut new = Vec::with_capacity(text.len() + text.len() / 8);
        let mut copied = 0;
        for entry in &self.entries {
            let chosen = if incompatible { entry.latest } else { entry.compatible };
            let (Some(chosen), Some(latest)) = (chosen, entry.latest) else { continue };
            new.extend_from_slice(&text[copied..entry.requirement.start]);
            let start = new.len();
            for (at, number) in chosen[..entry.count].iter().enumerate() {
                let _ = write!(new, "{}{number}", if at == 0 { "" } else { "." });
            }
            copied = entry.requirement.end;
            let old = &text[entry.requirement.clone()];
            if new[start..] != *old {
                let [name, old, raised] =
                    [&text[entry.name.clone()], old, &new[start..]].map(String::from_utf8_lossy);
                let [a, b, c] = entry.compatible.unwrap_or_default();
                let [d, e, f] = latest;
                let _ = writeln!(rows, "{name:24} {old:8} {a}.{b}.{c} {d}.{e}.{f} {raised:8}");
            }
        }
        new.extend_from_slice(&text[copied..]);
        new
    }
}
