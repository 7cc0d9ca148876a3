//! A manifest whose entries are raised in place.

use crate::index::{newest, Entry, Index};
use crate::requirement::{is_pinned, raise, rust_version, RustVersion};
use semver::VersionReq;
use toml_edit::{Document, Item, TableLike, Value};

const KINDS: [&str; 3] = ["dependencies", "dev-dependencies", "build-dependencies"];

/// What is raised beside compatible requirements.
#[derive(Default)]
pub struct Options {
    pub incompatible: bool,
    pub pinned: bool,
}

/// An upgrade of one manifest: what it goes by, and the rows of the entries that it has changed.
pub struct Upgrade<'a> {
    index: &'a Index,
    options: &'a Options,
    rust: Option<RustVersion>,
    rows: Vec<[String; 5]>,
}

/// What an entry says: the crate, whether under another name than the key, and its requirement.
fn read_entry<'a>(key: &'a str, item: &'a Item) -> Option<(&'a str, bool, &'a str)> {
    if let Some(requirement) = item.as_str() {
        return Some((key, false, requirement));
    }
    let table = item.as_table_like()?;
    if table.contains_key("git") || table.contains_key("path") {
        return None;
    }
    let package = table.get("package").and_then(Item::as_str);
    Some((package.unwrap_or(key), package.is_some(), table.get("version")?.as_str()?))
}

/// A text without build metadata.
fn without_build(text: &str) -> &str {
    text.split('+').next().unwrap_or(text)
}

/// Puts a requirement in the place of an entry's, with the blanks and comments around it.
fn replace(item: &mut Item, requirement: &str) {
    let place = if item.is_str() {
        Some(item)
    } else {
        item.as_table_like_mut().and_then(|it| it.get_mut("version"))
    };
    if let Some(place) = place {
        let mut value = Value::from(requirement);
        if let Some(old) = place.as_value() {
            *value.decor_mut() = old.decor().clone();
        }
        *place = Item::Value(value);
    }
}

impl<'a> Upgrade<'a> {
    pub fn new(index: &'a Index, options: &'a Options, document: &Document) -> Self {
        let rust = document.get("package").and_then(|it| it.get("rust-version")).and_then(Item::as_str);
        Upgrade { index, options, rust: rust.and_then(rust_version), rows: Vec::new() }
    }

    /// Raises all entries of a manifest; the rows of those that change.
    pub fn raise(mut self, document: &mut Document) -> Vec<[String; 5]> {
        for (name, item) in document.as_table_mut().iter_mut() {
            let Some(table) = item.as_table_like_mut() else { continue };
            match name.get() {
                "workspace" => {
                    if let Some(entries) = table.get_mut("dependencies").and_then(Item::as_table_like_mut) {
                        self.raise_table(entries);
                    }
                }
                "target" => {
                    for (_, target) in table.iter_mut() {
                        if let Some(target) = target.as_table_like_mut() {
                            self.raise_kinds(target);
                        }
                    }
                }
                kind if KINDS.contains(&kind) => self.raise_table(table),
                _ => {}
            }
        }
        self.rows
    }

    /// Raises the entries of each dependency table of a target.
    fn raise_kinds(&mut self, target: &mut dyn TableLike) {
        for (kind, item) in target.iter_mut() {
            if KINDS.contains(&kind.get()) {
                if let Some(entries) = item.as_table_like_mut() {
                    self.raise_table(entries);
                }
            }
        }
    }

    /// Raises the entries of a dependency table.
    fn raise_table(&mut self, entries: &mut dyn TableLike) {
        for (key, item) in entries.iter_mut() {
            let Some(row) = self.decide(key.get(), item) else { continue };
            if row[1] != row[4] {
                replace(item, &row[4]);
                self.rows.push(row);
            }
        }
    }

    /// The row of an entry: its key, its requirement, the compatible and the latest version, the new
    /// requirement.
    fn decide(&self, key: &str, item: &Item) -> Option<[String; 5]> {
        let (name, renamed, old) = read_entry(key, item)?;
        let old = without_build(old);
        let requirement = VersionReq::parse(old).ok()?;
        let entries = self.index.get(name).map_or(&[][..], Vec::as_slice);
        let compatible = newest(entries, self.rust, |version| requirement.matches(version));
        let pre = old.contains('-');
        let latest = newest(entries, self.rust, |version| pre || version.pre.is_empty());
        let shown = |entry: Option<&Entry>| entry.map_or("-", |it| without_build(&it.text)).to_string();
        let newer = latest.filter(|it| compatible.map_or(true, |other| other.version != it.version));
        let goes =
            if renamed || is_pinned(&requirement) { self.options.pinned } else { self.options.incompatible };
        let new = match newer {
            Some(entry) if goes => {
                raise(old, &requirement, &entry.version).unwrap_or_else(|| shown(Some(entry)))
            }
            _ => compatible
                .and_then(|it| raise(old, &requirement, &it.version))
                .unwrap_or_else(|| old.to_string()),
        };
        Some([key.to_string(), old.to_string(), shown(compatible), shown(newer.or(compatible)), new])
    }
}
