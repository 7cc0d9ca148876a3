//! A file of index lines, read into the entries of each crate.

use crate::requirement::{rust_version, RustVersion};
use semver::Version;
use std::collections::HashMap;
use std::error::Error;

/// The entries of each crate.
pub type Index = HashMap<String, Vec<Entry>>;

#[derive(serde::Deserialize)]
struct Line {
    name: String,
    vers: String,
    #[serde(default)]
    yanked: bool,
    #[serde(default)]
    rust_version: Option<String>,
}

/// A version of a crate.
pub struct Entry {
    pub version: Version,
    /// The version as the line spells it.
    pub text: String,
    yanked: bool,
    rust: Option<RustVersion>,
}

/// Reads a file of lines; lines whose version is none are left out.
pub fn read(path: &str) -> Result<Index, Box<dyn Error>> {
    let text = std::fs::read_to_string(path)?;
    let mut index = Index::new();
    for line in text.lines().filter(|line| !line.trim().is_empty()) {
        let line: Line = serde_json::from_str(line)?;
        if let Ok(version) = Version::parse(&line.vers) {
            let rust = line.rust_version.as_deref().and_then(rust_version);
            index.entry(line.name).or_default().push(Entry {
                version,
                text: line.vers,
                yanked: line.yanked,
                rust,
            });
        }
    }
    Ok(index)
}

/// The greatest version that is not yanked, that a Rust version allows, and that is admitted.
pub fn newest<'a>(
    entries: &'a [Entry],
    rust: Option<RustVersion>,
    admits: impl Fn(&Version) -> bool,
) -> Option<&'a Entry> {
    let allowed = |entry: &&Entry| match (rust, entry.rust) {
        (Some(own), Some(least)) => least <= own,
        _ => true,
    };
    entries
        .iter()
        .filter(|entry| !entry.yanked && admits(&entry.version))
        .filter(allowed)
        .max_by(|one, other| one.version.cmp(&other.version))
}
