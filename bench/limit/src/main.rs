//! What an upgrade costs at least: each index line is read in one pass that checks all of its JSON and
//! allocates nothing, and each entry has one lookup. It takes only what the generators of bench/ write:
//! index lines whose versions are three numbers, and manifests whose entries stand on a line each, with
//! requirements of one to three numbers.
//!
//! usage: limit [-i] [-n] MANIFEST .. INDEX

mod lines;
mod manifest;
mod scan;
mod version;

use manifest::Manifest;
use std::collections::HashMap;
use std::error::Error;
use std::hash::{BuildHasherDefault, Hasher};
use std::io::Write;

/// The FNV-1a hash.
struct Fnv(u64);

impl Default for Fnv {
    fn default() -> Self {
        Fnv(0xcbf2_9ce4_8422_2325)
    }
}

impl Hasher for Fnv {
    fn finish(&self) -> u64 {
        self.0
    }

    fn write(&mut self, bytes: &[u8]) {
        for byte in bytes {
            self.0 = (self.0 ^ u64::from(*byte)).wrapping_mul(0x0100_0000_01b3);
        }
    }
}

/// The entries of each crate, by their manifest and their number there.
type Groups<'a> = HashMap<&'a [u8], Vec<(usize, usize)>, BuildHasherDefault<Fnv>>;

fn groups<'a>(texts: &'a [Vec<u8>], manifests: &[Manifest]) -> Groups<'a> {
    let mut found = Groups::default();
    for (at, (text, manifest)) in texts.iter().zip(manifests).enumerate() {
        for (number, entry) in manifest.entries.iter().enumerate() {
            found.entry(&text[entry.name.clone()]).or_default().push((at, number));
        }
    }
    found
}

/// Offers each line's version to the entries of its crate.
fn read_index(path: &str, texts: &[Vec<u8>], manifests: &mut [Manifest]) -> Result<(), Box<dyn Error>> {
    let groups = groups(texts, manifests);
    let mut last: (&[u8], &[(usize, usize)]) = (&[], &[]);
    lines::each_block(path, |block| {
        let mut scanner = scan::Scanner::new(block);
        while let Some(line) = scanner.line()? {
            if line.name != last.0 {
                last = groups
                    .get_key_value(line.name)
                    .map_or((&[], &[]), |(name, group)| (*name, group.as_slice()));
            }
            if !line.yanked && !last.1.is_empty() {
                let version = version::numbers(line.vers)?;
                for (manifest, entry) in last.1 {
                    manifests[*manifest].entries[*entry].offer(version);
                }
            }
        }
        Some(())
    })
}

fn main() -> Result<(), Box<dyn Error>> {
    let (options, mut files): (Vec<_>, Vec<_>) =
        std::env::args().skip(1).partition(|arg| arg.starts_with('-'));
    let index = files.pop().ok_or("an index is needed")?;
    let (incompatible, dry_run) = (options.iter().any(|it| it == "-i"), options.iter().any(|it| it == "-n"));
    let texts = files.iter().map(std::fs::read).collect::<Result<Vec<_>, _>>()?;
    let mut manifests: Vec<_> = texts.iter().map(|text| Manifest::read(text)).collect();
    read_index(&index, &texts, &mut manifests)?;
    let mut rows = Vec::new();
    for ((path, text), manifest) in files.iter().zip(&texts).zip(&manifests) {
        let new = manifest.raise(text, incompatible, &mut rows);
        if !dry_run && new != *text {
            std::fs::write(path, new)?;
        }
    }
    std::io::stdout().write_all(&rows)?;
    Ok(())
}
