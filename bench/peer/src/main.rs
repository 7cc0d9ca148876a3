//! The main job of `cargo upgrade` as a user would write it over `toml_edit`, `semver` and `serde_json`, to
//! measure the program against: it raises the requirements of manifests by a file of index lines, and prints
//! what it changes.
//!
//! usage: peer [-i] [--pinned] [-n] [--metadata FILE] [MANIFEST ..] INDEX
//!
//! `-i` goes to the newest version, `--pinned` raises pinned requirements too, `-n` writes nothing; FILE has
//! what `cargo metadata` prints, whose packages are upgraded. A manifest is written in place, without a
//! temporary file.

mod index;
mod manifest;
mod requirement;

use manifest::{Options, Upgrade};
use std::error::Error;
use std::fmt::Write;
use toml_edit::Document;

/// What `cargo metadata` prints, as far as it is needed.
#[derive(serde::Deserialize)]
struct Metadata {
    packages: Vec<Package>,
    workspace_root: String,
}

#[derive(serde::Deserialize)]
struct Package {
    manifest_path: String,
}

/// The arguments.
#[derive(Default)]
struct Arguments {
    options: Options,
    dry_run: bool,
    manifests: Vec<String>,
    index: String,
}

/// The manifests of a workspace: its root's, and those of its packages.
fn workspace_manifests(path: &str) -> Result<Vec<String>, Box<dyn Error>> {
    let metadata: Metadata = serde_json::from_slice(&std::fs::read(path)?)?;
    let mut manifests = vec![format!("{}/Cargo.toml", metadata.workspace_root)];
    for package in metadata.packages {
        if package.manifest_path != manifests[0] {
            manifests.push(package.manifest_path);
        }
    }
    Ok(manifests)
}

fn read_arguments() -> Result<Arguments, Box<dyn Error>> {
    let mut arguments = Arguments::default();
    let mut args = std::env::args().skip(1);
    while let Some(arg) = args.next() {
        match arg.as_str() {
            "-i" => arguments.options.incompatible = true,
            "--pinned" => arguments.options.pinned = true,
            "-n" => arguments.dry_run = true,
            "--metadata" => {
                let path = args.next().ok_or("--metadata needs a file")?;
                arguments.manifests.extend(workspace_manifests(&path)?);
            }
            _ => arguments.manifests.push(arg),
        }
    }
    arguments.index = arguments.manifests.pop().ok_or("an index is needed")?;
    Ok(arguments)
}

/// The rows of a manifest that change, in columns.
fn table_text(rows: &[[String; 5]]) -> String {
    let mut widths = [0; 5];
    for row in rows {
        for (width, cell) in widths.iter_mut().zip(row) {
            *width = cell.len().max(*width);
        }
    }
    let mut text = String::new();
    for row in rows {
        for (width, cell) in widths.iter().zip(row) {
            let _ = write!(text, "{cell:width$} ");
        }
        text.push('\n');
    }
    text
}

fn run() -> Result<(), Box<dyn Error>> {
    let arguments = read_arguments()?;
    let index = index::read(&arguments.index)?;
    for path in &arguments.manifests {
        let mut document: Document = std::fs::read_to_string(path)?.parse()?;
        let rows = Upgrade::new(&index, &arguments.options, &document).raise(&mut document);
        print!("{}", table_text(&rows));
        if !rows.is_empty() {
            let text = document.to_string();
            if !arguments.dry_run {
                std::fs::write(path, text)?;
            }
        }
    }
    Ok(())
}

fn main() {
    if let Err(error) = run() {
        eprintln!("Error: {error}");
        std::process::exit(1);
    }
}
