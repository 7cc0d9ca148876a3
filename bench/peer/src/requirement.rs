//! Requirements: raising one to a version, and what pins it.

use semver::{Comparator, Op, Version, VersionReq};

/// A Rust version: major, minor and patch.
pub type RustVersion = (u64, u64, u64);

/// The Rust version that a text has, as `rust-version` spells it.
pub fn rust_version(text: &str) -> Option<RustVersion> {
    let requirement = VersionReq::parse(text).ok()?;
    match requirement.comparators.as_slice() {
        [only] if only.op == Op::Caret && only.pre.is_empty() => {
            Some((only.major, only.minor.unwrap_or(0), only.patch.unwrap_or(0)))
        }
        _ => None,
    }
}

/// Sets a comparator to a version, with as many numbers as it has; false for one with `<` or `>`.
fn set(comparator: &mut Comparator, version: &Version) -> bool {
    if !matches!(comparator.op, Op::Exact | Op::Tilde | Op::Caret | Op::Wildcard) {
        return false;
    }
    comparator.major = version.major;
    comparator.minor = comparator.minor.map(|_| version.minor);
    comparator.patch = comparator.patch.map(|_| version.patch);
    if comparator.op != Op::Wildcard {
        comparator.pre = version.pre.clone();
    }
    true
}

/// The text of a requirement that is raised to a version; none where one of its comparators cannot be.
pub fn raise(text: &str, requirement: &VersionReq, version: &Version) -> Option<String> {
    let mut raised = requirement.clone();
    if !raised.comparators.iter_mut().all(|comparator| set(comparator, version)) {
        return None;
    }
    let mut shown = raised.to_string();
    if shown.starts_with('^') && !text.starts_with('^') {
        shown.remove(0);
    }
    Some(shown)
}

/// Whether a requirement holds its versions back on purpose.
pub fn is_pinned(requirement: &VersionReq) -> bool {
    let pins =
        |comparator: &Comparator| matches!(comparator.op, Op::Exact | Op::Less | Op::LessEq | Op::Wildcard);
    requirement.comparators.iter().any(pins)
}
