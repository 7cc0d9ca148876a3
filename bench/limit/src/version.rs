//! Versions and requirements of numbers alone.

/// Major, minor and patch.
pub type Version = [u64; 3];

/// The number at the front of a text, and what follows it.
fn number(text: &[u8]) -> Option<(u64, &[u8])> {
    let count = text.iter().take_while(|byte| byte.is_ascii_digit()).count();
    let digits = text.get(..count).filter(|digits| (1..20).contains(&digits.len()))?;
    let value = digits
        .iter()
        .fold(0_u64, |value, digit| value.wrapping_mul(10).wrapping_add(u64::from(digit - b'0')));
    Some((value, &text[count..]))
}

/// The numbers of a text with points between them, and how many they are, at most three.
pub fn parts(text: &[u8]) -> Option<(Version, usize)> {
    let (mut found, mut rest) = ([0; 3], text);
    for at in 0..3 {
        (found[at], rest) = number(rest)?;
        match rest {
            [] => return Some((found, at + 1)),
            [b'.', more @ ..] => rest = more,
            _ => return None,
        }
    }
    None
}

/// A version of three numbers.
pub fn numbers(text: &[u8]) -> Option<Version> {
    parts(text).filter(|(_, count)| *count == 3).map(|(version, _)| version)
}

/// Whether a caret requirement of so many numbers admits a version.
pub fn admits(least: &Version, count: usize, version: &Version) -> bool {
    let zeros = least.iter().take_while(|number| **number == 0).count();
    let fixed = (zeros + 1).min(count);
    version >= least && version[..fixed] == least[..fixed]
}
