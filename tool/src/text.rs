//! Names and paths, which are bytes, as text for a terminal and for JSON; rules, counts, dates and ages as text.
use serde::Serialize;
use xdvdfs_tables::{Rule, Stamp};

/// For a terminal: printable characters as they are, a backslash doubled, every other byte as \xNN. No two runs of bytes look alike.
pub fn shown(bytes: &[u8]) -> String {
    let mut text = String::with_capacity(bytes.len());
    let mut rest = bytes;
    while !rest.is_empty() {
        let (valid, bad) = match std::str::from_utf8(rest) {
            Ok(valid) => (valid, 0),
            Err(e) => {
                let (valid, after) = rest.split_at(e.valid_up_to());
                // valid by the error's own word; were it not, its bytes would be escaped below with the bad ones
                (std::str::from_utf8(valid).unwrap_or(""), e.error_len().unwrap_or(after.len()))
            }
        };
        for c in valid.chars() {
            if c == '\\' {
                text.push_str("\\\\");
            } else if is_printable(c) {
                text.push(c);
            } else {
                escape(c.encode_utf8(&mut [0; 4]).as_bytes(), &mut text);
            }
        }
        let (_, after) = rest.split_at(valid.len());
        let (broken, after) = after.split_at(bad);
        escape(broken, &mut text);
        rest = after;
    }
    text
}

/// Neither a control character nor one that turns, joins or hides what stands beside it.
fn is_printable(c: char) -> bool {
    if c.is_ascii() {
        return !c.is_ascii_control();
    }
    c.escape_debug().count() == 1
}

fn escape(bytes: &[u8], text: &mut String) {
    for b in bytes {
        text.push_str(&format!("\\x{b:02x}"));
    }
}

pub fn hex(bytes: &[u8]) -> String {
    bytes.iter().map(|b| format!("{b:02x}")).collect()
}

/// The bytes as a string where they are UTF-8.
pub fn exact(bytes: &[u8]) -> Option<String> {
    std::str::from_utf8(bytes).ok().map(str::to_owned)
}

/// A name in JSON: as a string where its bytes are UTF-8, else null; and its bytes in hex.
#[derive(Clone, Debug, Serialize)]
pub struct JsonName {
    pub name: Option<String>,
    pub name_hex: String,
}

impl JsonName {
    pub fn of(bytes: &[u8]) -> JsonName {
        JsonName { name: exact(bytes), name_hex: hex(bytes) }
    }
}

/// A path in JSON, in the same way.
#[derive(Clone, Debug, Serialize)]
pub struct JsonPath {
    pub path: Option<String>,
    pub path_hex: String,
}

impl JsonPath {
    pub fn of(bytes: &[u8]) -> JsonPath {
        JsonPath { path: exact(bytes), path_hex: hex(bytes) }
    }
}

/// A stamp in JSON: a string of digits, since many readers round numbers above 2^53; and its date, null where there is none.
#[derive(Clone, Debug, Serialize)]
pub struct JsonDate {
    pub stamp: String,
    pub date: Option<String>,
}

impl JsonDate {
    pub fn of(stamp: Stamp) -> JsonDate {
        JsonDate { stamp: stamp.0.to_string(), date: stamp.date().map(|date| date.to_string()) }
    }
}

/// A rule as refusals and findings name it.
pub fn rule_name(rule: Rule) -> &'static str {
    match rule {
        Rule::One => "rule one",
        Rule::Two => "rule two",
    }
}

/// `1 entry`, `2 entries`.
pub fn counted(n: u64, one: &str, many: &str) -> String {
    format!("{n} {}", if n == 1 { one } else { many })
}

/// The date with its stamp, or that there is none.
pub fn shown_date(stamp: Stamp) -> String {
    match stamp.date() {
        Some(date) => format!("{date} (stamp {})", stamp.0),
        None => stamp.to_string(),
    }
}

/// An age of so many units of 100 ns in days, hours, minutes and seconds, like `29d 12h`; those of which there are none are left out. A fraction of a second has seven digits.
pub fn shown_age(units: u64) -> String {
    let (seconds, fraction) = (units / 10_000_000, units % 10_000_000);
    let mut parts: Vec<String> = [(seconds / 86_400, "d"), (seconds / 3600 % 24, "h"), (seconds / 60 % 60, "m")]
        .iter()
        .filter(|(number, _)| *number != 0)
        .map(|(number, unit)| format!("{number}{unit}"))
        .collect();
    match (seconds % 60, fraction) {
        (0, 0) if !parts.is_empty() => {}
        (second, 0) => parts.push(format!("{second}s")),
        (second, fraction) => parts.push(format!("{second}.{fraction:07}s")),
    }
    parts.join(" ")
}

#[cfg(test)]
mod tests {
    use super::*;

    #[test]
    fn names_are_shown_safely() {
        assert_eq!(shown(b"plain name.xbe"), "plain name.xbe");
        assert_eq!(shown(b"a\\x1b"), "a\\\\x1b");
        assert_eq!(shown(b"\x1b[31mred\x07\n\t\0\x7f"), "\\x1b[31mred\\x07\\x0a\\x09\\x00\\x7f");
        assert_eq!(shown("café €".as_bytes()), "café €");
        assert_eq!(shown(b"caf\xe9"), "caf\\xe9");
        assert_eq!(shown(b"\xff\xfea\xc3"), "\\xff\\xfea\\xc3");
        assert_eq!(shown("\u{202e}gpj.exe".as_bytes()), "\\xe2\\x80\\xaegpj.exe");
        assert_eq!(shown("\u{9b}31m".as_bytes()), "\\xc2\\x9b31m");
        assert_eq!(shown(b""), "");
    }

    #[test]
    fn ages() {
        const SECOND: u64 = 10_000_000;
        for (units, text) in [
            (0, "0s"),
            (1, "0.0000001s"),
            (SECOND - 1, "0.9999999s"),
            (SECOND, "1s"),
            (59 * SECOND, "59s"),
            (60 * SECOND, "1m"),
            (61 * SECOND + 5, "1m 1.0000005s"),
            (3599 * SECOND, "59m 59s"),
            (3600 * SECOND, "1h"),
            (86_399 * SECOND, "23h 59m 59s"),
            (86_400 * SECOND, "1d"),
            (86_400 * SECOND + 1, "1d 0.0000001s"),
            (30 * 86_400 * SECOND + 12 * 3600 * SECOND, "30d 12h"),
            (u64::MAX, "21350398d 5h 36m 10.9551615s"),
        ] {
            assert_eq!(shown_age(units), text);
        }
    }

    #[test]
    fn shown_names_are_told_apart() {
        let mut seen = std::collections::HashMap::new();
        for a in 0..=255u8 {
            for b in 0..=255u8 {
                let name = [a, b];
                assert_eq!(seen.insert(shown(&name), name), None, "{name:?}");
            }
        }
    }
}
