//! The names of files as they are printed.

use std::ffi::OsStr;
use std::os::unix::ffi::OsStrExt;

/// The name on one line, and no two names the same: a backslash is doubled, and what can end a line or is no text is written as `\n`,
/// `\t`, `\r` or by its bytes, `\xNN`.
pub fn on_one_line(name: &OsStr) -> String {
    let mut text = String::new();
    for chunk in name.as_bytes().utf8_chunks() {
        for char in chunk.valid().chars() {
            if is_plain(char) {
                text.push(char);
            } else {
                text.push_str(&escaped(char));
            }
        }
        text.push_str(&hexadecimal(chunk.invalid()));
    }
    text
}

/// Of what is not plain, the line and paragraph separators alone are no control characters.
fn is_plain(char: char) -> bool {
    !char.is_control() && !matches!(char, '\\' | '\u{2028}' | '\u{2029}')
}

fn escaped(char: char) -> String {
    match char {
        '\\' => "\\\\".to_string(),
        '\n' => "\\n".to_string(),
        '\r' => "\\r".to_string(),
        '\t' => "\\t".to_string(),
        _ => hexadecimal(char.encode_utf8(&mut [0; 4]).as_bytes()),
    }
}

fn hexadecimal(bytes: &[u8]) -> String {
    bytes.iter().map(|byte| format!("\\x{byte:02x}")).collect()
}

#[cfg(test)]
mod tests {
    use super::*;

    #[test]
    fn one_line_each() {
        for (name, text) in [
            (&b"plain name.drf"[..], "plain name.drf"),
            (b"a\nfile b", "a\\nfile b"),
            (b"a\\nfile b", "a\\\\nfile b"),
            (b"\r\t\x1b[2J\x7f", "\\r\\t\\x1b[2J\\x7f"),
            ("\u{85}\u{2028}é".as_bytes(), "\\xc2\\x85\\xe2\\x80\\xa8é"),
            (b"\xff\xc3", "\\xff\\xc3"),
            (b"", ""),
        ] {
            assert_eq!(on_one_line(OsStr::from_bytes(name)), text);
        }
    }
}
