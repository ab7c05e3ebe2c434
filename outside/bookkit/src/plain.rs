//! Words from elsewhere, fit to be printed: a file name and a word of a text may hold anything.

/// A longer word is cut, so that the line that quotes it can be read.
const LONGEST_QUOTE: usize = 80;

/// Bytes as part of one line. What a terminal obeys, what nobody sees and what is no UTF-8 stand there as escapes.
pub fn plain(bytes: &[u8]) -> String {
    let mut text = String::new();
    for chunk in bytes.utf8_chunks() {
        for letter in chunk.valid().chars() {
            if shows_as_itself(letter) {
                text.push(letter);
            } else {
                text.extend(letter.escape_default());
            }
        }
        text.extend(chunk.invalid().iter().map(|byte| format!("\\x{byte:02x}")));
    }
    text
}

/// A word of a text, escaped and in quotes.
pub fn quoted(word: &str) -> String {
    let whole = plain(word.as_bytes());
    match whole.char_indices().nth(LONGEST_QUOTE) {
        None => format!("\"{whole}\""),
        Some((end, _)) => format!("\"{}\"...", &whole[..end]),
    }
}

/// Not so: control characters, letters without width, and those that turn the direction of writing round. Nor the
/// backslash, or an escape could not be told from a name that looks like one.
fn shows_as_itself(letter: char) -> bool {
    let unseen = matches!(letter,
        '\u{ad}' | '\u{61c}' | '\u{200b}'..='\u{200f}' | '\u{2028}'..='\u{202e}' | '\u{2060}'..='\u{206f}'
        | '\u{feff}' | '\u{fff9}'..='\u{fffb}' | '\u{e0000}'..='\u{e0fff}');
    letter != '\\' && !letter.is_control() && !unseen
}

#[cfg(test)]
mod tests {
    use super::{plain, quoted};

    #[test]
    fn what_a_terminal_obeys_is_escaped_and_the_rest_is_not() {
        assert_eq!(plain(b"\x1b[2J\r\n\x07\x7f"), "\\u{1b}[2J\\r\\n\\u{7}\\u{7f}");
        assert_eq!(
            plain("\u{9b}2J\u{85}\u{202e}txt.exe\u{2028}".as_bytes()),
            "\\u{9b}2J\\u{85}\\u{202e}txt.exe\\u{2028}"
        );
        assert_eq!(plain(b"a\xffb\xc3"), "a\\xffb\\xc3");
        for itself in ["Bücher 'März'/वित्त.input", "end of  \"month\"", "月末", "สิ้นเดือน", "-x", ""]
        {
            assert_eq!(plain(itself.as_bytes()), itself);
        }
        assert_ne!(plain(b"\\u{1b}"), plain(b"\x1b"));
    }

    #[test]
    fn a_long_word_is_cut() {
        assert_eq!(quoted("ab"), "\"ab\"");
        assert_eq!(quoted(&"x".repeat(80)).len(), 82);
        assert_eq!(quoted(&"\u{1b}".repeat(1_000)).len(), 85);
    }
}
