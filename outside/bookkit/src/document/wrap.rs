//! Text broken into lines.

/// Lines of at most so many letters, broken at blanks; a word that is longer is broken where the line ends.
pub fn wrapped(text: &str, width: usize) -> Vec<String> {
    let mut lines = vec![String::new()];
    for word in text.split(' ').flat_map(|word| pieces(word, width)) {
        let line = lines.last_mut().expect("there is a first line");
        match line.chars().count() {
            0 => line.push_str(&word),
            used if used + 1 + word.chars().count() <= width => {
                line.push(' ');
                line.push_str(&word);
            }
            _ => lines.push(word),
        }
    }
    lines
}

fn pieces(word: &str, width: usize) -> Vec<String> {
    let letters: Vec<char> = word.chars().collect();
    letters.chunks(width.max(1)).map(|piece| piece.iter().collect()).collect()
}

#[cfg(test)]
mod tests {
    use super::wrapped;

    #[test]
    fn lines_are_as_long_as_they_may_be() {
        assert_eq!(wrapped("the worst loss is here", 9), ["the worst", "loss is", "here"]);
        assert_eq!(wrapped("worst", 5), ["worst"]);
        assert_eq!(wrapped("0123456789 ab", 4), ["0123", "4567", "89", "ab"]);
        assert_eq!(wrapped("\u{e4}\u{f6} \u{fc}\u{df}", 5), ["\u{e4}\u{f6} \u{fc}\u{df}"]);
        assert_eq!(wrapped("", 5), [""]);
    }
}
