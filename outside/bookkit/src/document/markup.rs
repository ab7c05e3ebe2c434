//! Elements of a page.

/// Text that a page shows as it is, in an element and in an attribute.
pub fn escaped(text: &str) -> String {
    let mut safe = String::new();
    for letter in text.chars() {
        match letter {
            '&' => safe.push_str("&amp;"),
            '<' => safe.push_str("&lt;"),
            '>' => safe.push_str("&gt;"),
            '"' => safe.push_str("&quot;"),
            '\'' => safe.push_str("&#39;"),
            _ => safe.push(letter),
        }
    }
    safe
}

/// An element with what is in it, on a line of its own. The attributes and the inside are markup already.
pub fn element(name: &str, attributes: &str, inside: &str) -> String {
    let blank = if attributes.is_empty() { "" } else { " " };
    format!("<{name}{blank}{attributes}>{inside}</{name}>\n")
}

#[cfg(test)]
mod tests {
    use super::escaped;

    #[test]
    fn nothing_of_a_name_is_markup() {
        assert_eq!(escaped("a<b>&\"c'"), "a&lt;b&gt;&amp;&quot;c&#39;");
        assert_eq!(escaped("&lt; \u{fc}"), "&amp;lt; \u{fc}");
    }
}
