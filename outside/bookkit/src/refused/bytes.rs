//! Bytes in hexadecimal, with some around them.

use std::ops::Range;

/// Around what is at fault, so many on each side.
const AROUND: usize = 8;
/// Of what is at fault, no more than so many.
const MOST: usize = 16;

/// The bytes of a range in brackets, and some before and after them.
pub fn shown(bytes: &[u8], range: Range<usize>) -> String {
    let (start, end) = (range.start.min(bytes.len()), range.end.min(bytes.len()));
    let seen = end.min(start + MOST);
    let cut = if seen < end { " .." } else { "" };
    let before = &bytes[start.saturating_sub(AROUND)..start];
    let after = if seen < end { &[] } else { &bytes[end..bytes.len().min(end + AROUND)] };
    let parts = [digits(before), format!("[{}{cut}]", digits(&bytes[start..seen])), digits(after)];
    parts.iter().filter(|part| !part.is_empty()).cloned().collect::<Vec<String>>().join(" ")
}

fn digits(bytes: &[u8]) -> String {
    let digits: Vec<String> = bytes.iter().map(|byte| format!("{byte:02x}")).collect();
    digits.join(" ")
}

#[cfg(test)]
mod tests {
    use super::shown;

    #[test]
    fn what_is_at_fault_stands_in_brackets() {
        let bytes: Vec<u8> = (0..40).collect();
        assert_eq!(shown(&bytes, 10..12), "02 03 04 05 06 07 08 09 [0a 0b] 0c 0d 0e 0f 10 11 12 13");
        assert_eq!(shown(&bytes, 0..1), "[00] 01 02 03 04 05 06 07 08");
        assert_eq!(shown(&bytes, 39..40), "1f 20 21 22 23 24 25 26 [27]");
        assert_eq!(shown(&bytes, 1..40), "00 [01 02 03 04 05 06 07 08 09 0a 0b 0c 0d 0e 0f 10 ..]");
        assert_eq!(shown(&bytes[..2], 2..4), "00 01 []");
    }
}
