//! Whether what `irreport` printed is whole: a program that was cut short may have printed half a line.

/// They are 1 to this.
const CURRENCIES: u8 = 32;

#[derive(Clone, Copy, Debug, PartialEq, Eq)]
pub enum Answer {
    Report,
    Refusal,
}

/// Nothing for what is neither a whole report nor a whole refusal.
pub fn answer(printed: &[u8]) -> Option<Answer> {
    let text = std::str::from_utf8(printed).ok()?.strip_suffix('\n')?;
    let lines: Vec<&str> = text.split('\n').collect();
    match &lines[..] {
        [refusal] if numbers(refusal, "R ") == Some(2) => Some(Answer::Refusal),
        [currencies @ .., sums, measure, verdict] if ends_whole(sums, measure, verdict) => {
            currencies.iter().all(|line| is_currency(line)).then_some(Answer::Report)
        }
        _ => None,
    }
}

fn ends_whole(sums: &str, measure: &str, verdict: &str) -> bool {
    numbers(sums, "S ") == Some(6)
        && numbers(measure, "M ") == Some(3)
        && ["V OVER", "V WITHIN", "V CLOSE"].contains(&verdict)
}

fn is_currency(line: &str) -> bool {
    let parts = line.strip_prefix("C ").and_then(|rest| rest.split_once(' '));
    parts.is_some_and(|(currency, changes)| is_currency_number(currency) && numbers(changes, "") == Some(6))
}

/// As `irreport` writes it: no zero and no sign before it.
fn is_currency_number(word: &str) -> bool {
    word.parse::<u8>().is_ok_and(|number| (1..=CURRENCIES).contains(&number) && number.to_string() == word)
}

/// How many numbers follow these letters, if nothing else does.
fn numbers(line: &str, letters: &str) -> Option<usize> {
    let words: Vec<&str> = line.strip_prefix(letters)?.split(' ').collect();
    words.iter().all(|word| is_number(word)).then_some(words.len())
}

fn is_number(word: &str) -> bool {
    let digits = word.strip_prefix('-').unwrap_or(word);
    !digits.is_empty() && digits.bytes().all(|digit| digit.is_ascii_digit())
}

#[cfg(test)]
mod tests {
    use super::*;

    const WHOLE: &str = "C 1 632121 -1718282 0 0 0 0\nC 32 0 0 0 0 0 -1\nS 632121 0 0 0 0 0\nM 632121 1 2\nV OVER\n";

    #[test]
    fn whole_answers() {
        assert_eq!(answer(WHOLE.as_bytes()), Some(Answer::Report));
        assert_eq!(answer(b"S 0 0 0 0 0 0\nM 0 0 0\nV WITHIN\n"), Some(Answer::Report));
        assert_eq!(answer(b"S 0 0 0 0 0 0\nM 0 0 0\nV CLOSE\n"), Some(Answer::Report));
        assert_eq!(answer(b"R 2 523\n"), Some(Answer::Refusal));
    }

    #[test]
    fn currencies_are_1_to_32_with_nothing_before_the_number() {
        let of =
            |currency: &str| answer(format!("C {currency} 0 0 0 0 0 0\nS 0 0 0 0 0 0\nM 0 0 0\nV WITHIN\n").as_bytes());
        for currency in 1..=32 {
            assert_eq!(of(&currency.to_string()), Some(Answer::Report), "{currency}");
        }
        for currency in
            ["0", "33", "08", "00", "032", "010", "+9", "-9", "99", "100", "256", "265", "3 2", "", " 9", "x"]
        {
            assert_eq!(of(currency), None, "{currency}");
        }
    }

    #[test]
    fn no_part_of_a_whole_one_is_whole() {
        for length in 0..WHOLE.len() {
            assert_eq!(answer(&WHOLE.as_bytes()[..length]), None, "{length} bytes");
        }
        assert_eq!(answer(b"R 2 523"), None);
        assert_eq!(answer(b"R 2 \n"), None);
    }

    #[test]
    fn nothing_else_is_whole() {
        let spoilt = [
            "R 2 523\n\n",
            "\nR 2 523\n",
            "R 2 523\nR 2 523\n",
            "R 2  523\n",
            "R 2 523 \n",
            "R 2 5x\n",
            "R 2 -\n",
            "r 2 523\n",
            "S 0 0 0 0 0\nM 0 0 0\nV WITHIN\n",
            "S 0 0 0 0 0 0\nM 0 0 0 0\nV WITHIN\n",
            "S 0 0 0 0 0 0\nM 0 0 0\nV OVERWITHIN\n",
            "C 1 0 0 0 0 0\nS 0 0 0 0 0 0\nM 0 0 0\nV WITHIN\n",
            "S 0 0 0 0 0 0\nC 1 0 0 0 0 0 0\nM 0 0 0\nV WITHIN\n",
        ];
        for text in spoilt {
            assert_eq!(answer(text.as_bytes()), None, "{text}");
        }
        assert_eq!(answer(b"R 2 \xff\n"), None);
    }
}
