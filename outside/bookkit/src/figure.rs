//! Figures as people read them. The digits are those that `irdetail` printed: points and separators come between them,
//! and nothing is rounded.

/// With a comma before every three digits.
pub fn grouped(number: i64) -> String {
    pointed(number, 0)
}

/// The same with so many of the digits after a point.
pub fn pointed(number: i64, places: usize) -> String {
    let digits = format!("{:0width$}", number.unsigned_abs(), width = places + 1);
    let (whole, part) = digits.split_at(digits.len() - places);
    let sign = if number < 0 { "-" } else { "" };
    let point = if places == 0 { "" } else { "." };
    format!("{sign}{}{point}{part}", with_commas(whole))
}

/// Digits with the commas: capital that is refused may be beyond any figure.
pub fn with_commas(digits: &str) -> String {
    let mut text = String::new();
    for (index, digit) in digits.chars().enumerate() {
        if index > 0 && (digits.len() - index) % 3 == 0 {
            text.push(',');
        }
        text.push(digit);
    }
    text
}

/// Rates are printed in millionths and read in per cent.
pub fn per_cent(millionths: i64) -> String {
    pointed(millionths, 4)
}

/// Limit, headroom and share are printed with two places after the point.
pub fn with_hundredths(hundredths: i64) -> String {
    pointed(hundredths, 2)
}

#[cfg(test)]
mod tests {
    use super::{grouped, per_cent, with_hundredths};

    #[test]
    fn digits_stay_and_separators_come_between() {
        let written = [0, 7, -7, 999, 1_000, -1_000, 123_456, 1_632_120_559, i64::MIN].map(grouped);
        let due = ["0", "7", "-7", "999", "1,000", "-1,000", "123,456", "1,632,120,559", "-9,223,372,036,854,775,808"];
        assert_eq!(written, due);
    }

    #[test]
    fn points_stand_where_the_scale_says() {
        let rates = [0, 1, -1, 31_000, -6_500, 300_000].map(per_cent);
        assert_eq!(rates, ["0.0000", "0.0001", "-0.0001", "3.1000", "-0.6500", "30.0000"]);
        let money = [0, 5, -5, -100, 300_000, 63_211_890].map(with_hundredths);
        assert_eq!(money, ["0.00", "0.05", "-0.05", "-1.00", "3,000.00", "632,118.90"]);
    }
}
