//! The inbox as a list for other programs: RFC 4180, lines that end with CR LF, figures as `irdetail` printed them.

use super::{Entry, Told};

const HEADS: [&str; 15] = [
    "name",
    "verdict",
    "refusal",
    "place",
    "why",
    "measure",
    "tolerance",
    "worst scenario",
    "limit",
    "headroom",
    "share of Tier 1 in per cent",
    "Tier 1 capital",
    "records",
    "hints",
    "SHA-256",
];

pub fn list(entries: &[Entry]) -> String {
    let head = HEADS.map(str::to_string);
    [head].into_iter().chain(entries.iter().map(row)).map(|row| line(&row)).collect()
}

/// Empty where there is nothing to tell.
fn row(entry: &Entry) -> [String; HEADS.len()] {
    let mut row: [String; HEADS.len()] = Default::default();
    row[0] = harmless(entry.shown());
    row[1] = entry.group().words().to_string();
    row[4] = entry.why().unwrap_or_default();
    row[14] = entry.read.as_ref().ok().and_then(|assessed| assessed.source.digest()).unwrap_or_default();
    match entry.told() {
        Told::NotRead(_) => {}
        Told::Refused(finding) => {
            row[2] = finding.refused.number.to_string();
            row[3] = finding.refused.place.to_string();
        }
        Told::Figures(figures) => {
            row[5] = figures.measure.to_string();
            row[6] = figures.tolerance.to_string();
            row[7] = figures.worst.to_string();
            row[8] = hundredths(figures.limit);
            row[9] = hundredths(figures.headroom);
            row[10] = hundredths(figures.share);
            row[11] = figures.capital.to_string();
            row[12] = figures.records.to_string();
            row[13] = entry.hints().to_string();
        }
    }
    row
}

/// With a point and no separators.
fn hundredths(figure: i64) -> String {
    crate::figure::with_hundredths(figure).replace(',', "")
}

/// A spreadsheet takes a cell that begins so for a formula. Only a name can: figures stay figures.
fn harmless(name: String) -> String {
    match name.starts_with(['=', '+', '-', '@']) {
        true => format!("'{name}"),
        false => name,
    }
}

fn line(row: &[String]) -> String {
    let cells: Vec<String> = row.iter().map(|cell| quoted(cell)).collect();
    format!("{}\r\n", cells.join(","))
}

fn quoted(cell: &str) -> String {
    match cell.contains([',', '"', '\r', '\n']) {
        true => format!("\"{}\"", cell.replace('"', "\"\"")),
        false => cell.to_string(),
    }
}

#[cfg(test)]
mod tests {
    use super::{harmless, line, quoted};

    #[test]
    fn cells_are_quoted_where_they_must_be() {
        assert_eq!(quoted("end of month"), "end of month");
        assert_eq!(quoted("a,b"), "\"a,b\"");
        assert_eq!(quoted("the \"book\""), "\"the \"\"book\"\"\"");
        assert_eq!(line(&["a".to_string(), String::new(), "b,".to_string()]), "a,,\"b,\"\r\n");
    }

    #[test]
    fn no_name_is_a_formula() {
        for name in ["=1+1.input", "+1.input", "-1.input", "@a.input"] {
            assert_eq!(harmless(name.to_string()), format!("'{name}"));
        }
        assert_eq!(harmless("a=1.input".to_string()), "a=1.input");
    }
}
