//! The benchmark's tables, as text and as Markdown.

use crate::bench::{FULL, Row, Share};
use crate::expand::Names;
use std::fmt::Write;
use std::time::{SystemTime, UNIX_EPOCH};

/// Everything a run of the benchmark measured.
#[derive(Clone, Debug)]
pub struct Results {
    pub checks: Vec<Row>,
    pub terms: Vec<Row>,
    pub doubling: Vec<Row>,
    /// Under each choice of names, in the order of `Names::ALL`.
    pub writers: [Vec<Row>; 2],
    pub readers: Vec<Row>,
}

const MISSING: &str = "The proved library was not there: Rust alone.";

impl Results {
    fn has_proved(&self) -> bool {
        self.checks.iter().any(|row| row.proved.is_some())
    }

    /// The rows of the writers, each with its choice: first the one that all were before Req 06.
    fn writers(&self) -> impl Iterator<Item = (Names, &Vec<Row>)> {
        Names::ALL.into_iter().zip(&self.writers).rev()
    }

    /// The files in which REFL walks.
    fn walked(&self) -> Vec<Row> {
        self.checks.iter().filter(|row| row.pairs > 0).cloned().collect()
    }

    /// The page for docs/.
    pub fn markdown(&self) -> String {
        let mut page = String::from("# Benchmark\n\n");
        let _ = writeln!(
            page,
            "{}, {}. Written by `cargo run --release -- bench --write DIR` in `compare/`.",
            today(),
            machine()
        );
        if self.has_proved() {
            let ratios: Vec<f64> = self.checks.iter().filter_map(Row::ratio).collect();
            let (least, most) = range(&ratios).unwrap_or_default();
            let _ = writeln!(
                page,
                "\nThe proved check takes {least:.2} to {most:.2} times as long as the Rust checker."
            );
            for line in self.findings() {
                let _ = writeln!(page, "{line}");
            }
        } else {
            let _ = writeln!(page, "\n{MISSING}");
        }
        page.push_str(
            "\nSame run, same input, both built for release; the area is cleared before each call, and \
             that is not timed. Each time is the median of many calls, the two checkers in turn. \"Copy\" is \
             the time to copy the file's bytes: no checker can be faster than that.\n\n\
             ![time for each file, time a step, and time for each text](benchmark.svg)\n\n## Checking\n\n",
        );
        page.push_str(&table(&self.checks, Share::Step, "copy µs", true));
        page.push_str(
            "\n## Time a pair\n\nFiles in which REFL walks whole terms: the pairs of all its walks, and nanoseconds of the whole check a pair.\n\n",
        );
        page.push_str(&share_table(&self.walked(), Share::Pair, true));
        page.push_str(
            "\n## Time a term as terms double\n\nA term on the one before it again and again, and a CONG step for each; nanoseconds of the whole check a term.\n\n",
        );
        page.push_str(&share_table(&self.terms, Share::Term, true));
        page.push_str(
            "\n## Time a step as steps double\n\nExpansions of the same kind, nanoseconds of the whole check a step.\n\n",
        );
        page.push_str(&share_table(&self.doubling, Share::Step, true));
        page.push_str(
            "\n## Writing\n\nThe largest jobs with files of these sizes, the same as before Req 06: their lets list every variable \
             that a quantifier binds, so no name is kept under either choice; and a rule of quantifiers over different variables and one of choices (Req 07), whose names are all kept or all renamed. \
             \"Clear\" is the time to clear the three areas.\n",
        );
        for (names, rows) in self.writers() {
            let _ = writeln!(page, "\n### With {names}\n");
            page.push_str(&table(rows, Share::Step, "clear µs", true));
        }
        page.push_str("\n## Reading\n\nTexts of these sizes, with the terms of their jobs; \"clear\" as above.\n\n");
        page.push_str(&table(&self.readers, Share::Term, "clear µs", true));
        page.push_str(include_str!("bench_notes.md"));
        page
    }

    /// The same for a terminal.
    pub fn text(&self) -> String {
        let mut text = String::new();
        if !self.has_proved() {
            let _ = writeln!(text, "{MISSING}");
        }
        text.push_str(&table(&self.checks, Share::Step, "copy µs", false));
        text.push('\n');
        text.push_str(&share_table(&self.walked(), Share::Pair, false));
        text.push('\n');
        text.push_str(&share_table(&self.terms, Share::Term, false));
        text.push('\n');
        text.push_str(&share_table(&self.doubling, Share::Step, false));
        for (names, rows) in self.writers() {
            let _ = writeln!(text, "\nwith {names}:");
            text.push_str(&table(rows, Share::Step, "clear µs", false));
        }
        text.push('\n');
        text.push_str(&table(&self.readers, Share::Term, "clear µs", false));
        for line in self.findings() {
            let _ = writeln!(text, "{line}");
        }
        text
    }

    /// What the run shows, where the proved library was there.
    fn findings(&self) -> Vec<String> {
        let mut lines = Vec::new();
        let writers =
            self.writers().map(|(names, rows)| (rows, "writer", format!(" with {names}")));
        for (rows, name, choice) in writers.chain([(&self.readers, "reader", String::new())]) {
            let ratios: Vec<f64> = rows.iter().filter_map(Row::ratio).collect();
            if let Some((least, most)) = range(&ratios) {
                lines.push(format!(
                    "The proved {name} takes {least:.2} to {most:.2} times as long as the Rust {name}{choice}."
                ));
            }
        }
        for (share, rows, unit) in
            [(Share::Term, &self.terms, "term"), (Share::Step, &self.doubling, "step")]
        {
            let times: Vec<f64> =
                rows.iter().filter_map(|row| Some(share.of(row, row.proved?))).collect();
            if let Some((least, most)) = range(&times) {
                lines.push(format!(
                    "The time a {unit} stays within {:.2} times from 64 to 1,024 {unit}s.",
                    most / least
                ));
            }
        }
        // The texts by their size; the deep one is another kind.
        let sizes = self.readers.iter().filter(|row| row.name.ends_with("KB"));
        let times: Vec<f64> =
            sizes.filter_map(|row| Some(row.proved? / row.bytes as f64)).collect();
        if let Some((least, most)) = range(&times) {
            lines.push(format!(
                "The time a byte of text stays within {:.2} times from 1 to 58 KB.",
                most / least
            ));
        }
        let full = self.checks.iter().find(|row| row.name == FULL);
        if let Some(copies) = full.and_then(Row::copies) {
            lines.push(format!("A full file is checked in the time of {copies:.0} copies of it."));
        }
        lines
    }
}

fn range(values: &[f64]) -> Option<(f64, f64)> {
    let least = values.iter().copied().reduce(f64::min)?;
    let most = values.iter().copied().reduce(f64::max)?;
    Some((least, most))
}

fn unit(share: Share) -> &'static str {
    match share {
        Share::Term => "terms",
        Share::Step => "steps",
        Share::Pair => "pairs",
    }
}

/// A row has its terms or its steps, as `share` says, and the `floor` of its time.
fn table(rows: &[Row], share: Share, floor: &str, markdown: bool) -> String {
    let proved = rows.iter().any(|row| row.proved.is_some());
    let first = if share == Share::Term { "text" } else { "file" };
    let mut head = vec![first, "bytes", unit(share), floor];
    head.extend(if proved { vec!["proved µs", "Rust µs", "ratio"] } else { vec!["Rust µs"] });
    let body = rows.iter().map(|row| {
        let mut cells = vec![
            row.name.clone(),
            thousands(row.bytes),
            thousands(share.count(row) as usize),
            number(row.copy),
        ];
        if let (Some(time), Some(ratio)) = (row.proved, row.ratio()) {
            cells.extend([number(time), number(row.rust), format!("{ratio:.2}")]);
        } else {
            cells.push(number(row.rust));
        }
        cells
    });
    layout(&head, body.collect(), markdown)
}

fn share_table(rows: &[Row], share: Share, markdown: bool) -> String {
    let proved = rows.iter().any(|row| row.proved.is_some());
    let first = if share == Share::Pair { "file" } else { "up to" };
    let mut head = vec![first, unit(share), "bytes"];
    head.extend(if proved { vec!["proved ns", "Rust ns", "ratio"] } else { vec!["Rust ns"] });
    let body = rows.iter().map(|row| {
        let count = share.count(row) as usize;
        let mut cells = vec![row.name.clone(), thousands(count), thousands(row.bytes)];
        if let (Some(time), Some(ratio)) = (row.proved, row.ratio()) {
            cells.extend([
                number(share.of(row, time)),
                number(share.of(row, row.rust)),
                format!("{ratio:.2}"),
            ]);
        } else {
            cells.push(number(share.of(row, row.rust)));
        }
        cells
    });
    layout(&head, body.collect(), markdown)
}

/// Columns of equal width, the first to the left and the others to the right.
fn layout(head: &[&str], body: Vec<Vec<String>>, markdown: bool) -> String {
    let width = |column: usize| {
        let cells = body.iter().map(|row| row[column].chars().count());
        cells.chain([head[column].chars().count()]).max().unwrap_or(0)
    };
    let widths: Vec<usize> = (0..head.len()).map(width).collect();
    let line = |cells: Vec<&str>| {
        let padded: Vec<String> = cells
            .iter()
            .zip(&widths)
            .enumerate()
            .map(|(column, (cell, &width))| match column {
                0 => format!("{cell:<width$}"),
                _ => format!("{cell:>width$}"),
            })
            .collect();
        if markdown {
            format!("| {} |\n", padded.join(" | "))
        } else {
            format!("{}\n", padded.join("  "))
        }
    };
    let mut text = line(head.to_vec());
    if markdown {
        let rule: Vec<String> = widths
            .iter()
            .enumerate()
            .map(|(column, &width)| match column {
                0 => "-".repeat(width),
                _ => "-".repeat(width - 1) + ":",
            })
            .collect();
        text.push_str(&line(rule.iter().map(String::as_str).collect()));
    }
    for row in &body {
        text.push_str(&line(row.iter().map(String::as_str).collect()));
    }
    text
}

/// Three significant digits or whole numbers.
pub fn number(value: f64) -> String {
    match value {
        ..0.1 => format!("{value:.3}"),
        ..10.0 => format!("{value:.2}"),
        ..100.0 => format!("{value:.1}"),
        _ => thousands(value.round() as usize),
    }
}

pub fn thousands(value: usize) -> String {
    let digits = value.to_string();
    let mut text = String::new();
    for (place, digit) in digits.chars().enumerate() {
        if place > 0 && (digits.len() - place).is_multiple_of(3) {
            text.push(',');
        }
        text.push(digit);
    }
    text
}

/// The date in UTC, as year-month-day.
pub fn today() -> String {
    let seconds = SystemTime::now().duration_since(UNIX_EPOCH).map_or(0, |time| time.as_secs());
    date((seconds / 86_400) as i64)
}

/// The date so many days after 1970-01-01 (Hinnant's algorithm).
fn date(days: i64) -> String {
    let days = days + 719_468;
    let era = days.div_euclid(146_097);
    let day_of_era = days.rem_euclid(146_097);
    let year_of_era =
        (day_of_era - day_of_era / 1_460 + day_of_era / 36_524 - day_of_era / 146_096) / 365;
    let day_of_year = day_of_era - (365 * year_of_era + year_of_era / 4 - year_of_era / 100);
    let month_from_march = (5 * day_of_year + 2) / 153;
    let day = day_of_year - (153 * month_from_march + 2) / 5 + 1;
    let month = if month_from_march < 10 { month_from_march + 3 } else { month_from_march - 9 };
    let year = year_of_era + 400 * era + i64::from(month <= 2);
    format!("{year}-{month:02}-{day:02}")
}

/// The processor's name, where the system tells.
fn machine() -> String {
    let text = std::fs::read_to_string("/proc/cpuinfo").unwrap_or_default();
    let name = text.lines().find_map(|line| line.strip_prefix("model name")?.split_once(':'));
    name.map_or("an unnamed processor".into(), |(_, name)| name.trim().to_string())
}

#[cfg(test)]
mod tests {
    use super::*;

    #[test]
    fn dates() {
        assert_eq!(date(0), "1970-01-01");
        assert_eq!(date(19_782), "2024-02-29");
        assert_eq!(date(20_088), "2024-12-31");
        assert_eq!(date(20_089), "2025-01-01");
    }

    #[test]
    fn numbers() {
        assert_eq!(thousands(0), "0");
        assert_eq!(thousands(58_148), "58,148");
        assert_eq!(thousands(1_000_000), "1,000,000");
        assert_eq!(number(0.0123), "0.012");
        assert_eq!(number(3.456), "3.46");
        assert_eq!(number(1234.5), "1,235");
    }

    fn row(proved: Option<f64>) -> Row {
        let (name, copy, rust) = ("a".into(), 0.05, 2.0);
        Row { name, bytes: 1024, terms: 2, steps: 4, pairs: 0, copy, proved, rust }
    }

    /// Writers have a table for each choice of names; texts one of their own, with the ratio, a
    /// line of what it shows, and bars.
    #[test]
    fn texts_are_shown() {
        let text = |name: &str, proved| Row { name: name.into(), ..row(Some(proved)) };
        let readers = vec![text("text, 1 KB", 1.0), text("text, 58 KB", 1.5), text("deep", 3.0)];
        let rows = || vec![row(Some(3.0)), row(Some(3.0))];
        let (checks, terms, doubling) = (rows(), rows(), rows());
        let writers = [rows(), vec![text("renamed", 5.0)]];
        let results = Results { checks, terms, doubling, writers, readers };
        for page in [results.markdown(), results.text()] {
            for line in [
                "The proved writer takes 1.50 to 1.50 times as long as the Rust writer with names kept.\n",
                "The proved writer takes 2.50 to 2.50 times as long as the Rust writer with all renamed.\n",
                "The proved reader takes 0.50 to 1.50 times as long as the Rust reader.\n",
                "The time a byte of text stays within 1.50 times from 1 to 58 KB.\n",
            ] {
                assert!(page.contains(line), "{page}");
            }
        }
        let page = results.markdown();
        let (_, renamed) = page.split_once("\n### With all renamed\n").unwrap();
        let (renamed, kept) = renamed.split_once("\n### With names kept\n").unwrap();
        assert!(renamed.contains("| renamed |") && !kept.contains("| renamed |"), "{page}");
        let (_, reading) = page.split_once("\n## Reading\n").unwrap();
        assert!(reading.contains("| text, 58 KB | 1,024 |     2 |"), "{reading}");
        assert!(reading.contains("|  0.75 |\n"), "{reading}");
        let picture = crate::plot::svg(&results);
        assert!(picture.contains("Time to read a text") && picture.contains("text, 58 KB"));
    }

    #[test]
    fn tables_with_and_without_the_library() {
        let alone = table(&[row(None)], Share::Step, "copy µs", true);
        assert!(alone.starts_with("| file | bytes | steps | copy µs | Rust µs |\n"));
        let both = table(&[row(Some(3.0))], Share::Step, "copy µs", true);
        assert!(both.contains("| ratio |\n") && both.contains("|  1.50 |\n"), "{both}");
    }
}
