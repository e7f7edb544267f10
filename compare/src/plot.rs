//! The benchmark as a picture: bars for each file and each text, lines for the time a step.
//! Both scales are logarithmic in time.

use crate::bench::{Row, Share};
use crate::report::{Results, number, thousands};
use std::fmt::Write;

const WIDTH: f64 = 1770.0;
const HEIGHT: f64 = 470.0;
const TOP: f64 = 70.0;
const BOTTOM: f64 = 350.0;

const PROVED: &str = "#1f5fa8";
const RUST: &str = "#c8581c";
const COPY: &str = "#8a8a8a";
const INK: &str = "#222222";
const GRID: &str = "#dddddd";

/// A scale from values to places, by powers of ten.
struct Scale {
    least: f64,
    most: f64,
    from: f64,
    to: f64,
}

impl Scale {
    fn over(values: impl Iterator<Item = f64>, from: f64, to: f64) -> Self {
        let (least, most) = values
            .fold((f64::MAX, f64::MIN), |(least, most), value| (least.min(value), most.max(value)));
        Scale {
            least: 10f64.powf(least.log10().floor()),
            most: 10f64.powf(most.log10().ceil()),
            from,
            to,
        }
    }

    fn place(&self, value: f64) -> f64 {
        let share = (value / self.least).log10() / (self.most / self.least).log10();
        self.from + share * (self.to - self.from)
    }

    /// The powers of ten in it.
    fn ticks(&self) -> Vec<f64> {
        let (first, last) = (self.least.log10().round() as i32, self.most.log10().round() as i32);
        (first..=last).map(|power| 10f64.powi(power)).collect()
    }
}

pub fn svg(results: &Results) -> String {
    let mut picture = Picture { svg: String::new() };
    let _ = write!(
        picture.svg,
        "<svg xmlns=\"http://www.w3.org/2000/svg\" viewBox=\"0 0 {WIDTH} {HEIGHT}\" \
         font-family=\"system-ui, sans-serif\" font-size=\"12\" fill=\"{INK}\">\n\
         <rect width=\"{WIDTH}\" height=\"{HEIGHT}\" fill=\"#ffffff\"/>\n"
    );
    let proved = results.checks.iter().any(|row| row.proved.is_some());
    picture.legend(proved);
    picture.bars("Time to check a file", &results.checks, 70.0, 990.0);
    picture.lines(&results.doubling, 1080.0, 1365.0);
    picture.bars("Time to read a text", &results.readers, 1455.0, 1745.0);
    picture.svg.push_str("</svg>\n");
    picture.svg
}

struct Picture {
    svg: String,
}

impl Picture {
    fn text(&mut self, x: f64, y: f64, anchor: &str, more: &str, text: &str) {
        let text = text.replace('&', "&amp;").replace('<', "&lt;");
        let _ = writeln!(
            self.svg,
            "<text x=\"{x:.1}\" y=\"{y:.1}\" text-anchor=\"{anchor}\" {more}>{text}</text>"
        );
    }

    fn line(&mut self, from: (f64, f64), to: (f64, f64), colour: &str, width: f64) {
        let _ = writeln!(
            self.svg,
            "<line x1=\"{:.1}\" y1=\"{:.1}\" x2=\"{:.1}\" y2=\"{:.1}\" stroke=\"{colour}\" stroke-width=\"{width}\"/>",
            from.0, from.1, to.0, to.1
        );
    }

    fn rect(&mut self, x: f64, y: f64, width: f64, height: f64, colour: &str) {
        let _ = writeln!(
            self.svg,
            "<rect x=\"{x:.1}\" y=\"{y:.1}\" width=\"{width:.1}\" height=\"{height:.1}\" fill=\"{colour}\"/>"
        );
    }

    fn legend(&mut self, proved: bool) {
        let mut x = 70.0;
        for (name, colour) in [("proved", PROVED), ("Rust", RUST), ("copy; for texts: clear", COPY)]
        {
            if name == "proved" && !proved {
                continue;
            }
            self.rect(x, 14.0, 12.0, 12.0, colour);
            self.text(x + 18.0, 24.5, "start", "", name);
            x += 90.0;
        }
    }

    fn frame(&mut self, title: &str, left: f64, right: f64, scale: &Scale, unit: &str) {
        self.text(left, 52.0, "start", "font-weight=\"600\" font-size=\"14\"", title);
        for tick in scale.ticks() {
            let y = scale.place(tick);
            self.line((left, y), (right, y), GRID, 1.0);
            let label = if tick < 1.0 { format!("{tick}") } else { thousands(tick as usize) };
            self.text(left - 6.0, y + 4.0, "end", "", &format!("{label} {unit}"));
        }
        self.line((left, BOTTOM), (right, BOTTOM), INK, 1.0);
    }

    /// A group of bars for each file or text.
    fn bars(&mut self, title: &str, rows: &[Row], left: f64, right: f64) {
        let times =
            rows.iter().flat_map(|row| [Some(row.copy), row.proved, Some(row.rust)]).flatten();
        let scale = Scale::over(times, BOTTOM, TOP);
        self.frame(title, left, right, &scale, "µs");
        let group = (right - left) / rows.len() as f64;
        for (index, row) in rows.iter().enumerate() {
            let bars: Vec<(f64, &str)> = [
                row.proved.map(|time| (time, PROVED)),
                Some((row.rust, RUST)),
                Some((row.copy, COPY)),
            ]
            .into_iter()
            .flatten()
            .collect();
            let start = left + group * index as f64;
            let width = group * 0.8 / bars.len() as f64;
            for (place, &(time, colour)) in bars.iter().enumerate() {
                let x = start + group * 0.1 + width * place as f64;
                let y = scale.place(time);
                self.rect(x, y, width - 1.5, BOTTOM - y, colour);
                self.text(
                    x + width / 2.0 - 0.75,
                    y - 3.0,
                    "middle",
                    "font-size=\"8.5\"",
                    &number(time),
                );
            }
            let (x, y) = (start + group / 2.0 + 4.0, BOTTOM + 14.0);
            let turned = format!("transform=\"rotate(-30 {x:.1} {y:.1})\"");
            self.text(x, y, "end", &turned, &row.name);
        }
    }

    /// Time a step against steps.
    fn lines(&mut self, rows: &[Row], left: f64, right: f64) {
        let of = |row: &Row, time: f64| Share::Step.of(row, time);
        let times = rows
            .iter()
            .flat_map(|row| [row.proved.map(|time| of(row, time)), Some(of(row, row.rust))])
            .flatten();
        let scale = Scale::over(times, BOTTOM, TOP);
        self.frame("Time a step as steps double", left, right, &scale, "ns");
        let x = |index: usize| {
            left + 20.0 + (right - left - 40.0) * index as f64 / (rows.len() - 1).max(1) as f64
        };
        for (index, row) in rows.iter().enumerate() {
            self.text(x(index), BOTTOM + 16.0, "middle", "", &thousands(row.steps as usize));
        }
        self.text((left + right) / 2.0, BOTTOM + 34.0, "middle", "", "steps");
        for (colour, above, pick) in [
            (PROVED, true, (|row: &Row| row.proved) as fn(&Row) -> Option<f64>),
            (RUST, false, |row: &Row| Some(row.rust)),
        ] {
            let points: Vec<(f64, f64, f64)> = rows
                .iter()
                .enumerate()
                .filter_map(|(index, row)| {
                    let time = of(row, pick(row)?);
                    Some((x(index), scale.place(time), time))
                })
                .collect();
            for pair in points.windows(2) {
                self.line((pair[0].0, pair[0].1), (pair[1].0, pair[1].1), colour, 2.0);
            }
            for (x, y, time) in points {
                let _ = writeln!(
                    self.svg,
                    "<circle cx=\"{x:.1}\" cy=\"{y:.1}\" r=\"3.5\" fill=\"{colour}\"/>"
                );
                let label_y = if above { y - 8.0 } else { y + 18.0 };
                self.text(x, label_y, "middle", "font-size=\"10\"", &number(time));
            }
        }
    }
}
