//! Tables as Markdown, and a plot of the ratios.

use std::fmt::Write;
use std::time::Duration;

pub struct Table {
    title: &'static str,
    head: &'static str, // with its bars
    rows: Vec<Vec<String>>,
}

impl Table {
    pub fn new(title: &'static str, head: &'static str) -> Table {
        let rows = Vec::new();
        Table { title, head, rows }
    }

    fn columns(&self) -> usize {
        self.head.split(" | ").count()
    }

    pub fn row(&mut self, cells: Vec<String>) {
        assert_eq!(cells.len(), self.columns());
        self.rows.push(cells);
    }

    pub fn markdown(&self) -> String {
        let numbers = "---:|".repeat(self.columns() - 1);
        let mut text = format!("## {}\n\n| {} |\n|---|{}\n", self.title, self.head, numbers);
        for row in &self.rows {
            writeln!(text, "| {} |", row.join(" | ")).unwrap();
        }
        text
    }
}

/// A call of turns, as the paper writes its number.
pub fn turns_of(w: u16) -> String {
    match (w / 1000, w % 1000) {
        (0, w) => format!("turns({})", w),
        (thousands, rest) => format!("turns({},{:03})", thousands, rest),
    }
}

pub fn millions(rate: f64) -> String {
    format!("{:.2}", rate / 1e6)
}

pub fn micros(time: Duration) -> String {
    format!("{:.1}", time.as_secs_f64() * 1e6)
}

/// Microseconds of a short call.
pub fn hundredths(time: Duration) -> String {
    format!("{:.2}", time.as_secs_f64() * 1e6)
}

pub fn nanos_each(time: Duration, count: u64) -> String {
    format!("{:.0}", time.as_secs_f64() * 1e9 / count as f64)
}

pub fn ratio(ratio: f64) -> String {
    format!("{:.2}", ratio)
}

/// The processor, and whether this x86-64 program runs on it under an emulator.
pub fn processor() -> String {
    let info = std::fs::read_to_string("/proc/cpuinfo").unwrap_or_default();
    let field = |name: &str| {
        let line = info.lines().find(|line| line.starts_with(name))?;
        Some(line.split(':').nth(1)?.trim().to_string())
    };
    match (
        field("model name"),
        field("CPU implementer"),
        field("CPU part"),
    ) {
        (_, Some(implementer), Some(part)) => {
            format!(
                "Arm, implementer {}, part {}: x86-64 under an emulator",
                implementer, part
            )
        }
        (Some(name), _, _) => name,
        _ => "not named by /proc/cpuinfo".to_string(),
    }
}

/// How many times the plain version's steps the desk makes in the same time, with one seat and with eight.
pub struct Bars {
    pub name: String,
    pub ratios: [f64; 2],
}

const SERIES: [(&str, &str); 2] = [("one seat", "#3c7ac4"), ("eight seats", "#e0a030")];

/// Two bars for each name, and a line where both make as many steps.
pub fn plot(title: &str, groups: &[Bars]) -> String {
    let (left, top, width, thick) = (330.0, 64.0, 440.0, 11.0);
    let longest = groups
        .iter()
        .flat_map(|bars| bars.ratios)
        .fold(1.0, f64::max);
    let unit = width / longest;
    let pitch = 2.0 * thick + 8.0;
    let bottom = top + pitch * groups.len() as f64;
    let mut svg = Svg::new(820.0, bottom + 24.0);
    svg.text(10.0, 20.0, "start", title);
    for (n, (name, colour)) in SERIES.iter().enumerate() {
        let x = left + 120.0 * n as f64;
        svg.bar(x, 34.0, thick, thick, colour);
        svg.text(x + thick + 6.0, 44.0, "start", name);
    }
    for (n, Bars { name, ratios }) in groups.iter().enumerate() {
        let y = top + pitch * n as f64;
        svg.text(left - 8.0, y + thick + 4.0, "end", name);
        for (k, (ratio, (_, colour))) in ratios.iter().zip(SERIES).enumerate() {
            let y = y + thick * k as f64;
            svg.bar(left, y, unit * ratio, thick - 1.0, colour);
            svg.text(
                left + unit * ratio + 6.0,
                y + thick - 1.5,
                "start",
                &format!("{:.2}", ratio),
            );
        }
    }
    svg.dashed(left + unit, top - 6.0, bottom);
    svg.text(left + unit, bottom + 14.0, "middle", "1.0");
    svg.finish()
}

struct Svg(String);

impl Svg {
    fn new(width: f64, height: f64) -> Svg {
        let mut text = String::new();
        let font = "font-family=\"sans-serif\" font-size=\"12\"";
        let space = "xmlns=\"http://www.w3.org/2000/svg\"";
        writeln!(
            text,
            "<svg {space} width=\"{width}\" height=\"{height}\" {font}>"
        )
        .unwrap();
        writeln!(
            text,
            "<rect width=\"100%\" height=\"100%\" fill=\"white\"/>"
        )
        .unwrap();
        Svg(text)
    }

    fn text(&mut self, x: f64, y: f64, anchor: &str, words: &str) {
        let at = format!("x=\"{x:.1}\" y=\"{y:.1}\"");
        writeln!(self.0, "<text {at} text-anchor=\"{anchor}\">{words}</text>").unwrap();
    }

    fn bar(&mut self, x: f64, y: f64, width: f64, height: f64, colour: &str) {
        let at = format!("x=\"{x:.1}\" y=\"{y:.1}\"");
        let size = format!("width=\"{width:.1}\" height=\"{height:.1}\"");
        writeln!(self.0, "<rect {at} {size} fill=\"{colour}\"/>").unwrap();
    }

    fn dashed(&mut self, x: f64, from: f64, to: f64) {
        let ends = format!("x1=\"{x:.1}\" y1=\"{from:.1}\" x2=\"{x:.1}\" y2=\"{to:.1}\"");
        writeln!(
            self.0,
            "<line {ends} stroke=\"black\" stroke-dasharray=\"3 3\"/>"
        )
        .unwrap();
    }

    fn finish(mut self) -> String {
        self.0.push_str("</svg>\n");
        self.0
    }
}
