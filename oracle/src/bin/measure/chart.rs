//! The run as a picture: a panel for each unit, three bars for each case, lengths by the logarithm.
use std::fmt::Write;

use crate::report::{figure, grouped, Panel, Run, SIDES};

const WIDTH: f64 = 860.0;
const MARGIN: f64 = 28.0;
/// Where the bars begin, and how far the longest reaches; its figure stands to the right of it.
const LEFT: f64 = 212.0;
const RIGHT: f64 = 760.0;
const BAR: f64 = 10.0;
const STEP: f64 = 13.0;
const GROUP: f64 = 3.0 * STEP + 12.0;

/// The library in colour, the original in two greys.
const COLOURS: [&str; 3] = ["#1565a9", "#b9c2cb", "#74808c"];
const INK: &str = "#1d2329";
const FAINT: &str = "#5c6770";
const GRID: &str = "#e3e7eb";

struct Picture {
    body: String,
    y: f64,
}

impl Picture {
    fn text(&mut self, x: f64, y: f64, size: f64, style: &str, words: &str) {
        let words = words.replace('&', "&amp;").replace('<', "&lt;");
        let _ = writeln!(self.body, r#"  <text x="{x:.1}" y="{y:.1}" font-size="{size}" {style}>{words}</text>"#);
    }

    fn bar(&mut self, x: f64, y: f64, width: f64, colour: &str) {
        let _ = writeln!(
            self.body,
            r#"  <rect x="{x:.1}" y="{y:.1}" width="{width:.1}" height="{BAR}" rx="1.5" fill="{colour}"/>"#
        );
    }

    fn line(&mut self, x: f64, from: f64, to: f64, colour: &str) {
        let _ = writeln!(
            self.body,
            r#"  <line x1="{x:.1}" y1="{from:.1}" x2="{x:.1}" y2="{to:.1}" stroke="{colour}" stroke-width="1"/>"#
        );
    }
}

fn ink(colour: &str) -> String {
    format!(r#"fill="{colour}""#)
}

fn heading(panel: Panel) -> (&'static str, &'static str) {
    match panel {
        Panel::Scan => ("Durable end, counts and used bound of a whole region", "MB/s, longer is faster"),
        Panel::Append => ("Appends", "nanoseconds each, shorter is faster"),
        Panel::Tracker => ("Tracker", "nanoseconds a call or pair of calls, shorter is faster"),
        Panel::Hostile => ("Durable end of the worst card of a length", "seconds, shorter is faster"),
    }
}

/// The scale of some figures: where it begins, so that the shortest bar can be seen, and where it ends.
struct Scale {
    low: f64,
    high: f64,
}

impl Scale {
    fn of(figures: impl Iterator<Item = f64> + Clone) -> Self {
        let least = figures.clone().fold(f64::INFINITY, f64::min).max(1e-6);
        let greatest = figures.fold(0.0, f64::max).max(least);
        let low = (least * 0.75).log10().floor();
        Scale { low, high: greatest.log10().max(low + 0.5) }
    }

    fn place(&self, value: f64) -> f64 {
        LEFT + (RIGHT - LEFT) * (value.max(1e-6).log10() - self.low) / (self.high - self.low)
    }

    /// The powers of ten, and on a short scale their two- and fivefold too.
    fn ticks(&self) -> Vec<f64> {
        let folds: &[f64] = if self.high - self.low < 2.2 { &[1.0, 2.0, 5.0] } else { &[1.0] };
        (self.low as i32..=self.high as i32)
            .flat_map(|exponent| folds.iter().map(move |fold| fold * 10f64.powi(exponent)))
            .filter(|tick| tick.log10() <= self.high + 1e-9)
            .collect()
    }
}

/// "0.2" or "2,000".
fn tick_words(tick: f64) -> String {
    if tick >= 0.999 {
        grouped(tick.round() as u64)
    } else {
        format!("{:.*}", (-(tick * 1.001).log10().floor()) as usize, tick)
    }
}

fn panel(picture: &mut Picture, run: &Run, panel: Panel) {
    let rows: Vec<_> = run.rows.iter().filter(|row| row.panel == panel).collect();
    if rows.is_empty() {
        return;
    }
    let (title, unit) = heading(panel);
    picture.y += 34.0;
    picture.text(MARGIN, picture.y, 14.0, &format!(r#"font-weight="600" {}"#, ink(INK)), title);
    picture.text(WIDTH - MARGIN, picture.y, 11.5, &format!(r#"text-anchor="end" {}"#, ink(FAINT)), unit);
    picture.y += 12.0;
    let scale = Scale::of(rows.iter().flat_map(|row| row.figures));
    let top = picture.y;
    let bottom = top + GROUP * rows.len() as f64 + 2.0;
    for (i, tick) in scale.ticks().into_iter().enumerate() {
        let x = scale.place(tick);
        picture.line(x, top, bottom, if i == 0 { FAINT } else { GRID });
        let style = format!(r#"text-anchor="middle" {}"#, ink(FAINT));
        picture.text(x, bottom + 13.0, 10.5, &style, &tick_words(tick));
    }
    for (i, row) in rows.iter().enumerate() {
        let y = top + 7.0 + GROUP * i as f64;
        let middle = y + STEP + BAR / 2.0 + 4.0;
        picture.text(LEFT - 12.0, middle, 12.5, &format!(r#"text-anchor="end" {}"#, ink(INK)), &row.label);
        for (side, value) in row.figures.into_iter().enumerate() {
            let y = y + STEP * side as f64;
            picture.bar(LEFT, y, scale.place(value) - LEFT, COLOURS[side]);
            let (weight, colour) = if side == 0 { ("600", INK) } else { ("400", FAINT) };
            let style = format!(
                r#"font-weight="{weight}" stroke="white" stroke-width="3" paint-order="stroke" {}"#,
                ink(colour)
            );
            picture.text(scale.place(value) + 6.0, y + BAR - 1.0, 10.5, &style, &figure(value));
        }
    }
    picture.y = bottom + 18.0;
}

pub fn svg(run: &Run) -> String {
    let mut picture = Picture { body: String::new(), y: 38.0 };
    let bold = format!(r#"font-weight="700" {}"#, ink(INK));
    picture.text(MARGIN, picture.y, 18.0, &bold, "The proved library and the original");
    picture.y += 20.0;
    let words =
        format!("{}; best of {} rounds in turns; logarithmic scales", run.processors, grouped(run.sizes.rounds.into()));
    picture.text(MARGIN, picture.y, 12.0, &ink(FAINT), &words);
    picture.y += 26.0;
    let mut x = MARGIN;
    for (words, colour) in SIDES.into_iter().zip(COLOURS) {
        picture.bar(x, picture.y - 9.0, 22.0, colour);
        picture.text(x + 30.0, picture.y, 12.5, &ink(INK), words);
        x += 30.0 + 6.6 * words.len() as f64 + 30.0;
    }
    for each in [Panel::Scan, Panel::Append, Panel::Tracker, Panel::Hostile] {
        panel(&mut picture, run, each);
    }
    let height = picture.y + 16.0;
    format!(
        "<svg xmlns=\"http://www.w3.org/2000/svg\" width=\"{WIDTH}\" height=\"{height:.0}\" viewBox=\"0 0 {WIDTH} {height:.0}\" \
         font-family=\"Helvetica, Arial, 'DejaVu Sans', sans-serif\" role=\"img\" \
         aria-label=\"Bars: the proved library and the original, case by case\">\n  \
         <rect width=\"{WIDTH}\" height=\"{height:.0}\" fill=\"white\"/>\n{}</svg>\n",
        picture.body
    )
}
