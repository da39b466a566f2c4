//! The plot: one panel for each family, both axes logarithmic.

use super::{Measured, Series, SIZES};
use std::fmt::Write as _;

const PANEL_WIDTH: f64 = 260.0;
const PANEL_HEIGHT: f64 = 200.0;
const GAP_X: f64 = 70.0;
const GAP_Y: f64 = 80.0;
const LIBRARY_COLOUR: &str = "#1f4e9c";
const REFERENCE_COLOUR: &str = "#c8641e";

/// Where microseconds and sizes lie in a panel.
struct Scale {
    left: f64,
    top: f64,
    lowest_decade: i32,
    decades: i32,
}

impl Scale {
    fn x(&self, size: f64) -> f64 {
        let (first, last) = (SIZES[0] as f64, SIZES[SIZES.len() - 1] as f64);
        self.left + PANEL_WIDTH * (size / first).log2() / (last / first).log2()
    }

    fn y(&self, nanoseconds: f64) -> f64 {
        let decade = (nanoseconds / 1e3).log10() - f64::from(self.lowest_decade);
        self.top + PANEL_HEIGHT * (1.0 - decade / f64::from(self.decades))
    }
}

/// Panels in a row.
const COLUMNS: usize = 3;

/// The left and upper end of the panel at this place.
fn corner(place: usize) -> (f64, f64) {
    let (column, row) = ((place % COLUMNS) as f64, (place / COLUMNS) as f64);
    (
        60.0 + column * (PANEL_WIDTH + GAP_X),
        80.0 + row * (PANEL_HEIGHT + GAP_Y),
    )
}

pub fn plot(series: &[Series]) -> String {
    let times = series.iter().flat_map(|(_, measured)| measured);
    let times = times.flat_map(|m| m.library.into_iter().chain([m.reference]));
    let (low, high) = times.fold((f64::MAX, 0.0_f64), |(low, high), time| {
        (low.min(time), high.max(time))
    });
    let lowest_decade = (low / 1e3).log10().floor() as i32;
    let decades = ((high / 1e3).log10().ceil() as i32 - lowest_decade).max(1);
    let width = COLUMNS as f64 * (PANEL_WIDTH + GAP_X) + 30.0;
    // The legend has a place after the last family's.
    let rows = series.len() / COLUMNS + 1;
    let height = rows as f64 * (PANEL_HEIGHT + GAP_Y) + 50.0;
    let mut svg = String::new();
    let _ = writeln!(
        svg,
        r#"<svg xmlns="http://www.w3.org/2000/svg" viewBox="0 0 {width} {height}" width="{width}" height="{height}" font-family="sans-serif" font-size="11">"#
    );
    let _ = writeln!(
        svg,
        r##"<rect width="100%" height="100%" fill="#ffffff"/>"##
    );
    text(
        &mut svg,
        20.0,
        28.0,
        "start",
        16,
        "Check of a plan: time over size",
    );
    for (place, (family, measured)) in series.iter().enumerate() {
        let (left, top) = corner(place);
        let scale = Scale {
            left,
            top,
            lowest_decade,
            decades,
        };
        panel(&mut svg, &scale, family.name());
        curves(&mut svg, &scale, measured);
    }
    let (left, top) = corner(series.len());
    legend(&mut svg, left, top + 30.0, series);
    svg.push_str("</svg>\n");
    svg
}

fn text(svg: &mut String, x: f64, y: f64, anchor: &str, size: u32, words: &str) {
    let _ = writeln!(
        svg,
        r##"<text x="{x:.1}" y="{y:.1}" text-anchor="{anchor}" font-size="{size}" fill="#222222">{words}</text>"##
    );
}

fn line(svg: &mut String, points: &[(f64, f64)], style: &str) {
    let mut list = String::new();
    for (x, y) in points {
        let _ = write!(list, "{x:.1},{y:.1} ");
    }
    let _ = writeln!(
        svg,
        r#"<polyline points="{}" fill="none" {style}/>"#,
        list.trim_end()
    );
}

/// Frame, grid, labels and title of one panel.
fn panel(svg: &mut String, scale: &Scale, title: &str) {
    let (left, top) = (scale.left, scale.top);
    let (right, bottom) = (left + PANEL_WIDTH, top + PANEL_HEIGHT);
    let grid = r##"stroke="#dddddd" stroke-width="1""##;
    text(svg, left, top - 10.0, "start", 13, title);
    for size in SIZES {
        let x = scale.x(size as f64);
        line(svg, &[(x, top), (x, bottom)], grid);
        text(svg, x, bottom + 15.0, "middle", 11, &size.to_string());
    }
    for decade in 0..=scale.decades {
        let microseconds = 10_f64.powi(scale.lowest_decade + decade);
        let y = scale.y(microseconds * 1e3);
        line(svg, &[(left, y), (right, y)], grid);
        let label = format!("{microseconds} µs");
        text(svg, left - 6.0, y + 4.0, "end", 11, &label);
    }
    let frame = [
        (left, top),
        (left, bottom),
        (right, bottom),
        (right, top),
        (left, top),
    ];
    line(svg, &frame, r##"stroke="#888888" stroke-width="1""##);
    text(
        svg,
        left + PANEL_WIDTH / 2.0,
        bottom + 31.0,
        "middle",
        11,
        "operations",
    );
}

fn curves(svg: &mut String, scale: &Scale, measured: &[Measured]) {
    let sizes = SIZES.map(|size| size as f64);
    // A line of slope one through the reference's first point.
    let linear = sizes.map(|size| {
        let time = measured[0].reference * size / sizes[0];
        (scale.x(size), scale.y(time))
    });
    line(svg, &linear, LINEAR_STYLE);
    let point = |size: f64, time: f64| (scale.x(size), scale.y(time));
    let library: Vec<_> = sizes
        .iter()
        .zip(measured)
        .filter_map(|(&size, m)| m.library.map(|time| point(size, time)))
        .collect();
    let reference: Vec<_> = sizes
        .iter()
        .zip(measured)
        .map(|(&size, m)| point(size, m.reference))
        .collect();
    curve(svg, &reference, REFERENCE_COLOUR);
    curve(svg, &library, LIBRARY_COLOUR);
}

const LINEAR_STYLE: &str = r##"stroke="#999999" stroke-width="1" stroke-dasharray="3 4""##;

fn curve(svg: &mut String, points: &[(f64, f64)], colour: &str) {
    let style = format!(r#"stroke="{colour}" stroke-width="2""#);
    line(svg, points, &style);
    for (x, y) in points {
        let _ = writeln!(
            svg,
            r#"<circle cx="{x:.1}" cy="{y:.1}" r="3" fill="{colour}"/>"#
        );
    }
}

fn legend(svg: &mut String, left: f64, top: f64, series: &[Series]) {
    let has_library = series[0].1[0].library.is_some();
    let mut y = top;
    let mut entry = |svg: &mut String, colour: Option<&str>, words: &str| {
        let points = [(left, y), (left + 40.0, y)];
        match colour {
            Some(colour) => curve(svg, &points, colour),
            None => line(svg, &points, LINEAR_STYLE),
        }
        text(svg, left + 52.0, y + 4.0, "start", 13, words);
        y += 26.0;
    };
    if has_library {
        entry(svg, Some(LIBRARY_COLOUR), "C library");
    }
    entry(svg, Some(REFERENCE_COLOUR), "reference");
    entry(svg, None, "linear, from the first point");
}
