//! A plot: points and the straight line that is nearest to them, as SVG.

use std::fmt::Write;

pub struct Chart<'a> {
    pub title: &'a str,
    /// what the sizes count
    pub unit: &'a str,
    pub panels: Vec<Panel>,
}

pub struct Panel {
    title: &'static str,
    points: Vec<(f64, f64)>,
    line: Line,
}

/// start + slope * x
#[derive(Debug, PartialEq)]
struct Line {
    start: f64,
    slope: f64,
}

const WIDTH: f64 = 420.0;
const HEIGHT: f64 = 260.0;
const LEFT: f64 = 90.0;
const RIGHT: f64 = 20.0;
const TOP: f64 = 50.0;
const BOTTOM: f64 = 45.0;

impl Panel {
    pub fn new(title: &'static str, xs: &[f64], ys: &[f64]) -> Panel {
        let points: Vec<_> = xs.iter().copied().zip(ys.iter().copied()).collect();
        let line = nearest(&points);
        Panel {
            title,
            points,
            line,
        }
    }

    fn draw(&self, unit: &str, left: f64) -> String {
        let most_x = self.points.iter().map(|point| point.0).fold(0.0, f64::max);
        let most_y = self.points.iter().map(|point| point.1).fold(0.0, f64::max) * 1.1;
        let x = |value: f64| left + LEFT + value / most_x * (WIDTH - LEFT - RIGHT);
        let y = |value: f64| TOP + (1.0 - value / most_y) * (HEIGHT - TOP - BOTTOM);
        let mut svg = String::new();
        let axes = format!(
            "M{:.1} {:.1}V{:.1}H{:.1}",
            x(0.0),
            y(most_y),
            y(0.0),
            x(most_x)
        );
        writeln!(svg, r##"<path d="{axes}" fill="none" stroke="#888"/>"##).unwrap();
        for tick in [0.0, most_x / 2.0, most_x] {
            writeln!(
                svg,
                r#"<text x="{:.1}" y="{:.1}" text-anchor="middle">{}</text>"#,
                x(tick),
                y(0.0) + 16.0,
                figure(tick)
            )
            .unwrap();
        }
        for tick in [0.0, most_y / 2.2, most_y / 1.1] {
            writeln!(
                svg,
                r#"<text x="{:.1}" y="{:.1}" text-anchor="end">{}</text>"#,
                x(0.0) - 6.0,
                y(tick) + 4.0,
                figure(tick)
            )
            .unwrap();
        }
        writeln!(
            svg,
            r#"<text x="{:.1}" y="{:.1}" text-anchor="middle">{unit}</text>"#,
            x(most_x / 2.0),
            y(0.0) + 34.0
        )
        .unwrap();
        writeln!(
            svg,
            r#"<text x="{:.1}" y="{:.1}">{}</text>"#,
            left + LEFT,
            TOP - 8.0,
            self.title
        )
        .unwrap();
        let least_x = self
            .points
            .iter()
            .map(|point| point.0)
            .fold(most_x, f64::min);
        let at = |value: f64| y((self.line.start + self.line.slope * value).clamp(0.0, most_y));
        writeln!(
            svg,
            r##"<path d="M{:.1} {:.1}L{:.1} {:.1}" stroke="#36c"/>"##,
            x(least_x),
            at(least_x),
            x(most_x),
            at(most_x)
        )
        .unwrap();
        for (size, value) in &self.points {
            writeln!(
                svg,
                r##"<circle cx="{:.1}" cy="{:.1}" r="3.5" fill="#c33"/>"##,
                x(*size),
                y(*value)
            )
            .unwrap();
        }
        svg
    }
}

impl Chart<'_> {
    pub fn svg(&self) -> String {
        let width = WIDTH * self.panels.len() as f64;
        let panels: String = self
            .panels
            .iter()
            .enumerate()
            .map(|(which, panel)| panel.draw(self.unit, which as f64 * WIDTH))
            .collect();
        format!(
            "<svg xmlns=\"http://www.w3.org/2000/svg\" viewBox=\"0 0 {width} {HEIGHT}\" width=\"{width}\" font-family=\"sans-serif\" font-size=\"12\">\n\
             <rect width=\"100%\" height=\"100%\" fill=\"white\"/>\n\
             <text x=\"{LEFT}\" y=\"20\" font-size=\"14\">{}</text>\n{panels}</svg>\n",
            self.title
        )
    }
}

/// The line with the least squares of the distances.
fn nearest(points: &[(f64, f64)]) -> Line {
    let count = points.len() as f64;
    let mean_x = points.iter().map(|point| point.0).sum::<f64>() / count;
    let mean_y = points.iter().map(|point| point.1).sum::<f64>() / count;
    let products: f64 = points
        .iter()
        .map(|(x, y)| (x - mean_x) * (y - mean_y))
        .sum();
    let squares: f64 = points.iter().map(|(x, _)| (x - mean_x).powi(2)).sum();
    let slope = products / squares;
    Line {
        start: mean_y - slope * mean_x,
        slope,
    }
}

/// Three digits at the least, and a million as M.
fn figure(value: f64) -> String {
    match value {
        v if v >= 1e7 => format!("{:.0} M", v / 1e6),
        v if v >= 1e6 => format!("{:.1} M", v / 1e6),
        v if v >= 100.0 || v == 0.0 => format!("{v:.0}"),
        v => format!("{v:.1}"),
    }
}

#[cfg(test)]
mod tests {
    use super::*;

    #[test]
    fn the_nearest_line_of_points_on_a_line_is_that_line() {
        let line = nearest(&[(0.0, 1.0), (1.0, 3.0), (2.0, 5.0)]);
        assert_eq!(
            line,
            Line {
                start: 1.0,
                slope: 2.0
            }
        );
    }

    #[test]
    fn every_point_is_drawn_within_its_panel() {
        let chart = Chart {
            title: "two",
            unit: "bytes",
            panels: vec![
                Panel::new("time", &[1.0, 2.0, 4.0], &[10.0, 20.0, 41.0]),
                Panel::new("instructions", &[1.0, 2.0, 4.0], &[5.0, 5.0, 5.0]),
            ],
        };
        let svg = chart.svg();
        assert_eq!(svg.matches("<circle").count(), 6);
        for circle in svg.split("<circle").skip(1) {
            let number = |name: &str| {
                let rest = circle.split(&format!("{name}=\"")).nth(1).unwrap();
                rest.split('"').next().unwrap().parse::<f64>().unwrap()
            };
            assert!((0.0..=2.0 * WIDTH).contains(&number("cx")));
            assert!((0.0..=HEIGHT).contains(&number("cy")));
        }
        assert!(svg.starts_with("<svg ") && svg.ends_with("</svg>\n"));
    }
}
