//! The tables, as docs/SPEED.md has them.

use crate::contestants::Contestant;
use crate::rounds::{ratio, spread, Spread};
use crate::works::{Pages, Times, Work};

// the order of the contestants
const PLAIN: usize = 0;
const LIBRARY: usize = 1;
const PUBLISHED: usize = 2;

/// Measures every work in memory that was touched before, and the loads in fresh memory, and prints a table of each.
pub fn print(works: &[Work], contestants: &[Box<dyn Contestant>]) {
    let columns = columns(contestants.len());
    println!("Guest memory touched before, and not cleared between loads:\n");
    head(&columns);
    for work in works {
        row(work, &work.times(contestants, Pages::Touched), &columns);
    }
    println!("\nGuest memory fresh from the system for each load:\n");
    head(&columns);
    for work in works.iter().filter(|work| work.is_load()) {
        row(work, &work.times(contestants, Pages::Untouched), &columns);
    }
}

/// Whose time is set against whose.
struct Column {
    title: &'static str,
    first: usize,
    second: usize,
}

fn columns(contestants: usize) -> Vec<Column> {
    let all = [
        ("library / plain", LIBRARY, PLAIN),
        ("crate / plain", PUBLISHED, PLAIN),
        ("library / crate", LIBRARY, PUBLISHED),
    ];
    let columns = all.map(|(title, first, second)| Column {
        title,
        first,
        second,
    });
    let mut columns = Vec::from(columns);
    columns.retain(|column| column.first.max(column.second) < contestants);
    columns
}

fn head(columns: &[Column]) {
    let titles: Vec<_> = columns.iter().map(|column| column.title).collect();
    println!("| work | plain | library | {} |", titles.join(" | "));
    println!("|---|---|---|{}", "---|".repeat(columns.len()));
}

fn row(work: &Work, times: &Times, columns: &[Column]) {
    let cells: Vec<_> = columns
        .iter()
        .map(|column| cell(ratio(&times[column.first], &times[column.second])))
        .collect();
    let [plain, library] = [PLAIN, LIBRARY].map(|who| duration(spread(times[who].clone()).median));
    println!(
        "| {} | {plain} | {library} | {} |",
        work.title,
        cells.join(" | ")
    );
}

pub fn cell(ratio: Spread) -> String {
    let Spread { low, median, high } = ratio;
    format!(
        "**{}** ({} to {})",
        figure(median),
        figure(low),
        figure(high)
    )
}

/// Three digits, or those before the point.
fn figure(ratio: f64) -> String {
    match ratio {
        r if r >= 100.0 => format!("{r:.0}"),
        r if r >= 10.0 => format!("{r:.1}"),
        r => format!("{r:.2}"),
    }
}

/// Three digits or so, for orientation.
pub fn duration(seconds: f64) -> String {
    match seconds {
        s if s >= 1.0 => format!("{s:.1} s"),
        s if s >= 1e-2 => format!("{:.1} ms", s * 1e3),
        s if s >= 1e-3 => format!("{:.2} ms", s * 1e3),
        s if s >= 1e-4 => format!("{:.0} µs", s * 1e6),
        s => format!("{:.1} µs", s * 1e6),
    }
}

#[cfg(test)]
mod tests {
    use super::*;

    #[test]
    fn without_the_published_crate_one_column_is_left() {
        let titles = |contestants| -> Vec<_> {
            let columns = columns(contestants);
            columns.into_iter().map(|column| column.title).collect()
        };
        assert_eq!(titles(2), ["library / plain"]);
        assert_eq!(
            titles(3),
            ["library / plain", "crate / plain", "library / crate"]
        );
    }

    #[test]
    fn a_cell_has_the_median_and_the_spread() {
        let ratio = Spread {
            low: 0.994,
            median: 1.206,
            high: 2.0,
        };
        assert_eq!(cell(ratio), "**1.21** (0.99 to 2.00)");
    }

    #[test]
    fn a_figure_has_three_digits() {
        assert_eq!([1.0, 34.46, 141.7].map(figure), ["1.00", "34.5", "142"]);
    }

    #[test]
    fn durations_have_a_unit() {
        assert_eq!(duration(12.34), "12.3 s");
        assert_eq!(duration(0.0514), "51.4 ms");
        assert_eq!(duration(0.00514), "5.14 ms");
        assert_eq!(duration(0.000514), "514 µs");
        assert_eq!(duration(0.0000514), "51.4 µs");
    }
}
