//! The figures as tables or as CSV.

use crate::timing::{Pass, Spread, Times};
use bench::modules::Sort;

/// One measured module under one pass.
pub struct Row {
    pub n: usize,
    pub sort: Sort,
    pub pass: Pass,
    pub times: Times,
    pub published: Option<Spread>,
}

impl Row {
    fn records(&self) -> f64 {
        5.0 * self.n as f64
    }

    fn name(&self) -> String {
        let sort = format!("{:?}", self.sort).to_lowercase();
        format!("{sort:<5} {:<5}", self.pass.name())
    }

    /// The median of the turns' own ratios.
    fn ratio(&self) -> f64 {
        self.times.ratio.median
    }

    fn published_ratio(&self) -> Option<f64> {
        self.published
            .map(|published| self.times.library.median / published.median)
    }
}

fn or_dash(value: Option<f64>, decimals: usize) -> String {
    value.map_or("-".into(), |value| format!("{value:.decimals$}"))
}

/// Median, quartiles and least in microseconds.
fn spread(spread: Spread) -> String {
    let [least, low, median, high] =
        [spread.least, spread.low, spread.median, spread.high].map(|time| time / 1000.0);
    format!("{median:7.1} ({low:.1} to {high:.1}; {least:.1})")
}

/// Every figure of one size.
pub fn table<'a>(rows: impl Iterator<Item = &'a Row>) -> String {
    let mut text = format!(
        "{:<11} {:<36} {:<36} {:>8} {:>8} {:>8} {:>10} {:>10} {:>8}\n",
        "live  pass",
        "plain us: median (quartiles; least)",
        "library us",
        "publ. us",
        "plain ns",
        "lib. ns",
        "lib./plain",
        "lib./publ.",
        "copy us"
    );
    for row in rows {
        let published = row.published.map(|published| published.median / 1000.0);
        text.push_str(&format!(
            "{:<11} {:<36} {:<36} {:>8} {:>8.2} {:>8.2} {:>10.2} {:>10} {:>8.1}\n",
            row.name(),
            spread(row.times.plain),
            spread(row.times.library),
            or_dash(published, 1),
            row.times.plain.median / row.records(),
            row.times.library.median / row.records(),
            row.ratio(),
            or_dash(row.published_ratio(), 2),
            row.times.copy.median / 1000.0,
        ));
    }
    text
}

/// Nanoseconds a record at each size: plain, library, published, and the ratio of the first two.
pub fn linearity(sizes: &[usize], rows: &[Row]) -> String {
    let mut text = format!("{:<11}", "live  pass");
    for n in sizes {
        text.push_str(&format!(" {:>25}", format!("n = {n}")));
    }
    text.push('\n');
    for first in rows.iter().filter(|row| row.n == sizes[0]) {
        text.push_str(&first.name());
        let same = |row: &&Row| row.sort == first.sort && row.pass == first.pass;
        for row in rows.iter().filter(same) {
            let plain = row.times.plain.median / row.records();
            let library = row.times.library.median / row.records();
            let published = row.published.map(|spread| spread.median / row.records());
            let published = or_dash(published, 1);
            let cell = format!("{plain:.1} {library:.1} {published} ({:.2})", row.ratio());
            text.push_str(&format!(" {cell:>25}"));
        }
        text.push('\n');
    }
    text
}

/// One line for each row, in nanoseconds.
pub fn csv(rows: &[Row]) -> String {
    let mut text = String::from("n,live,pass,ratio");
    for who in ["plain", "library", "copy", "published"] {
        for what in ["least", "q1", "median", "q3"] {
            text.push_str(&format!(",{who}_{what}"));
        }
    }
    text.push('\n');
    for row in rows {
        let sort = format!("{:?}", row.sort).to_lowercase();
        let (name, ratio) = (row.pass.name(), row.ratio());
        text.push_str(&format!("{},{sort},{name},{ratio:.3}", row.n));
        let times = [row.times.plain, row.times.library, row.times.copy].map(Some);
        for spread in times.into_iter().chain([row.published]) {
            text.push_str(&csv_spread(spread));
        }
        text.push('\n');
    }
    text
}

fn csv_spread(spread: Option<Spread>) -> String {
    let Some(spread) = spread else {
        return ",,,,".into();
    };
    let cell = |time: f64| match time.is_nan() {
        true => ",".into(),
        false => format!(",{time:.0}"),
    };
    [spread.least, spread.low, spread.median, spread.high]
        .map(cell)
        .concat()
}
