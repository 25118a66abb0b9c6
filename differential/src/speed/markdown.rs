//! Tables as docs/DIFFERENCES.md has them.

use super::clock::Times;

fn line<'a>(cells: impl IntoIterator<Item = &'a str>) {
    let cells: Vec<&str> = cells.into_iter().collect();
    println!("| {} |", cells.join(" | "));
}

/// A title and its table; each row is printed when it is there.
pub fn table(title: &str, heads: &[&str], rows: impl IntoIterator<Item = Vec<String>>) {
    println!("\n{title}\n");
    line(heads.iter().copied());
    println!("|{}", "---|".repeat(heads.len()));
    rows.into_iter().for_each(|row| line(row.iter().map(String::as_str)));
}

/// A table of both sides' nanoseconds and their ratio; `what` heads the names.
pub fn times(title: &str, what: &str, rows: impl IntoIterator<Item = (String, Times)>) {
    let cells = |(name, times): (String, Times)| {
        let numbers = [times.here, times.rust, times.ratio()];
        [name].into_iter().chain(numbers.map(hundredths)).collect()
    };
    table(title, &[what, "here", "Rust", "ratio"], rows.into_iter().map(cells));
}

/// The geometric means of both sides, whose ratio is that of the ratios.
fn mean(rows: &[(String, Times)]) -> Times {
    let of = |side: fn(&Times) -> f64| {
        let sum: f64 = rows.iter().map(|(_, times)| side(times).ln()).sum();
        (sum / rows.len() as f64).exp()
    };
    Times { here: of(|times| times.here), rust: of(|times| times.rust) }
}

/// The same, and their means as the last row.
pub fn times_and_mean(title: &str, what: &str, rows: impl IntoIterator<Item = (String, Times)>) {
    let mut rows: Vec<(String, Times)> = rows.into_iter().collect();
    rows.push(("geometric mean".to_string(), mean(&rows)));
    times(title, what, rows);
}

pub fn hundredths(number: f64) -> String {
    format!("{number:.2}")
}
