//! The tables as they are printed: Markdown, so that they go into a document as they are.

pub fn head(title: &str, state: &str, columns: &[&str]) {
    println!("\n### {title}\n\n{state}\n");
    row(columns.iter().map(|column| column.to_string()));
    row(columns.iter().map(|_| "---:".to_string()));
}

fn row(cells: impl Iterator<Item = String>) {
    println!("| {} |", cells.collect::<Vec<_>>().join(" | "));
}

/// A line: what it is of, times by the unit, and ours divided by each of the others.
pub fn line<const N: usize>(of: &[String], took: [f64; N], units: usize) {
    let each = took.map(|time| time / units as f64);
    let ratios = each[1..].iter().map(|other| format!("{:.2}", each[0] / other));
    row(of.iter().cloned().chain(each.iter().map(|time| figure(*time))).chain(ratios));
}

fn figure(time: f64) -> String {
    match time {
        ..1.0 => format!("{time:.3}"),
        ..10.0 => format!("{time:.2}"),
        ..100.0 => format!("{time:.1}"),
        _ => format!("{time:.0}"),
    }
}
