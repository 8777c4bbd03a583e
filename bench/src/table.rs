//! The table, and how its worst figures stand to the targets.

use crate::measure::Measured;
use crate::worst::{Row, NODES};

/// A number with its thousands apart.
pub fn grouped(n: u64) -> String {
    let digits = n.to_string();
    let mut out = String::new();
    for (i, digit) in digits.chars().enumerate() {
        if i > 0 && (digits.len() - i) % 3 == 0 {
            out.push(',');
        }
        out.push(digit);
    }
    out
}

/// Nanoseconds as microseconds.
fn micro(time: f64) -> String {
    match time / 1e3 {
        t if t < 1.0 => format!("{t:.3}"),
        t if t < 100.0 => format!("{t:.1}"),
        t => grouped(t as u64),
    }
}

/// Two digits behind the point, three for a small ratio.
pub fn ratio(x: f64) -> String {
    if x < 0.1 { format!("{x:.3}") } else { format!("{x:.2}") }
}

/// How the count grows, by what each of the last two doublings adds to it: twice as much is linear, four times as much quadratic.
fn growth(counts: &[[u64; 2]]) -> &'static str {
    let [.., a, b, c] = counts.iter().map(|pair| pair[0] as f64).collect::<Vec<f64>>()[..] else { return "" };
    match (c - b) / (b - a) {
        x if x < 2.2 => "linear",
        x if x < 3.5 => "between",
        x if x < 4.5 => "quadratic",
        _ => "more",
    }
}

/// The instructions of the proved call, with the factor from each to the next; how they grow; their ratio to the others.
fn counted(counts: &[[u64; 2]]) -> Vec<String> {
    let mut cells = vec![String::new(); NODES.len() - counts.len()];
    for (i, [count, _]) in counts.iter().enumerate() {
        let factor = if i == 0 { String::new() } else { format!(" x{:.1}", *count as f64 / counts[i - 1][0] as f64) };
        cells.push(grouped(*count) + &factor);
    }
    let [a, b] = counts[counts.len() - 1];
    cells.extend([growth(counts).to_string(), ratio(a as f64 / b as f64)]);
    cells
}

fn cells(row: &Row, x: &Measured) -> Vec<String> {
    let [a, b] = x.times;
    let mut cells = vec![row.call.to_string(), row.case.clone(), micro(a), micro(b), ratio(a / b)];
    if !x.counts.is_empty() {
        cells.extend(counted(&x.counts));
    }
    cells.push(grouped(x.stack as u64));
    cells
}

/// Prints the table with its columns below each other.
pub fn print(all: &[(Row, Measured)]) {
    let mut head = vec!["call", "case", "proved, us", "plain, us", "ratio"];
    if !all[0].1.counts.is_empty() {
        head.extend(["instructions, 32 nodes", "64", "128", "256", "growth", "ratio"]);
    }
    head.push("stack");
    let mut table: Vec<Vec<String>> = vec![head.into_iter().map(String::from).collect()];
    table.extend(all.iter().map(|(row, x)| cells(row, x)));
    let widths: Vec<usize> = (0..table[0].len()).map(|i| table.iter().map(|row| row[i].len()).max().unwrap()).collect();
    let rule = |(i, width): (usize, &usize)| if i < 2 { "-".repeat(*width) } else { "-".repeat(width - 1) + ":" };
    table.insert(1, widths.iter().enumerate().map(rule).collect());
    for row in table {
        let padded = |(i, (cell, width)): (usize, (&String, &usize))| {
            if i < 2 { format!("{cell:width$}") } else { format!("{cell:>width$}") }
        };
        let padded: Vec<String> = row.iter().zip(&widths).enumerate().map(padded).collect();
        println!("| {} |", padded.join(" | "));
    }
}

/// The largest, with its name.
fn most(figures: impl Iterator<Item = (f64, String)>) -> String {
    figures.max_by(|a, b| a.0.total_cmp(&b.0)).map_or(String::new(), |(x, name)| format!("{} ({name})", ratio(x)))
}

/// How the worst ratios stand to the targets: of `same` to the same algorithm, of `whole` to tests of whole rounds.
pub fn targets(same: &[(Row, Measured)], whole: &Measured) {
    let time = |x: &Measured| x.times[0] / x.times[1];
    let pairs = |x: &Measured| x.counts.iter().map(|[a, b]| *a as f64 / *b as f64).collect::<Vec<f64>>();
    println!("ratio to the same algorithm in plain Rust, target at most 1.25:");
    println!("  time at most {}", most(same.iter().map(|(row, x)| (time(x), row.name()))));
    let sizes = |(row, x): &(Row, Measured)| {
        let named = |(ratio, n): (f64, &u16)| (ratio, format!("{}, {n} nodes", row.name()));
        pairs(x).into_iter().zip(row.nodes()).map(named).collect::<Vec<(f64, String)>>()
    };
    if !whole.counts.is_empty() {
        println!("  instructions at most {}", most(same.iter().flat_map(sizes)));
    }
    println!("ratio to plain Rust that tests whole rounds, strong reversal, target at most 0.1:");
    println!("  time {}", ratio(time(whole)));
    if let Some(x) = pairs(whole).last() {
        println!("  instructions {}", ratio(*x));
    }
}
