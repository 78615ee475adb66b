//! Times each conversion beside the same work by `encoding_rs` and `simdutf8`, and prints a table.

mod clock;
mod conversions;
mod texts;

use conversions::Row;

const SIZES: [(&str, usize); 3] = [("16 B", 16), ("1 KiB", 1024), ("8 MiB", 8 << 20)];

fn main() {
    let sizes: Vec<Vec<(&str, Vec<Row>)>> =
        SIZES.iter().map(|&(_, bytes)| rows_of(bytes)).collect();
    let heads: Vec<&str> = SIZES.iter().map(|&(name, _)| name).collect();
    println!("| Conversion | Text | {} |", heads.join(" | "));
    println!("|---|---|{}", "---|".repeat(heads.len()));
    for (text, (kind, rows)) in sizes[0].iter().enumerate() {
        for (number, row) in rows.iter().enumerate() {
            let cells: Vec<String> = sizes.iter().map(|s| cell(&s[text].1[number])).collect();
            println!("| {} | {kind} | {} |", row.name, cells.join(" | "));
        }
    }
}

fn rows_of(bytes: usize) -> Vec<(&'static str, Vec<Row>)> {
    texts::texts(bytes)
        .iter()
        .map(|text| (text.kind, conversions::rows(text)))
        .collect()
}

// Our throughput in GB/s of the source's bytes, theirs, and the ratio.
fn cell(row: &Row) -> String {
    let ours = row.bytes as f64 / row.times.ours;
    let theirs = row.bytes as f64 / row.times.theirs;
    format!("{ours:.2} / {theirs:.2} = {:.2}", ours / theirs)
}
