//! What was measured, as Markdown.

use crate::measure::{Measured, Row};

/// Bytes that a line of 100 megabits a second carries in a nanosecond.
const LINE: f64 = 100e6 / 8.0 / 1e9;

fn print_head(columns: &[&str]) {
    println!("| {} |", columns.join(" | "));
    println!("|{}", "---|".repeat(columns.len()));
}

fn time(nanoseconds: f64) -> String {
    if nanoseconds < 100.0 {
        format!("{nanoseconds:.1}")
    } else {
        format!("{nanoseconds:.0}")
    }
}

/// Megabytes of file a second.
fn speed(row: &Row, nanoseconds: f64) -> String {
    format!("{:.1}", row.file_bytes() as f64 / nanoseconds * 1e3)
}

/// What a symbol takes over what it took at the size before.
fn growth(row: &Row, before: Option<&Row>, of: impl Fn(&Row) -> f64) -> String {
    let each = |row: &Row| of(row) / row.symbols() as f64;
    match before.filter(|before| before.field == row.field) {
        Some(before) => format!("{:.2}", each(row) / each(before)),
        None => "–".to_string(),
    }
}

fn of_call(rows: &[Row], call: Measured) -> impl Iterator<Item = &Row> {
    rows.iter().filter(move |row| row.call == call)
}

fn print_call(rows: &[Row], call: Measured) {
    println!("\n### {}\n", call.title());
    print_head(&[
        "field",
        "m",
        "verified, ns",
        "independent, ns",
        "ratio",
        "verified, MB/s",
        "independent, MB/s",
        "growth, verified",
        "growth, independent",
    ]);
    let mut before = None;
    for row in of_call(rows, call) {
        let (verified, independent) = (row.verified, row.independent);
        println!(
            "| {} | {} | {} | {} | {:.2} | {} | {} | {} | {} |",
            row.field.name,
            row.m,
            time(verified),
            time(independent),
            row.ratio(),
            speed(row, verified),
            speed(row, independent),
            growth(row, before, |row| row.verified),
            growth(row, before, |row| row.independent),
        );
        before = Some(row);
    }
}

fn print_renewals(rows: &[Row]) {
    println!("\n### What a renewal moves, and the line of 100 megabits a second\n");
    print_head(&[
        "field",
        "m",
        "numbers moved",
        "whole columns",
        "share",
        "on the line, ns",
        "verified, ns",
        "line over computing",
    ]);
    for row in of_call(rows, Measured::Renew) {
        let m = row.m;
        let (halves, columns) = ((3 * m + 1) << (m - 1), (3 * m) << m);
        let line = (halves * row.field.bytes) as f64 / LINE;
        println!(
            "| {} | {m} | {halves} | {columns} | {:.0} % | {} | {} | {:.1} |",
            row.field.name,
            100.0 * halves as f64 / columns as f64,
            time(line),
            time(row.verified),
            line / row.verified,
        );
    }
}

fn print_line(rows: &[Row]) {
    println!("\n### A file on the line of 100 megabits a second\n");
    print_head(&[
        "call",
        "field",
        "m",
        "file, bytes",
        "on the line, ns",
        "verified, ns",
        "line over computing",
    ]);
    let calls = [
        Measured::Encode,
        Measured::DecodeCrossing,
        Measured::DecodeAlong,
    ];
    for row in calls.into_iter().flat_map(|call| of_call(rows, call)) {
        let line = row.file_bytes() as f64 / LINE;
        println!(
            "| {} | {} | {} | {} | {} | {} | {:.1} |",
            row.call.name(),
            row.field.name,
            row.m,
            row.file_bytes(),
            time(line),
            time(row.verified),
            line / row.verified,
        );
    }
}

const WORTH_NAMING: f64 = 1.20;

fn print_slower(rows: &[Row]) {
    println!("\n### Where the verified side takes more than {WORTH_NAMING:.2} times as long\n");
    let mut slower: Vec<_> = rows
        .iter()
        .filter(|row| row.ratio() > WORTH_NAMING)
        .collect();
    if slower.is_empty() {
        println!("Nowhere.");
        return;
    }
    slower.sort_by(|a, b| b.ratio().total_cmp(&a.ratio()));
    print_head(&["call", "field", "m", "ratio"]);
    for row in &slower {
        let (call, field) = (row.call.name(), row.field.name);
        println!("| {call} | {field} | {} | {:.2} |", row.m, row.ratio());
    }
    println!("\n{} of {} ratios.", slower.len(), rows.len());
}

fn print_spread(rows: &[Row]) {
    let mut spreads: Vec<_> = rows.iter().map(|row| row.spread).collect();
    spreads.sort_by(f64::total_cmp);
    if let [.., largest] = spreads[..] {
        let middle = spreads[spreads.len() / 2];
        println!(
            "\nSlowest over quickest measurement of one case: {middle:.2} in the middle, {largest:.2} at most."
        );
    }
}

pub fn print(rows: &[Row]) {
    for call in Measured::ALL {
        print_call(rows, call);
    }
    print_renewals(rows);
    print_line(rows);
    print_slower(rows);
    print_spread(rows);
}
