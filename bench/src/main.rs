//! The verified library beside an independent implementation: equality on many
//! inputs, and speed, as Markdown.

mod equality;
mod measure;
mod scripts;
mod tables;
mod verified;

use measure::{least, median, Effort};
use scripts::FIELDS;
use std::process::exit;
use std::time::Instant;
use verified::Verified;

/// The median of seven measurements, for a machine that does nothing else.
const MEDIANS: Effort = Effort {
    measurements: 7,
    seconds: 0.06,
    counts: median,
};

/// The least of many short ones, for one that does.
const LEAST: Effort = Effort {
    measurements: 100,
    seconds: 0.001,
    counts: least,
};

fn fail(why: &str) -> ! {
    eprintln!("bench: {why}");
    exit(1)
}

/// Prints what the two sides said, where they differ, and ends.
fn differ(text: &[u8], from: usize, times: usize, verified: Option<&[u8]>, ours: &[u8]) -> ! {
    let shown = |text: &[u8]| text.escape_ascii().to_string().replace("\\n", "\\n\n");
    println!("The two sides differ, from = {from}, times = {times}, on:");
    println!("{}", shown(text));
    match verified {
        Some(verified) => println!("verified:\n{}", shown(verified)),
        None => println!("verified: nothing"),
    }
    println!("independent:\n{}", shown(ours));
    fail("the two sides differ")
}

/// Makes so many turns of one script on one side, for a profiler.
fn profile(side: &str, path: &str, from: &str, times: &str) -> ! {
    let number = |word: &str| word.parse().unwrap_or_else(|_| fail("a number is wanted"));
    let (from, times) = (number(from), number(times));
    let text = std::fs::read(path).unwrap_or_else(|why| fail(&why.to_string()));
    let start = Instant::now();
    match side {
        "verified" => drop(Verified::new().rounds(&text, from, times).map(<[u8]>::len)),
        "independent" => drop(independent::rounds(&text, from, times)),
        _ => fail("a side is verified or independent"),
    }
    let nanoseconds = start.elapsed().as_nanos() as f64;
    println!("{:.1} ns a turn", nanoseconds / times.max(1) as f64);
    exit(0)
}

fn main() {
    let words: Vec<_> = std::env::args().skip(1).collect();
    let words: Vec<_> = words.iter().map(String::as_str).collect();
    let (count, fields, effort) = match words[..] {
        [] => (6000, &FIELDS[..], MEDIANS),
        ["--least"] => (6000, &FIELDS[..], LEAST),
        ["--quick"] => (3000, &FIELDS[2..3], LEAST),
        ["--profile", side, path, from, times] => profile(side, path, from, times),
        _ => fail("usage: bench/run [--quick | --least | --profile SIDE SCRIPT FROM TIMES]"),
    };
    let start = Instant::now();
    let mut verified = Verified::new();
    println!("### Equality\n");
    equality::compare_all(&mut verified, count);
    println!("\nNo two differ.");
    let rows = measure::measure_all(&mut verified, fields, &effort);
    tables::print(&rows);
    println!(
        "\nThe whole run took {} seconds.",
        start.elapsed().as_secs()
    );
}
