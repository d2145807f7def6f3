//! Both sides on many scripts, byte for byte.

use crate::scripts::{any_script, damaged, edges, Random};
use crate::verified::{self, Verified};
use std::collections::BTreeMap;

const SEED: u64 = 20_261_127;

#[derive(Default)]
struct Tally {
    compared: usize,
    scripts: usize,
    accepted: usize,
    refused: BTreeMap<u32, usize>,
}

impl Tally {
    fn compare(&mut self, verified: &mut Verified, text: &[u8], from: usize, times: usize) {
        let ours = independent::rounds(text, from, times);
        let theirs = verified.rounds(text, from, times);
        if theirs != Some(&ours) {
            crate::differ(text, from, times, theirs, &ours);
        }
        self.count(&ours);
    }

    fn count(&mut self, transcript: &[u8]) {
        self.compared += 1;
        if transcript == b"E\n" {
            return;
        }
        self.scripts += 1;
        let told = String::from_utf8_lossy(transcript);
        let answers = told.lines().filter_map(|line| line.split(' ').nth(1));
        for answer in answers.filter_map(|answer| answer.parse().ok()) {
            if answer == 0 {
                self.accepted += 1;
            } else {
                *self.refused.entry(answer).or_default() += 1;
            }
        }
    }

    fn print(&self, name: &str) {
        let refused: Vec<_> = self
            .refused
            .iter()
            .map(|(n, c)| format!("{n}: {c}"))
            .collect();
        println!(
            "| {name} | {} | {} | {} | {} | {} |",
            self.compared,
            self.scripts,
            self.compared - self.scripts,
            self.accepted,
            refused.join(", ")
        );
    }
}

/// Compares so many random scripts, and as many damaged ones.
pub fn compare_all(verified: &mut Verified, count: usize) {
    let mut random = Random(SEED);
    let mut edge = Tally::default();
    for text in edges() {
        edge.compare(verified, &text, 0, 0);
        edge.compare(verified, &text, 0, 1);
    }
    let mut whole = Tally::default();
    let mut broken = Tally::default();
    for _ in 0..count {
        let (from, times) = turns(&mut random);
        whole.compare(verified, &any_script(&mut random), from, times);
        let (from, times) = turns(&mut random);
        broken.compare(verified, &damaged(&mut random), from, times);
    }
    println!("| inputs | compared | scripts | no scripts (`E`) | calls accepted | calls refused, by number |");
    println!("|---|---|---|---|---|---|");
    edge.print("edges");
    whole.print("random");
    broken.print("damaged");
    compare_room(verified);
}

fn turns(random: &mut Random) -> (usize, usize) {
    match random.below(4) {
        0 => (0, 0),
        1 => (0, random.below(4)),
        2 => (random.below(70), random.below(4)),
        _ => (1 + random.below(8), random.below(4)),
    }
}

/// A transcript needs the room that it takes, and no more.
fn compare_room(verified: &mut Verified) {
    let text = b"f 1 7\nPLLRNBC\n1 2 3 4 0 1\n1\n2\n-\n1\n-\n5\n";
    let Some(length) = verified.rounds(text, 0, 0).map(<[u8]>::len) else {
        crate::fail("the example has no transcript");
    };
    for room in 0..length + 2 {
        let mut out = vec![0; room];
        let fits = verified::call(text, 0, 0, &mut out).is_some();
        if fits != (room >= length) {
            crate::fail(&format!("a transcript of {length} bytes in {room}"));
        }
    }
}
