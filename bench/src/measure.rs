//! Times of calls on both sides, by turns, on the same scripts.

use crate::scripts::{Draft, FieldName, Random};
use crate::verified::Verified;
use std::time::Instant;

#[derive(Clone, Copy, PartialEq, Eq)]
pub enum Measured {
    Encode,
    DecodeCrossing,
    DecodeAlong,
    DecodeOne,
    Renew,
    Amend,
}

use Measured::{Amend, DecodeAlong, DecodeCrossing, DecodeOne, Encode, Renew};

impl Measured {
    pub const ALL: [Measured; 6] = [Encode, DecodeCrossing, DecodeAlong, DecodeOne, Renew, Amend];

    pub fn title(self) -> &'static str {
        match self {
            Encode => "Encode: a file is put, all boxes stand",
            DecodeCrossing => "Decode: a file is read, two data boxes of different directions out",
            DecodeAlong => "Decode: a file is read, two data boxes of one direction out",
            DecodeOne => "Decode: a file is read, a data box and the first parity box out",
            Renew => "Renew: a data box is lost, and renewed from halves",
            Amend => "Amend: one symbol of the file, all boxes stand",
        }
    }

    pub fn name(self) -> &'static str {
        match self {
            Encode => "encode",
            DecodeCrossing => "decode, two directions",
            DecodeAlong => "decode, one direction",
            DecodeOne => "decode, data and parity",
            Renew => "renew",
            Amend => "amend",
        }
    }

    fn is_there(self, m: usize) -> bool {
        self != DecodeCrossing || m > 1
    }
}

/// A script, the calls of it that make a turn, and how often a turn makes the
/// call that is measured.
struct Case {
    text: Vec<u8>,
    from: usize,
    calls: usize,
}

impl Case {
    fn new(call: Measured, field: FieldName, m: usize) -> Self {
        let mut random = Random(2026);
        let mut draft = Draft::new(field, m);
        draft.put(&mut random, (3 * m) << m);
        let mut read_without = |boxes: [usize; 2]| {
            draft.command('L', &boxes[..1]);
            draft.command('L', &boxes[1..]);
            draft.command('R', &[]);
            (4, 1)
        };
        let (from, calls) = match call {
            Encode => (1, 1),
            DecodeCrossing => read_without([1, m + 2]),
            DecodeAlong => read_without([1, m + 1]),
            DecodeOne => read_without([1, 3 * m + 1]),
            Renew => {
                draft.command('L', &[1]);
                draft.command('N', &[1]);
                (2, 1)
            }
            // by turns to two symbols, so that each changes something
            Amend => {
                let last_row = (1 << m) - 1;
                draft.command('A', &[1, last_row, 1]);
                draft.command('A', &[1, last_row, field.size as usize - 1]);
                (2, 2)
            }
        };
        Case {
            text: draft.text(),
            from,
            calls,
        }
    }
}

pub struct Row {
    pub call: Measured,
    pub field: FieldName,
    pub m: usize,
    /// Nanoseconds a call.
    pub verified: f64,
    pub independent: f64,
    /// The slowest measurement over the quickest, of the side where that is more.
    pub spread: f64,
}

impl Row {
    pub fn ratio(&self) -> f64 {
        self.verified / self.independent
    }

    pub fn symbols(&self) -> usize {
        (3 * self.m) << self.m
    }

    pub fn file_bytes(&self) -> usize {
        self.symbols() * self.field.bytes
    }
}

/// How often and how long is measured, and which of the times counts.
pub struct Effort {
    pub measurements: usize,
    pub seconds: f64,
    pub counts: fn(&[f64]) -> f64,
}

pub fn median(times: &[f64]) -> f64 {
    let mut times = times.to_vec();
    times.sort_by(f64::total_cmp);
    times[times.len() / 2]
}

/// Of short measurements, it is that which other work on the machine disturbed
/// least.
pub fn least(times: &[f64]) -> f64 {
    times.iter().copied().fold(f64::INFINITY, f64::min)
}

/// The times of one side, with no turns and with some.
#[derive(Default)]
struct Times {
    none: Vec<f64>,
    all: Vec<f64>,
}

impl Times {
    fn of_turns(&self, counts: fn(&[f64]) -> f64) -> f64 {
        counts(&self.all) - counts(&self.none)
    }

    fn spread(&self) -> f64 {
        self.all.iter().copied().fold(0.0, f64::max) / least(&self.all)
    }
}

/// Both sides' seconds for so many turns of a case, and whether they agree.
fn time_both(verified: &mut Verified, case: &Case, turns: usize) -> (f64, f64) {
    let Case { text, from, .. } = case;
    let start = Instant::now();
    let theirs = verified.rounds(text, *from, turns);
    let middle = Instant::now();
    let ours = independent::rounds(text, *from, turns);
    let end = Instant::now();
    if theirs != Some(&ours) {
        crate::differ(text, *from, turns, theirs, &ours);
    }
    let seconds = |from: Instant, to: Instant| (to - from).as_secs_f64();
    (seconds(start, middle), seconds(middle, end))
}

/// How many turns take so many seconds, on the mean of the two sides.
fn turns_for(verified: &mut Verified, case: &Case, seconds: f64) -> usize {
    let mut turns = 1;
    loop {
        let (a, b) = time_both(verified, case, turns);
        let took = (a + b) / 2.0;
        if took > seconds / 8.0 {
            return ((turns as f64 * seconds / took) as usize).max(1);
        }
        turns *= 4;
    }
}

fn measure(
    verified: &mut Verified,
    call: Measured,
    field: FieldName,
    m: usize,
    effort: &Effort,
) -> Row {
    let case = Case::new(call, field, m);
    let turns = turns_for(verified, &case, effort.seconds);
    let (mut theirs, mut ours) = (Times::default(), Times::default());
    for _ in 0..effort.measurements {
        let none = time_both(verified, &case, 0);
        let all = time_both(verified, &case, turns);
        theirs.none.push(none.0);
        theirs.all.push(all.0);
        ours.none.push(none.1);
        ours.all.push(all.1);
    }
    let calls = (turns * case.calls) as f64;
    let each = |times: &Times| times.of_turns(effort.counts) / calls * 1e9;
    Row {
        call,
        field,
        m,
        verified: each(&theirs),
        independent: each(&ours),
        spread: theirs.spread().max(ours.spread()),
    }
}

/// All calls over the given fields, at all sizes that the fields have marks for.
pub fn measure_all(verified: &mut Verified, fields: &[FieldName], effort: &Effort) -> Vec<Row> {
    let mut rows = vec![];
    for call in Measured::ALL {
        for &field in fields {
            for m in (1..=field.largest).filter(|&m| call.is_there(m)) {
                rows.push(measure(verified, call, field, m, effort));
            }
        }
    }
    rows
}
