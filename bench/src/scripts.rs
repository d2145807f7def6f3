//! Scripts drawn at random, and damaged ones.

use independent::fields::{Byte, Field, Five, Four, Word};

/// Numbers from a seed (SplitMix64).
pub struct Random(pub u64);

impl Random {
    fn next(&mut self) -> u64 {
        self.0 = self.0.wrapping_add(0x9e37_79b9_7f4a_7c15);
        let z = (self.0 ^ (self.0 >> 30)).wrapping_mul(0xbf58_476d_1ce4_e5b9);
        let z = (z ^ (z >> 27)).wrapping_mul(0x94d0_49bb_1331_11eb);
        z ^ (z >> 31)
    }

    pub fn below(&mut self, n: usize) -> usize {
        (self.next() % n as u64) as usize
    }

    fn one_in(&mut self, n: usize) -> bool {
        self.below(n) == 0
    }

    fn pick<T: Copy>(&mut self, from: &[T]) -> T {
        from[self.below(from.len())]
    }
}

#[derive(Clone, Copy, PartialEq, Eq)]
pub struct FieldName {
    pub letter: char,
    pub name: &'static str,
    pub size: u32,
    /// What a symbol takes on a disk or a line: 16 bits of a word, though 65536
    /// wants one more.
    pub bytes: usize,
    /// The largest m for which the field has marks enough.
    pub largest: usize,
}

const fn field<F: Field>(letter: char, name: &'static str, bytes: usize) -> FieldName {
    let most = F::MARKS / 2;
    FieldName {
        letter,
        name,
        size: F::SIZE,
        bytes,
        largest: if most < 6 { most } else { 6 },
    }
}

pub const FIELDS: [FieldName; 4] = [
    field::<Five>('f', "five", 1),
    field::<Four>('q', "four", 1),
    field::<Byte>('b', "bytes", 1),
    field::<Word>('w', "words", 2),
];

/// A script as it is written, command by command.
pub struct Draft {
    field: FieldName,
    m: usize,
    letters: String,
    lines: Vec<String>,
}

fn joined(numbers: &[usize]) -> String {
    if numbers.is_empty() {
        return "-".to_string();
    }
    let words: Vec<_> = numbers.iter().map(usize::to_string).collect();
    words.join(" ")
}

impl Draft {
    pub fn new(field: FieldName, m: usize) -> Self {
        Draft {
            field,
            m,
            letters: String::new(),
            lines: vec![],
        }
    }

    pub fn command(&mut self, letter: char, numbers: &[usize]) {
        self.letters.push(letter);
        self.lines.push(joined(numbers));
    }

    /// Puts a file of any symbols.
    pub fn put(&mut self, random: &mut Random, symbols: usize) {
        let numbers: Vec<_> = (0..symbols).map(|_| self.symbol(random)).collect();
        self.command('P', &numbers);
    }

    pub fn text(&self) -> Vec<u8> {
        let Draft { field, m, .. } = self;
        let (letters, count) = (&self.letters, self.lines.len());
        let lines = self.lines.join("\n");
        format!("{} {m} {count}\n{letters}\n{lines}\n", field.letter).into_bytes()
    }

    fn length(&self) -> usize {
        let lines: usize = self.lines.iter().map(|line| line.len() + 2).sum();
        lines + 10
    }

    fn symbol(&self, random: &mut Random) -> usize {
        let size = self.field.size as usize;
        match random.below(16) {
            0 => size - 1,
            1 => 0,
            _ => random.below(size),
        }
    }

    fn number(&self, random: &mut Random, boxes: usize) -> usize {
        match random.below(24) {
            0 => 0,
            1 => boxes + 1 + random.below(3),
            2 => random.pick(&[999_999_999, 64, 65537, boxes + 32]),
            _ => 1 + random.below(boxes.max(1)),
        }
    }

    fn row(&self, random: &mut Random) -> usize {
        let rows = 1 << self.m;
        match random.below(16) {
            0 => rows,
            1 => random.pick(&[999_999_999, 4096, rows + 1]),
            _ => random.below(rows),
        }
    }

    fn put_any(&mut self, random: &mut Random, room: usize) {
        let fitting = (3 * self.m) << self.m;
        let symbols = match random.below(12) {
            0 => 0,
            1 => fitting + 1,
            2 => fitting.saturating_sub(1),
            3 => random.below(40),
            _ => fitting,
        };
        let longest = self.field.size.to_string().len() + 1;
        let symbols = symbols.min(1152);
        if symbols * longest < room {
            self.put(random, symbols);
        } else {
            self.command('R', &[]);
        }
    }
}

const MOST_BYTES: usize = 16384;

/// A script that breaks no rule.
pub fn any_script(random: &mut Random) -> Vec<u8> {
    let field = random.pick(&FIELDS);
    let m = match random.below(8) {
        0 => random.below(10),
        _ => 1 + random.below(field.largest),
    };
    let mut draft = Draft::new(field, m);
    let commands = match random.below(3) {
        0 => 1 + random.below(8),
        1 => 1 + random.below(24),
        _ => 1 + random.below(64),
    };
    let (data_boxes, boxes) = (3 * m, 3 * m + 2);
    // which boxes are out, roughly: what is refused is not told here
    let mut out: Vec<usize> = vec![];
    if commands > 1 && !random.one_in(8) {
        draft.put_any(random, MOST_BYTES / 2);
    }
    while draft.lines.len() < commands {
        let room = MOST_BYTES.saturating_sub(draft.length() + 64 * 26);
        match random.below(20) {
            0..=2 => draft.put_any(random, room),
            3..=5 => {
                let (row, symbol) = (draft.row(random), draft.symbol(random));
                let number = draft.number(random, data_boxes);
                draft.command('A', &[number, row, symbol]);
            }
            6..=8 => draft.command('R', &[]),
            9 | 10 => {
                let number = draft.number(random, boxes);
                draft.command('C', &[number]);
            }
            11 | 12 => {
                let (helper, lost) = (draft.number(random, boxes), draft.number(random, boxes));
                let helper = if random.one_in(8) { lost } else { helper };
                draft.command('M', &[helper, lost]);
            }
            13..=15 if out.len() < 2 || random.one_in(12) => {
                let number = draft.number(random, boxes);
                out.push(number);
                draft.command('L', &[number]);
            }
            16 | 17 => {
                let any = draft.number(random, boxes);
                let number = match out.as_slice() {
                    [only] => {
                        let only = *only;
                        out.clear();
                        only
                    }
                    [one, ..] if random.one_in(2) => *one,
                    _ => any,
                };
                draft.command('N', &[number]);
            }
            _ => {
                if out.len() < 3 {
                    out.clear();
                }
                draft.command('B', &[]);
            }
        }
    }
    draft.text()
}

/// Scripts at the edges of what a script may be.
pub fn edges() -> Vec<Vec<u8>> {
    let mut random = Random(1);
    let mut texts = vec![];
    let mut put = |symbols: usize, letter: usize, m: usize| {
        let mut draft = Draft::new(FIELDS[letter], m);
        draft.put(&mut random, symbols);
        draft.command('R', &[]);
        texts.push(draft.text());
    };
    for m in 0..=9 {
        for letter in 0..4 {
            put(1152, letter, m);
            put(1153, letter, m);
            put((3 * m) << m, letter, m);
        }
    }
    for commands in [1, 63, 64, 65] {
        let mut draft = Draft::new(FIELDS[2], 1);
        for _ in 0..commands {
            draft.command('B', &[]);
        }
        texts.push(draft.text());
    }
    // of 16382 to 16387 bytes
    for surplus in 0..6 {
        let mut draft = Draft::new(FIELDS[2], 6);
        for _ in 0..3 {
            draft.command('P', &[100; 1152]);
        }
        // the line to come, its line feed, and a letter
        let left = 16382 + surplus - (draft.text().len() + 1);
        let mut numbers = vec![100; left.div_ceil(4)];
        let too_long = 4 * numbers.len() - left;
        numbers[..too_long].fill(10);
        draft.command('P', &numbers);
        texts.push(draft.text());
    }
    texts.extend([vec![], b"\n".to_vec(), b"\n\n".to_vec(), vec![b'f'; 20000]]);
    texts
}

/// A script with damage, which may be a script still.
pub fn damaged(random: &mut Random) -> Vec<u8> {
    let mut text = any_script(random);
    for _ in 0..1 + random.below(5) / 3 {
        damage(random, &mut text);
    }
    text
}

const BYTES: &[u8] = b"0123456789 -\nPARCMLNBSEfqbwx\r\t+.\0\xff";

fn damage(random: &mut Random, text: &mut Vec<u8>) {
    if text.is_empty() {
        return;
    }
    // as often near the front as anywhere
    let near = if random.one_in(2) {
        text.len()
    } else {
        text.len().min(40)
    };
    let at = random.below(near);
    match random.below(23) {
        0 => text[at] ^= 1 << random.below(8),
        1 => text[at] = random.pick(BYTES),
        2 => {
            text.remove(at);
        }
        3 => text.insert(at, text[at]),
        4 => text.insert(at, random.pick(BYTES)),
        5 => text.truncate(at),
        6 => insert_in_number(random, text, at, b'0'),
        7 => insert_in_number(random, text, at, b'9'),
        8 => *text = replaced(text, b"\n", b"\r\n"),
        9 => text.insert(line_end(text, at), b'\r'),
        10 => {
            text.pop();
        }
        11 => text.push(random.pick(BYTES)),
        12 => text.push(b'\n'),
        13 => change_lines(random, text, |lines, i, _| {
            lines.remove(i);
        }),
        14 => change_lines(random, text, |lines, i, _| {
            lines.insert(i, lines[i].clone())
        }),
        15 => change_lines(random, text, |lines, i, j| lines.swap(i, j)),
        16 => change_lines(random, text, |lines, i, _| lines[i] = b"-".to_vec()),
        17 => change_lines(random, text, |lines, i, _| lines[i].extend(b" 1")),
        18 => change_numbers(random, text),
        19..=21 => change_digit(random, text, at),
        _ => {
            let space = random.pick(&[&b"  "[..], b"\t", b" \n", b", "]);
            *text = replaced(text, b" ", space);
        }
    }
}

fn line_end(text: &[u8], at: usize) -> usize {
    let rest = text[at..].iter().position(|&byte| byte == b'\n');
    rest.map_or(text.len(), |rest| at + rest)
}

fn replaced(text: &[u8], old: &[u8; 1], new: &[u8]) -> Vec<u8> {
    let pieces: Vec<_> = text.split(|byte| *byte == old[0]).collect();
    pieces.join(new)
}

/// Another digit in place of the one at a place, or of the next one.
fn change_digit(random: &mut Random, text: &mut [u8], at: usize) {
    if let Some(digit) = text[at..].iter_mut().find(|byte| byte.is_ascii_digit()) {
        *digit = random.pick(b"0123456789");
    }
}

/// At the front of the number at a place, or of the next one.
fn insert_in_number(random: &mut Random, text: &mut Vec<u8>, at: usize, digit: u8) {
    let is_digit = |byte: &u8| byte.is_ascii_digit();
    let Some(found) = text[at..].iter().position(is_digit) else {
        return;
    };
    let start = text[..at + found].iter().rposition(|byte| !is_digit(byte));
    let start = start.map_or(0, |before| before + 1);
    for _ in 0..1 + random.below(3) * random.below(4) {
        text.insert(start, digit);
    }
}

fn change_lines(
    random: &mut Random,
    text: &mut Vec<u8>,
    change: impl FnOnce(&mut Vec<Vec<u8>>, usize, usize),
) {
    let mut lines: Vec<_> = text
        .split(|&byte| byte == b'\n')
        .map(<[u8]>::to_vec)
        .collect();
    let (i, j) = (random.below(lines.len()), random.below(lines.len()));
    change(&mut lines, i, j);
    *text = lines.join(&b'\n');
}

/// Another m or another count, or any other number on the first line.
fn change_numbers(random: &mut Random, text: &mut Vec<u8>) {
    let end = line_end(text, 0);
    let mut words: Vec<_> = text[..end]
        .split(|&byte| byte == b' ')
        .map(<[u8]>::to_vec)
        .collect();
    let word = random.below(words.len());
    let numbers = [0, 1, 2, 3, 6, 7, 9, 10, 63, 64, 65, 255, 256, 65537];
    words[word] = match random.below(6) {
        0 => vec![random.pick(b"fqbwxFQBW")],
        1 => vec![],
        _ => random.pick(&numbers).to_string().into_bytes(),
    };
    text.splice(..end, words.join(&b' '));
}
