//! Scripts: reading them, running them, writing their transcripts.

use super::fields::{Byte, Field, Five, Four, Word};
use super::shelf::{Flat, Image, Joined, Shelf};
use super::vault::{Refusal, Vault};
use std::io::Write;

const MOST_BYTES: usize = 16384;
const MOST_SYMBOLS: usize = 1152;
const MOST_COMMANDS: u32 = 64;
const LARGEST_M: u32 = 9;

#[derive(Clone, Copy)]
enum FieldName {
    Five,
    Four,
    Bytes,
    Words,
}

impl FieldName {
    fn of_letter(letter: &[u8]) -> Option<Self> {
        match letter {
            b"f" => Some(FieldName::Five),
            b"q" => Some(FieldName::Four),
            b"b" => Some(FieldName::Bytes),
            b"w" => Some(FieldName::Words),
            _ => None,
        }
    }

    fn size(self) -> u32 {
        match self {
            FieldName::Five => Five::SIZE,
            FieldName::Four => Four::SIZE,
            FieldName::Bytes => Byte::SIZE,
            FieldName::Words => Word::SIZE,
        }
    }
}

struct Command {
    letter: u8,
    numbers: Vec<u32>,
}

struct Script {
    field: FieldName,
    m: u32,
    commands: Vec<Command>,
}

/// One to nine decimal digits, none to spare.
fn number(word: &[u8]) -> Option<u32> {
    let to_spare = word.len() > 1 && word[0] == b'0';
    if word.is_empty() || word.len() > 9 || to_spare {
        return None;
    }
    word.iter().try_fold(0, |value, digit| {
        digit
            .is_ascii_digit()
            .then(|| 10 * value + u32::from(digit - b'0'))
    })
}

fn numbers(line: &[u8]) -> Option<Vec<u32>> {
    if line == b"-" {
        return Some(vec![]);
    }
    line.split(|&byte| byte == b' ').map(number).collect()
}

fn command(field: FieldName, letter: u8, line: &[u8]) -> Option<Command> {
    let numbers = numbers(line)?;
    let fits = match letter {
        b'P' => {
            numbers.len() <= MOST_SYMBOLS && numbers.iter().all(|&symbol| symbol < field.size())
        }
        b'A' => numbers.len() == 3 && numbers[2] < field.size(),
        b'M' => numbers.len() == 2,
        b'C' | b'L' | b'N' => numbers.len() == 1,
        b'R' | b'B' => numbers.is_empty(),
        _ => false,
    };
    fits.then_some(Command { letter, numbers })
}

fn parse(text: &[u8]) -> Option<Script> {
    if text.len() > MOST_BYTES {
        return None;
    }
    let mut lines = text.strip_suffix(b"\n")?.split(|&byte| byte == b'\n');
    let mut head = lines.next()?.split(|&byte| byte == b' ');
    let field = FieldName::of_letter(head.next()?)?;
    let m = number(head.next()?).filter(|&m| m <= LARGEST_M)?;
    let count = number(head.next()?).filter(|count| (1..=MOST_COMMANDS).contains(count))?;
    if head.next().is_some() {
        return None;
    }
    let letters = lines.next()?;
    if letters.len() != count as usize || lines.clone().count() != letters.len() {
        return None;
    }
    let commands = letters
        .iter()
        .zip(lines)
        .map(|(&letter, line)| command(field, letter, line))
        .collect::<Option<_>>()?;
    Some(Script { field, m, commands })
}

/// A call with its buffer.
enum Call<F> {
    SetUp(usize),
    Put(Vec<F>),
    Amend {
        number: usize,
        row: usize,
        symbol: F,
        work: Vec<F>,
    },
    Read(Vec<F>),
    Column {
        number: usize,
        into: Vec<F>,
    },
    Message {
        helper: usize,
        lost: usize,
        into: Vec<F>,
    },
    Lose(usize),
    Renew {
        number: usize,
        work: Vec<F>,
    },
    Rebuild(Vec<F>),
}

/// What a call came to, beside what is in its buffer.
enum Answer {
    Refused(Refusal),
    Done,
    Count(usize),
}

fn done(result: Result<(), Refusal>) -> Answer {
    match result {
        Ok(()) => Answer::Done,
        Err(why) => Answer::Refused(why),
    }
}

fn counted(result: Result<usize, Refusal>) -> Answer {
    match result {
        Ok(count) => Answer::Count(count),
        Err(why) => Answer::Refused(why),
    }
}

impl<F: Field> Call<F> {
    fn of_command(command: &Command, m: usize) -> Self {
        let buffer = |boxes: usize, rows: usize| match m {
            1..=6 => vec![F::ZERO; boxes * rows],
            _ => vec![],
        };
        let rows = 1 << m;
        let file = || buffer(3 * m, rows);
        let at = |i: usize| command.numbers[i] as usize;
        match command.letter {
            b'P' => Call::Put(command.numbers.iter().map(|&n| F::symbol(n)).collect()),
            b'A' => Call::Amend {
                number: at(0),
                row: at(1),
                symbol: F::symbol(command.numbers[2]),
                work: file(),
            },
            b'R' => Call::Read(file()),
            b'C' => Call::Column {
                number: at(0),
                into: buffer(1, rows),
            },
            b'M' => Call::Message {
                helper: at(0),
                lost: at(1),
                into: buffer(1, rows / 2),
            },
            b'L' => Call::Lose(at(0)),
            b'N' => Call::Renew {
                number: at(0),
                work: file(),
            },
            _ => Call::Rebuild(file()),
        }
    }

    fn perform<S: Shelf<F>>(&mut self, vault: &mut Vault<F, S>) -> Answer {
        match self {
            Call::SetUp(m) => done(vault.set_up(*m)),
            Call::Put(file) => done(vault.put(file)),
            Call::Amend {
                number,
                row,
                symbol,
                work,
            } => done(vault.amend(*number, *row, *symbol, work)),
            Call::Read(into) => done(vault.read(into)),
            Call::Column { number, into } => done(vault.column(*number, into)),
            Call::Message { helper, lost, into } => done(vault.message(*helper, *lost, into)),
            Call::Lose(number) => done(vault.lose(*number)),
            Call::Renew { number, work } => counted(vault.renew(*number, work)),
            Call::Rebuild(work) => counted(vault.rebuild(work)),
        }
    }

    fn letter(&self) -> u8 {
        match self {
            Call::SetUp(_) => b'S',
            Call::Put(_) => b'P',
            Call::Amend { .. } => b'A',
            Call::Read(_) => b'R',
            Call::Column { .. } => b'C',
            Call::Message { .. } => b'M',
            Call::Lose(_) => b'L',
            Call::Renew { .. } => b'N',
            Call::Rebuild(_) => b'B',
        }
    }

    fn told(&self) -> &[F] {
        match self {
            Call::Read(into) | Call::Column { into, .. } | Call::Message { into, .. } => into,
            _ => &[],
        }
    }
}

fn write_line<F: Field>(out: &mut Vec<u8>, call: &Call<F>, answer: &Answer) {
    out.push(call.letter());
    let written = match answer {
        Answer::Refused(why) => write!(out, " {}", *why as u32),
        Answer::Count(count) => write!(out, " 0 {count}"),
        Answer::Done => write!(out, " 0").and_then(|()| {
            call.told()
                .iter()
                .try_for_each(|symbol| write!(out, " {}", symbol.number()))
        }),
    };
    written.expect("a vector takes all that is written");
    out.push(b'\n');
}

fn run<F: Field, S: Shelf<F>>(shelf: S, script: &Script, from: usize, times: usize) -> Vec<u8> {
    let m = script.m as usize;
    let commands = script.commands.iter();
    let mut calls: Vec<_> = std::iter::once(Call::SetUp(m))
        .chain(commands.map(|command| Call::of_command(command, m)))
        .map(|call| (call, Answer::Done))
        .collect();
    let mut vault = Vault::new(shelf);
    let mut perform = |calls: &mut [(Call<F>, Answer)]| {
        for (call, answer) in calls {
            *answer = call.perform(&mut vault);
        }
    };
    perform(&mut calls);
    let from = from.min(calls.len());
    for _ in 0..times {
        perform(&mut calls[from..]);
    }
    let mut out = vec![];
    for (call, answer) in &calls {
        write_line(&mut out, call, answer);
    }
    out
}

fn run_flat<F: Field>(script: &Script, from: usize, times: usize) -> Vec<u8> {
    let (boxes, rows) = shape(script.m as usize);
    run(Flat::<F>::new(boxes, rows), script, from, times)
}

fn run_words(script: &Script, from: usize, times: usize) -> Vec<u8> {
    let (boxes, rows) = shape(script.m as usize);
    let parities = boxes.min(2);
    let data = Flat::<Word>::new(boxes - parities, rows);
    let shelf = Joined::new(data, Image::new(parities, rows));
    run(shelf, script, from, times)
}

fn shape(m: usize) -> (usize, usize) {
    match m {
        1..=6 => (3 * m + 2, 1 << m),
        _ => (0, 0),
    }
}

/// Runs a script's calls in their order on a new vault, and then, so many times
/// more, those from one on (0 is set up). The transcript has what each call
/// came to the last time it was made.
pub fn rounds(text: &[u8], from: usize, times: usize) -> Vec<u8> {
    match parse(text) {
        None => b"E\n".to_vec(),
        Some(script) => match script.field {
            FieldName::Five => run_flat::<Five>(&script, from, times),
            FieldName::Four => run_flat::<Four>(&script, from, times),
            FieldName::Bytes => run_flat::<Byte>(&script, from, times),
            FieldName::Words => run_words(&script, from, times),
        },
    }
}

#[cfg(test)]
mod tests {
    use super::rounds;

    fn told(text: &str, from: usize, times: usize) -> String {
        String::from_utf8(rounds(text.as_bytes(), from, times)).unwrap()
    }

    const EXAMPLE: &str = "f 1 7\nPLLRNBC\n1 2 3 4 0 1\n1\n2\n-\n1\n-\n5\n";

    #[test]
    fn the_example() {
        let transcript = "S 0\nP 0\nL 0\nL 0\nR 0 1 2 3 4 0 1\nN 11\nB 0 2\nC 0 2 1\n";
        assert_eq!(told(EXAMPLE, 8, 5), transcript);
        assert_eq!(told(EXAMPLE, 0, 2), transcript);
        assert_eq!(
            told(EXAMPLE, 6, 1),
            "S 0\nP 0\nL 0\nL 0\nR 0 1 2 3 4 0 1\nN 11\nB 0 0\nC 0 2 1\n"
        );
    }

    #[test]
    fn worked_messages_and_amendment() {
        let text = "f 1 8\nPLMMMMAC\n1 2 3 4 0 1\n1\n2 1\n3 1\n4 1\n5 1\n1 1 0\n4\n";
        let transcript = "S 0\nP 0\nL 0\nM 0 3\nM 0 0\nM 0 4\nM 0 2\nA 0\nC 0 4 0\n";
        assert_eq!(told(text, 9, 0), transcript);
    }

    #[test]
    fn no_scripts() {
        for text in [
            "",
            "\n",
            "f 1 1\nR\n-",
            "f 1 1\nR\n-\n\n",
            "f 1 1\nR\n\n",
            "f 1 1\r\nR\r\n-\r\n",
            "f 01 1\nR\n-\n",
            "f 1 2\nR\n-\n",
            "f 1 1\nA\n1 0 5\n",
            "f 10 1\nR\n-\n",
            "f 1 1\nP\n1  2\n",
            "f 1 1\nL\n1000000000\n",
        ] {
            assert_eq!(told(text, 0, 1), "E\n", "{text:?}");
        }
    }
}
