//! The lines of a script, read and written for the original's side. Nothing here is shared with the port.

#[derive(Clone, Copy, Debug, PartialEq, Eq)]
pub enum Kind {
    Add,
    Remove,
    Count,
    Map,
    Unmap,
    UnmapGpa,
    Print,
    Allow,
}

pub const KINDS: [Kind; 8] =
    [Kind::Add, Kind::Remove, Kind::Count, Kind::Map, Kind::Unmap, Kind::UnmapGpa, Kind::Print, Kind::Allow];

impl Kind {
    /// Whether its calls change nothing, whatever they are answered.
    pub fn reads(self) -> bool {
        matches!(self, Kind::Count | Kind::Print)
    }

    pub fn letter(self) -> u8 {
        match self {
            Kind::Add => b'A',
            Kind::Remove => b'D',
            Kind::Count => b'C',
            Kind::Map => b'M',
            Kind::Unmap => b'U',
            Kind::UnmapGpa => b'G',
            Kind::Print => b'P',
            Kind::Allow => b'S',
        }
    }

    fn of(letter: u8) -> Option<Kind> {
        KINDS.into_iter().find(|kind| kind.letter() == letter)
    }

    pub fn numbers(self) -> usize {
        match self {
            Kind::Add | Kind::Remove => 3,
            Kind::Map => 4,
            Kind::Count | Kind::Unmap | Kind::UnmapGpa => 2,
            Kind::Print => 0,
            Kind::Allow => 1,
        }
    }
}

/// A call that names a compartment. Of the numbers, those that its kind has are used.
#[derive(Clone, Copy, Debug, PartialEq, Eq)]
pub struct Call {
    pub kind: Kind,
    pub compartment: u64,
    pub numbers: [u64; 4],
}

impl Call {
    pub fn new(kind: Kind, compartment: u64, given: &[u64]) -> Call {
        let mut numbers = [0; 4];
        numbers[..given.len()].copy_from_slice(given);
        Call { kind, compartment, numbers }
    }

    /// The line, without its end.
    pub fn line(&self) -> Vec<u8> {
        let mut line = vec![self.kind.letter()];
        put(&mut line, 2, self.compartment);
        for number in &self.numbers[..self.kind.numbers()] {
            put(&mut line, 21, *number);
        }
        line
    }

    /// The call that a line says, if it is of the form, to the column.
    pub fn parse(line: &[u8]) -> Option<Call> {
        let kind = Kind::of(*line.first()?)?;
        if line.len() != 3 + 21 * kind.numbers() {
            return None;
        }
        let compartment = take(&line[1..3])?;
        let mut numbers = [0; 4];
        for (number, column) in numbers.iter_mut().zip(line[3..].chunks_exact(21)) {
            *number = take(column)?;
        }
        Some(Call { kind, compartment, numbers })
    }
}

/// A number, right-justified in a column that is wide enough: spaces at once, and two digits for each division.
pub fn put(out: &mut Vec<u8>, width: usize, number: u64) {
    out.extend_from_slice(&[b' '; 21][..width]);
    let mut at = out.len();
    let mut rest = number;
    while rest >= 100 {
        let two = (rest % 100) as u8;
        rest /= 100;
        out[at - 1] = b'0' + two % 10;
        out[at - 2] = b'0' + two / 10;
        at -= 2;
    }
    let two = rest as u8;
    out[at - 1] = b'0' + two % 10;
    if two >= 10 {
        out[at - 2] = b'0' + two / 10;
    }
}

/// The number in a column: spaces, then digits without a leading zero, below 2^64. Only the 20th digit can be too much.
fn take(column: &[u8]) -> Option<u64> {
    let digits = &column[column.iter().take_while(|b| **b == b' ').count()..];
    if digits.is_empty() || (digits[0] == b'0' && digits.len() > 1) || digits.len() > 20 {
        return None;
    }
    let mut number: u64 = 0;
    for digit in &digits[..digits.len().min(19)] {
        if !digit.is_ascii_digit() {
            return None;
        }
        number = number * 10 + u64::from(digit - b'0');
    }
    match digits.get(19) {
        None => Some(number),
        Some(last) if last.is_ascii_digit() => number.checked_mul(10)?.checked_add(u64::from(last - b'0')),
        Some(_) => None,
    }
}

/// Lines as the bytes of a script.
pub fn text(lines: &[Vec<u8>]) -> Vec<u8> {
    let mut bytes = Vec::with_capacity(lines.iter().map(|line| line.len() + 1).sum());
    for line in lines {
        bytes.extend_from_slice(line);
        bytes.push(b'\n');
    }
    bytes
}

/// The lines of a script's bytes. The last may lack its end.
pub fn lines(script: &[u8]) -> Vec<Vec<u8>> {
    let mut lines: Vec<Vec<u8>> = script.split(|b| *b == b'\n').map(<[u8]>::to_vec).collect();
    if lines.last().is_some_and(Vec::is_empty) {
        lines.pop();
    }
    lines
}

pub const HEADING: &[u8] = b"ans                value\n";

/// An answer line.
pub fn put_answer(out: &mut Vec<u8>, answer: u64, value: u64) {
    put(out, 3, answer);
    put(out, 21, value);
    out.push(b'\n');
}

/// The answer and the value of an answer line, if it is one, to the column.
pub fn take_answer(line: &[u8]) -> Option<(u64, u64)> {
    let (answer, value) = (take(line.get(..3)?)?, take(line.get(3..24)?)?);
    (line[24..] == *b"\n").then_some((answer, value))
}

/// The lines of a stream.
pub fn put_mappings(out: &mut Vec<u8>, stream: &[u64]) {
    for mapping in stream.chunks_exact(5) {
        for number in mapping {
            put(out, 21, *number);
        }
        out.push(b'\n');
    }
}
