//! A bundle of adds and removes for one compartment (document 02, order 9). No line of a script says one: among the lines of a script
//! it stands as an entry that begins with byte 10, which no line has. The port is given its numbers.
use crate::line::{Call, Kind};

/// How many groups a bundle may have.
pub const MOST: usize = 32;

/// The numbers of a group: kind, start, end and rights.
const GROUP: usize = 4;

const MARK: &[u8] = b"\nbundle ";

#[derive(Clone, Debug, PartialEq, Eq)]
pub struct Bundle {
    pub compartment: u64,
    /// Those of all groups. The last group may lack some.
    pub numbers: Vec<u64>,
}

impl Bundle {
    /// Adds and removes, whatever compartments they name.
    pub fn of(compartment: u64, calls: &[Call]) -> Bundle {
        let group = |call: &Call| {
            let [start, end, rights, _] = call.numbers;
            [u64::from(call.kind == Kind::Remove), start, end, rights]
        };
        Bundle { compartment, numbers: calls.iter().flat_map(group).collect() }
    }

    /// The same with numbers behind them.
    pub fn with(mut self, numbers: &[u64]) -> Bundle {
        self.numbers.extend(numbers);
        self
    }

    pub fn groups(&self) -> impl Iterator<Item = &[u64]> {
        self.numbers.chunks(GROUP)
    }

    /// How many groups there are, an incomplete one among them.
    pub fn many(&self) -> usize {
        self.numbers.len().div_ceil(GROUP)
    }

    /// The call of a group, if it is one.
    pub fn call(&self, group: &[u64]) -> Option<Call> {
        let &[kind, ref numbers @ ..] = group else { return None };
        let kind = match kind {
            0 => Kind::Add,
            1 => Kind::Remove,
            _ => return None,
        };
        (group.len() == GROUP).then(|| Call::new(kind, self.compartment, numbers))
    }

    pub fn rights_mut(&mut self) -> impl Iterator<Item = &mut u64> {
        self.numbers.iter_mut().skip(GROUP - 1).step_by(GROUP)
    }

    /// The same without a group.
    pub fn without(&self, at: usize) -> Bundle {
        let groups = self.groups().enumerate().filter(|(i, _)| *i != at);
        Bundle { compartment: self.compartment, numbers: groups.flat_map(|(_, group)| group).copied().collect() }
    }

    /// What stands for it among lines.
    pub fn entry(&self) -> Vec<u8> {
        let words = |group: &[u64]| group.iter().map(u64::to_string).collect::<Vec<_>>().join(" ");
        let groups: Vec<String> = self.groups().map(words).collect();
        [MARK, format!("{}: {}", self.compartment, groups.join(", ")).as_bytes()].concat()
    }

    pub fn parse(entry: &[u8]) -> Option<Bundle> {
        let text = std::str::from_utf8(entry.strip_prefix(MARK)?).ok()?;
        let words = text.split([' ', ':', ',']).filter(|word| !word.is_empty());
        let mut numbers = words.map(|word| word.parse::<u64>().ok()).collect::<Option<Vec<u64>>>()?.into_iter();
        Some(Bundle { compartment: numbers.next()?, numbers: numbers.collect() })
    }
}

/// Whether an entry is a bundle and no line.
pub fn is_entry(entry: &[u8]) -> bool {
    entry.starts_with(MARK)
}
