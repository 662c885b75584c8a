//! The shapes of scripts: each draws its numbers so that calls meet each other, and every answer is reached.
use crate::bundle::Bundle;
use crate::compare::Script;
use crate::line::{Call, Kind};
use crate::random::Random;

/// Lines that many scripts begin with. Those with more than 128 records first have the whole pool for compartment 0.
#[derive(Clone, Copy, Debug, PartialEq, Eq, Hash)]
pub enum Preamble {
    None,
    /// Single addresses 0, 2, .. of compartment 0, so many.
    Singles(u64),
    /// Ranges inside each other: two records for each line behind the first.
    Nested(u64),
    /// A record [0, 10), and single addresses 100, 102, ..
    Apart(u64),
    /// So many segments, with a record over all of them.
    Segments(u64),
    /// So many segments of one host address.
    Stacked(u64),
    /// So many segments of eight host addresses in a row: a range cuts some of them in two and takes others whole.
    Stairs(u64),
}

pub const PREAMBLES: [Preamble; 12] = [
    Preamble::Singles(1024),
    Preamble::Singles(1021),
    Preamble::Nested(512),
    Preamble::Nested(510),
    Preamble::Apart(1022),
    Preamble::Apart(1023),
    Preamble::Segments(64),
    Preamble::Segments(62),
    Preamble::Stacked(63),
    Preamble::Stacked(64),
    Preamble::Stairs(60),
    Preamble::Stairs(64),
];

pub fn allow(k: u64, allowance: u64) -> Call {
    Call::new(Kind::Allow, k, &[allowance])
}

/// Compartment 0 is allowed all records, and the others none.
pub fn whole_pool() -> Vec<Call> {
    (1..8).map(|k| allow(k, 0)).chain([allow(0, 1024)]).collect()
}

impl Preamble {
    pub fn calls(self) -> Vec<Call> {
        let add = |start, end| Call::new(Kind::Add, 0, &[start, end, 1]);
        let pooled = |adds: Vec<Call>| [whole_pool(), adds].concat();
        match self {
            Preamble::None => Vec::new(),
            Preamble::Singles(n) => pooled((0..n).map(|i| add(2 * i, 2 * i + 1)).collect()),
            Preamble::Nested(n) => pooled((0..n).map(|i| add(i, 3000 - i)).collect()),
            Preamble::Apart(n) => {
                let singles = (0..n).map(|i| add(100 + 2 * i, 101 + 2 * i));
                pooled(std::iter::once(add(0, 10)).chain(singles).collect())
            }
            Preamble::Segments(n) => {
                let map = |i| Call::new(Kind::Map, 0, &[10 * i, 1000 + 10 * i, 8, 1]);
                std::iter::once(add(3, 500)).chain((0..n).map(map)).collect()
            }
            Preamble::Stacked(n) => {
                let map = |i| Call::new(Kind::Map, 0, &[100, 1000 + 20 * i, 1 + i % 15, 1]);
                std::iter::once(add(95, 120)).chain((0..n).map(map)).collect()
            }
            Preamble::Stairs(n) => {
                let map = |i| Call::new(Kind::Map, 0, &[100 + i % 8, 1000 + 20 * i, 1 + i % 5, 1]);
                std::iter::once(add(95, 120)).chain((0..n).map(map)).collect()
            }
        }
    }
}

/// Where a shape draws its numbers from.
pub struct Shape {
    /// Of some 12 lines, how many are A, D, C, M, U, G, P and S.
    letters: [u64; 8],
    host: fn(&mut Random) -> u64,
    guest: fn(&mut Random) -> u64,
    size: fn(&mut Random) -> u64,
    repeat: fn(&mut Random) -> u64,
    pub rights: fn(&mut Random) -> u64,
    pub compartment: fn(&mut Random) -> u64,
    allowance: fn(&mut Random) -> u64,
    lines: (u64, u64),
    preambles: &'static [Preamble],
}

fn few(r: &mut Random) -> u64 {
    r.below(14)
}

fn some(r: &mut Random) -> u64 {
    r.below(48)
}

fn top(r: &mut Random) -> u64 {
    if r.once_in(4) {
        u64::MAX
    } else {
        u64::MAX - r.below(14)
    }
}

fn ends(r: &mut Random) -> u64 {
    match r.below(5) {
        0 => r.next(),
        1 => r.below(4),
        2 => (1 << 63) - 3 + r.below(6),
        3 => 1 << r.below(64),
        _ => u64::MAX - r.below(6),
    }
}

fn about_pool(r: &mut Random) -> u64 {
    if r.once_in(3) {
        r.below(16)
    } else {
        r.below(3010)
    }
}

fn about_segments(r: &mut Random) -> u64 {
    if r.once_in(3) {
        90 + r.below(40)
    } else {
        r.below(650)
    }
}

fn about_guests(r: &mut Random) -> u64 {
    990 + r.below(1300)
}

fn stacked(r: &mut Random) -> u64 {
    r.one_of(&[10, 10, 10, 12, 20])
}

fn spread(r: &mut Random) -> u64 {
    100 * r.between(1, 9) + r.below(3)
}

/// Starts a good way apart, and as often an address behind one: an unmap that begins there cuts a tail or a middle.
fn apart(r: &mut Random) -> u64 {
    32 * r.between(1, 6) + if r.once_in(2) { 0 } else { 4 + r.below(12) }
}

fn short(r: &mut Random) -> u64 {
    r.below(8)
}

fn longer(r: &mut Random) -> u64 {
    1 + r.below(16)
}

fn any_size(r: &mut Random) -> u64 {
    if r.once_in(2) {
        r.below(30)
    } else {
        ends(r)
    }
}

fn once(r: &mut Random) -> u64 {
    if r.once_in(12) {
        r.below(3)
    } else {
        1
    }
}

fn often(r: &mut Random) -> u64 {
    r.below(5)
}

fn any_repeat(r: &mut Random) -> u64 {
    if r.once_in(2) {
        1
    } else {
        ends(r)
    }
}

fn plain(r: &mut Random) -> u64 {
    r.one_of(&[1, 1, 3, 3, 7, 11])
}

fn every(r: &mut Random) -> u64 {
    match r.below(25) {
        0 => r.one_of(&[64, 65, 128, u64::MAX]),
        1..=3 => 32 + r.below(32),
        _ => r.below(32),
    }
}

fn first(_: &mut Random) -> u64 {
    0
}

fn three(r: &mut Random) -> u64 {
    if r.once_in(30) {
        r.one_of(&[8, 9, 10, 99])
    } else {
        r.below(3)
    }
}

fn eight(r: &mut Random) -> u64 {
    r.below(9)
}

fn two(r: &mut Random) -> u64 {
    r.below(2)
}

/// Few records, so that they do not suffice; now and then what others must give up first.
fn tight(r: &mut Random) -> u64 {
    match r.below(12) {
        0 => 127 + r.below(3),
        1 => r.one_of(&[256, 1023, 1024, 1025, u64::MAX]),
        _ => r.below(7),
    }
}

/// About what a nearly full pool has left, or has in use.
fn about_rest(r: &mut Random) -> u64 {
    if r.once_in(3) {
        r.below(5)
    } else {
        1018 + r.below(8)
    }
}

const NO: &[Preamble] = &[Preamble::None];
const POOL: &[Preamble] = &[PREAMBLES[0], PREAMBLES[1], PREAMBLES[2], PREAMBLES[3], PREAMBLES[4], PREAMBLES[5]];
const SLOTS: &[Preamble] = &[PREAMBLES[6], PREAMBLES[7], PREAMBLES[8], PREAMBLES[9], PREAMBLES[10], PREAMBLES[11]];

#[rustfmt::skip]
static SHAPES: [(&str, Shape); 13] = [
    ("crowded records", Shape { letters: [5, 4, 1, 0, 0, 0, 1, 0], host: few, guest: few, size: short, repeat: once, rights: every, compartment: first, allowance: tight, lines: (3, 24), preambles: NO }),
    ("crowded records and segments", Shape { letters: [3, 2, 1, 3, 1, 1, 1, 0], host: few, guest: few, size: short, repeat: once, rights: plain, compartment: three, allowance: tight, lines: (3, 24), preambles: NO }),
    ("removes over gaps", Shape { letters: [4, 7, 0, 0, 0, 0, 1, 0], host: some, guest: few, size: short, repeat: once, rights: plain, compartment: first, allowance: tight, lines: (4, 20), preambles: NO }),
    ("segments", Shape { letters: [1, 0, 0, 5, 2, 3, 1, 0], host: some, guest: spread, size: short, repeat: once, rights: plain, compartment: first, allowance: tight, lines: (4, 20), preambles: NO }),
    ("equal hpa", Shape { letters: [1, 0, 0, 6, 2, 2, 1, 0], host: stacked, guest: spread, size: short, repeat: once, rights: every, compartment: first, allowance: tight, lines: (4, 20), preambles: NO }),
    ("repeats", Shape { letters: [1, 0, 0, 5, 1, 4, 1, 0], host: some, guest: some, size: short, repeat: often, rights: plain, compartment: first, allowance: tight, lines: (4, 16), preambles: NO }),
    ("near 2^64", Shape { letters: [3, 2, 1, 3, 1, 1, 1, 0], host: top, guest: top, size: short, repeat: once, rights: plain, compartment: three, allowance: tight, lines: (3, 20), preambles: NO }),
    ("any numbers", Shape { letters: [3, 2, 1, 3, 1, 1, 1, 1], host: ends, guest: ends, size: any_size, repeat: any_repeat, rights: every, compartment: eight, allowance: ends, lines: (3, 20), preambles: NO }),
    ("tails and middles", Shape { letters: [1, 0, 0, 6, 2, 2, 1, 0], host: apart, guest: apart, size: longer, repeat: once, rights: plain, compartment: first, allowance: tight, lines: (4, 24), preambles: NO }),
    ("long", Shape { letters: [3, 2, 1, 3, 1, 1, 1, 0], host: some, guest: spread, size: short, repeat: once, rights: plain, compartment: three, allowance: tight, lines: (80, 160), preambles: NO }),
    ("a nearly full pool", Shape { letters: [4, 5, 1, 0, 0, 0, 0, 2], host: about_pool, guest: few, size: short, repeat: once, rights: plain, compartment: two, allowance: about_rest, lines: (2, 12), preambles: POOL }),
    ("all segments in use", Shape { letters: [1, 1, 0, 2, 4, 3, 1, 0], host: about_segments, guest: about_guests, size: short, repeat: once, rights: plain, compartment: first, allowance: tight, lines: (2, 10), preambles: SLOTS }),
    ("small allowances", Shape { letters: [5, 4, 1, 1, 0, 0, 1, 4], host: few, guest: few, size: short, repeat: once, rights: plain, compartment: three, allowance: tight, lines: (4, 32), preambles: NO }),
];

impl Shape {
    fn kind(&self, r: &mut Random) -> Kind {
        let mut at = r.below(self.letters.iter().sum());
        for (kind, many) in crate::line::KINDS.into_iter().zip(self.letters) {
            if at < many {
                return kind;
            }
            at -= many;
        }
        Kind::Print
    }

    /// Two numbers in order, mostly.
    pub fn range(&self, r: &mut Random) -> (u64, u64) {
        let a = (self.host)(r);
        let b = if r.once_in(2) { (self.host)(r) } else { a.saturating_add(self.size_of(r)) };
        if a <= b || r.once_in(20) {
            (a, b)
        } else {
            (b, a)
        }
    }

    fn size_of(&self, r: &mut Random) -> u64 {
        (self.size)(r)
    }

    pub fn call(&self, r: &mut Random) -> Call {
        let kind = self.kind(r);
        let compartment = (self.compartment)(r);
        let numbers = match kind {
            Kind::Allow => vec![(self.allowance)(r)],
            Kind::Add | Kind::Remove => {
                let (start, end) = self.range(r);
                vec![start, end, (self.rights)(r)]
            }
            Kind::Count => vec![(self.host)(r), (self.host)(r)],
            Kind::Map => vec![(self.host)(r), (self.guest)(r), self.size_of(r), (self.repeat)(r)],
            Kind::Unmap => vec![(self.host)(r), self.size_of(r)],
            Kind::UnmapGpa => vec![(self.guest)(r), self.size_of(r)],
            Kind::Print => vec![],
        };
        Call::new(kind, compartment, &numbers)
    }
}

/// A line with a fault, or with a change that is none.
pub fn damaged(line: &[u8], r: &mut Random) -> Vec<u8> {
    let mut line = line.to_vec();
    let at = r.below(line.len() as u64) as usize;
    match r.below(10) {
        0 => line.truncate(at),
        1 => line.push(b' '),
        2 => line.insert(at, b' '),
        3 => line[at] = b'0',
        4 => line[at] = r.next() as u8,
        5 => line[0] = r.one_of(b"ADCMUGPSadcmugpsXOR \r\t"),
        6 => line.push(b'\r'),
        7 => line[at] = r.one_of(b"-+,.x/:"),
        8 => {
            // a number of 20 digits, which may pass 2^64 - 1
            if line.len() >= 24 {
                line[4..24].copy_from_slice(r.one_of(&[
                    b"18446744073709551615",
                    b"18446744073709551616",
                    b"99999999999999999999",
                ]));
            }
        }
        _ => line.clear(),
    }
    line.retain(|b| *b != b'\n');
    line
}

/// The shape of script number i, with its name.
pub fn shape(i: u64) -> &'static (&'static str, Shape) {
    // long preambles cost as much as hundreds of other scripts
    let at = if i % 10 == 4 {
        12
    } else if i % 400 == 199 {
        10
    } else if i % 50 == 49 {
        11
    } else if i % 40 == 39 {
        9
    } else {
        i % 9
    };
    &SHAPES[at as usize]
}

/// Script number i of a run. Which shape it takes, and all its numbers, follow from the seed and from i.
pub fn script(seed: u64, i: u64) -> (&'static str, Preamble, Script) {
    let mut r = Random(seed ^ i.wrapping_mul(0xD6E8_FEB8_6659_FD93));
    r.next();
    let (name, shape) = shape(i);
    let preamble = r.one_of(shape.preambles);
    let mut lines: Vec<Vec<u8>> = preamble.calls().iter().map(Call::line).collect();
    let known = lines.len();
    let bad = r.once_in(6);
    for _ in 0..r.between(shape.lines.0, shape.lines.1) {
        let line = shape.call(&mut r).line();
        lines.push(if bad && r.once_in(3) { damaged(&line, &mut r) } else { line });
    }
    let open = r.once_in(8);
    (name, preamble, Script { lines, known, open, ..Script::default() })
}

pub fn script_of(calls: &[Call]) -> Script {
    Script { lines: calls.iter().map(Call::line).collect(), ..Script::default() }
}

/// Counts at 65,535: so many adds of one address, and one more of it; then calls about it, and bundles that make room for one more.
fn full_counts() -> Script {
    let add = |start, end, rights| Call::new(Kind::Add, 0, &[start, end, rights]);
    let mut calls = vec![add(5, 6, 3); 65535];
    let known = calls.len();
    calls.extend([add(5, 6, 3), add(5, 6, 0), add(5, 6, 32), add(4, 6, 1), add(6, 7, 1)]);
    let remove = Call::new(Kind::Remove, 0, &[5, 6, 1]);
    calls.extend([remove, add(5, 6, 1), add(5, 6, 1), Call::new(Kind::Print, 0, &[])]);
    let mut script = Script { known, ..script_of(&calls) };
    let bundles = [vec![remove, add(5, 6, 1), add(5, 6, 1)], vec![remove, add(5, 6, 1)]];
    script.lines.extend(bundles.map(|calls| Bundle::of(0, &calls).entry()));
    script
}

/// A right's count at 65,535 with one holder: behind each add but the first a remove that names nothing; then calls about it.
fn full_count_alone(right: u64) -> Script {
    let call = |kind, rights| Call::new(kind, 0, &[5, 6, rights]);
    let again = [call(Kind::Add, right), call(Kind::Remove, 0)];
    let mut calls = vec![call(Kind::Add, right)];
    calls.extend(again.iter().cycle().take(2 * 65534));
    let known = calls.len();
    calls.extend([call(Kind::Add, right), call(Kind::Add, 4), call(Kind::Remove, right), call(Kind::Add, right)]);
    Script { known, ..script_of(&calls) }
}

/// A pool that is full but for one record, which is compartment 1's, and calls that need one or two.
pub fn full_pool() -> Script {
    let mut calls = Preamble::Nested(512).calls();
    calls.extend([allow(0, 1023), allow(1, 1)]);
    let known = calls.len();
    let behind =
        [(Kind::Add, [600, 700]), (Kind::Add, [5000, 5001]), (Kind::Add, [6000, 6001]), (Kind::Remove, [600, 700])];
    calls.extend(behind.map(|(kind, [start, end])| Call::new(kind, 1, &[start, end, 1])));
    calls.extend(behind.map(|(kind, [start, end])| Call::new(kind, 0, &[start, end, 1])));
    Script { known, ..script_of(&calls) }
}

/// Every other number, by the paper's layouts or smaller ones.
fn refusals() -> Script {
    let call = |kind, compartment, numbers: &[u64]| Call::new(kind, compartment, numbers);
    let mut calls = vec![
        call(Kind::Add, 8, &[0, 1, 1]),
        call(Kind::Add, 0, &[0, 1, 64]),
        call(Kind::Add, 0, &[1, 0, 1]),
        call(Kind::Remove, 0, &[0, 1, 1]),
        call(Kind::Add, 0, &[0, 10, 1]),
        call(Kind::Add, 0, &[20, 30, 1]),
        call(Kind::Remove, 0, &[12, 25, 1]),
        call(Kind::Remove, 0, &[0, 10, 3]),
        call(Kind::Map, 0, &[0, 0, 0, 1]),
        call(Kind::Map, 0, &[u64::MAX, 0, 1, 1]),
        call(Kind::Map, 1, &[100, 1000, 10, 1]),
        call(Kind::Map, 1, &[200, 1005, 1, 1]),
        call(Kind::Map, 2, &[100, 1000, 10, 2]),
        call(Kind::UnmapGpa, 2, &[1000, 4]),
        call(Kind::Map, 3, &[0, 5, 1, 1]),
        call(Kind::Map, 3, &[0, 4, 3, 1]),
        call(Kind::Map, 3, &[1, 2, 2, 1]),
        call(Kind::Map, 3, &[2, 3, 1, 1]),
    ];
    calls.extend((0..65).map(|i| call(Kind::Map, 4, &[0, 1 + i, 1, 1])));
    calls.extend([allow(5, 129), allow(5, u64::MAX), allow(8, 0), allow(0, 1), allow(0, 2)]);
    let mut script = script_of(&calls);
    script.lines.push(b"X".to_vec());
    script
}

/// 5 by an allowance, with the pool all but free: an add, a remove for its first cut and one for its second, and one that would
/// come to a count of 0 behind it. Then the same with a record more.
fn small_allowance() -> Script {
    let call = |kind, numbers: &[u64]| Call::new(kind, 0, numbers);
    let mut calls = vec![allow(0, 2), call(Kind::Add, &[0, 10, 1]), call(Kind::Add, &[20, 30, 1])];
    for more in 2..4 {
        calls.push(allow(0, more));
        calls.push(call(Kind::Remove, &[5, 10, 2]));
        calls.push(call(Kind::Remove, &[0, 5, 1]));
        calls.push(call(Kind::Add, &[40, 50, 1]));
        calls.push(call(Kind::Remove, &[22, 30, 1]));
    }
    script_of(&calls)
}

/// Every reason to name an unmap. Then 64 segments, of which one is cut in two and one goes; and 63, of which two are cut in two.
fn named_unmaps() -> Script {
    let call = |kind, compartment, numbers: &[u64]| Call::new(kind, compartment, numbers);
    let mut calls = vec![
        call(Kind::Map, 0, &[100, 1000, 10, 1]),
        call(Kind::Unmap, 0, &[95, 10]),
        call(Kind::Unmap, 0, &[100, 5]),
        call(Kind::Unmap, 0, &[103, 0]),
        call(Kind::Map, 0, &[103, 2000, 2, 1]),
        call(Kind::Unmap, 0, &[104, 2]),
        call(Kind::Unmap, 0, &[106, 2]),
        call(Kind::UnmapGpa, 0, &[1000, 5]),
        call(Kind::Map, 0, &[107, 3000, 1, 1]),
        call(Kind::UnmapGpa, 0, &[1003, 4]),
    ];
    for k in 1..3 {
        calls.push(call(Kind::Map, k, &[0, 1000, 10, 1]));
        calls.push(call(Kind::Map, k, if k == 1 { &[5, 2000, 1, 1] } else { &[1, 2000, 9, 1] }));
        calls.extend((0..63 - k).map(|i| call(Kind::Map, k, &[50, 3000 + i, 1, 1])));
        calls.push(call(Kind::Unmap, k, &[5, 1]));
    }
    script_of(&calls)
}

/// Two that share a buffer, one of them uncacheable, in both orders of coming and going: every reason to name an add or a remove, and
/// removes that name uncacheable where it is not.
fn shared_buffers() -> Script {
    let call = |kind, k, rights| Call::new(kind, k, &[0, 10, rights]);
    let mut calls = Vec::new();
    for (k, first, second) in [(0, 1, 17), (1, 17, 1)] {
        calls.extend([call(Kind::Add, k, first), call(Kind::Remove, k, 16), call(Kind::Add, k, second)]);
        calls.extend([call(Kind::Remove, k, 17), call(Kind::Remove, k, 1), call(Kind::Remove, k, 16)]);
        calls.push(call(Kind::Remove, k, first));
    }
    script_of(&calls)
}

/// Calls that name device, of which the original has none: every answer they can get but 4. Where they are accepted, the next
/// is on what was held before.
fn device_calls() -> Script {
    let call = |kind, numbers: &[u64]| Call::new(kind, 0, numbers);
    let mut calls = vec![allow(0, 2), call(Kind::Add, &[0, 10, 1]), call(Kind::Add, &[20, 30, 3])];
    for kind in [Kind::Add, Kind::Remove] {
        let ranges = [[5, 4], [5, 5], [0, 10], [20, 30], [5, 10], [0, 30], [12, 25], [0, 5]];
        calls.extend(ranges.map(|[start, end]| call(kind, &[start, end, 33])));
    }
    calls.extend([call(Kind::Remove, &[0, 10, 1]), call(Kind::Remove, &[0, 10, 32]), call(Kind::Add, &[0, 10, 32])]);
    script_of(&calls)
}

/// A segment, and one behind another of a higher guest address: `overlaps` is asked about both.
fn one_and_two() -> [Script; 2] {
    let map = |numbers: &[u64]| Call::new(Kind::Map, 0, numbers);
    [script_of(&[map(&[0, 1, 1, 1])]), script_of(&[map(&[0, 2, 1, 1]), map(&[1, 0, 1, 1])])]
}

/// Scripts that reach every answer, every reason to name a call and every departure of `overlaps`, whatever the seed.
pub fn fixed() -> [Script; 11] {
    let [one, two] = one_and_two();
    [
        refusals(),
        full_pool(),
        full_counts(),
        full_count_alone(1),
        full_count_alone(2),
        small_allowance(),
        named_unmaps(),
        shared_buffers(),
        device_calls(),
        one,
        two,
    ]
}

/// The calls of the small universe: addresses 0 to 3, and with the calls on records allowances of 0 to 3.
pub fn small_calls(regions: bool) -> Vec<Call> {
    let mut calls = Vec::new();
    if regions {
        calls.extend((0..4).map(|allowance| allow(0, allowance)));
        for start in 0..3 {
            for end in start + 1..4 {
                for rights in [1, 3] {
                    calls.push(Call::new(Kind::Add, 0, &[start, end, rights]));
                    calls.push(Call::new(Kind::Remove, 0, &[start, end, rights]));
                }
            }
        }
        return calls;
    }
    for at in 0..4 {
        for size in 0..3 {
            if at + size > 4 {
                continue;
            }
            calls.push(Call::new(Kind::Unmap, 0, &[at, size]));
            if size > 0 {
                calls.push(Call::new(Kind::UnmapGpa, 0, &[at, size]));
                for gpa in 0..4 {
                    if gpa + size <= 4 {
                        calls.push(Call::new(Kind::Map, 0, &[at, gpa, size, 1]));
                    }
                }
            }
        }
    }
    calls
}
