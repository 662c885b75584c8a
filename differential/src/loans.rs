//! Loans among the lines of scripts (document 02, order 11): an add, lines for other compartments or such as only read, and the remove of
//! the same range and rights. Fixed ones, all of the small universe, and random ones about what is held where they stand.
use crate::allowances::{add_peak, Allowances};
use crate::bundle::{Bundle, MOST};
use crate::bundles;
use crate::compare::Script;
use crate::counts::{count, judged, permissions, ALL, RECORD};
use crate::line::{Call, Kind};
use crate::random::Random;
use crate::shapes::{allow, damaged, script_of, shape, Preamble, Shape};

fn add(k: u64, start: u64, end: u64, rights: u64) -> Call {
    Call::new(Kind::Add, k, &[start, end, rights])
}

/// The call that hands back what an add lends.
fn back(add: &Call) -> Call {
    Call { kind: Kind::Remove, ..*add }
}

/// Lines that do not name compartment 0, of every kind, refused ones, such as are no call, and a bundle; and two that only read it.
fn others() -> Vec<Vec<u8>> {
    let call = |kind, k, numbers: &[u64]| Call::new(kind, k, numbers).line();
    let bundle = Bundle::of(2, &[add(2, 0, 9, 1), back(&add(2, 0, 9, 1))]);
    vec![
        add(1, 0, 10, 3).line(),
        call(Kind::Remove, 1, &[4, 6, 2]),
        call(Kind::Map, 1, &[0, 100, 8, 1]),
        b"A 0 a line that is no call".to_vec(),
        call(Kind::Unmap, 1, &[2, 3]),
        call(Kind::Allow, 3, &[0]),
        bundle.entry(),
        call(Kind::Remove, 4, &[0, 1, 1]),
        call(Kind::Print, 1, &[]),
        call(Kind::Print, 0, &[]),
        call(Kind::Count, 0, &[0, u64::MAX]),
        add(8, 0, 10, 1).line(),
        call(Kind::Count, 1, &[0, 20]),
        Vec::new(),
    ]
}

/// Loans of these ranges and rights, one behind the other: the first and then every other with the lines of others in between.
fn script(calls: &[Call], loans: &[[u64; 3]]) -> Script {
    let mut script = script_of(calls);
    for (i, [start, end, rights]) in loans.iter().enumerate() {
        let add = add(0, *start, *end, *rights);
        script.lines.push(add.line());
        script.lines.extend(others().into_iter().filter(|_| i % 2 == 0));
        script.lines.push(back(&add).line());
    }
    Script { known: calls.len(), ..script }
}

/// Two records and a segment over both, with an allowance of 3, of 4, and of 5: on the gap, so that all becomes one record, over both with
/// and without what is about them, in one, and on one.
fn small_allowance() -> [Script; 3] {
    let loans = [[10, 20, 1], [5, 25, 1], [0, 30, 1], [12, 15, 1], [10, 15, 1], [30, 40, 1], [0, 10, 3], [5, 10, 1]];
    let more = [[3, 5, 0], [0, u64::MAX, 15], [9, 21, 1], [25, u64::MAX, 1], [2, 28, 2]];
    let loans = [&loans[..], &more].concat();
    [3, 4, 5].map(|allowance| {
        let map = Call::new(Kind::Map, 0, &[4, 100, 20, 1]);
        script(&[add(0, 0, 10, 1), add(0, 20, 30, 1), map, allow(0, allowance)], &loans)
    })
}

/// Empty ranges, on tables with nothing, and with a record and an allowance that leaves no other.
fn empty() -> [Script; 2] {
    let at = [0, 5, 10, 30, 1 << 63, u64::MAX];
    let loans: Vec<[u64; 3]> = at.into_iter().flat_map(|at| [0, 1, 15].map(|rights| [at, at, rights])).collect();
    [script(&[allow(0, 0)], &loans), script(&[add(0, 0, 10, 1), allow(0, 1)], &loans)]
}

/// A pool that is full but for one record, which each loan uses: the last is then joined to the record before it.
fn last_of_pool() -> Script {
    script(&Preamble::Nested(512).calls(), &[[5000, 5001, 1], [0, 3001, 3], [3000, 3001, 1]])
}

/// Scripts with loans of every kind that a run counts, whatever the seed.
pub fn fixed() -> Vec<Script> {
    small_allowance().into_iter().chain(empty()).chain([last_of_pool()]).collect()
}

/// Whether calls are all accepted, one behind the other on empty tables. One that is not alters nothing.
pub fn are_accepted(calls: &[Call]) -> bool {
    let mut held = Held::default();
    calls.iter().all(|call| held.call(call))
}

/// Every loan on the addresses 0 to 3, each as its two lines. An empty range is lent with one kind of rights.
pub fn small() -> Vec<Vec<Vec<u8>>> {
    let ranges = (0..4).flat_map(|start| (start..4).map(move |end| [start, end]));
    let adds = ranges.flat_map(|[start, end]| [1, 3].map(|rights| add(0, start, end, rights)));
    let once = adds.filter(|add| add.numbers[0] < add.numbers[1] || add.numbers[2] == 1);
    once.map(|add| vec![add.line(), back(&add).line()]).collect()
}

/// What is held and allowed where a loan is to stand, as the run will reckon it.
#[derive(Default)]
struct Held {
    regions: [Vec<u64>; 8],
    allowances: Allowances,
}

impl Held {
    fn after(lines: &[Vec<u8>]) -> Held {
        let mut held = Held::default();
        for line in lines {
            if let Some(bundle) = Bundle::parse(line) {
                held.bundle(&bundle);
            } else if let Some(call) = Call::parse(line) {
                held.call(&call);
            }
        }
        held
    }

    /// Whether a call is accepted and stays: one that the run names is left out.
    fn call(&mut self, call: &Call) -> bool {
        let Some(regions) = self.regions.get_mut(call.compartment as usize) else { return false };
        match call.kind {
            Kind::Allow => self.allowances.set(call, regions) == 0,
            Kind::Add | Kind::Remove => {
                let lacks = self.allowances.lacks(call, regions);
                let ((answer, _), left) = judged(call, regions, lacks);
                let stays = answer == 0 && count(call, regions, lacks).is_none();
                if stays {
                    *regions = left;
                }
                stays
            }
            _ => false,
        }
    }

    fn bundle(&mut self, bundle: &Bundle) {
        let Some(before) = self.regions.get(bundle.compartment as usize).cloned() else { return };
        let calls = bundle.groups().map(|group| bundle.call(group));
        let stays = bundle.many() <= MOST && calls.map(|call| call.is_some_and(|call| self.call(&call))).all(|is| is);
        if !stays {
            self.regions[bundle.compartment as usize] = before;
        }
    }
}

/// A range about the borders of records: on one or on a gap, inside it, over several, from 0 on, up to 2^64 - 1, or empty.
fn range(shape: &Shape, regions: &[u64], r: &mut Random) -> [u64; 2] {
    let mut borders: Vec<u64> = regions.chunks_exact(RECORD).flat_map(|record| [record[0], record[1]]).collect();
    borders.dedup();
    let any = |r: &mut Random| shape.range(r).0;
    let border = |r: &mut Random| if borders.is_empty() || r.once_in(5) { any(r) } else { r.one_of(&borders) };
    let (a, b) = match r.below(10) {
        0 => {
            let at = border(r);
            (at, at)
        }
        1 => (0, border(r)),
        2 => (border(r), u64::MAX),
        3 => shape.range(r),
        4..=6 if borders.len() > 1 => {
            let at = r.below(borders.len() as u64 - 1) as usize;
            (borders[at] + r.below(2), borders[at + 1] - r.below(2))
        }
        _ => (border(r), border(r)),
    };
    [a.min(b), a.max(b)]
}

/// Rights as a record has them, so that the loan joins it, or others.
fn rights(shape: &Shape, regions: &[u64], r: &mut Random) -> u64 {
    let held: Vec<u64> = permissions(regions).chunks_exact(3).map(|permission| permission[2]).collect();
    match r.below(6) {
        0..=2 if !held.is_empty() => r.one_of(&held),
        // the run leaves out most adds that name uncacheable, and all that name device
        0..=4 => (shape.rights)(r) & 15,
        _ => (shape.rights)(r) & ALL,
    }
}

/// An allowance for an add: what it uses to the last record, or about that, or about what is in use.
fn allowance(add: &Call, regions: &[u64], r: &mut Random) -> u64 {
    let [start, end, ..] = add.numbers;
    let used = (regions.len() / RECORD) as u64;
    let peak = if start < end { add_peak(regions, start, end) } else { used };
    match r.below(6) {
        0..=2 => peak,
        3 => peak.saturating_sub(1),
        4 => peak + 1,
        _ => used + r.below(4),
    }
}

/// A line or a bundle for another compartment, or a line that is mostly no call.
fn other(shape: &Shape, k: u64, lines: &[Vec<u8>], r: &mut Random) -> Vec<u8> {
    let other = (k + r.between(1, 7)) % 8;
    let call = Call { compartment: other, ..shape.call(r) };
    match r.below(10) {
        0 => damaged(&call.line(), r),
        1 => bundles::random(shape, other, lines, r).entry(),
        2 => allow(other, r.one_of(&[2, 8, 64, 128, 129])).line(),
        _ => call.line(),
    }
}

/// A line that reads the compartment.
fn read(shape: &Shape, k: u64, r: &mut Random) -> Vec<u8> {
    if r.once_in(2) {
        return Call::new(Kind::Print, k, &[]).line();
    }
    let (start, end) = shape.range(r);
    Call::new(Kind::Count, k, &[start, end]).line()
}

/// What makes a loan none: a remove of other rights or of another range, or something for that compartment before it.
fn spoil(shape: &Shape, loan: &mut Vec<Vec<u8>>, mut remove: Call, lines: &[Vec<u8>], r: &mut Random) {
    let last = loan.len() - 1;
    let k = remove.compartment;
    match r.below(8) {
        0 => remove.numbers[2] ^= 1 << r.below(4),
        1 => remove.numbers[1] = remove.numbers[1].saturating_add(1),
        2 => remove.numbers[0] = remove.numbers[0].saturating_sub(1),
        3 => remove.numbers[1] = remove.numbers[1].saturating_sub(1),
        4 => loan.insert(last, bundles::random(shape, k, lines, r).entry()),
        5 => loan.insert(last, back(&Call { numbers: [0, u64::MAX, 64, 0], ..remove }).line()),
        _ => loan.insert(last, Call { compartment: k, ..shape.call(r) }.line()),
    }
    *loan.last_mut().expect("a loan has two lines") = remove.line();
}

/// A loan behind some lines, often with an allowance for it alone. Now and then it is none.
fn random(shape: &Shape, lines: &[Vec<u8>], r: &mut Random) -> Vec<Vec<u8>> {
    let k = (shape.compartment)(r).min(7);
    let held = Held::after(lines);
    let regions = &held.regions[k as usize];
    let [start, end] = range(shape, regions, r);
    let add = add(k, start, end, rights(shape, regions, r));
    let mut loan = vec![add.line()];
    let many = if r.once_in(2) { 0 } else { r.between(1, 6) };
    loan.extend((0..many).map(|_| if r.once_in(5) { read(shape, k, r) } else { other(shape, k, lines, r) }));
    loan.push(back(&add).line());
    if r.once_in(5) {
        spoil(shape, &mut loan, back(&add), lines, r);
    }
    if !r.once_in(3) {
        loan.insert(0, allow(k, allowance(&add, regions, r)).line());
        // what stands behind has its allowance back, mostly
        loan.extend((!r.once_in(4)).then(|| allow(k, held.allowances.of(k)).line()));
    }
    loan
}

/// Puts one or two loans into every other script, at any place behind the lines that are known. They are drawn apart from the lines and
/// bundles, which stay what they are.
pub fn put_into(script: &mut Script, seed: u64, i: u64) {
    let mut r = Random(seed.rotate_left(32) ^ i.wrapping_mul(0xE703_7ED1_A0B4_28DB));
    r.next();
    if r.once_in(2) {
        return;
    }
    for _ in 0..r.between(1, 2) {
        let at = r.between(script.known as u64, script.lines.len() as u64) as usize;
        let loan = random(&shape(i).1, &script.lines[..at], &mut r);
        script.lines.splice(at..at, loan);
    }
}
