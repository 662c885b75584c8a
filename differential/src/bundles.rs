//! Bundles among the lines of scripts: fixed ones, all of a few small calls, and random ones.
use crate::bundle::{Bundle, MOST};
use crate::compare::Script;
use crate::counts::ALL;
use crate::line::{Call, Kind};
use crate::random::Random;
use crate::shapes::{allow, script_of, shape, small_calls, Preamble, Shape};

fn add(start: u64, end: u64, rights: u64) -> Call {
    Call::new(Kind::Add, 0, &[start, end, rights])
}

fn remove(start: u64, end: u64, rights: u64) -> Call {
    Call::new(Kind::Remove, 0, &[start, end, rights])
}

/// Calls, then bundles, then P.
fn script(calls: &[Call], bundles: &[Bundle]) -> Script {
    let mut script = script_of(calls);
    script.lines.extend(bundles.iter().map(Bundle::entry));
    script.lines.push(Call::new(Kind::Print, 0, &[]).line());
    script
}

/// A record, and a segment in it.
fn held() -> Vec<Call> {
    vec![add(0, 100, 3), Call::new(Kind::Map, 0, &[20, 200, 10, 1])]
}

/// So many calls, all accepted where [0, 100) is held: adds that reach over each other, and removes of half their rights.
fn acceptable(many: u64) -> Vec<Call> {
    (0..many).map(|i| if i % 3 == 2 { remove(5 * i - 5, 5 * i + 3, 1) } else { add(5 * i, 5 * i + 8, 3) }).collect()
}

/// 32 calls of which one is refused, the first, the 20th or the last: with 7, since what holds ends far below.
fn refused_at() -> Script {
    let refused = [0, 19, MOST - 1].map(|at| {
        let mut calls = acceptable(MOST as u64);
        calls[at] = remove(1 << 40, 1 << 41, 1);
        Bundle::of(0, &calls)
    });
    script(&held(), &refused)
}

/// None, one, 32 and 33 groups, and numbers that leave the last group incomplete: behind 31 it is one of 32, behind 32 one too many. A
/// refused call does not come before 24, nor 24 before 1.
fn lengths() -> Script {
    let of = |many| Bundle::of(0, &acceptable(many));
    let refused = vec![remove(1 << 40, 1 << 41, 1); MOST + 1];
    let mut bundles = vec![of(0), of(1), of(33), of(31).with(&[0]), of(32).with(&[0]), of(32).with(&[1, 2, 3]), of(32)];
    bundles.extend([Bundle::of(0, &refused), Bundle::of(0, &refused[..1]), of(200), of(32)]);
    for compartment in [7, 8, 9, 1 << 32, u64::MAX] {
        bundles.extend([0, 1, 33].map(|many| Bundle { compartment, ..of(many) }));
        bundles.push(Bundle { compartment, numbers: vec![2, 0, 0] });
    }
    script(&held(), &bundles)
}

/// Groups of no kind, and incomplete ones: alone, behind accepted calls, behind a refused one, and before one.
fn malformed() -> Script {
    let mut bundles = Vec::new();
    for kind in [2, 3, 255, 256, 1 << 32, 1 << 32 | 1, 1 << 63, u64::MAX] {
        bundles.push(Bundle::of(0, &[]).with(&[kind, 0, 10, 1]));
        bundles.push(Bundle::of(0, &acceptable(3)).with(&[kind, 0, 10, 1]));
        bundles.push(Bundle::of(0, &[add(5, 4, 1)]).with(&[kind, 0, 10, 1]));
        bundles.push(Bundle::of(0, &[add(0, 10, 1)]).with(&[kind, 0, 10, 1, 0, 5, 4, 1]));
        bundles.push(Bundle::of(0, &[add(0, 10, 1)]).with(&[kind, 0, 10, 1, 0, 10, 20, 1]));
    }
    for incomplete in [&[0][..], &[1, 0], &[0, 0, 10], &[2, 0, 10]] {
        bundles.push(Bundle::of(0, &[]).with(incomplete));
        bundles.push(Bundle::of(0, &acceptable(3)).with(incomplete));
        bundles.push(Bundle::of(0, &[add(0, 10, 1), add(0, 10, 64)]).with(incomplete));
    }
    script(&held(), &bundles)
}

/// An allowance of 1: a remove makes room for the add behind it, and not for one before it.
fn room() -> Script {
    let (first, second) = ([0, 10, 1], [20, 30, 1]);
    let [give, take] = [Kind::Add, Kind::Remove].map(|kind| move |[a, b, c]: [u64; 3]| Call::new(kind, 0, &[a, b, c]));
    let bundles = [
        vec![give(second), take(first)],
        vec![take(first), give(second)],
        vec![give(first), take(second)],
        vec![take(second), give(first), give(second)],
        vec![take(second), give([0, 5, 1]), give([5, 10, 1])],
        vec![take(second), give(first), take(first), give(second)],
    ];
    let bundles = bundles.map(|calls| Bundle::of(0, &calls));
    script(&[allow(0, 1), give(first)], &bundles)
}

/// All rights, and those that are none; what is added in a bundle is removed in the same, and in the next.
fn rights() -> Script {
    let mut bundles = Vec::new();
    for rights in [0, 15, 16, 31, 32, 63, 64, 128, u64::MAX] {
        bundles.push(Bundle::of(0, &[add(200, 210, rights)]));
        bundles.push(Bundle::of(0, &[add(205, 215, rights), add(0, 10, rights), remove(0, 10, rights)]));
        bundles.push(Bundle::of(0, &[remove(200, 210, rights), remove(210, 215, rights)]));
        bundles.push(Bundle::of(0, &[add(300, 310, 1), remove(305, 310, rights)]));
    }
    script(&held(), &bundles)
}

/// Empty ranges and such as end below their start, at the ends of the addresses too; and each way for a change to come or not.
fn ranges() -> Script {
    let top = u64::MAX;
    let bundles = [
        vec![add(5, 5, 1), remove(5, 5, 1)],
        vec![remove(500, 500, 63), add(top, top, 63), remove(0, 0, 0)],
        vec![add(5, 5, 64)],
        vec![add(0, 10, 1), add(5, 4, 1)],
        vec![remove(0, 10, 1), remove(top, 0, 1)],
        vec![add(top - 3, top, 1), remove(top - 3, top - 1, 1), add(0, 1, 1)],
        // a change of the first, of the last, of none, and one that is undone
        vec![add(300, 310, 1), add(300, 310, 1)],
        vec![add(300, 310, 1), add(310, 320, 1)],
        vec![add(300, 310, 1), add(300, 310, 1)],
        vec![add(400, 410, 1), remove(400, 410, 1)],
        vec![remove(300, 305, 2)],
    ];
    script(&held(), &bundles.map(|calls| Bundle::of(0, &calls)))
}

/// The last three records of the pool: taken and one more asked for, then taken, given back and taken again.
fn last_records() -> Script {
    let single = |i: u64| [10_000 + 2 * i, 10_001 + 2 * i];
    let gives = |from: u64, to: u64| (from..to).map(single).map(|[start, end]| add(start, end, 1));
    let takes = |from: u64, to: u64| (from..to).map(single).map(|[start, end]| remove(start, end, 1));
    let bundles = [
        Bundle::of(0, &gives(0, 4).collect::<Vec<_>>()),
        Bundle::of(0, &gives(0, 3).chain(takes(0, 3)).chain(gives(3, 6)).collect::<Vec<_>>()),
        Bundle::of(0, &takes(3, 5).chain(gives(0, 3)).collect::<Vec<_>>()),
    ];
    let before = Preamble::Singles(1021).calls();
    Script { known: before.len(), ..script(&before, &bundles) }
}

/// Scripts that reach every answer that a bundle can have but 4, whatever the seed.
pub fn fixed() -> [Script; 7] {
    [refused_at(), lengths(), malformed(), room(), rights(), ranges(), last_records()]
}

/// Every bundle of one or two calls of the small universe.
pub fn small() -> Vec<Bundle> {
    let calls: Vec<Call> = small_calls(true).into_iter().filter(|call| call.kind != Kind::Allow).collect();
    let one = calls.iter().map(|call| Bundle::of(0, &[*call]));
    one.chain(calls.iter().flat_map(|a| calls.iter().map(|b| Bundle::of(0, &[*a, *b])))).collect()
}

/// The ranges with rights that were added by lines and not removed by equal ones.
fn lent(lines: &[Vec<u8>], k: u64) -> Vec<[u64; 4]> {
    let mut lent = Vec::new();
    // 2 and 3 refuse the others
    let is_sound = |call: &Call| call.numbers[0] <= call.numbers[1] && call.numbers[2] <= ALL;
    let calls = lines.iter().filter_map(|line| Call::parse(line));
    for call in calls.filter(|call| call.compartment == k && is_sound(call)) {
        let at = lent.iter().position(|numbers| *numbers == call.numbers);
        match (call.kind, at) {
            (Kind::Add, _) => lent.push(call.numbers),
            (Kind::Remove, Some(at)) => drop(lent.swap_remove(at)),
            _ => (),
        }
    }
    lent
}

/// A call that is mostly accepted: an add, or a remove of what was lent. Now and then a remove of anything.
fn likely(shape: &Shape, lent: &mut Vec<[u64; 4]>, r: &mut Random) -> Call {
    if !lent.is_empty() && r.once_in(2) {
        let at = r.below(lent.len() as u64) as usize;
        return Call { kind: Kind::Remove, compartment: 0, numbers: lent.swap_remove(at) };
    }
    let (start, end) = shape.range(r);
    let call = add(start.min(end), start.max(end), (shape.rights)(r) & ALL);
    if r.once_in(40) {
        return Call { kind: Kind::Remove, ..call };
    }
    lent.push(call.numbers);
    call
}

/// One of the last groups becomes one that is refused, or the last incomplete.
fn spoil(bundle: &mut Bundle, r: &mut Random) {
    let Some(last) = bundle.many().checked_sub(1) else { return };
    let from = 4 * (last - r.below(3).min(last as u64) as usize);
    let group = &mut bundle.numbers[from..from + 4];
    match r.below(6) {
        0 => group[0] = r.one_of(&[2, 3, 1 << 32, u64::MAX]),
        1 => group[3] = r.one_of(&[64, 65, 1 << 32, u64::MAX]),
        2 => (group[1], group[2]) = (group[2].max(1), group[1].min(group[2].max(1) - 1)),
        3 => (group[0], group[1], group[2]) = (1, u64::MAX - 1, u64::MAX),
        4 => (group[0], group[3]) = (1, 63),
        _ => bundle.numbers.truncate(4 * last + r.between(1, 3) as usize),
    }
}

/// A bundle for a compartment, behind some lines.
pub fn random(shape: &Shape, compartment: u64, lines: &[Vec<u8>], r: &mut Random) -> Bundle {
    let mut lent = lent(lines, compartment);
    let many = match r.below(16) {
        0 => r.below(2),
        1 => MOST as u64,
        2 => r.between(30, 36),
        3..=5 => r.between(9, 31),
        _ => r.between(2, 8),
    };
    let calls: Vec<Call> = (0..many).map(|_| likely(shape, &mut lent, r)).collect();
    let mut bundle = Bundle::of(compartment, &calls);
    if r.once_in(4) {
        spoil(&mut bundle, r);
    }
    bundle
}

/// Puts up to three bundles into every other script, at any place behind the lines that are known. They are drawn apart from the lines,
/// which stay what they are.
pub fn put_into(script: &mut Script, seed: u64, i: u64) {
    let mut r = Random(!seed ^ i.wrapping_mul(0xA076_1D64_78BD_642F));
    r.next();
    if r.once_in(2) {
        return;
    }
    for _ in 0..r.between(1, 3) {
        let at = r.between(script.known as u64, script.lines.len() as u64) as usize;
        let shape = &shape(i).1;
        let compartment = (shape.compartment)(&mut r);
        let bundle = random(shape, compartment, &script.lines[..at], &mut r);
        script.lines.insert(at, bundle.entry());
    }
}
