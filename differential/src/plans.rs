//! Scripts for wanted layouts (document 02, order 13). The rule is read from the paper here once more, the port's plan is held to it page by
//! page, and its script goes through both sides. What no script can give is held to every script of a small universe.
use crate::compare::{check, Depth, Tally};
use crate::counts::RECORD;
use crate::line::{self, Call, Kind};
use crate::port::{self, After, List};
use crate::random::Random;
use crate::shapes::{allow, script_of};
use std::collections::HashSet;

/// The number for a list that no script gives.
const NO_SCRIPT: u64 = 25;

/// How many wishes there were, how many of them were refused, and how many adds the others got.
#[derive(Default)]
pub struct Planned {
    pub wishes: u64,
    pub refused: u64,
    pub adds: u64,
}

fn ranges(wish: &[u64]) -> impl Iterator<Item = [u64; 3]> + '_ {
    wish.chunks_exact(3).map(|range| [range[0], range[1], range[2]])
}

/// Each range, in order, is added once, but twice where it touches the one before with equal rights and that was added once.
fn plan_of(wish: &[u64]) -> Vec<u64> {
    let (mut adds, mut before) = (Vec::new(), None);
    for [start, end, rights] in ranges(wish) {
        let twice = before == Some((start, rights, true));
        for _ in 0..if twice { 2 } else { 1 } {
            adds.extend([start, end, rights]);
        }
        before = Some((end, rights, !twice));
    }
    adds
}

/// A list is in order, of ranges that are not empty, with rights below 64, no more than records allowed, and whole.
fn can_be(wish: &[u64], allowance: u64) -> bool {
    let mut low = 0;
    let in_order = ranges(wish).all(|[start, end, rights]| {
        let fits = low <= start && start < end && rights < 64;
        low = end;
        fits
    });
    in_order && wish.len() % 3 == 0 && (wish.len() / 3) as u64 <= allowance
}

/// The port's plan after a script, read by pages of changing lengths; or its refusal.
fn read(script: &[u8], compartment: u64, wish: &[u64], random: &mut Random) -> Result<Result<Vec<u64>, u64>, String> {
    let mut adds = Vec::new();
    loop {
        let room = random.between(3, 40) as usize;
        let (answer, page) = port::plan(script, compartment, wish, adds.len() / 3, room)?;
        if answer > u64::MAX - 255 {
            return Ok(Err(answer.wrapping_neg()));
        }
        adds.extend(page);
        if (answer as usize) < room / 3 {
            return Ok(Ok(adds));
        }
    }
}

/// Whether the port accepts every line of a script that prints no stream.
fn is_accepted(script: &[u8]) -> bool {
    port::run(script).split(|b| *b == b'\n').skip(1).all(|line| line.is_empty() || line.starts_with(b"  0"))
}

/// What gives compartment k an allowance, as calls: the others get nothing before it gets more than 128.
fn allowing(k: u64, allowance: u64) -> Vec<Call> {
    let others = (0..8).filter(|j| *j != k && allowance > 128).map(|j| allow(j, 0));
    others.chain([allow(k, allowance)]).collect()
}

/// One wish for a compartment with an allowance: its plan, and what the script does on both sides.
fn hold(wish: &[u64], k: u64, allowance: u64, tally: &mut Tally, random: &mut Random) -> Result<Option<usize>, String> {
    let mut calls = allowing(k, allowance);
    let before = script_of(&calls).text();
    let plan = match read(&before, k, wish, random)? {
        Err(NO_SCRIPT) if !can_be(wish, allowance) => return Ok(None),
        Err(number) => return Err(format!("refused with {number}")),
        Ok(plan) => plan,
    };
    if !can_be(wish, allowance) || plan != plan_of(wish) {
        return Err(format!("the plan is {plan:?}"));
    }
    calls.extend(ranges(&plan).map(|range| Call::new(Kind::Add, k, &range)));
    let script = script_of(&calls);
    check(&script, Depth::Lists, tally).map_err(|difference| difference.what)?;
    let text = script.text();
    if !is_accepted(&text) || port::whole(List::Permissions, After::script(&text, k)) != wish {
        return Err("the script does not yield the wish".to_string());
    }
    Ok(Some(plan.len() / 3))
}

/// A wish as text.
pub fn text_of(wish: &[u64]) -> Vec<u8> {
    ranges(wish).flat_map(|range| [&Call::new(Kind::Add, 0, &range).line()[3..], b"\n"].concat()).collect()
}

/// What has to be printed for the text of a wish: a line of a wish is one that adds without its letter and compartment.
pub fn printed(text: &[u8], k: u64, allowance: u64) -> Vec<u8> {
    let refused = |number: u64, value: usize| format!("{number:3}{value:21}\n").into_bytes();
    if k >= 8 || allowance > 1024 {
        return refused(if k >= 8 { 1 } else { 18 }, 0);
    }
    let mut wish = Vec::new();
    for (i, line) in line::lines(text).iter().enumerate() {
        match Call::parse(&[b"A 0", &line[..]].concat()) {
            Some(call) => wish.extend(&call.numbers[..3]),
            None => return refused(17, i + 1),
        }
    }
    if !can_be(&wish, allowance) {
        return refused(NO_SCRIPT, 0);
    }
    let others = (0..8).filter(|j| *j != k && allowance > 128).map(|j| allow(j, (1024 - allowance) / 7));
    let own = Some(allow(k, allowance)).filter(|_| allowance != 128);
    let plan = plan_of(&wish);
    let adds = ranges(&plan).map(|range| Call::new(Kind::Add, k, &range));
    let lines: Vec<Vec<u8>> = others.chain(own).chain(adds).map(|call| call.line()).collect();
    line::text(&lines)
}

/// A wish of up to so many ranges: mostly one that can be, with neighbours that touch.
pub fn wish(random: &mut Random, most: u64) -> Vec<u64> {
    let (mut wish, mut at, mut rights) = (Vec::new(), random.below(4), random.below(64));
    for _ in 0..random.below(most + 1) {
        at += if random.once_in(3) { random.below(5) } else { 0 };
        rights = if random.once_in(2) { rights } else { random.one_of(&[0, 1, 3, 7, 8, 16, 32, 63]) };
        let end = if random.once_in(60) { at } else { at + random.between(1, 9) };
        wish.extend([at, end, if random.once_in(200) { 64 } else { rights }]);
        at = end;
    }
    if random.once_in(12) {
        wish.extend([u64::MAX - 1, u64::MAX, rights]);
    }
    if random.once_in(20) {
        wish.pop();
    }
    wish
}

/// So many wishes of a seed, and one of 1,024 ranges.
pub fn random(many: u64, seed: u64, tally: &mut Tally) -> Result<Planned, String> {
    let mut planned = Planned::default();
    for i in 0..=many {
        let random = &mut Random(seed ^ (i << 20) ^ 0x9E13);
        let (k, allowance) = (random.below(8), random.one_of(&[0, 1, 3, 10, 128, 128, 128, 200, 1024]));
        let (wish, allowance) = match i {
            0 => ((0..1024).flat_map(|i| [i, i + 1, 1]).collect(), 1024),
            _ => (wish(random, 20), allowance),
        };
        let adds = hold(&wish, k, allowance, tally, random)
            .map_err(|what| format!("the wish {wish:?} in {k} under {allowance}: {what}"))?;
        planned.wishes += 1;
        planned.refused += u64::from(adds.is_none());
        planned.adds += adds.unwrap_or(0) as u64;
    }
    Ok(planned)
}

/// Adds and removes on addresses 0 to 2, with read and without rights.
fn small_calls() -> Vec<Call> {
    let ranges = (0..3).flat_map(|start| (start + 1..=3).map(move |end| (start, end)));
    let calls = ranges.flat_map(|(start, end)| [0, 1].map(|rights| [start, end, rights]));
    calls.flat_map(|range| [Kind::Add, Kind::Remove].map(|kind| Call::new(kind, 0, &range))).collect()
}

/// The permission lists that some script of accepted small calls gives, under an allowance. Scripts go on from records that were not seen
/// before, with holders and counts of at most two: to give a list no plan needs more. (A remove that names no right leaves the counts, so
/// that without a bound there is no end of records.)
fn given(allowance: u64) -> HashSet<Vec<u64>> {
    let (mut seen, mut lists) = (HashSet::new(), HashSet::new());
    let mut ahead = vec![vec![allow(0, allowance)]];
    while let Some(calls) = ahead.pop() {
        let text = script_of(&calls).text();
        let records = port::whole(List::Regions, After::script(&text, 0));
        if !is_accepted(&text)
            || records.chunks(RECORD).any(|record| record[2..].iter().any(|count| *count > 2))
            || !seen.insert(records)
        {
            continue;
        }
        lists.insert(port::whole(List::Permissions, After::script(&text, 0)));
        ahead.extend(small_calls().into_iter().map(|call| [&calls[..], &[call]].concat()));
    }
    lists
}

/// Every list of up to three ranges on addresses 0 to 2 under each allowance up to 3: the port refuses it exactly where no script gives it.
pub fn small() -> Result<[u64; 2], String> {
    let group = |n: u64| [n % 4, n / 4 % 4, n / 16];
    let (mut wishes, mut scripts) = (0, 0);
    for allowance in 0..=3 {
        let given = given(allowance);
        scripts += given.len() as u64;
        let before = line::text(&[allow(0, allowance).line()]);
        for ranges in 0..=3u32 {
            for number in 0..32u64.pow(ranges) {
                let wish: Vec<u64> = (0..ranges).flat_map(|i| group(number / 32u64.pow(i) % 32)).collect();
                let (answer, _) = port::plan(&before, 0, &wish, 0, 0)?;
                if (answer == port::refused(NO_SCRIPT)) == given.contains(&wish) {
                    return Err(format!("{wish:?} under {allowance} is answered {answer}"));
                }
                wishes += 1;
            }
        }
    }
    Ok([wishes, scripts])
}
