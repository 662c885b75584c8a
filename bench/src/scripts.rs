//! The scripts that are measured. Every call of them is accepted, on both sides, but for the last of one bundle.
use crate::{Case, Work};
use differential::bundle::Bundle;
use differential::line::{self, Call, Kind};
use differential::shapes::whole_pool;

/// How often a bundle is made in one run: it takes a few microseconds.
const TIMES: u64 = 100;

fn text(calls: &[Call]) -> Vec<u8> {
    line::text(&calls.iter().map(Call::line).collect::<Vec<_>>())
}

fn one(calls: &[Call]) -> Work {
    Work::Text(vec![text(calls)])
}

fn call(kind: Kind, compartment: u64, numbers: &[u64]) -> Call {
    Call::new(kind, compartment, numbers)
}

/// So many records that do not touch. The compartment has the whole pool, which the original does not ask about.
pub fn records(many: u64) -> Vec<Call> {
    let record = |i| call(Kind::Add, 0, &[4096 * i, 4096 * i + 2048, 3]);
    whole_pool().into_iter().chain((0..many).map(record)).collect()
}

/// So many segments.
pub fn segments(many: u64) -> Vec<Call> {
    (0..many).map(|i| call(Kind::Map, 0, &[4096 * i, 1 << 30 | 8192 * i, 2048, 1])).collect()
}

/// Adds and removes of ranges all over the list: half of a record, and back.
pub fn region_calls(many: u64, pairs: u64) -> Vec<Call> {
    let pair = |i: u64| {
        let at = 4096 * (i * 7 % many) + 1024;
        [call(Kind::Add, 0, &[at, at + 1024, 1]), call(Kind::Remove, 0, &[at, at + 1024, 1])]
    };
    (0..pairs).flat_map(pair).collect()
}

/// Maps and unmaps, by host and by guest range in turn, all over the list.
pub fn segment_calls(many: u64, pairs: u64) -> Vec<Call> {
    let pair = |i: u64| {
        let at = 4096 * (i * 7 % many) + 2048;
        let gpa = 1 << 40 | at;
        let map = call(Kind::Map, 0, &[at, gpa, 1024, 1]);
        let back = if i % 2 == 0 { call(Kind::Unmap, 0, &[at, 1024]) } else { call(Kind::UnmapGpa, 0, &[gpa, 1024]) };
        [map, back]
    };
    (0..pairs).flat_map(pair).collect()
}

/// What stands before the first session: three functions with code and data, each mapped from guest address 0 on.
fn functions() -> Vec<Call> {
    let mut calls = Vec::new();
    for k in 0..3 {
        let base = (k + 1) << 20;
        calls.push(call(Kind::Add, k, &[base, base + 0x40000, 7]));
        calls.push(call(Kind::Add, k, &[base + 0x40000, base + 0x80000, 3]));
        calls.push(call(Kind::Map, k, &[base, 0, 0x80000, 1]));
    }
    calls
}

/// One attach: a buffer that the radio side fills and two functions share, a ring between two of them, then all given back.
fn session(i: u64) -> Vec<Call> {
    let buffer = 0x50_0000 + 0x1_0000 * (i % 64);
    let half = buffer + 0x8000;
    let end = buffer + 0x1_0000;
    let ring = 0x100_0000 + 0x8000 * (i % 48);
    let ring_end = ring + 0x8000;
    vec![
        call(Kind::Add, 3, &[buffer, end, 19]),
        call(Kind::Add, 0, &[buffer, end, 1]),
        call(Kind::Map, 0, &[buffer, 1 << 20, 0x1_0000, 1]),
        call(Kind::Map, 3, &[buffer, 0, 0x1_0000, 1]),
        call(Kind::Print, 0, &[]),
        call(Kind::Print, 3, &[]),
        call(Kind::Add, 1, &[half, end, 3]),
        call(Kind::Map, 1, &[half, 1 << 20, 0x8000, 1]),
        call(Kind::Count, 1, &[half, end]),
        call(Kind::Add, 2, &[ring, ring_end, 3]),
        call(Kind::Add, 1, &[ring, ring_end, 1]),
        call(Kind::Map, 2, &[ring, 1 << 21, 0x8000, 1]),
        call(Kind::Map, 1, &[ring, 1 << 21, 0x8000, 2]),
        call(Kind::Print, 1, &[]),
        call(Kind::Print, 2, &[]),
        call(Kind::Unmap, 1, &[ring, 0x8000]),
        call(Kind::Remove, 1, &[ring, ring_end, 1]),
        call(Kind::Unmap, 2, &[ring, 0x8000]),
        call(Kind::Remove, 2, &[ring, ring_end, 3]),
        call(Kind::UnmapGpa, 1, &[1 << 20, 0x8000]),
        call(Kind::Remove, 1, &[half, end, 3]),
        call(Kind::Unmap, 0, &[buffer, 0x1_0000]),
        call(Kind::Remove, 0, &[buffer, end, 1]),
        call(Kind::Remove, 3, &[buffer, end, 19]),
        call(Kind::Unmap, 3, &[buffer, 0x1_0000]),
    ]
}

/// A day: 40,000 sessions, in texts of so many, each text from empty tables.
fn day(each: u64) -> (Work, u64) {
    let whole = |from: u64| {
        let mut calls = functions();
        calls.extend((from..from + each).flat_map(session));
        calls
    };
    let scripts: Vec<Vec<Call>> = (0..40_000 / each).map(|i| whole(i * each)).collect();
    let calls = scripts.iter().map(|script| script.len() as u64).sum();
    (Work::Text(scripts.iter().map(|script| text(script)).collect()), calls)
}

/// Records and segments with a long stream: every segment over many records.
pub fn long_stream(many: u64) -> Vec<Call> {
    let mut calls = records(many);
    calls.extend((0..32).map(|i| call(Kind::Map, 0, &[4096 * i, 1 << 50 | i << 34, 4096 * many, 1])));
    calls
}

fn with_prints(mut calls: Vec<Call>, many: usize) -> Vec<Call> {
    calls.extend(std::iter::repeat_n(call(Kind::Print, 0, &[]), many));
    calls
}

pub fn on_regions(many: u64, pairs: u64) -> (Work, Work, u64) {
    let before = records(many);
    let whole: Vec<Call> = before.iter().copied().chain(region_calls(many, pairs)).collect();
    (one(&whole), one(&before), 2 * pairs)
}

pub fn on_segments(many: u64, pairs: u64) -> (Work, Work, u64) {
    let before = segments(many);
    let whole: Vec<Call> = before.iter().copied().chain(segment_calls(many, pairs)).collect();
    (one(&whole), one(&before), 2 * pairs)
}

/// Adds of ranges that do not touch, then removes of as many of them, in the same order.
fn adds_and_removes(adds: u64, removes: u64) -> Vec<Call> {
    let of = |kind| move |i| call(kind, 0, &[4096 * (i + 1), 4096 * (i + 1) + 2048, 3]);
    (0..adds).map(of(Kind::Add)).chain((0..removes).map(of(Kind::Remove))).collect()
}

/// A bundle beside its single calls.
fn bundled(calls: Vec<Call>) -> Work {
    Work::Calls { bundle: Bundle::of(0, &calls), calls, times: TIMES }
}

/// So many adds and removes, by the call: the tables that they are made on are taken off.
fn all_of(adds: u64, removes: u64) -> (Work, Work, u64) {
    let calls = adds_and_removes(adds, removes);
    let many = calls.len() as u64;
    (bundled(calls), bundled(Vec::new()), TIMES * many)
}

/// 32 calls of which the last is refused: nothing is held at its start or below.
fn refused_last() -> (Work, Work, u64) {
    let mut calls = adds_and_removes(16, 15);
    calls.push(call(Kind::Remove, 0, &[0, 1, 3]));
    (bundled(calls), bundled(Vec::new()), TIMES * 32)
}

/// The bundles. What a second call costs more than the first is what the copy of the pool costs, and that call.
fn bundles() -> Vec<Case> {
    let [one, two] = [1, 2].map(|adds| bundled(adds_and_removes(adds, 0)));
    vec![
        case("a bundle of 4 adds and 4 removes", all_of(4, 4), "call"),
        case("a bundle of 16 adds and 16 removes", all_of(16, 16), "call"),
        case("a bundle of 8 adds", all_of(8, 0), "call"),
        case("a bundle of 32 adds", all_of(32, 0), "call"),
        case("a bundle of 32 that is refused at its last", refused_last(), "call"),
        case("a bundle of two adds, less one of one: the pool's copy", (two, one, TIMES), "bundle"),
    ]
}

fn case(name: &'static str, (work, before, calls): (Work, Work, u64), unit: &'static str) -> Case {
    Case { name, work, before, calls, unit }
}

pub fn cases() -> Vec<Case> {
    let nothing = || Work::Text(Vec::new());
    let (whole_day, day_calls) = day(1000);
    let (sessions, session_calls) = day(1);
    // 32 segments of 400 records each, of which the last ones lie past the end, and the records before each of them
    let mappings = |many: u64| (0..32).map(|i| many - i).sum::<u64>();
    let stream = long_stream(400);
    let mut cases = vec![
        case("a day's load: 40 texts of 1,000 sessions", (whole_day, nothing(), day_calls), "line"),
        case("a day's load: 40,000 texts of one session", (sessions, nothing(), session_calls), "line"),
        case("adds and removes on 10 records", on_regions(10, 2000), "line"),
        case("adds and removes on 100 records", on_regions(100, 2000), "line"),
        case("adds and removes on 1,000 records", on_regions(1000, 2000), "line"),
        case("maps and unmaps on 10 segments", on_segments(10, 2000), "line"),
        case("maps and unmaps on 60 segments", on_segments(60, 2000), "line"),
        case("P of a long stream", (one(&with_prints(stream.clone(), 5)), one(&stream), 5 * mappings(400)), "mapping"),
        case(
            "a page with a long stream",
            (Work::Page(text(&stream)), Work::Page(text(&records(400))), mappings(400)),
            "mapping",
        ),
    ];
    cases.extend(bundles());
    cases
}
