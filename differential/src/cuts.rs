//! Both unmaps as order 3 of document 02 has them, reckoned from the original's list of segments: hpa, gpa, size and repeat each;
//! and the unmaps for which the original is known to leave another list, each with the reason.
use crate::guests::fits;
use crate::line::{Call, Kind};

/// How many segments a compartment can hold.
const SLOTS: usize = 64;

const EMPTY: &str = "the range is empty and inside a segment";
const FRONT: &str = "the range cuts the front of a segment";
const BEHIND: &str = "a segment behind the one that is cut in two is touched";
const PAST: &str = "a part moves past another";
const EQUAL: &str = "a half comes beside an equal";

/// The letters of the unmaps that are named, and why.
pub const NAMED: [(char, &str); 6] =
    [('U', EMPTY), ('U', FRONT), ('U', BEHIND), ('U', PAST), ('G', PAST), ('G', EQUAL)];

/// What comes of an unmap: its answer, the list of segments behind it, and why the original leaves another, if it does.
pub struct Cut {
    pub answer: u64,
    pub left: Vec<u64>,
    pub named: Option<&'static str>,
}

/// A range of host or of guest addresses, whose end fits 64 bits.
struct Range {
    kind: Kind,
    start: u64,
    end: u64,
}

impl Range {
    /// The addresses of a segment that the range is held against: its host range, or its guest span.
    fn span(&self, s: &[u64]) -> (u64, u64) {
        if self.kind == Kind::Unmap {
            (s[0], s[0] + s[2])
        } else {
            (s[1], s[1] + s[2] * s[3])
        }
    }

    /// Whether the two share an address.
    fn touches(&self, s: &[u64]) -> bool {
        let (from, to) = self.span(s);
        self.start.max(from) < self.end.min(to)
    }

    /// Whether all of a segment goes.
    fn covers(&self, s: &[u64]) -> bool {
        let (from, to) = self.span(s);
        self.start <= from && to <= self.end
    }

    /// Whether a segment begins below the range and ends above it, which may be empty.
    fn is_inside(&self, s: &[u64]) -> bool {
        let (from, to) = self.span(s);
        from < self.start && self.end < to
    }

    /// Whether the front of a segment goes and its rear stays.
    fn cuts_front(&self, s: &[u64]) -> bool {
        self.touches(s) && self.start <= self.span(s).0 && !self.covers(s)
    }

    /// The hpa of what stays of a segment behind the range.
    fn rear(&self, s: &[u64]) -> u64 {
        s[0] + (self.end - self.span(s).0)
    }

    /// What stays of a segment: the part before the range, and the part behind it with both starts moved up.
    fn parts(&self, s: &[u64]) -> Vec<[u64; 4]> {
        let [hpa, gpa, size, repeat] = [s[0], s[1], s[2], s[3]];
        if !self.touches(s) {
            return vec![[hpa, gpa, size, repeat]];
        }
        let from = self.span(s).0;
        let (first, past) = (self.start.saturating_sub(from), self.end - from);
        let mut parts = Vec::new();
        if first > 0 {
            parts.push([hpa, gpa, first, repeat]);
        }
        if past < size {
            parts.push([hpa + past, gpa + past, size - past, repeat]);
        }
        parts
    }
}

/// The parts of all segments in list order, then by host address: equals keep their order.
fn cut_all(range: &Range, segments: &[u64]) -> Vec<u64> {
    let mut all: Vec<[u64; 4]> = segments.chunks_exact(4).flat_map(|s| range.parts(s)).collect();
    all.sort_by_key(|s| s[0]);
    all.concat()
}

/// Why the original leaves another list after a host unmap. It moves the start of a front cut down instead of up, its walk ends
/// behind the first segment that it cuts in two, and it puts the second half directly behind the first.
fn host_named(range: &Range, segments: &[u64], answer: u64) -> Option<&'static str> {
    let all = || segments.chunks_exact(4);
    let first = all().position(|s| range.is_inside(s));
    if range.start == range.end {
        return first.map(|_| EMPTY);
    }
    // a segment that goes whole lies behind every one that is cut in two: with all slots in use the original lacks one too
    if answer == 12 && all().count() == SLOTS {
        return None;
    }
    if all().any(|s| range.cuts_front(s)) {
        return Some(FRONT);
    }
    let behind = || all().skip(first.map_or(usize::MAX, |at| at + 1));
    if behind().any(|s| range.touches(s)) {
        return Some(BEHIND);
    }
    // the second half begins at the end of the range
    behind().any(|s| s[0] < range.end).then_some(PAST)
}

/// Why the original leaves another list after a guest unmap. It leaves a segment whose front it cuts where it was, and puts a
/// second half behind its equals.
fn guest_named(range: &Range, segments: &[u64]) -> Option<&'static str> {
    let all = || segments.chunks_exact(4);
    for (at, s) in all().enumerate() {
        if range.cuts_front(s) && all().skip(at + 1).any(|t| t[0] < range.rear(s) && !range.covers(t)) {
            return Some(PAST);
        }
        if range.is_inside(s) && all().any(|t| t[0] == range.rear(s)) {
            return Some(EQUAL);
        }
    }
    None
}

/// Whether a segment that goes in part is one that is repeated.
fn is_repeated(range: &Range, segments: &[u64]) -> bool {
    segments.chunks_exact(4).any(|s| range.touches(s) && !range.covers(s) && s[3] != 1)
}

/// What comes of an unmap of a compartment with these segments, if the call is one.
pub fn cut(call: &Call, segments: &[u64]) -> Option<Cut> {
    let guest = match call.kind {
        Kind::Unmap => false,
        Kind::UnmapGpa => true,
        _ => return None,
    };
    let [start, size, ..] = call.numbers;
    let unchanged = |answer| Some(Cut { answer, left: segments.to_vec(), named: None });
    if guest && (segments.is_empty() || size == 0) {
        return unchanged(0);
    }
    if !fits(start, size) {
        return unchanged(10);
    }
    let range = Range { kind: call.kind, start, end: start + size };
    if guest && is_repeated(&range, segments) {
        return unchanged(15);
    }
    let left = cut_all(&range, segments);
    let (answer, left) = if left.len() > 4 * SLOTS { (12, segments.to_vec()) } else { (0, left) };
    let named = match (guest, answer) {
        (false, _) => host_named(&range, segments, answer),
        (true, 0) => guest_named(&range, segments),
        // where more than 64 would remain, the original lacks a slot too
        (true, _) => None,
    };
    Some(Cut { answer, left, named })
}
