//! Guest ranges against the stored spans, reckoned from the original's list of segments: hpa, gpa, size and repeat each.

/// Whether a sum fits 64 bits.
pub fn fits(a: u64, b: u64) -> bool {
    a.checked_add(b).is_some()
}

/// The guest spans of a list, each as its start and its end.
fn spans(segments: &[u64]) -> impl Iterator<Item = (u64, u64)> + '_ {
    segments.chunks_exact(4).map(|s| (s[1], s[1] + s[2] * s[3]))
}

/// Whether so many guest addresses from a start on share one with a stored span.
pub fn shares(start: u64, size: u64, segments: &[u64]) -> bool {
    fits(start, size) && spans(segments).any(|(from, to)| start.max(from) < to.min(start + size))
}

/// Why the original, which asks of each span whether it holds an end of the range, does not see that they do.
pub fn unseen(start: u64, size: u64, segments: &[u64]) -> &'static str {
    let end = start + size;
    if spans(segments).any(|(from, to)| (from <= start && start < to) || (from < end && end <= to)) {
        "its walk stops before it comes to the span"
    } else {
        "the range swallows the span"
    }
}
