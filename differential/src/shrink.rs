//! The smallest script for which something holds: lines are dropped, then numbers lowered, as long as it goes on holding.
use crate::bundle::Bundle;
use crate::line::Call;

fn without_lines(lines: &mut Vec<Vec<u8>>, holds: &dyn Fn(&[Vec<u8>]) -> bool) {
    let mut size = lines.len().div_ceil(2);
    while size > 0 {
        let mut from = 0;
        while from < lines.len() {
            let mut fewer = lines.clone();
            fewer.drain(from..(from + size).min(lines.len()));
            if holds(&fewer) {
                *lines = fewer;
            } else {
                from += size;
            }
        }
        size /= 2;
    }
}

/// One number of one line is lowered, if that can be; true where something was.
fn lower(lines: &mut [Vec<u8>], at: usize, holds: &dyn Fn(&[Vec<u8>]) -> bool) -> bool {
    let Some(call) = Call::parse(&lines[at]) else {
        let line = std::mem::take(&mut lines[at]);
        if line.is_empty() || holds(lines) {
            return false;
        }
        lines[at] = line;
        return false;
    };
    let mut lowered = false;
    let mut call = call;
    for i in 0..=call.kind.numbers() {
        let number = if i == 0 { call.compartment } else { call.numbers[i - 1] };
        let tries = [0, 1, number / 2, number.saturating_sub(10), number.saturating_sub(1)];
        for less in tries.into_iter().filter(|less| *less < number) {
            let mut other = call;
            if i == 0 {
                other.compartment = less;
            } else {
                other.numbers[i - 1] = less;
            }
            let before = std::mem::replace(&mut lines[at], other.line());
            if holds(lines) {
                call = other;
                lowered = true;
                break;
            }
            lines[at] = before;
        }
    }
    lowered
}

/// Groups go from the bundle that a line may be, the last ones first.
fn without_groups(lines: &mut [Vec<u8>], at: usize, holds: &dyn Fn(&[Vec<u8>]) -> bool) {
    let Some(mut bundle) = Bundle::parse(&lines[at]) else { return };
    for group in (0..bundle.many()).rev() {
        let fewer = bundle.without(group);
        let before = std::mem::replace(&mut lines[at], fewer.entry());
        if holds(lines) {
            bundle = fewer;
        } else {
            lines[at] = before;
        }
    }
}

/// The calls of all lines, if every line is one.
fn calls(lines: &[Vec<u8>]) -> Option<Vec<Call>> {
    lines.iter().map(|line| Call::parse(line)).collect()
}

/// Numbers that lie far above the next lower one come down, with all above them, as long as it goes on holding.
fn close_gaps(lines: &mut Vec<Vec<u8>>, holds: &dyn Fn(&[Vec<u8>]) -> bool) {
    let Some(mut all) = calls(lines) else { return };
    let mut low = 0;
    loop {
        let numbers = all.iter().flat_map(|call| &call.numbers[..call.kind.numbers()]);
        let Some(&next) = numbers.filter(|n| **n > low).min() else { return };
        for gap in [1, 2, 5, 10].into_iter().filter(|gap| low + gap < next) {
            let mut other = all.clone();
            let shift = next - low - gap;
            other.iter_mut().flat_map(|call| &mut call.numbers).filter(|n| **n >= next).for_each(|n| *n -= shift);
            let closer: Vec<Vec<u8>> = other.iter().map(Call::line).collect();
            if holds(&closer) {
                (*lines, all) = (closer, other);
                break;
            }
        }
        let numbers = all.iter().flat_map(|call| &call.numbers[..call.kind.numbers()]);
        low = numbers.copied().filter(|n| *n > low).min().unwrap_or(u64::MAX);
        if low > u64::MAX - 10 {
            return;
        }
    }
}

/// What stands behind the lines that fill a table goes, line by line: each try costs a run of the whole script.
fn without_last(lines: &mut Vec<Vec<u8>>, holds: &dyn Fn(&[Vec<u8>]) -> bool) {
    for at in (lines.len().saturating_sub(12)..lines.len() - 1).rev() {
        let line = lines.remove(at);
        if !holds(lines) {
            lines.insert(at, line);
        }
    }
}

pub fn smallest(lines: &[Vec<u8>], holds: &dyn Fn(&[Vec<u8>]) -> bool) -> Vec<Vec<u8>> {
    let mut lines = lines.to_vec();
    if lines.len() > 200 {
        without_last(&mut lines, holds);
    }
    if lines.len() > 200 {
        return lines;
    }
    for _ in 0..4 {
        let before = lines.clone();
        without_lines(&mut lines, holds);
        close_gaps(&mut lines, holds);
        for at in 0..lines.len() {
            without_groups(&mut lines, at, holds);
            // a number that can only go down by one at a time is left where it is after some steps
            for _ in 0..50 {
                if !lower(&mut lines, at, holds) {
                    break;
                }
            }
        }
        if lines == before {
            break;
        }
    }
    lines
}
