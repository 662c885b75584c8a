//! What a run has seen, as a table, and the smallest script for each thing that the two sides do differently.
use crate::compare::{check, Asked, Class, Depth, Script, Tally};
use crate::counts::RECORD;
use crate::judge::Tables;
use crate::line::{self, Call};
use crate::port::{self, After, List};
use crate::shrink::smallest;
use std::collections::BTreeMap;
use std::fmt::Write;

/// One row for each answer and each thing that the original did there.
pub fn table(tally: &Tally) -> String {
    let mut rows: BTreeMap<(u64, char, &str), (u64, u64)> = BTreeMap::new();
    for (class, (many, _)) in &tally.classes {
        let row = rows.entry((class.answer, class.letter, &class.original)).or_default();
        row.0 += many;
        row.1 += if class.altered { *many } else { 0 };
    }
    let mut out = String::from(
        "| answer | line | times | the original there | of these, lists altered by it |\n|---|---|---|---|---|\n",
    );
    for ((answer, letter, original), (many, altered)) in rows {
        let _ = writeln!(out, "| {answer} | {letter} | {many} | {} | {altered} |", original.replace('|', "\\|"));
    }
    out
}

/// What `overlaps` answers otherwise than the original, with the smallest script and range that were seen.
pub fn overlaps(tally: &Tally) -> String {
    let mut out = String::from(
        "\n## What `overlaps` answers otherwise\n\n| why | times | script | then `overlaps` of | the original | the port |\n|---|---|---|---|---|---|\n",
    );
    let word = |answer: u64| if answer == 1 { "yes" } else { "no" };
    for (why, (ours, many, asked)) in &tally.overlaps {
        let (script, Asked { start, size, compartment, .. }) = (shown(&asked.lines), asked);
        let both = format!("{} | {}", word(1 - ours), word(*ours));
        let _ = writeln!(out, "| {why} | {many} | {script} | ({start}, {size}) in {compartment} | {both} |");
    }
    out
}

/// What a script's last line shows.
fn last_class(lines: &[Vec<u8>]) -> Option<Class> {
    let mut tally = Tally::default();
    let script = Script { lines: lines.to_vec(), ..Script::default() };
    check(&script, Depth::Output, &mut tally).ok()?;
    tally.last
}

/// The calls before a script's last line that both sides accept, and the script without the named calls among them.
fn accepted(lines: &[Vec<u8>]) -> (Vec<Call>, Vec<Vec<u8>>) {
    let (last, before) = lines.split_last().expect("a script that shows something has a line");
    let before = Script { lines: before.to_vec(), ..Script::default() };
    let compared = check(&before, Depth::Output, &mut Tally::default()).expect("the run has compared it");
    let mut lines = compared.script.into_owned().lines;
    lines.push(last.clone());
    (compared.accepted, lines)
}

/// Numbers in groups, as the paper writes them. Of more than three, those are shown that the other side does not have.
fn groups(all: &[u64], other: &[u64], width: usize) -> String {
    let group = |g: &[u64]| format!("({})", g.iter().map(u64::to_string).collect::<Vec<_>>().join(", "));
    let many = all.len() / width;
    let own = |g: &&[u64]| many <= 3 || !other.chunks(width).any(|o| o == *g);
    let mut shown: Vec<String> = all.chunks(width).filter(own).take(3).map(group).collect();
    let more = many - shown.len();
    if more > 0 {
        shown.push(format!("{}{more} more", if shown.is_empty() { "" } else { "and " }));
    }
    if shown.is_empty() {
        "none".to_string()
    } else {
        shown.join(" ")
    }
}

/// The lines of a script, a long one cut in the middle.
fn shown(lines: &[Vec<u8>]) -> String {
    // the columns of a line that is of the form are left out
    let plain = |line: &Vec<u8>| {
        let text = line.escape_ascii().to_string();
        match Call::parse(line) {
            Some(_) => text.split_whitespace().collect::<Vec<_>>().join(" "),
            None => text,
        }
    };
    let mut all: Vec<String> = lines.iter().map(plain).collect();
    if all.len() > 8 {
        let middle = format!(".. {} lines ..", all.len() - 5);
        all.splice(2..all.len() - 3, [middle]);
    }
    let quoted = |line: &String| if line.is_empty() { "an empty line".to_string() } else { format!("`{line}`") };
    all.iter().map(quoted).collect::<Vec<_>>().join("<br>")
}

/// One row: the smallest script that ends in a class, and what both sides do at its last line.
fn row(number: usize, class: &Class, lines: &[Vec<u8>]) -> String {
    let (calls, lines) = accepted(lines);
    let last = lines.last().and_then(|line| Call::parse(line));
    let text = line::text(&lines);
    let mut original = class.original.clone();
    let mut port = format!("answers {}", class.answer);
    if let Some(call) = last.filter(|call| call.compartment < 8) {
        let k = call.compartment as usize;
        let mut tables = Tables::after(&calls);
        tables.say(&call);
        if class.altered || class.named {
            let theirs = [tables.regions(k), tables.segments(k)];
            let ours = [List::Regions, List::Segments].map(|list| port::whole(list, After::script(&text, k as u64)));
            for (text, all, other) in [(&mut original, &theirs, &ours), (&mut port, &ours, &theirs)] {
                let (records, segments) = (groups(&all[0], &other[0], RECORD), groups(&all[1], &other[1], 4));
                let _ = write!(text, "; then records {records}, segments {segments}");
            }
        } else {
            port.push_str("; no list is altered by either");
        }
    }
    format!("| {number} | {} | {} | {port} |\n", shown(&lines), original.replace('|', "\\|"))
}

/// The smallest script for each refusal and each named unmap that was seen, with what both sides do.
pub fn differences(tally: &Tally) -> String {
    let mut out = String::from("| # | script | the original at its last line | the port |\n|---|---|---|---|\n");
    let classes = || tally.classes.iter().filter(|(class, _)| class.answer != 0 || class.named);
    for (number, (class, (_, example))) in classes().enumerate() {
        let holds = |lines: &[Vec<u8>]| last_class(lines).as_ref() == Some(class);
        let lines = if example.len() > 3000 { example.clone() } else { smallest(example, &holds) };
        eprintln!("differential: the smallest script for {} of {}", number + 1, classes().count());
        out.push_str(&row(number + 1, class, &lines));
    }
    out
}
