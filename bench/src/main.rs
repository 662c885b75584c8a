//! bench FILE: the port against the original on the same scripts, in one run, and the table as Markdown in FILE.
use differential::bundle::Bundle;
use differential::judge::Tables;
use differential::line::{self, Call, Kind};
use differential::port::{self, After, List};
use std::env;
use std::fmt::Write;
use std::fs;
use std::hint::black_box;
use std::process::ExitCode;
use std::time::Instant;

mod plot;
mod scripts;

/// The original on the bytes of a script: parsed, run and printed into a buffer that is kept from run to run.
fn original(script: &[u8], out: &mut Vec<u8>) {
    out.clear();
    out.extend_from_slice(line::HEADING);
    let mut tables = Tables::default();
    for line in script.split(|b| *b == b'\n') {
        let Some(call) = Call::parse(line) else {
            if !line.is_empty() {
                line::put_answer(out, 17, 0);
            }
            continue;
        };
        if call.kind == Kind::Print {
            print(&tables, call.compartment as usize, out);
        } else {
            let value = tables.change(&call).expect("every call of a benchmark is accepted");
            line::put_answer(out, 0, value);
        }
    }
}

/// A P in one pass: the line with the number of mappings is filled in when they are known.
fn print(tables: &Tables, k: usize, out: &mut Vec<u8>) {
    let at = out.len();
    line::put_answer(out, 0, 0);
    let mut many = 0;
    tables.each_mapping(k, |mapping| {
        line::put_mappings(out, &mapping);
        many += 1;
    });
    let mut answer = Vec::with_capacity(25);
    line::put_answer(&mut answer, 0, many);
    out[at..at + 25].copy_from_slice(&answer);
}

/// What a case runs on both sides.
enum Work {
    /// A script from bytes to bytes.
    Text(Vec<Vec<u8>>),
    /// The stream after a script, into numbers.
    Page(Vec<u8>),
    /// Adds and removes for compartment 0 on fresh tables, so often, without text: a bundle here, single calls there.
    Calls { bundle: Bundle, calls: Vec<Call>, times: u64 },
}

impl Work {
    /// How many runs the least time is taken of. Bundles are short beside the tables that are taken off: they get more, shorter runs.
    fn rounds(&self) -> usize {
        match self {
            Work::Text(_) | Work::Page(_) => 9,
            Work::Calls { .. } => 300,
        }
    }
}

struct Case {
    name: &'static str,
    work: Work,
    /// The part of each run that is not measured: its own time is taken off.
    before: Work,
    calls: u64,
    unit: &'static str,
}

struct Buffers {
    port: Vec<u8>,
    original: Vec<u8>,
    numbers: Vec<u64>,
}

fn run_port(work: &Work, buffers: &mut Buffers) {
    match work {
        Work::Text(scripts) => {
            for script in scripts {
                black_box(port::run_into(script, &mut buffers.port));
            }
        }
        Work::Page(script) => {
            black_box(port::read(List::Stream, After::script(script, 0), 0, &mut buffers.numbers));
        }
        Work::Calls { bundle, times, .. } => {
            for _ in 0..*times {
                black_box(port::bundle(b"", black_box(bundle)));
            }
        }
    }
}

/// The original's single calls on fresh tables: the tables, and what each call answers.
fn singly(calls: &[Call], mut answer: impl FnMut(Result<u64, &'static str>)) -> Tables {
    let mut tables = Tables::default();
    for call in calls {
        answer(tables.change(call));
    }
    tables
}

fn run_original(work: &Work, buffers: &mut Buffers) {
    match work {
        Work::Text(scripts) => {
            for script in scripts {
                original(script, &mut buffers.original);
                black_box(buffers.original.len());
            }
        }
        Work::Page(script) => {
            let calls: Vec<Call> = line::lines(script).iter().filter_map(|line| Call::parse(line)).collect();
            let tables = Tables::after(&calls);
            let mut at = 0;
            tables.each_mapping(0, |mapping| {
                buffers.numbers[at..at + 5].copy_from_slice(&mapping);
                at += 5;
            });
            black_box(at);
        }
        Work::Calls { calls, times, .. } => {
            for _ in 0..*times {
                black_box(singly(black_box(calls), |answer| {
                    let _ = black_box(answer);
                }));
            }
        }
    }
}

fn seconds(run: impl FnOnce()) -> f64 {
    let began = Instant::now();
    run();
    began.elapsed().as_secs_f64()
}

/// The least time of several runs, port and original in turn, each less the part that is not measured.
fn measure(work: &Work, before: &Work, rounds: usize, buffers: &mut Buffers) -> (f64, f64) {
    let mut least = [f64::INFINITY; 4];
    for _ in 0..rounds {
        let times = [
            seconds(|| run_port(work, buffers)),
            seconds(|| run_original(work, buffers)),
            seconds(|| run_port(before, buffers)),
            seconds(|| run_original(before, buffers)),
        ];
        for (least, time) in least.iter_mut().zip(times) {
            *least = least.min(time);
        }
    }
    (least[0] - least[2], least[1] - least[3])
}

/// A bundle does what the single calls do there. Where one is refused, it is the last, with 6, and the bundle leaves no record.
fn agree_on_calls(bundle: &Bundle, calls: &[Call]) -> bool {
    let mut answers = Vec::new();
    let tables = singly(calls, |answer| answers.push(answer));
    let accepted = answers.iter().all(Result::is_ok);
    let records = port::whole(List::Regions, After::bundle(b"", bundle));
    let ours = port::bundle(b"", bundle);
    if accepted {
        ours == u64::from(answers.contains(&Ok(1))) && records == tables.regions(0)
    } else {
        let refused = answers.iter().position(Result::is_err) == Some(calls.len() - 1);
        refused && answers.last() == Some(&Err("InvalidRegion")) && ours == port::refused(6) && records.is_empty()
    }
}

/// Both sides do the same, or nothing is measured.
fn agree(work: &Work, buffers: &mut Buffers) -> bool {
    let scripts = match work {
        Work::Text(scripts) => scripts,
        Work::Page(_) => return true,
        Work::Calls { bundle, calls, .. } => return agree_on_calls(bundle, calls),
    };
    scripts.iter().take(3).all(|script| {
        buffers.port.fill(0);
        port::run_into(script, &mut buffers.port);
        original(script, &mut buffers.original);
        buffers.port.starts_with(&buffers.original) && buffers.port[buffers.original.len()] == 0
    })
}

fn processor() -> String {
    let text = fs::read_to_string("/proc/cpuinfo").unwrap_or_default();
    let named = text.lines().find_map(|line| line.strip_prefix("model name"));
    named.map_or("an unknown processor".to_string(), |name| name.trim_start_matches([' ', '\t', ':']).to_string())
}

fn main() -> ExitCode {
    let words: Vec<String> = env::args().skip(1).collect();
    let [folder] = &words[..] else {
        eprintln!("usage: bench/run");
        return ExitCode::from(2);
    };
    let mut buffers =
        Buffers { port: vec![0; 8 << 20], original: Vec::with_capacity(8 << 20), numbers: vec![0; 400_000] };
    let mut table = String::from("| what | per | port, ns | original, ns | port / original |\n|---|---|---|---|---|\n");
    for case in scripts::cases() {
        if !agree(&case.work, &mut buffers) {
            eprintln!("bench: {}: the two sides do not agree", case.name);
            return ExitCode::FAILURE;
        }
        let (port, original) = measure(&case.work, &case.before, case.work.rounds(), &mut buffers);
        let per = |time: f64| time * 1e9 / case.calls as f64;
        let row = format!(
            "| {} | {} | {:.0} | {:.0} | {:.2} |",
            case.name,
            case.unit,
            per(port),
            per(original),
            port / original
        );
        println!("{row}");
        let _ = writeln!(table, "{row}");
    }
    let svg = plot::growth(&mut |work, before, calls| {
        let (port, original) = measure(work, before, 5, &mut buffers);
        (port * 1e9 / calls as f64, original * 1e9 / calls as f64)
    });
    let page = format!(
        "Measured on {} with {} processors.\n\n{table}",
        processor(),
        std::thread::available_parallelism().map_or(1, usize::from)
    );
    let written =
        fs::write(format!("{folder}/table.md"), page).and_then(|()| fs::write(format!("{folder}/growth.svg"), svg));
    if let Err(error) = written {
        eprintln!("bench: {folder}: {error}");
        return ExitCode::FAILURE;
    }
    ExitCode::SUCCESS
}
