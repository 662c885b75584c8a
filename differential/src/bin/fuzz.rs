//! fuzz N: byte strings and damaged scripts through run_script and through the program key. Neither may crash or hang, both
//! print the same, and there are as many answer lines as lines. Then a bundle of any numbers behind each: it must do what its calls do as
//! lines, or nothing. And the same bytes, or a damaged wish, as the text of a wish: what is printed is held to a reading of its own, in a
//! buffer that takes it and in a shorter one.
use differential::bundle::{Bundle, MOST};
use differential::line::{self, Call, Kind};
use differential::plans;
use differential::port::{self, After, List};
use differential::random::Random;
use differential::shapes;
use std::env;
use std::io::Write;
use std::process::{Command, ExitCode, Stdio};
use std::time::{Duration, Instant};

/// Bytes of one of four kinds: any; of the few that scripts have; a script with bytes changed; pieces of two scripts.
fn bytes(r: &mut Random, i: u64) -> Vec<u8> {
    let script = |r: &mut Random| shapes::script(r.next(), 1 + r.below(38)).2.text();
    match i % 4 {
        0 => (0..r.below(600)).map(|_| r.next() as u8).collect(),
        1 => (0..r.below(2000)).map(|_| r.one_of(b"ADCMUGPS    0123456789\n\n\r\0")).collect(),
        2 => {
            let mut text = script(r);
            for _ in 0..r.between(1, 12) {
                let at = r.below(text.len() as u64 + 1) as usize;
                match r.below(3) {
                    0 if at < text.len() => text[at] = r.next() as u8,
                    1 if at < text.len() => drop(text.remove(at)),
                    _ => text.insert(at, r.one_of(b" 09\nAP\xff\0")),
                }
            }
            text
        }
        _ => {
            let (mut a, b) = (script(r), script(r));
            a.truncate(r.below(a.len() as u64 + 1) as usize);
            a.extend_from_slice(&b[r.below(b.len() as u64 + 1) as usize..]);
            a
        }
    }
}

/// The output of key for an input, or why there is none.
fn key(program: &str, input: &[u8]) -> Result<Vec<u8>, String> {
    let mut child = Command::new(program)
        .stdin(Stdio::piped())
        .stdout(Stdio::piped())
        .spawn()
        .map_err(|error| format!("{program}: {error}"))?;
    let mut pipe = child.stdin.take().expect("standard input is piped");
    let text = input.to_vec();
    let feeder = std::thread::spawn(move || pipe.write_all(&text));
    let output = child.wait_with_output().map_err(|error| error.to_string())?;
    let fed = feeder.join().expect("the feeder ends");
    fed.map_err(|error| format!("key does not read its input: {error}"))?;
    if output.status.success() {
        Ok(output.stdout)
    } else {
        Err(format!("key ends with {}", output.status))
    }
}

/// One input through both.
fn try_one(program: &str, input: &[u8]) -> Result<(), String> {
    let began = Instant::now();
    let ours = port::run(input);
    let theirs = key(program, input)?;
    if ours != theirs {
        return Err("run_script and key print something else".to_string());
    }
    // a mapping line begins with 21 columns, an answer line with 3: only they have 25 bytes
    let answers = ours.split_inclusive(|b| *b == b'\n').filter(|line| line.len() == 25).count() - 1;
    let lines = line::lines(input).len();
    if answers != lines {
        return Err(format!("{lines} lines, {answers} answers"));
    }
    if began.elapsed() > Duration::from_secs(10) {
        return Err("it takes longer than 10 s".to_string());
    }
    Ok(())
}

/// A bundle: calls on the addresses that scripts have, now and then with any number in one's place, or with some missing.
fn bundle(r: &mut Random) -> Bundle {
    let call = |r: &mut Random| {
        let (start, kind) = (r.below(20), if r.once_in(9) { Kind::Remove } else { Kind::Add });
        Call::new(kind, 0, &[start, start + r.below(7), r.one_of(&[0, 1, 1, 3, 19, 32])])
    };
    let many = r.one_of(&[1, 2, 3, 5, 8, 13, 32, 33]);
    let mut bundle = Bundle::of(r.below(9), &(0..many).map(|_| call(r)).collect::<Vec<_>>());
    if r.once_in(3) {
        let at = r.below(bundle.numbers.len() as u64) as usize;
        bundle.numbers[at] = if r.once_in(2) { r.next() } else { r.below(70) };
    }
    if r.once_in(6) {
        bundle.numbers.truncate(r.below(4 * many + 1) as usize);
    }
    bundle
}

/// What the port must answer to a bundle behind an input, and the script that it stands for there, by its calls as lines.
fn by_lines(input: &[u8], bundle: &Bundle) -> Result<(u64, Vec<u8>), String> {
    let refused = |number| Ok((port::refused(number), input.to_vec()));
    if bundle.compartment >= 8 {
        return refused(1);
    }
    if bundle.many() > MOST {
        return refused(24);
    }
    let lines: Vec<Vec<u8>> = bundle.groups().map_while(|group| bundle.call(group)).map(|call| call.line()).collect();
    let mut grown = input.to_vec();
    if input.last().is_some_and(|last| *last != b'\n') {
        grown.push(b'\n');
    }
    grown.extend(line::text(&lines));
    let output = port::run(&grown);
    let mut change = 0;
    for answer in output[output.len() - 25 * lines.len()..].chunks(25) {
        let (answer, value) = line::take_answer(answer).ok_or("an add or a remove has no answer line")?;
        if answer != 0 {
            return refused(answer);
        }
        change |= value;
    }
    if lines.len() < bundle.many() {
        return refused(17);
    }
    Ok((change, grown))
}

/// A bundle behind an input: whether it is accepted.
fn try_bundle(input: &[u8], bundle: &Bundle) -> Result<bool, String> {
    let (meant, left) = by_lines(input, bundle)?;
    let answer = port::bundle(input, bundle);
    if answer != meant {
        return Err(format!("{bundle:?} answers {answer}, its calls as lines {meant}"));
    }
    for list in [List::Regions, List::Stream] {
        let behind = port::whole(list, After::bundle(input, bundle));
        if behind != port::whole(list, After::script(&left, bundle.compartment)) {
            return Err(format!("{bundle:?} does not leave the {list:?} that its calls as lines leave"));
        }
    }
    Ok(answer <= 1)
}

/// The text of a wish: an input as it is, or a wish of which now and then some bytes are others.
fn wish(r: &mut Random, input: &[u8], i: u64) -> Vec<u8> {
    if i % 3 == 0 {
        return input.to_vec();
    }
    let mut text = plans::text_of(&plans::wish(r, 40));
    for _ in 0..r.below(3) {
        let at = r.below(text.len() as u64 + 1) as usize;
        match r.below(3) {
            0 if at < text.len() => text[at] = r.one_of(b" 019\n\r-\xff"),
            1 => text.truncate(at),
            _ => text.insert(at, r.one_of(b" 0\n")),
        }
    }
    text
}

/// The text of a wish through the port: whether it gets a script.
fn try_wish(r: &mut Random, text: &[u8]) -> Result<bool, String> {
    let (k, allowance) = (r.below(9), r.one_of(&[0, 5, 127, 128, 128, 129, 700, 1024, 1025, u64::MAX]));
    let (meant, room) = (plans::printed(text, k, allowance), r.below(3000) as usize);
    // the whole lines that fit
    let fits = |room: usize| {
        let ends = (1..=meant.len()).filter(|end| *end <= room && meant[end - 1] == b'\n');
        &meant[..ends.last().unwrap_or(0)]
    };
    for room in [meant.len(), meant.len() + 9, room] {
        if port::plan_text(text, k, allowance, room)? != fits(room) {
            return Err(format!("the wish for {k} under {allowance} in {room} bytes is not what is read of it"));
        }
    }
    Ok(meant.first() != Some(&b' '))
}

fn main() -> ExitCode {
    let words: Vec<String> = env::args().skip(1).collect();
    let [program, many] = &words[..] else {
        eprintln!("usage: differential/fuzz N");
        return ExitCode::from(2);
    };
    let Ok(many) = many.parse::<u64>() else {
        eprintln!("usage: differential/fuzz N");
        return ExitCode::from(2);
    };
    let (mut total, mut accepted, mut scripts) = (0, 0, 0);
    for i in 0..many {
        let mut r = Random(i.wrapping_mul(0x2545_F491_4F6C_DD1D) + 1);
        let input = bytes(&mut r, i);
        total += input.len();
        let text = wish(&mut r.clone(), &input, i);
        let tried = try_one(program, &input).and_then(|()| try_bundle(&input, &bundle(&mut r)));
        match tried.and_then(|is_accepted| Ok([is_accepted, try_wish(&mut r, &text)?])) {
            Ok([is_accepted, has_script]) => {
                accepted += u64::from(is_accepted);
                scripts += u64::from(has_script);
            }
            Err(why) => {
                println!("input {i}, {} bytes: {why}\n{}", input.len(), input.escape_ascii());
                return ExitCode::FAILURE;
            }
        }
        if i % 5000 == 4999 {
            eprintln!("fuzz: {} of {many}", i + 1);
        }
    }
    println!("{many} inputs, {total} bytes: run_script and key print the same, an answer for every line");
    println!(
        "a bundle behind each, {accepted} accepted and {} refused: what its calls do as lines, or nothing",
        many - accepted
    );
    println!("a wish behind each, {scripts} with a script and {} refused: what is read of it", many - scripts);
    ExitCode::SUCCESS
}
