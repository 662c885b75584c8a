//! The port, by its exported functions. Each runs a script from empty tables.
use crate::bundle::Bundle;
use crate::counts::RECORD;

extern "C" {
    fn run_script(script: *const u8, len: usize, out: *mut u8, room: usize) -> usize;
    fn stream_page(script: *const u8, len: usize, compartment: u64, from: usize, out: *mut u64, room: usize) -> u64;
    fn permissions_page(
        script: *const u8,
        len: usize,
        compartment: u64,
        from: usize,
        out: *mut u64,
        room: usize,
    ) -> u64;
    fn regions_page(script: *const u8, len: usize, compartment: u64, from: usize, out: *mut u64, room: usize) -> u64;
    fn segments_page(script: *const u8, len: usize, compartment: u64, from: usize, out: *mut u64, room: usize) -> u64;
    fn overlaps_after(script: *const u8, len: usize, compartment: u64, start: u64, size: u64) -> u64;
    fn bundle_after(script: *const u8, len: usize, compartment: u64, groups: *const u64, groups_len: usize) -> u64;
    fn stream_after_bundle(
        script: *const u8,
        len: usize,
        compartment: u64,
        groups: *const u64,
        groups_len: usize,
        from: usize,
        out: *mut u64,
        room: usize,
    ) -> u64;
    fn regions_after_bundle(
        script: *const u8,
        len: usize,
        compartment: u64,
        groups: *const u64,
        groups_len: usize,
        from: usize,
        out: *mut u64,
        room: usize,
    ) -> u64;
    fn plan_page(
        script: *const u8,
        len: usize,
        compartment: u64,
        wanted: *const u64,
        wanted_len: usize,
        from: usize,
        out: *mut u64,
        room: usize,
    ) -> u64;
    fn plan_script(
        compartment: u64,
        allowance: u64,
        text: *const u8,
        text_len: usize,
        out: *mut u8,
        room: usize,
    ) -> usize;
}

/// What the bytes of a lent slice are before a call, so that a write shows.
const UNTOUCHED: u64 = 0xA5A5_A5A5_A5A5_A5A5;

/// What a refusal answers: 2^64 less its number.
pub fn refused(number: u64) -> u64 {
    number.wrapping_neg()
}

/// Whether an answer is a refusal: no number is above 255, and no list has so many groups.
fn is_refused(answer: u64) -> bool {
    answer > u64::MAX - 255
}

/// Where a list is read: in a compartment after a script, and after a bundle for it behind that, if there is one.
#[derive(Clone, Copy)]
pub struct After<'a> {
    script: &'a [u8],
    pub compartment: u64,
    bundle: Option<&'a [u64]>,
}

impl<'a> After<'a> {
    pub fn script(script: &'a [u8], compartment: u64) -> After<'a> {
        After { script, compartment, bundle: None }
    }

    pub fn bundle(script: &'a [u8], bundle: &'a Bundle) -> After<'a> {
        After { script, compartment: bundle.compartment, bundle: Some(&bundle.numbers) }
    }
}

/// The lists that can be read after a script, with the numbers in a group.
#[derive(Clone, Copy, Debug, PartialEq, Eq)]
pub enum List {
    Stream,
    Permissions,
    Regions,
    Segments,
}

pub const LISTS: [List; 4] = [List::Stream, List::Permissions, List::Regions, List::Segments];

impl List {
    pub fn width(self) -> usize {
        match self {
            List::Stream => 5,
            List::Permissions => 3,
            List::Regions => RECORD,
            List::Segments => 4,
        }
    }

    fn read(self, after: After, from: usize, out: &mut [u64]) -> u64 {
        let After { script, compartment, bundle } = after;
        let Some(groups) = bundle else {
            let read = match self {
                List::Stream => stream_page,
                List::Permissions => permissions_page,
                List::Regions => regions_page,
                List::Segments => segments_page,
            };
            // both slices are alive for the call, and a function of the port writes inside the one it is lent
            return unsafe { read(script.as_ptr(), script.len(), compartment, from, out.as_mut_ptr(), out.len()) };
        };
        let read = match self {
            List::Stream => stream_after_bundle,
            List::Regions => regions_after_bundle,
            List::Permissions | List::Segments => unreachable!("the port has no such read behind a bundle"),
        };
        let (script, script_len, room) = (script.as_ptr(), script.len(), out.len());
        // the same of three slices
        unsafe { read(script, script_len, compartment, groups.as_ptr(), groups.len(), from, out.as_mut_ptr(), room) }
    }
}

/// The lines that fit the buffer, and how many they are.
pub fn run_into(script: &[u8], out: &mut [u8]) -> usize {
    unsafe { run_script(script.as_ptr(), script.len(), out.as_mut_ptr(), out.len()) }
}

/// The whole output of a script.
pub fn run(script: &[u8]) -> Vec<u8> {
    let mut room = 1 << 16;
    loop {
        let mut out = vec![0; room];
        run_into(script, &mut out);
        // a line never begins with byte 0, so the first 0 is behind the last line
        let end = out.iter().position(|b| *b == 0).unwrap_or(room);
        if end + 107 < room {
            out.truncate(end);
            return out;
        }
        room *= 4;
    }
}

/// A page into a slice, and its answer.
pub fn read(list: List, after: After, from: usize, out: &mut [u64]) -> u64 {
    list.read(after, from, out)
}

/// A page of so many numbers from a group on: the answer, and the numbers of its groups. What else of the slice was written
/// is an error.
pub fn page(list: List, after: After, from: usize, room: usize) -> Result<(u64, Vec<u64>), String> {
    lent(list.width(), from, room, &mut |out| list.read(after, from, out))
}

/// A read into a slice of so many numbers, of groups of a width.
fn lent(
    width: usize,
    from: usize,
    room: usize,
    read: &mut dyn FnMut(&mut [u64]) -> u64,
) -> Result<(u64, Vec<u64>), String> {
    let mut out = vec![UNTOUCHED; room];
    let answer = read(&mut out);
    let many = if is_refused(answer) { 0 } else { answer as usize * width };
    if many > room || out[many..].iter().any(|n| *n != UNTOUCHED) {
        return Err(format!("a page of {room} numbers from {from} on answers {answer} and writes past its groups"));
    }
    out.truncate(many);
    Ok((answer, out))
}

/// A page of the script for a wanted list after a script: the answer, and the numbers of its adds.
pub fn plan(
    script: &[u8],
    compartment: u64,
    wanted: &[u64],
    from: usize,
    room: usize,
) -> Result<(u64, Vec<u64>), String> {
    lent(3, from, room, &mut |out| unsafe {
        let (len, wanted_len) = (script.len(), wanted.len());
        plan_page(script.as_ptr(), len, compartment, wanted.as_ptr(), wanted_len, from, out.as_mut_ptr(), out.len())
    })
}

/// A whole list of a compartment at one go. A refusal comes as that one number, which is no list.
pub fn whole(list: List, after: After) -> Vec<u64> {
    let mut room = 128 * list.width();
    loop {
        let mut out = vec![0; room];
        let answer = list.read(after, 0, &mut out);
        if is_refused(answer) {
            return vec![answer];
        }
        let many = answer as usize * list.width();
        if many < room {
            out.truncate(many);
            return out;
        }
        room *= 8;
    }
}

/// 1 or 0, or 2^64 less the number of the refusal.
pub fn overlaps(script: &[u8], compartment: u64, start: u64, size: u64) -> u64 {
    unsafe { overlaps_after(script.as_ptr(), script.len(), compartment, start, size) }
}

/// The change of a bundle after a script, 1 or 0, or 2^64 less the number of the refusal.
pub fn bundle(script: &[u8], bundle: &Bundle) -> u64 {
    let groups = &bundle.numbers;
    unsafe { bundle_after(script.as_ptr(), script.len(), bundle.compartment, groups.as_ptr(), groups.len()) }
}

/// What the text of a wish comes to, in a buffer of so many bytes: the bytes that are answered. What else was written is an error.
pub fn plan_text(text: &[u8], compartment: u64, allowance: u64, room: usize) -> Result<Vec<u8>, String> {
    let mut out = vec![UNTOUCHED as u8; room];
    let many = unsafe { plan_script(compartment, allowance, text.as_ptr(), text.len(), out.as_mut_ptr(), room) };
    if many > room || out[many..].iter().any(|b| *b != UNTOUCHED as u8) {
        return Err(format!("a script in {room} bytes answers {many} and writes past them"));
    }
    out.truncate(many);
    Ok(out)
}
