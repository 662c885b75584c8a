//! The original, driven by calls: eight trackers and eight remappers of 64 segments over one pool.
use crate::line::{Call, Kind};
use original::region::new_pool;
use original::{CapaError, Mapping, MemOps, PermissionChange, Pool, RegionTracker, Remapper};
use std::cell::RefCell;
use std::collections::BTreeSet;
use std::panic::{self, AssertUnwindSafe};

pub struct Tables {
    pool: Box<Pool>,
    trackers: [RegionTracker; 8],
    remappers: Vec<Remapper<64>>,
}

/// What the original does with a call.
#[derive(Clone, Debug, PartialEq, Eq)]
pub enum Said {
    Value(u64),
    Error(&'static str),
    Panic(String),
    /// It has no such compartment, no such rights, no allowances, or no lines.
    NotAsked,
}

impl Said {
    pub fn describe(&self) -> String {
        match self {
            Said::Value(value) => format!("accepts, value {value}"),
            Said::Error(error) => format!("answers Err({error})"),
            Said::Panic(why) => format!("panics: {why}"),
            Said::NotAsked => "has no such call".to_string(),
        }
    }
}

/// Our rights as the original's flags: the first four are the same, our 16 is its 128.
fn flags(rights: u64) -> MemOps {
    let low = MemOps::from_bits_truncate((rights & 15) as u8);
    if rights & 16 != 0 {
        low | MemOps::UNCACHEABLE
    } else {
        low
    }
}

/// Its flags as our rights.
fn rights(flags: MemOps) -> u64 {
    let bits = u64::from(flags.bits());
    (bits & 15) | if bits & 128 != 0 { 16 } else { 0 }
}

fn error_name(error: CapaError) -> &'static str {
    match error {
        CapaError::AlreadyAliased => "AlreadyAliased",
        CapaError::InvalidMemOps => "InvalidMemOps",
        CapaError::InvalidRegion => "InvalidRegion",
        CapaError::OutOfMemory => "OutOfMemory",
    }
}

fn change(result: Result<PermissionChange, CapaError>) -> Result<u64, &'static str> {
    result.map(|change| u64::from(change == PermissionChange::Some)).map_err(error_name)
}

thread_local! {
    static WHY: RefCell<String> = const { RefCell::new(String::new()) };
}

/// Panics are caught and compared: nothing of them is printed.
pub fn hush() {
    panic::set_hook(Box::new(|info| {
        let why = match info.payload().downcast_ref::<&str>() {
            Some(text) => text.to_string(),
            None => info.payload().downcast_ref::<String>().cloned().unwrap_or_default(),
        };
        WHY.with(|last| *last.borrow_mut() = why.lines().next().unwrap_or_default().to_string());
    }));
}

/// Runs what may panic, and gives the panic's first line.
pub fn caught<T>(run: impl FnOnce() -> T) -> Result<T, String> {
    panic::catch_unwind(AssertUnwindSafe(run)).map_err(|_| WHY.with(|last| last.borrow().clone()))
}

impl Default for Tables {
    fn default() -> Self {
        Tables {
            pool: Box::new(new_pool()),
            trackers: [const { RegionTracker::new() }; 8],
            remappers: (0..8).map(|_| Remapper::new()).collect(),
        }
    }
}

impl Tables {
    /// The tables after calls that are all accepted.
    pub fn after(calls: &[Call]) -> Tables {
        let mut tables = Tables::default();
        for call in calls {
            let _ = tables.change(call);
        }
        tables
    }

    /// A call on a compartment below 8, with rights below 32. Where it fails, it may have done half its work.
    pub fn change(&mut self, call: &Call) -> Result<u64, &'static str> {
        let k = call.compartment as usize;
        let [a, b, c, d] = call.numbers.map(|n| n as usize);
        match call.kind {
            Kind::Add => change(self.trackers[k].add_region(a, b, flags(c as u64), &mut self.pool)),
            Kind::Remove => change(self.trackers[k].remove_region(a, b, flags(c as u64), &mut self.pool)),
            Kind::Count => Ok(self.trackers[k].get_refcount(a, b, &self.pool) as u64),
            Kind::Map => self.remappers[k].map_range(a, b, c, d).map(|()| 0).map_err(error_name),
            Kind::Unmap => self.remappers[k].unmap_range(a, b).map(|()| 0).map_err(|()| "()"),
            Kind::UnmapGpa => self.remappers[k].unmap_gpa_range(a, b).map(|()| 0).map_err(|()| "()"),
            Kind::Print => Ok(self.mappings(k).count() as u64),
            // it has one count for all compartments, and nothing to set
            Kind::Allow => Ok(0),
        }
    }

    /// A call, with whatever comes of it.
    pub fn say(&mut self, call: &Call) -> Said {
        let rights = matches!(call.kind, Kind::Add | Kind::Remove);
        if call.compartment >= 8 || (rights && call.numbers[2] >= 32) || call.kind == Kind::Allow {
            return Said::NotAsked;
        }
        match caught(|| self.change(call)) {
            Ok(Ok(value)) => Said::Value(value),
            Ok(Err(error)) => Said::Error(error),
            Err(why) => Said::Panic(why),
        }
    }

    fn mappings(&self, k: usize) -> impl Iterator<Item = Mapping> + '_ {
        self.remappers[k].remap(self.trackers[k].permissions(&self.pool))
    }

    /// These tables but for the segments of one compartment, which are mapped anew in list order. None where the original does
    /// not map them so: it sees an overlap of two parts of one repeated segment.
    pub fn with_segments(mut self, k: usize, segments: &[u64]) -> Option<Tables> {
        self.remappers[k] = Remapper::new();
        for s in segments.chunks_exact(4) {
            let [hpa, gpa, size, repeat] = [s[0], s[1], s[2], s[3]].map(|n| n as usize);
            self.remappers[k].map_range(hpa, gpa, size, repeat).ok()?;
        }
        (self.segments(k) == segments).then_some(self)
    }

    /// Tables with the segments of these, and with these permissions of one compartment: each is added once, but twice where it touches
    /// the one before with equal rights and that was added once, so that the original does not join the two.
    fn with_permissions(self, k: usize, permissions: &[u64]) -> Option<Tables> {
        let mut tables = Tables { remappers: self.remappers, ..Tables::default() };
        let (mut last, mut once) = ([0; 2], false);
        for p in permissions.chunks_exact(3) {
            let again = once && last == [p[0], p[2]];
            for _ in 0..=u64::from(again) {
                tables.change(&Call::new(Kind::Add, k as u64, p)).ok()?;
            }
            (last, once) = ([p[1], p[2]], !again);
        }
        (tables.permissions(k) == permissions).then_some(tables)
    }

    /// The stream of one compartment with the segments of these tables and with these permissions. Each kind of rights has one of the 32
    /// that the original knows in its place, since the stream only hands them on.
    pub fn stream_of(self, k: usize, permissions: &[u64]) -> Option<Vec<u64>> {
        let kinds: BTreeSet<u64> = permissions.chunks_exact(3).map(|p| p[2]).collect();
        let kinds: Vec<u64> = kinds.into_iter().collect();
        let place = |rights: u64| kinds.binary_search(&rights).expect("each is among them") as u64;
        let known: Vec<u64> = permissions.chunks_exact(3).flat_map(|p| [p[0], p[1], place(p[2])]).collect();
        let mut stream = self.with_permissions(k, &known)?.stream(k);
        stream.chunks_exact_mut(5).for_each(|m| m[4] = kinds[m[4] as usize]);
        Some(stream)
    }

    pub fn overlaps(&self, k: usize, start: u64, size: u64) -> bool {
        self.remappers[k].overlaps(start as usize, size as usize)
    }

    /// Each mapping of the stream, as five numbers.
    pub fn each_mapping(&self, k: usize, mut take: impl FnMut([u64; 5])) {
        for m in self.mappings(k) {
            take([m.hpa as u64, m.gpa as u64, m.size as u64, m.repeat as u64, rights(m.ops)]);
        }
    }

    pub fn stream(&self, k: usize) -> Vec<u64> {
        let mut stream = Vec::new();
        self.each_mapping(k, |mapping| stream.extend(mapping));
        stream
    }

    pub fn permissions(&self, k: usize) -> Vec<u64> {
        let all = self.trackers[k].permissions(&self.pool);
        all.flat_map(|p| [p.start as u64, p.end as u64, rights(p.ops)]).collect()
    }

    /// Each record, with a device count that is always 0.
    pub fn regions(&self, k: usize) -> Vec<u64> {
        self.trackers[k].iter(&self.pool).flat_map(|(_, region)| region.values().into_iter().chain([0])).collect()
    }

    pub fn segments(&self, k: usize) -> Vec<u64> {
        let all = self.remappers[k].iter_segments();
        all.flat_map(|s| [s.hpa as u64, s.gpa as u64, s.size as u64, s.repeat as u64]).collect()
    }
}
