impl Region {
    /// Start, end, holders, and the counts of read, write, exec, super and uncacheable.
    pub fn values(&self) -> [u64; 8] {
        [
            self.start,
            self.end,
            self.ref_count,
            self.read_count,
            self.write_count,
            self.exec_count,
            self.super_count,
            self.uncache_count,
        ]
        .map(|n| n as u64)
    }
}

/// A pool of records that are all free.
pub fn new_pool() -> TrackerPool {
    GenArena::new([EMPTY_REGION; NB_TRACKER])
}
