
// ---- appended by tests/against-rust/run to its copy of prefetch.rs; everything above is unchanged ----

/// The fields of a [`PrefetchBuffer`], for boards that no list of steps leads to.
pub struct PrefetchParts {
    pub enabled: bool,
    pub buf: [u16; PREFETCH_CAPACITY],
    pub head: usize,
    pub count: usize,
    pub next_addr: u32,
    pub wait_left: u32,
    pub filling: bool,
    pub head_addr: u32,
    pub first_beat: bool,
}

impl PrefetchBuffer {
    pub fn from_parts(p: PrefetchParts) -> Self {
        Self {
            enabled: p.enabled,
            buf: p.buf,
            head: p.head,
            count: p.count,
            next_addr: p.next_addr,
            wait_left: p.wait_left,
            filling: p.filling,
            head_addr: p.head_addr,
            first_beat: p.first_beat,
        }
    }

    pub fn parts(&self) -> PrefetchParts {
        PrefetchParts {
            enabled: self.enabled,
            buf: self.buf,
            head: self.head,
            count: self.count,
            next_addr: self.next_addr,
            wait_left: self.wait_left,
            filling: self.filling,
            head_addr: self.head_addr,
            first_beat: self.first_beat,
        }
    }
}
