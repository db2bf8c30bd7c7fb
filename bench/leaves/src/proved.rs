//! The proved functions. What each asks of its slices is in `crates/exported_leaves/src/lib.rt`; `Lines` and `Tables` keep it.

use shared::places::LENGTHS;

mod linked {
    extern "C" {
        pub fn mekhturia_clear(pool: *mut u64, words: usize);
        pub fn mekhturia_push(
            pool: *mut u64,
            words: usize,
            i: usize,
            j: usize,
            word: u64,
            carts: u64,
        );
        pub fn mekhturia_pop(pool: *mut u64, words: usize, i: usize, j: usize);
        pub fn mekhturia_head(
            stations: *const u64,
            station_words: usize,
            messages: *const u64,
            message_words: usize,
            t: u64,
        ) -> usize;
        pub fn mekhturia_all_acked(stations: *const u64, words: usize, m: usize, t: u64) -> bool;
        pub fn mekhturia_catch_up(
            stations: *const u64,
            station_words: usize,
            carts: *const u64,
            cart_words: usize,
            messages: *const u64,
            message_words: usize,
            t: u64,
            c: u64,
        ) -> u64;
    }
}

/// The lines: a pool of 3,136 rows.
pub struct Lines {
    pool: Vec<u64>,
}

impl Lines {
    pub fn new() -> Self {
        let mut pool = vec![0; LENGTHS[3]];
        unsafe { linked::mekhturia_clear(pool.as_mut_ptr(), pool.len()) };
        Lines { pool }
    }

    /// # Safety
    /// i and j are below 16, and fewer than 3,136 records are on the lines.
    #[inline(always)]
    pub unsafe fn push(&mut self, i: usize, j: usize, word: u64, carts: u64) {
        linked::mekhturia_push(self.pool.as_mut_ptr(), self.pool.len(), i, j, word, carts)
    }

    /// # Safety
    /// i and j are below 16, and the line from i to j has a record.
    #[inline(always)]
    pub unsafe fn pop(&mut self, i: usize, j: usize) {
        linked::mekhturia_pop(self.pool.as_mut_ptr(), self.pool.len(), i, j)
    }

    /// The word and the carts at the head of a line.
    pub fn head(&self, i: usize, j: usize) -> Option<(u64, u64)> {
        let line = 50 + 3 * (i * 16 + j);
        let row = 1_842 + 3 * self.pool[line] as usize;
        (self.pool[line + 2] > 0).then(|| (self.pool[row + 1], self.pool[row + 2]))
    }
}

/// The three tables, of their right lengths, with numbers of at most 4,294,967,295.
pub struct Tables {
    pub stations: Vec<u64>,
    pub carts: Vec<u64>,
    pub messages: Vec<u64>,
}

impl Tables {
    pub fn new() -> Self {
        let [stations, carts, messages, ..] = LENGTHS.map(|words| vec![0; words]);
        Tables { stations, carts, messages }
    }

    #[inline(always)]
    pub fn head(&self, t: usize) -> usize {
        assert!(t < 16);
        let (s, m) = (&self.stations, &self.messages);
        unsafe { linked::mekhturia_head(s.as_ptr(), s.len(), m.as_ptr(), m.len(), t as u64) }
    }

    #[inline(always)]
    pub fn all_acked(&self, m: usize, t: usize) -> bool {
        assert!(m < 32 && t < 16);
        unsafe {
            linked::mekhturia_all_acked(self.stations.as_ptr(), self.stations.len(), m, t as u64)
        }
    }

    #[inline(always)]
    pub fn catch_up(&self, t: usize, c: usize) -> u64 {
        assert!(t < 16 && c < 64);
        let (s, k, m) = (&self.stations, &self.carts, &self.messages);
        unsafe {
            linked::mekhturia_catch_up(
                s.as_ptr(),
                s.len(),
                k.as_ptr(),
                k.len(),
                m.as_ptr(),
                m.len(),
                t as u64,
                c as u64,
            )
        }
    }
}
