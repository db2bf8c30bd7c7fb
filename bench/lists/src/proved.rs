//! The proved lists: `crates/lists/src/lib.rt`, and with the form test `crates/tested_lists/src/lib.rt`.

use crate::{Answer, TEXT};

/// What a call replies, as numbers.
#[repr(C)]
pub struct Said {
    refusal: u64,
    number: u64,
    size: u64,
}

mod linked {
    use super::Said;

    #[allow(improper_ctypes)]
    extern "C" {
        pub fn mekhturia_lists_start(
            counts: *mut u64,
            words: usize,
            sends: *const u64,
            send_words: usize,
            octets: *const u8,
            octet_count: usize,
            n: u64,
            k: u64,
        ) -> Said;
        pub fn mekhturia_lists_send(
            counts: *mut u64,
            words: usize,
            sends: *mut u64,
            send_words: usize,
            octets: *mut u8,
            octet_count: usize,
            station: u64,
            set: u64,
            text: *const u8,
            size: usize,
        ) -> Said;
        pub fn mekhturia_lists_take(
            counts: *mut u64,
            words: usize,
            sends: *mut u64,
            send_words: usize,
            octets: *const u8,
            octet_count: usize,
            station: u64,
            cart: u64,
            buffer: *mut u8,
        ) -> Said;
        pub fn mekhturia_lists_step_send(
            counts: *mut u64,
            words: usize,
            sends: *mut u64,
            send_words: usize,
            octets: *mut u8,
            octet_count: usize,
            station: u64,
            set: u64,
            text: *const u8,
            size: usize,
        ) -> Said;
        pub fn mekhturia_lists_step_take(
            counts: *mut u64,
            words: usize,
            sends: *mut u64,
            send_words: usize,
            octets: *const u8,
            octet_count: usize,
            station: u64,
            cart: u64,
            buffer: *mut u8,
        ) -> Said;
    }
}

/// The lent parts.
#[derive(Clone, PartialEq)]
pub struct Lists {
    pub counts: Vec<u64>,
    pub sends: Vec<u64>,
    pub octets: Vec<u8>,
}

fn answer(said: Said) -> Answer {
    match said.refusal {
        0 => Answer::Accepted { number: said.number, size: said.size as usize },
        refusal => Answer::Refused(refusal),
    }
}

impl Lists {
    pub fn new() -> Lists {
        Lists { counts: vec![0; 21], sends: vec![0; 2048 * 4], octets: vec![0; 2048 * TEXT] }
    }

    pub fn start(&mut self, n: u64, k: u64) -> Answer {
        answer(unsafe {
            linked::mekhturia_lists_start(
                self.counts.as_mut_ptr(),
                self.counts.len(),
                self.sends.as_ptr(),
                self.sends.len(),
                self.octets.as_ptr(),
                self.octets.len(),
                n,
                k,
            )
        })
    }

    /// With the form test.
    pub fn send(&mut self, station: u64, set: u64, text: &[u8]) -> Answer {
        answer(unsafe {
            linked::mekhturia_lists_send(
                self.counts.as_mut_ptr(),
                self.counts.len(),
                self.sends.as_mut_ptr(),
                self.sends.len(),
                self.octets.as_mut_ptr(),
                self.octets.len(),
                station,
                set,
                text.as_ptr(),
                text.len(),
            )
        })
    }

    pub fn take(&mut self, station: u64, cart: u64, buffer: &mut [u8; TEXT]) -> Answer {
        answer(unsafe {
            linked::mekhturia_lists_take(
                self.counts.as_mut_ptr(),
                self.counts.len(),
                self.sends.as_mut_ptr(),
                self.sends.len(),
                self.octets.as_ptr(),
                self.octets.len(),
                station,
                cart,
                buffer.as_mut_ptr(),
            )
        })
    }

    /// Without it: the lists were started here, and nobody else writes them.
    pub fn step_send(&mut self, station: u64, set: u64, text: &[u8]) -> Answer {
        answer(unsafe {
            linked::mekhturia_lists_step_send(
                self.counts.as_mut_ptr(),
                self.counts.len(),
                self.sends.as_mut_ptr(),
                self.sends.len(),
                self.octets.as_mut_ptr(),
                self.octets.len(),
                station,
                set,
                text.as_ptr(),
                text.len(),
            )
        })
    }

    pub fn step_take(&mut self, station: u64, cart: u64, buffer: &mut [u8; TEXT]) -> Answer {
        answer(unsafe {
            linked::mekhturia_lists_step_take(
                self.counts.as_mut_ptr(),
                self.counts.len(),
                self.sends.as_mut_ptr(),
                self.sends.len(),
                self.octets.as_ptr(),
                self.octets.len(),
                station,
                cart,
                buffer.as_mut_ptr(),
            )
        })
    }
}
