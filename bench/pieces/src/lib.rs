//! Stands in for the C library's `read` in a program that is timed: it notes how long the program took from
//! one reading of standard input to the next, and at the end of the input writes these times, eight octets
//! each in nanoseconds, to standard error.

use std::io::Write;
use std::sync::Mutex;
use std::time::Instant;

/// The number of the system call (Linux on x86-64).
const READ: i64 = 0;

extern "C" {
    fn syscall(number: i64, ...) -> i64;
}

struct Noted {
    last: Option<Instant>,
    times: Vec<u64>,
}

static NOTED: Mutex<Noted> = Mutex::new(Noted { last: None, times: Vec::new() });

/// # Safety
/// As for the C library's: `count` octets may be written at `into`.
#[no_mangle]
pub unsafe extern "C" fn read(file: i32, into: *mut u8, count: usize) -> isize {
    let came = Instant::now();
    let got = unsafe { syscall(READ, file as i64, into, count) } as isize;
    if file == 0 {
        let Ok(mut noted) = NOTED.lock() else { return got };
        if let Some(last) = noted.last {
            noted.times.push((came - last).as_nanos() as u64);
        }
        if got == 0 {
            let octets: Vec<u8> = noted.times.iter().flat_map(|time| time.to_le_bytes()).collect();
            let _ = std::io::stderr().write_all(&octets);
        }
        noted.last = Some(Instant::now());
    }
    got
}
