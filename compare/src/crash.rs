//! Tells which case was running when the side under test brought the process down.

use std::ffi::c_int;
use std::sync::atomic::{AtomicBool, AtomicU64, Ordering};

static FIXED: AtomicBool = AtomicBool::new(true);
static SEED: AtomicU64 = AtomicU64::new(0);
static NUMBER: AtomicU64 = AtomicU64::new(0);

const SIGILL: c_int = 4;
const SIGABRT: c_int = 6;
const SIGBUS: c_int = 7;
const SIGFPE: c_int = 8;
const SIGSEGV: c_int = 11;

extern "C" {
    fn signal(number: c_int, handler: extern "C" fn(c_int)) -> usize;
    fn write(file: c_int, bytes: *const u8, length: usize) -> isize;
    fn _exit(code: c_int) -> !;
}

/// Notes the random case that runs from now on.
pub fn running(seed: u64, number: u64) {
    FIXED.store(false, Ordering::Relaxed);
    SEED.store(seed, Ordering::Relaxed);
    NUMBER.store(number, Ordering::Relaxed);
}

/// Notes the fixed reading that runs from now on, by its place in the list of all.
pub fn running_fixed(number: usize) {
    NUMBER.store(number as u64, Ordering::Relaxed);
}

/// From now on a crash tells its case and ends as a difference does.
pub fn install() {
    for number in [SIGILL, SIGABRT, SIGBUS, SIGFPE, SIGSEGV] {
        // SAFETY: the handler only reads atomics, writes and exits.
        unsafe { signal(number, on_crash) };
    }
}

extern "C" fn on_crash(_number: c_int) {
    if FIXED.load(Ordering::Relaxed) {
        put(b"difference: the process was brought down by fixed reading ");
        put_number(NUMBER.load(Ordering::Relaxed));
    } else {
        put(b"difference: the process was brought down by the case of --seed ");
        put_number(SEED.load(Ordering::Relaxed));
        put(b" --only ");
        put_number(NUMBER.load(Ordering::Relaxed));
    }
    put(b"\n");
    // SAFETY: ends the process without running anything else.
    unsafe { _exit(c_int::from(crate::DIFFERENT)) }
}

fn put(text: &[u8]) {
    // SAFETY: the pointer comes with the length of the slice that it was taken from.
    unsafe { write(2, text.as_ptr(), text.len()) };
}

/// Writes a decimal number without reserving memory.
fn put_number(mut number: u64) {
    let mut digits = [b'0'; 20];
    let mut from = digits.len();
    loop {
        from -= 1;
        digits[from] = b'0' + (number % 10) as u8;
        number /= 10;
        if number == 0 {
            return put(&digits[from..]);
        }
    }
}
