//! Runs a program and prints, as the last line on standard error, what it took: microseconds of the processor, and its peak memory in KB.
//! A small process of its own starts it, since a child's peak counts what its starter had.

use std::os::unix::process::ExitStatusExt;
use std::process::{Command, ExitStatus};

/// The C library's `struct rusage`: times, the peak, and thirteen counts.
#[repr(C)]
#[derive(Default)]
struct Usage {
    user: [i64; 2],
    system: [i64; 2],
    peak: i64,
    counts: [i64; 13],
}

extern "C" {
    fn wait4(pid: i32, status: *mut i32, options: i32, usage: *mut Usage) -> i32;
}

fn main() {
    let mut words = std::env::args_os().skip(1);
    let Some(program) = words.next() else { std::process::exit(2) };
    let Ok(child) = Command::new(program).args(words).spawn() else { std::process::exit(127) };
    let (mut status, mut usage) = (0, Usage::default());
    // SAFETY: both pointers are to values that live here, of the layout that the C library has on this system.
    unsafe { wait4(child.id() as i32, &mut status, 0, &mut usage) };
    let micros = |time: [i64; 2]| time[0] * 1_000_000 + time[1];
    eprintln!("{} {}", micros(usage.user) + micros(usage.system), usage.peak);
    std::process::exit(ExitStatus::from_raw(status).code().unwrap_or(126));
}
