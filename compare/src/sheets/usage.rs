//! What the system says of a child: the processor's time that it took, and the most memory that it held.
use std::process::Child;

#[repr(C)]
#[derive(Default)]
struct Time {
    seconds: i64,
    microseconds: i64,
}

impl Time {
    fn milliseconds(&self) -> f64 {
        self.seconds as f64 * 1e3 + self.microseconds as f64 / 1e3
    }
}

/// As Linux has it on 64 bits; only the times are used. Its largest memory counts the parent's before the child
/// was started, and says nothing of the child.
#[repr(C)]
#[derive(Default)]
struct Usage {
    user: Time,
    system: Time,
    others: [i64; 14],
}

extern "C" {
    fn wait4(pid: i32, status: *mut i32, options: i32, usage: *mut Usage) -> i32;
}

/// Waits for the child: its status as the system gives it, and milliseconds of user and system time.
pub fn waited(child: Child) -> Result<f64, String> {
    let (mut status, mut usage) = (0, Usage::default());
    // SAFETY: both pointers are to values of the size that the system writes.
    let pid = unsafe { wait4(child.id() as i32, &mut status, 0, &mut usage) };
    if pid != child.id() as i32 || status != 0 {
        return Err(format!("it ended with status {status}"));
    }
    Ok(usage.user.milliseconds() + usage.system.milliseconds())
}

/// The most memory that a running child has held so far, in KiB.
pub fn most_memory(child: &Child) -> Option<u64> {
    let status = std::fs::read_to_string(format!("/proc/{}/status", child.id())).ok()?;
    let line = status.lines().find_map(|line| line.strip_prefix("VmHWM:"))?;
    line.trim().trim_end_matches(" kB").parse().ok()
}
