//! Signals to a running command.

use std::fs;
use std::process::{Child, Command};

/// The signals that people and machines end a command with.
pub const INTERRUPTS: [(&str, u32); 4] = [("INT", 2), ("TERM", 15), ("HUP", 1), ("QUIT", 3)];

/// Those of them that this process does not ignore; what it starts would ignore them too.
pub fn interrupts() -> Vec<(&'static str, u32)> {
    let status = fs::read_to_string("/proc/self/status").unwrap();
    let line = status.lines().find_map(|line| line.strip_prefix("SigIgn:"));
    let ignored = u64::from_str_radix(line.unwrap().trim(), 16).unwrap();
    let mut heard = INTERRUPTS.to_vec();
    heard.retain(|(name, number)| {
        let is_heard = ignored >> (number - 1) & 1 == 0;
        if !is_heard {
            eprintln!("skipped: SIG{name} is ignored by whoever runs the tests");
        }
        is_heard
    });
    heard
}

pub fn send(child: &Child, name: &str) {
    let line = format!("kill -s {name} {}", child.id());
    let sent = Command::new("sh").args(["-c", &line]).status();
    assert!(sent.unwrap().success());
}
