//! What the figures were taken on, and how much memory that took, as Linux tells it.

use std::fs;

/// The processor's model.
pub fn processor() -> String {
    field("/proc/cpuinfo", "model name").unwrap_or_else(|| "unknown".to_string())
}

/// The most memory that this process has had resident.
pub fn memory() -> String {
    field("/proc/self/status", "VmHWM").unwrap_or_else(|| "unknown".to_string())
}

/// The first line `name: value` of a file.
fn field(file: &str, name: &str) -> Option<String> {
    let text = fs::read_to_string(file).ok()?;
    let mut pairs = text.lines().filter_map(|line| line.split_once(':'));
    let (_, value) = pairs.find(|(key, _)| key.trim() == name)?;
    Some(value.trim().to_string())
}
