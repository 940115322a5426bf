//! The published compactor, timed by the harness's own program on a module in a file.

use crate::timing::{Pass, Spread};
use bench::flat::Module;
use std::path::Path;
use std::process::Command;

/// Runs `harness time`; the check has no published counterpart.
pub fn time(
    harness: &Path,
    pass: Pass,
    module: &Module,
    turns: usize,
) -> Result<Option<Spread>, String> {
    let Pass::Compact { keep_unused } = pass else {
        return Ok(None);
    };
    let file = std::env::temp_dir().join(format!("cadnohal-bench-{}.txt", std::process::id()));
    std::fs::write(&file, module.to_text()).map_err(|why| format!("{}: {why}", file.display()))?;
    let flag = if keep_unused { "yes" } else { "no" };
    let mut command = Command::new(harness);
    command.args(["time", "--module"]).arg(&file);
    command.args(["--flag", flag, "--turns", &turns.to_string()]);
    let output = command.output();
    let _ = std::fs::remove_file(&file);
    let output = output.map_err(|why| format!("{}: {why}", harness.display()))?;
    let text = String::from_utf8_lossy(&output.stdout);
    match spread(&text) {
        Some(spread) if output.status.success() => Ok(Some(spread)),
        _ => Err(format!(
            "{} time: {text}{}",
            harness.display(),
            String::from_utf8_lossy(&output.stderr)
        )),
    }
}

/// The line `median_ns q1_ns q3_ns`.
fn spread(text: &str) -> Option<Spread> {
    let numbers: Vec<f64> = text
        .split_whitespace()
        .map_while(|word| word.parse().ok())
        .collect();
    let [median, low, high] = numbers[..] else {
        return None;
    };
    Some(Spread {
        least: f64::NAN,
        low,
        median,
        high,
    })
}
