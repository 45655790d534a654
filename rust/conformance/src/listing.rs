//! The listing program, run as a planner runs it.

use std::io::Write;
use std::path::{Path, PathBuf};
use std::process::{Command, Stdio};

/// The program.
pub fn program() -> PathBuf {
    Path::new(env!("CARGO_MANIFEST_DIR")).join("../../crates/listing/out/listing")
}

/// What the program writes for an input, with a stack of one megabyte.
pub fn listing(input: &[u8]) -> std::io::Result<String> {
    let mut child = Command::new("sh")
        .args(["-c", "ulimit -s 1024 && exec \"$0\""])
        .arg(program())
        .stdin(Stdio::piped())
        .stdout(Stdio::piped())
        .spawn()?;
    let mut stdin = child.stdin.take().expect("a pipe was asked for");
    // The program may stop reading a long input early; that breaks the pipe and is no failure.
    let _ = stdin.write_all(input);
    drop(stdin);
    let output = child.wait_with_output()?;
    assert!(
        output.status.success(),
        "listing ended with {}",
        output.status
    );
    Ok(String::from_utf8_lossy(&output.stdout).into_owned())
}
