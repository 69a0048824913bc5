//! Runs the proved program `steps` as a process.

use std::io::Write;
use std::path::Path;
use std::process::{ChildStdin, Command, Stdio};
use std::thread;

/// A pipe takes this many bytes without anyone reading.
const PIPE_ROOM: usize = 4096;

/// The listing that the program prints for a script.
pub fn listing(program: &Path, script: &[u8]) -> Result<Vec<u8>, String> {
    let mut child = Command::new(program)
        .stdin(Stdio::piped())
        .stdout(Stdio::piped())
        .spawn()
        .map_err(|error| format!("{} does not start: {error}", program.display()))?;
    let input = child.stdin.take().ok_or("a child without standard input")?;
    let output = thread::scope(|scope| {
        if script.len() <= PIPE_ROOM {
            feed(input, script);
        } else {
            scope.spawn(move || feed(input, script));
        }
        child.wait_with_output()
    })
    .map_err(|error| format!("{} does not end: {error}", program.display()))?;
    if !output.status.success() {
        return Err(format!("{}: {}", program.display(), output.status));
    }
    Ok(output.stdout)
}

/// The program may close its input before all is written, since it reads no further than the longest script.
fn feed(mut input: ChildStdin, script: &[u8]) {
    let _ = input.write_all(script);
}
