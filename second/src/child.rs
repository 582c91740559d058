//! Runs the compared program on one input, within bounds of time and output.

use std::io::{Read, Write};
use std::path::Path;
use std::process::{Child, Command, ExitStatus, Stdio};
use std::sync::mpsc::{channel, Receiver};
use std::sync::Arc;
use std::thread;
use std::time::{Duration, Instant};

/// How long the program may take for one input.
const LONGEST_RUN: Duration = Duration::from_secs(20);

/// What the program printed, at most `most` bytes of it, or in what way it failed.
pub fn run(program: &Path, input: &Arc<Vec<u8>>, most: usize) -> Result<Vec<u8>, String> {
    let mut child = Command::new(program)
        .stdin(Stdio::piped())
        .stdout(Stdio::piped())
        .stderr(Stdio::null())
        .spawn()
        .map_err(|error| format!("cannot be started: {error}"))?;
    let deadline = Instant::now() + LONGEST_RUN;
    feed(&mut child, Arc::clone(input));
    let printed = collect(&mut child, most).recv_timeout(LONGEST_RUN);
    let status = wait(&mut child, deadline)?;
    let Ok(printed) = printed else { return Err(too_long()) };
    let printed = printed.map_err(|error| format!("prints what cannot be read: {error}"))?;
    if !status.success() {
        return Err(format!("ended with {status}, having printed {} bytes", printed.len()));
    }
    Ok(printed)
}

fn too_long() -> String {
    format!("ran longer than {} seconds", LONGEST_RUN.as_secs())
}

/// Writes the input from a thread of its own, since the program may print before it has read
/// all. It may also stop reading early: what it prints shows whether that was right.
fn feed(child: &mut Child, input: Arc<Vec<u8>>) {
    let mut stdin = child.stdin.take().expect("stdin is piped");
    thread::spawn(move || stdin.write_all(&input));
}

/// Reads the output from a thread of its own, so that waiting for it can end.
fn collect(child: &mut Child, most: usize) -> Receiver<std::io::Result<Vec<u8>>> {
    let stdout = child.stdout.take().expect("stdout is piped");
    let (sender, receiver) = channel();
    thread::spawn(move || {
        let mut printed = Vec::new();
        let read = stdout.take(most as u64).read_to_end(&mut printed);
        // Nobody listens any more once the program has run too long.
        let _ = sender.send(read.map(|_| printed));
    });
    receiver
}

/// Waits for the end of the program, which usually comes with the end of its output.
fn wait(child: &mut Child, deadline: Instant) -> Result<ExitStatus, String> {
    loop {
        match child.try_wait() {
            Ok(Some(status)) => return Ok(status),
            Ok(None) if Instant::now() < deadline => thread::sleep(Duration::from_micros(100)),
            Ok(None) => {
                // Neither can fail in a way that matters: the run has failed already.
                let _ = child.kill();
                let _ = child.wait();
                return Err(too_long());
            }
            Err(error) => return Err(format!("cannot be waited for: {error}")),
        }
    }
}
