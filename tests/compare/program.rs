//! Runs our program on a stream.

use std::ffi::{c_int, c_ulong};
use std::fs::{self, File};
use std::io::{self, Write};
use std::os::fd::AsRawFd;
use std::path::{Path, PathBuf};
use std::process::{Child, ChildStdin, Command, ExitStatus, Stdio};
use std::thread::{sleep, yield_now};
use std::time::{Duration, Instant};

use crate::landed::PROGRAM;

const STREAM: &str = "target/oracle/stream.bin";
const LINES: &str = "target/oracle/lines.txt";

/// Longer than any stream sent takes; a program that runs without end is stopped here.
const DEADLINE: Duration = Duration::from_secs(900);

pub struct Program {
    path: PathBuf,
}

impl Program {
    /// The error says which file is missing.
    pub fn find() -> Result<Program, String> {
        let path = std::env::var_os("SPHEROIDAL").unwrap_or_else(|| PROGRAM.into());
        if Path::new(&path).is_file() {
            Ok(Program { path: path.into() })
        } else {
            Err(format!(
                "our program is missing: no file {}",
                path.display()
            ))
        }
    }

    /// What the program prints for a stream, or why it gave no whole answer. Files stand in for pipes,
    /// so that neither side waits for the other.
    pub fn lines(&self, stream: &[u8]) -> Result<String, String> {
        let from_file = || {
            fs::write(STREAM, stream)?;
            let mut child = self.start(File::open(STREAM)?.into())?;
            wait(&mut child, Instant::now() + DEADLINE)
        };
        printed(from_file())
    }

    /// The same for a stream that comes through a pipe, piece by piece.
    pub fn lines_of_pieces(&self, pieces: &[Vec<u8>]) -> Result<String, String> {
        let from_pipe = || {
            let deadline = Instant::now() + DEADLINE;
            let mut child = self.start(Stdio::piped())?;
            let mut input = child.stdin.take().expect("it was asked for");
            for piece in pieces {
                // A program that has stopped reads no more.
                if input.write_all(piece).is_err() || !is_read(&input, &mut child, deadline)? {
                    break;
                }
            }
            drop(input);
            wait(&mut child, deadline)
        };
        printed(from_pipe())
    }

    fn start(&self, input: Stdio) -> io::Result<Child> {
        let lines = File::create(LINES)?;
        Command::new(&self.path).stdin(input).stdout(lines).spawn()
    }
}

/// None where the program does not end in time.
fn wait(child: &mut Child, deadline: Instant) -> io::Result<Option<ExitStatus>> {
    while Instant::now() < deadline {
        if let Some(status) = child.try_wait()? {
            return Ok(Some(status));
        }
        sleep(Duration::from_millis(1));
    }
    child.kill()?;
    child.wait()?;
    Ok(None)
}

/// The lines of a program that ended so.
fn printed(ended: io::Result<Option<ExitStatus>>) -> Result<String, String> {
    let status = ended.map_err(|error| format!("our program cannot run: {error}"))?;
    let status = status.ok_or("our program did not end")?;
    if status.code().is_none() {
        return Err(format!("our program broke off: {status}"));
    }
    let printed = fs::read(LINES).map_err(|error| error.to_string())?;
    Ok(String::from_utf8_lossy(&printed).into_owned())
}

/// Waits until the program has read all that is in the pipe, so that the next piece comes in another
/// reading. False where it ends before, or does not read in time.
fn is_read(pipe: &ChildStdin, child: &mut Child, deadline: Instant) -> io::Result<bool> {
    while unread(pipe)? > 0 {
        if child.try_wait()?.is_some() || Instant::now() > deadline {
            return Ok(false);
        }
        yield_now();
    }
    Ok(true)
}

/// Linux's number of the request for how many bytes wait to be read.
const FIONREAD: c_ulong = 0x541b;

unsafe extern "C" {
    fn ioctl(descriptor: c_int, request: c_ulong, ...) -> c_int;
}

fn unread(pipe: &ChildStdin) -> io::Result<c_int> {
    let mut count: c_int = 0;
    // SAFETY: the descriptor is open, and this request writes one number.
    let status = unsafe { ioctl(pipe.as_raw_fd(), FIONREAD, &mut count) };
    match status {
        0 => Ok(count),
        _ => Err(io::Error::last_os_error()),
    }
}
