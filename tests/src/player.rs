//! The product's player, run as a program: between two files in memory, from a pipe, and
//! where its input or output can't be had.

use std::fs::File;
use std::io::{self, Read, Seek, SeekFrom, Write};
use std::os::raw::{c_char, c_int, c_uint, c_ulong};
use std::os::unix::io::{AsRawFd, FromRawFd};
use std::os::unix::process::ExitStatusExt;
use std::path::PathBuf;
use std::process::{Command, ExitStatus, Stdio};
use std::sync::atomic::{AtomicBool, Ordering};
use std::thread;

use reference::nights::Printed;

extern "C" {
    fn memfd_create(name: *const c_char, flags: c_uint) -> c_int;
    fn pipe2(ends: *mut c_int, flags: c_int) -> c_int;
    fn ioctl(descriptor: c_int, request: c_ulong, ...) -> c_int;
}

// As Linux has them. No descriptor may pass to a program that is run meanwhile.
const MFD_CLOEXEC: c_uint = 1;
const O_CLOEXEC: c_int = 0o2_000_000;
const FIONREAD: c_ulong = 0x541b;
const SIGPIPE: i32 = 13;

/// What stands in input and output before: the player reads and writes behind it.
const BEFORE: &[u8] = b"before\n";

fn owned(descriptor: c_int) -> File {
    assert!(descriptor >= 0, "{}", io::Error::last_os_error());
    // SAFETY: just opened, and nothing else has it.
    unsafe { File::from_raw_fd(descriptor) }
}

pub fn memory() -> File {
    // SAFETY: the name ends with NUL.
    owned(unsafe { memfd_create(b"night\0".as_ptr().cast(), MFD_CLOEXEC) })
}

/// A file in memory that stands behind what was there before.
fn standing() -> File {
    let mut file = memory();
    file.write_all(BEFORE).expect("room in memory");
    file
}

/// The same, where these bytes begin.
pub fn holding(bytes: &[u8]) -> File {
    let mut file = standing();
    file.write_all(bytes).expect("room in memory");
    let begin = SeekFrom::Start(BEFORE.len() as u64);
    file.seek(begin).expect("a file can be sought");
    file
}

/// The reading end and the writing end.
pub fn pipe() -> (File, File) {
    let mut ends = [-1; 2];
    // SAFETY: room for two descriptors.
    let done = unsafe { pipe2(ends.as_mut_ptr(), O_CLOEXEC) };
    assert_eq!(done, 0, "{}", io::Error::last_os_error());
    (owned(ends[0]), owned(ends[1]))
}

/// Bytes wait in the pipe to be read.
fn waiting(pipe: &File) -> bool {
    let mut bytes: c_int = 0;
    // SAFETY: this request writes one int.
    let asked = unsafe { ioctl(pipe.as_raw_fd(), FIONREAD, &mut bytes as *mut c_int) };
    asked == 0 && bytes > 0
}

/// How a run ended.
#[derive(Clone, Copy, Debug, Eq, PartialEq)]
pub enum Ended {
    With(i32),
    /// Nobody reads what it writes, as a filter is told.
    ByPipe,
}

impl std::fmt::Display for Ended {
    fn fmt(&self, f: &mut std::fmt::Formatter<'_>) -> std::fmt::Result {
        match self {
            Ended::With(status) => write!(f, "status {status}"),
            Ended::ByPipe => write!(f, "the signal of a pipe that nobody reads"),
        }
    }
}

fn ended(status: ExitStatus) -> Result<Ended, String> {
    match (status.code(), status.signal()) {
        (Some(status), _) => Ok(Ended::With(status)),
        (None, Some(SIGPIPE)) => Ok(Ended::ByPipe),
        _ => Err(format!("the program ends with {status}")),
    }
}

pub struct Player {
    program: PathBuf,
}

impl Player {
    pub fn new(program: PathBuf) -> Player {
        Player { program }
    }

    fn why(&self, why: io::Error) -> String {
        format!("{}: {why}", self.program.display())
    }

    /// Played between these two. What it says stands among its answers.
    fn whole(&self, input: File, mut output: File) -> Printed {
        let run = || -> io::Result<ExitStatus> {
            Command::new(&self.program)
                .stdin(input)
                .stdout(output.try_clone()?)
                .stderr(output.try_clone()?)
                .status()
        };
        let status = run().map_err(|why| self.why(why))?;
        let mut printed = Vec::new();
        let read = output.seek(SeekFrom::Start(0));
        let read = read.and_then(|_| output.read_to_end(&mut printed));
        if let Err(why) = read {
            return Err(format!("the output is lost: {why}"));
        }
        let ended = ended(status)?;
        if ended != Ended::With(0) {
            let said = printed.escape_ascii();
            return Err(format!("it ends with {ended}, and printed \"{said}\""));
        }
        match printed.strip_prefix(BEFORE) {
            Some(printed) => Ok(printed.to_vec()),
            None => Err("what the output held before is written over".into()),
        }
    }

    /// Played from one file in memory to another.
    pub fn in_memory(&self, night: &[u8]) -> Printed {
        self.whole(holding(night), standing())
    }

    /// Played from a pipe that is fed piece by piece, each when the one before was read: so
    /// no read goes past the end of a piece.
    pub fn in_pieces(&self, night: &[u8], pieces: &[usize]) -> Printed {
        let (input, mut feed) = pipe();
        let over = &AtomicBool::new(false);
        thread::scope(|scope| {
            scope.spawn(move || {
                let mut at = 0;
                for end in pieces.iter().copied().chain([night.len()]) {
                    // After a bad first line nobody reads on.
                    if feed.write_all(&night[at..end]).is_err() {
                        return;
                    }
                    at = end;
                    while waiting(&feed) && !over.load(Ordering::Relaxed) {
                        thread::yield_now();
                    }
                }
            });
            // The program alone has the reading end once it runs.
            let printed = self.whole(input, standing());
            over.store(true, Ordering::Relaxed);
            printed
        })
    }

    /// The night as standard input, from a file or through a pipe, and what is said apart.
    pub fn by_pipes(&self, night: &[u8], piped: bool) -> Printed {
        let run = || -> io::Result<Printed> {
            let input = if piped {
                Stdio::piped()
            } else {
                Stdio::from(holding(night))
            };
            let mut child = Command::new(&self.program)
                .stdin(input)
                .stdout(Stdio::piped())
                .stderr(Stdio::piped())
                .spawn()?;
            let feed = child.stdin.take();
            let output = thread::scope(|scope| {
                // After a bad first line nobody may read on: that is no failure.
                scope.spawn(move || feed.map(|mut feed| feed.write_all(night)));
                child.wait_with_output()
            })?;
            let said = output.stderr;
            if output.status.code() != Some(0) {
                return Ok(Err(format!("the program ends with {}", output.status)));
            }
            if !said.is_empty() {
                return Ok(Err(format!("the program says \"{}\"", said.escape_ascii())));
            }
            Ok(Ok(output.stdout))
        };
        run().unwrap_or_else(|why| Err(self.why(why)))
    }

    /// How it ends between these two.
    pub fn ends(&self, input: File, output: File) -> Result<Ended, String> {
        self.ends_as(Command::new(&self.program), input, output)
    }

    /// The same, where a write that nobody reads fails and ends nothing.
    pub fn ends_unsignalled(&self, input: File, output: File) -> Result<Ended, String> {
        self.ends_as(self.by_shell("trap '' PIPE; exec \"$0\""), input, output)
    }

    /// The same, without standard output.
    pub fn ends_without_output(&self, input: File) -> Result<Ended, String> {
        self.ends_as(self.by_shell("exec \"$0\" >&-"), input, memory())
    }

    /// The same, without standard input.
    pub fn ends_without_input(&self, output: File) -> Result<Ended, String> {
        self.ends_as(self.by_shell("exec \"$0\" <&-"), memory(), output)
    }

    fn by_shell(&self, words: &str) -> Command {
        let mut command = Command::new("sh");
        command.arg("-c").arg(words).arg(&self.program);
        command
    }

    fn ends_as(&self, mut command: Command, input: File, output: File) -> Result<Ended, String> {
        let status = command
            .stdin(input)
            .stdout(output)
            .stderr(Stdio::null())
            .status()
            .map_err(|why| self.why(why))?;
        ended(status)
    }
}
