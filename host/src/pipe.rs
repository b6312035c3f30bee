//! The core at work: the proved program `pipe` as a process of its own, asked frame by frame. It is started with an empty environment and
//! nothing open but its pipe; elsewhere than on x86-64 it runs under the emulator that stands beside it.

use crate::frames::{self, Answer, Changed, Form, Request};
use nix::poll::{poll, PollFd, PollFlags};
use std::io::{self, Read, Write};
use std::os::unix::io::AsRawFd;
use std::path::Path;
use std::process::{Child, ChildStdin, ChildStdout, Command, Stdio};

/// A call takes well under a second, also emulated. A core that is silent for longer has been stopped or is starved, and is ended.
const PATIENCE_MS: i32 = 30_000;
const PROGRAM: &str = "pipe";
const LOADER: &str = "ld-linux-x86-64.so.2";
const EMULATOR: &str = "qemu-x86_64";
/// A processor of the level that the core is built for, x86-64-v2: for a newer one the C library fills memory by an instruction that the emulator
/// takes a byte at a time.
const EMULATED: [&str; 2] = ["-cpu", "Nehalem"];

/// The core has ended, or has said what is no answer: why.
#[derive(Clone, Debug)]
pub struct Ended(pub String);

impl From<io::Error> for Ended {
    fn from(error: io::Error) -> Self {
        Ended(error.to_string())
    }
}

/// A core at work. Once a call has failed every later one fails in the same way, so that no answer is taken for another call's.
pub struct Core {
    child: Child,
    input: ChildStdin,
    output: ChildStdout,
    /// What it has written and nobody has read yet.
    unread: Vec<u8>,
    failed: Option<Ended>,
}

impl Core {
    /// Starts the program that stands in this folder, with the loader and the library that it was built for.
    pub fn start(folder: &Path) -> Result<Core, Ended> {
        let emulator = folder.join(EMULATOR);
        let mut command = if emulator.exists() {
            let mut command = Command::new(emulator);
            command.args(EMULATED).arg(folder.join(LOADER));
            command
        } else {
            Command::new(folder.join(LOADER))
        };
        command.arg("--library-path").arg(folder).arg(folder.join(PROGRAM));
        command.env_clear().stdin(Stdio::piped()).stdout(Stdio::piped()).stderr(Stdio::null());
        let mut child = command.spawn()?;
        match (child.stdin.take(), child.stdout.take()) {
            (Some(input), Some(output)) => Ok(Core { child, input, output, unread: Vec::new(), failed: None }),
            _ => Err(Ended("it has no pipe".into())),
        }
    }

    /// From here on every call fails.
    pub fn fail(&mut self, why: Ended) -> Ended {
        self.failed.get_or_insert(why).clone()
    }

    /// One frame out and its answer's fields back.
    fn call<T>(&mut self, frame: &[u8], read: impl Fn(&[u8]) -> Option<T>) -> Result<T, Ended> {
        self.write(frame)?;
        self.read(read)
    }

    /// Frames out, without a wait for their answers. They are read in the same order; until then no more is written than the pipe has room for.
    pub fn write(&mut self, frames: &[u8]) -> Result<(), Ended> {
        if let Some(ended) = &self.failed {
            return Err(ended.clone());
        }
        self.input.write_all(frames).map_err(|error| self.fail(error.into()))
    }

    /// The fields of the next answer.
    pub fn read<T>(&mut self, read: impl Fn(&[u8]) -> Option<T>) -> Result<T, Ended> {
        if let Some(ended) = &self.failed {
            return Err(ended.clone());
        }
        self.next_answer(read).map_err(|why| self.fail(why))
    }

    fn next_answer<T>(&mut self, read: impl Fn(&[u8]) -> Option<T>) -> Result<T, Ended> {
        self.fill(4)?;
        let length = self.unread.iter().take(4).rev().fold(0, |length, byte| length << 8 | usize::from(*byte));
        if length > frames::LONGEST {
            return Err(Ended("its frame is too long".into()));
        }
        self.fill(4 + length)?;
        let answer = &self.unread[4..4 + length];
        let fields = read(answer).ok_or_else(|| Ended(frames::reason(answer).unwrap_or_else(|| "its frame is not an answer".into())))?;
        self.unread.drain(..4 + length);
        Ok(fields)
    }

    /// Reads until so many bytes are there, and does not wait for ever.
    fn fill(&mut self, count: usize) -> Result<(), Ended> {
        let mut part = [0; 16_384];
        while self.unread.len() < count {
            let mut waiting = [PollFd::new(self.output.as_raw_fd(), PollFlags::POLLIN)];
            match poll(&mut waiting, PATIENCE_MS) {
                Ok(0) => return Err(Ended("it does not answer".into())),
                Ok(_) => {}
                Err(nix::errno::Errno::EINTR) => continue,
                Err(error) => return Err(Ended(error.to_string())),
            }
            match self.output.read(&mut part)? {
                0 => return Err(Ended("it has ended".into())),
                count => self.unread.extend(&part[..count]),
            }
        }
        Ok(())
    }

    /// The refusal of a panel and its register block.
    pub fn panel(&mut self, service: &str, callback: &str) -> Result<(u32, Vec<u8>), Ended> {
        self.call(&frames::panel(service.as_bytes(), callback.as_bytes()), frames::panelled)
    }

    /// The refusal of a register and the first block at fault.
    pub fn register(&mut self, blocks: &[u8]) -> Result<(u32, u32), Ended> {
        self.call(&frames::register(blocks), frames::registered)
    }

    /// Hands over a table; gives its refusal.
    pub fn load(&mut self, table: &[u8]) -> Result<u32, Ended> {
        self.call(&frames::load(table), frames::loaded)
    }

    pub fn format(&mut self, size: usize, time: u64) -> Result<(u32, Vec<Changed>), Ended> {
        self.call(&frames::format(size as u32, time), frames::formatted)
    }

    pub fn housekeep(&mut self, time: u64) -> Result<Answer, Ended> {
        self.call(&frames::housekeep(time), frames::housekept)
    }

    pub fn read_form(&mut self, body: &[u8]) -> Result<Form, Ended> {
        self.call(&frames::read_form(body), frames::form)
    }

    pub fn answer(&mut self, request: &Request, time: u64, verdict: bool) -> Result<Answer, Ended> {
        self.call(&frames::answer(request, time, verdict, &random()?), frames::answered)
    }

    pub fn finish(&mut self, serial: u32, ok: bool, time: u64) -> Result<Answer, Ended> {
        self.call(&frames::finish(serial, ok, time), frames::answered)
    }

    /// The refusal of a visit and what it tells.
    pub fn visit(&mut self, number: u32, time: u64, cookie: &[u8]) -> Result<(u32, Vec<u8>), Ended> {
        self.call(&frames::visit(number, time, cookie, &random()?), frames::visited)
    }
}

impl Drop for Core {
    fn drop(&mut self) {
        // It may have ended by itself already.
        let _ = self.child.kill();
        let _ = self.child.wait();
    }
}

/// The 48 random bytes of a call, fresh each time.
pub fn random() -> Result<[u8; 48], Ended> {
    let mut bytes = [0; 48];
    getrandom::getrandom(&mut bytes).map_err(|error| Ended(format!("the system gives no random bytes: {error}")))?;
    Ok(bytes)
}
