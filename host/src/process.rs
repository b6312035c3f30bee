//! What the server does as a process: what it leaves to those it starts, how many files it may open, how it asks at a terminal and how it ends.

use crate::log;
use nix::fcntl::{fcntl, FcntlArg, FdFlag};
use nix::sys::resource::{getrlimit, setrlimit, Resource};
use nix::sys::stat::{umask, Mode};
use std::fs;
use std::io;
use std::time::Duration;

/// Files that the server may have open: its connections, and some.
const FILES: u64 = 4_096;

/// What it writes is for its own user only, no file that it was started with goes on to the core, and there is room for connections.
pub fn prepare() -> Result<(), String> {
    umask(Mode::S_IRWXG | Mode::S_IRWXO);
    let open = fs::read_dir("/proc/self/fd").map_err(|error| format!("/proc/self/fd: {error}"))?;
    let numbers = open.filter_map(|entry| entry.ok()?.file_name().to_str()?.parse::<i32>().ok());
    for number in numbers.filter(|number| *number > 2) {
        // The folder's own number is closed by now.
        let _ = fcntl(number, FcntlArg::F_SETFD(FdFlag::FD_CLOEXEC));
    }
    let (soft, hard) = getrlimit(Resource::RLIMIT_NOFILE).map_err(|error| error.to_string())?;
    if soft < FILES {
        setrlimit(Resource::RLIMIT_NOFILE, FILES.min(hard), hard).map_err(|error| error.to_string())?;
    }
    Ok(())
}

/// The end of a server whose turns cannot go on. The answers that were given have a moment to leave.
pub fn stopped(why: String) {
    log::line(format_args!("stopped: {why}"));
    std::thread::sleep(Duration::from_secs(1));
    std::process::exit(1);
}

/// Asks for a password, twice and unseen at a terminal; otherwise it is the first line of the input.
pub fn ask_password(name: &str) -> Result<String, String> {
    if !nix::unistd::isatty(0).unwrap_or(false) {
        let mut line = String::new();
        io::stdin().read_line(&mut line).map_err(|error| error.to_string())?;
        return Ok(line.trim_end_matches(['\n', '\r']).to_owned());
    }
    let ask = |words: String| rpassword::prompt_password(words).map_err(|error| error.to_string());
    let password = ask(format!("Password for {name}: "))?;
    if ask("And again: ".into())? != password {
        return Err("the two are not the same; nothing is stored".into());
    }
    Ok(password)
}
