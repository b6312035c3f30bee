//! The log: lines on standard error, each with the time. A line has what it is about and never a ticket's secret, a cookie or a password:
//! of a request only a known path is written, of a callback only its host.

use std::fmt::Display;
use std::io::Write;
use std::time::SystemTime;

pub fn line(what: impl Display) {
    let time = humantime::format_rfc3339_seconds(SystemTime::now());
    // In one write, so that lines of two threads do not mix. Nobody is left to tell where the log itself cannot be written.
    let _ = std::io::stderr().write_all(format!("{time} {what}\n").as_bytes());
}
