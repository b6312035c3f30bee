//! The users file: a line `name:hash` for each user, with hashes as crypt(3) writes them. It is read anew for each sign-in, so that a change
//! counts at once. Here are read, judged and written its lines, and the verdict on a name and a password.

use crate::crypt;
use std::collections::hash_map::RandomState;
use std::ffi::CString;
use std::fs::{self, OpenOptions};
use std::hash::{BuildHasher, Hasher};
use std::io::Write;
use std::os::unix::fs::{MetadataExt, OpenOptionsExt, PermissionsExt};
use std::os::unix::io::AsRawFd;
use std::path::Path;

/// The hashes that are taken: yescrypt, bcrypt, sha512. The older ones of crypt(3) are too cheap to guess.
const METHODS: [&str; 5] = ["$y$", "$2a$", "$2b$", "$2y$", "$6$"];

/// The users of a file, in its order.
#[derive(Debug, Default)]
pub struct Users(Vec<(String, CString)>);

/// The users of a file, or what is wrong with it, with the line.
pub fn read(path: &Path) -> Result<Users, String> {
    let text = fs::read_to_string(path).map_err(|error| format!("{}: {error}", path.display()))?;
    parse(&text).map_err(|(line, reason)| format!("{}, line {line}: {reason}", path.display()))
}

fn parse(text: &str) -> Result<Users, (usize, &'static str)> {
    let mut users = Users::default();
    for (index, line) in text.lines().enumerate() {
        if line.is_empty() || line.starts_with('#') {
            continue;
        }
        let wrong = |reason| (index + 1, reason);
        let (name, hash) = line.split_once(':').ok_or_else(|| wrong("it is not name:hash"))?;
        good_name(name).map_err(wrong)?;
        if !METHODS.iter().any(|method| hash.starts_with(method)) {
            return Err(wrong("the hash is none of yescrypt, bcrypt or sha512"));
        }
        if users.0.iter().any(|(other, _)| other == name) {
            return Err(wrong("the name stands in a line before"));
        }
        let hash = CString::new(hash).map_err(|_| wrong("the hash has a zero byte"))?;
        users.0.push((name.to_owned(), hash));
    }
    Ok(users)
}

/// Whether a name can stand in the file and be typed into the form.
fn good_name(name: &str) -> Result<(), &'static str> {
    match name {
        _ if name.is_empty() || name.len() > 64 => Err("a name has 1 to 64 bytes"),
        _ if name.starts_with('#') || name.contains(':') => Err("a name has no colon and does not begin with #"),
        _ if name.chars().any(|letter| letter < ' ' || letter == '\x7f') => Err("a name has no control characters"),
        _ => Ok(()),
    }
}

/// Whether this is the user's password. A name that is not there costs as much as one that is: another line's hash is made and not looked at,
/// always the same one for the same name.
pub fn verdict(users: &Users, decoy: &RandomState, name: &[u8], password: &[u8]) -> bool {
    let found = users.0.iter().find(|(other, _)| other.as_bytes() == name);
    let hash = match found.or_else(|| decoy_line(users, decoy, name)) {
        Some((_, hash)) => hash,
        None => return false,
    };
    // crypt(3) reads up to a zero byte, so a password that has one is none.
    let (whole, password) = match CString::new(password) {
        Ok(password) => (true, password),
        Err(_) => (false, CString::default()),
    };
    let made = crypt::hash(&password, hash);
    found.is_some() && whole && made.as_deref().map(str::as_bytes) == Some(hash.as_bytes())
}

fn decoy_line<'a>(users: &'a Users, decoy: &RandomState, name: &[u8]) -> Option<&'a (String, CString)> {
    let mut hasher = decoy.build_hasher();
    hasher.write(name);
    let count = users.0.len() as u64;
    users.0.get(hasher.finish().checked_rem(count)? as usize)
}

/// Stores a user's new password: his line is replaced, or a line is added, and all other lines stay as they are. The file is written beside
/// the old one and takes its place, so a reader sees the old or the new one. It keeps its mode and its owner.
pub fn store(path: &Path, name: &str, password: &str) -> Result<(), String> {
    good_name(name)?;
    let password = CString::new(password).map_err(|_| "a password has no zero byte")?;
    if password.as_bytes().is_empty() || password.as_bytes().len() > 128 {
        return Err("a password has 1 to 128 bytes".into());
    }
    let hash = crypt::fresh_setting().and_then(|setting| crypt::hash(&password, &setting)).ok_or("libxcrypt makes no hash")?;
    let old = if path.exists() { fs::read_to_string(path).map_err(|error| format!("{}: {error}", path.display()))? } else { String::new() };
    parse(&old).map_err(|(line, reason)| format!("{}, line {line}: {reason}", path.display()))?;
    replace(path, &with_line(&old, name, &hash)).map_err(|error| format!("{}: {error}", path.display()))
}

fn with_line(old: &str, name: &str, hash: &str) -> String {
    let own = format!("{name}:");
    let new = format!("{name}:{hash}");
    let mut lines: Vec<&str> = old.lines().collect();
    match lines.iter_mut().find(|line| line.starts_with(&own)) {
        Some(line) => *line = &new,
        None => lines.push(&new),
    }
    lines.join("\n") + "\n"
}

fn replace(path: &Path, text: &str) -> std::io::Result<()> {
    let old = fs::metadata(path).ok();
    let mode = old.as_ref().map_or(0o600, |old| old.permissions().mode() & 0o7777);
    let mut beside = path.as_os_str().to_owned();
    beside.push(".new");
    let mut file = OpenOptions::new().write(true).create(true).truncate(true).mode(mode).open(&beside)?;
    if let Some(old) = old {
        nix::unistd::fchown(file.as_raw_fd(), Some(old.uid().into()), Some(old.gid().into()))?;
    }
    file.write_all(text.as_bytes())?;
    file.sync_all()?;
    fs::rename(&beside, path)
}

#[cfg(test)]
mod tests {
    use super::*;

    #[test]
    fn a_wrong_line_is_told() {
        let wrong = |text| parse(text).unwrap_err().0;
        assert_eq!(wrong("ann"), 1);
        assert_eq!(wrong("# desk\n\n:$y$a"), 3);
        assert_eq!(wrong("ann:$y$a\nben:$1$md5"), 2);
        assert_eq!(wrong("ann:$y$a\nann:$y$b"), 2);
        assert_eq!(parse("# desk\nann:$y$a\nJos\u{e9} Mu\u{f1}oz:$6$b\n").unwrap().0.len(), 2);
    }

    #[test]
    fn a_new_line_is_added_or_takes_the_old_ones_place() {
        assert_eq!(with_line("", "ann", "$y$1"), "ann:$y$1\n");
        assert_eq!(with_line("# desk\nann:$y$1\nben:$y$2\n", "ann", "$y$3"), "# desk\nann:$y$3\nben:$y$2\n");
        assert_eq!(with_line("anna:$y$1", "ann", "$y$2"), "anna:$y$1\nann:$y$2\n");
    }

    #[test]
    fn the_verdict_is_yes_for_the_whole_password_only() {
        let hash = crypt::hash(&CString::new("gate").unwrap(), &crypt::fresh_setting().unwrap()).unwrap();
        let users = parse(&format!("ann:{hash}")).unwrap();
        let says = |name: &str, password: &[u8]| verdict(&users, &RandomState::new(), name.as_bytes(), password);
        assert!(says("ann", b"gate"));
        for password in [&b"gat"[..], b"gates", b"gate\0", b"gate\0s", b"", b"\0"] {
            assert!(!says("ann", password));
        }
        assert!(!says("Ann", b"gate") && !says("", b"gate") && !says("ann\0", b"gate"));
        assert!(!verdict(&Users::default(), &RandomState::new(), b"ann", b"gate"));
    }
}
