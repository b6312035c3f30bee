//! The configuration, a TOML file. A wrong one is refused with the line and the reason; paths in it are relative to its own folder. What the
//! register rules say of panels is the core's to judge.

use serde::Deserialize;
use std::fs;
use std::net::{IpAddr, SocketAddr};
use std::path::{Path, PathBuf};
use toml::Spanned;

/// The most panels that a register has.
const PANELS: usize = 16;

/// The file as it is written.
#[derive(Deserialize)]
#[serde(deny_unknown_fields)]
struct File {
    listen: Spanned<String>,
    data: Spanned<PathBuf>,
    users: Spanned<PathBuf>,
    core: Option<Spanned<PathBuf>>,
    #[serde(default)]
    forwarded_from: Vec<Spanned<String>>,
    tls: Option<TlsFile>,
    trust: Option<TrustFile>,
    #[serde(default)]
    panel: Vec<PanelFile>,
}

#[derive(Deserialize)]
#[serde(deny_unknown_fields)]
struct TlsFile {
    cert: Spanned<PathBuf>,
    key: Spanned<PathBuf>,
}

#[derive(Deserialize)]
#[serde(deny_unknown_fields)]
struct TrustFile {
    ca: Spanned<PathBuf>,
}

#[derive(Deserialize)]
#[serde(deny_unknown_fields)]
struct PanelFile {
    service: Spanned<String>,
    callback: Option<Spanned<String>>,
}

/// A file that is named in the configuration, and where.
#[derive(Debug)]
pub struct Named {
    pub path: PathBuf,
    place: String,
}

impl Named {
    /// A fault of the named file, told with the line that names it.
    pub fn fault(&self, reason: impl std::fmt::Display) -> String {
        format!("{}: {}: {reason}", self.place, self.path.display())
    }
}

#[derive(Debug)]
pub struct Tls {
    pub cert: Named,
    pub key: Named,
}

#[derive(Debug)]
pub struct Panel {
    pub service: String,
    pub callback: String,
    place: String,
}

/// A configuration that holds together. Whether its files are there and good is seen when they are read.
#[derive(Debug)]
pub struct Config {
    pub listen: SocketAddr,
    pub data: Named,
    pub users: Named,
    pub core: Named,
    /// Proxies whose word on the browser's address is taken.
    pub forwarded_from: Vec<IpAddr>,
    pub tls: Option<Tls>,
    pub ca: Option<Named>,
    pub panels: Vec<Panel>,
}

impl Config {
    /// What to say where the core finds fault with the register, at this block or at one that it does not tell.
    pub fn register_fault(&self, block: Option<usize>) -> String {
        let panel = block.and_then(|block| self.panels.get(block));
        let place = panel.map_or("one of the panels", |panel| &panel.place);
        format!(
            "{place}: the core refuses this panel (refusal 3): a service has 1 to 200 printable ASCII characters without space and #, \
             so has a callback, which begins https://, and no service stands twice"
        )
    }
}

pub fn read(path: &Path) -> Result<Config, String> {
    let text = fs::read_to_string(path).map_err(|error| format!("{}: {error}", path.display()))?;
    let core = std::env::current_exe().ok().and_then(|program| Some(program.parent()?.join("core")));
    parse(&text, path, core)
}

/// `core` is the folder of the core where the file names none.
fn parse(text: &str, path: &Path, core: Option<PathBuf>) -> Result<Config, String> {
    let file: File = toml::from_str(text).map_err(|error| told_by_toml(path, text, &error))?;
    let folder = path.parent().unwrap_or_else(|| Path::new(""));
    let place = |at: usize| format!("{}, line {}", path.display(), text[..at].matches('\n').count() + 1);
    let named = |path: &Spanned<PathBuf>| Named { path: folder.join(path.get_ref()), place: place(path.start()) };

    let listen: SocketAddr = address(&file.listen, "an address and a port").map_err(|(at, reason)| format!("{}: {reason}", place(at)))?;
    if file.tls.is_none() && !listen.ip().is_loopback() {
        return Err(format!("{}: without [tls] only a loopback address is taken", place(file.listen.start())));
    }
    let forwarded_from = file.forwarded_from.iter().map(|from| address(from, "an address")).collect::<Result<_, _>>();
    let panels = file.panel.iter().map(|panel| Panel {
        service: panel.service.get_ref().clone(),
        callback: panel.callback.as_ref().map(|callback| callback.get_ref().clone()).unwrap_or_default(),
        place: place(panel.service.start()),
    });
    let panels: Vec<Panel> = panels.collect();
    if panels.is_empty() {
        return Err(format!("{}: there is no [[panel]], so nobody could be signed in to anything", path.display()));
    }
    if let Some(beyond) = file.panel.get(PANELS) {
        return Err(format!("{}: this panel is beyond the {} that a register has", place(beyond.service.start()), PANELS));
    }
    Ok(Config {
        listen,
        data: named(&file.data),
        users: named(&file.users),
        core: match &file.core {
            Some(core) => named(core),
            None => Named { path: core.unwrap_or_default(), place: "beside the program".into() },
        },
        forwarded_from: forwarded_from.map_err(|(at, reason)| format!("{}: {reason}", place(at)))?,
        tls: file.tls.as_ref().map(|tls| Tls { cert: named(&tls.cert), key: named(&tls.key) }),
        ca: file.trust.as_ref().map(|trust| named(&trust.ca)),
        panels,
    })
}

/// What toml says of a wrong file, with the line. For a key that is not known it tells the end of the table, so the key is looked for.
fn told_by_toml(path: &Path, text: &str, error: &toml::de::Error) -> String {
    let whole = error.to_string();
    let reason = whole.rsplit_once(" at line ").map_or(whole.as_str(), |(reason, _)| reason);
    let unknown = reason.strip_prefix("unknown field `").and_then(|rest| rest.split('`').next());
    let stands = unknown.and_then(|key| text.lines().position(|line| line.trim_start_matches(['[', ' ']).starts_with(key)));
    match stands.or_else(|| error.line_col().map(|(line, _)| line)) {
        Some(line) => format!("{}, line {}: {reason}", path.display(), line + 1),
        None => format!("{}: {reason}", path.display()),
    }
}

fn address<T: std::str::FromStr>(text: &Spanned<String>, what: &str) -> Result<T, (usize, String)> {
    text.get_ref().parse().map_err(|_| (text.start(), format!("\"{}\" is not {what}", text.get_ref())))
}

#[cfg(test)]
mod tests {
    use super::*;

    const GOOD: &str = "listen = \"127.0.0.1:8443\"\ndata = \"data\"\nusers = \"/etc/users\"\n[[panel]]\nservice = \"https://gate.lan/\"\n";

    fn refused(text: &str) -> String {
        parse(text, Path::new("/etc/ranch.toml"), None).unwrap_err()
    }

    #[test]
    fn a_good_file_is_taken_and_its_paths_are_relative_to_it() {
        let config = parse(GOOD, Path::new("/etc/ranch.toml"), Some("/usr/lib/core".into())).unwrap();
        assert_eq!(config.data.path, Path::new("/etc/data"));
        assert_eq!(config.users.path, Path::new("/etc/users"));
        assert_eq!(config.core.path, Path::new("/usr/lib/core"));
        assert_eq!((config.panels.len(), config.panels[0].callback.as_str()), (1, ""));
    }

    #[test]
    fn a_wrong_file_is_refused_with_its_line() {
        let line = |number: usize, text: &str| {
            let told = refused(text);
            assert!(told.starts_with(&format!("/etc/ranch.toml, line {number}: ")), "{told}");
        };
        line(1, &GOOD.replace("127.0.0.1", "0.0.0.0"));
        line(1, &GOOD.replace("127.0.0.1", "desk"));
        line(2, &GOOD.replace("data = ", "data "));
        line(2, &GOOD.replace("data = \"data\"", "data = 5"));
        line(3, &GOOD.replace("users =", "user ="));
        line(6, &format!("{GOOD}lamp = 1\n"));
        line(37, &format!("{GOOD}{}", "[[panel]]\nservice = \"https://lamp.lan/\"\n".repeat(16)));
        assert!(refused("").contains("listen"));
    }

    #[test]
    fn the_core_s_fault_is_told_with_the_panel_s_line() {
        let config = parse(GOOD, Path::new("/etc/ranch.toml"), None).unwrap();
        assert!(config.register_fault(Some(0)).starts_with("/etc/ranch.toml, line 5: "));
    }
}
