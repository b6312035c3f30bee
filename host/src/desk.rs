//! What one turn of the queue does: the calls of a request in their order, with the password's verdict and the questions for visits between
//! them, and the changed blocks stored. Nobody else has the core or the database.

use crate::clock;
use crate::config::Config;
use crate::frames::{self, Answer, Changed, Kind, Request, BLOCK};
use crate::limits::{Failures, Forms, NoForm, Source};
use crate::pipe::{self, Core, Ended};
use crate::store::Store;
use crate::users;
use std::borrow::Cow;
use std::collections::hash_map::RandomState;
use std::collections::BTreeSet;
use std::path::PathBuf;

/// A new table has the most blocks that a table may have.
const TABLE: usize = 128 * BLOCK;
/// A target that is none: the core answers 404.
const NOWHERE: &str = "/";
/// Calls that are written to the core before the first of their answers is read. A pipe has room for all of them.
const AHEAD: usize = 8;

/// A request as it waits for its turn.
#[derive(Debug)]
pub struct Asked {
    pub source: Source,
    pub post: bool,
    pub target: String,
    pub body: Vec<u8>,
    pub cookie: String,
}

impl Asked {
    fn path(&self) -> &str {
        self.target.split('?').next().unwrap_or_default()
    }

    fn request(&self) -> Request<'_> {
        Request { post: self.post, target: self.target.as_bytes(), body: &self.body, cookie: self.cookie.as_bytes() }
    }

    /// A sign-in with a password: its turn has the password's check, which takes long on purpose.
    pub fn is_sign_in(&self) -> bool {
        self.post && self.path() == "/cas/login"
    }

    /// A call that may end the cookie's session.
    fn may_end_session(&self) -> bool {
        !self.cookie.is_empty() && (self.is_sign_in() || !self.post && self.path() == "/cas/logout")
    }

    /// A call that may open a form, with nothing posted: a page for who has no session, or is to show a password again.
    fn may_open_form(&self) -> bool {
        !self.post && self.path() == "/cas/login"
    }

    /// The login ticket of a sign-in's form, read as the core reads it: the field's name stands as it is and not encoded.
    fn posted_ticket(&self) -> Option<Cow<'_, str>> {
        let mut pieces = self.body.split(|byte| *byte == b'&').filter(|piece| self.is_sign_in() && piece.starts_with(b"lt="));
        form_urlencoded::parse(pieces.next()?).next().map(|(_, ticket)| ticket)
    }
}

/// What a turn is for.
#[derive(Debug)]
pub enum Work {
    Request(Asked),
    Finish {
        serial: u32,
        ok: bool,
    },
    /// What is dead is freed.
    Housekeep,
}

impl Work {
    pub fn is_sign_in(&self) -> bool {
        matches!(self, Work::Request(asked) if asked.is_sign_in())
    }
}

/// What a panel is to be told of sign-off.
#[derive(Debug)]
pub struct SignOff {
    pub service: String,
    pub document: Vec<u8>,
}

/// How a request's turn ended.
#[derive(Debug)]
pub enum Outcome {
    /// The core's answer, the user whom it names, and whom to tell of sign-off.
    Answered { answer: Answer, user: Option<String>, sign_offs: Vec<SignOff> },
    /// The call was undone, for there is no form for this address.
    NoForm(NoForm),
    /// No call was made: the address has to wait for so many seconds.
    TooManyFailures(u64),
    /// The users cannot be read, so no call was made.
    NoUsers(String),
    /// The call was undone, for its blocks could not be stored.
    NotStored,
}

/// Why a turn could not be made.
pub enum Fault {
    /// The core has ended; it can be started anew and the turn made again.
    Core(String),
    /// The server must stop.
    Stop(String),
}

impl From<Ended> for Fault {
    fn from(Ended(why): Ended) -> Self {
        Fault::Core(why)
    }
}

pub struct Desk {
    folder: PathBuf,
    register: Vec<u8>,
    users: PathBuf,
    core: Core,
    store: Store,
    /// The table as the core has it.
    table: Vec<u8>,
    /// The blocks of it that are not stored yet.
    unstored: BTreeSet<u32>,
    /// Turns that are begun.
    under_way: usize,
    failures: Failures,
    forms: Forms,
    decoy: RandomState,
}

impl Desk {
    /// The core with its register and its table, a new one where there is none yet. `clock_is_right` lets a jump of the clock through.
    pub fn open(config: &Config, clock_is_right: bool) -> Result<Desk, String> {
        let store = Store::open(&config.data.path)?;
        let (core, register) = started(config)?;
        let mut desk = Desk {
            folder: config.core.path.clone(),
            register,
            users: config.users.path.clone(),
            core,
            store,
            table: Vec::new(),
            unstored: BTreeSet::new(),
            under_way: 0,
            failures: Failures::default(),
            forms: Forms::default(),
            decoy: RandomState::new(),
        };
        match desk.store.table()? {
            Some(table) => desk.load(table)?,
            None => desk.format()?,
        }
        let (now, table) = (clock::now(), clock::of_table(&desk.table));
        if let Some(wrong) = clock::jump(now, table).filter(|_| !clock_is_right).or_else(|| clock::lag(now, table)) {
            return Err(wrong);
        }
        let changed = first_calls(config, &mut desk.core, now)?;
        desk.lay(&changed).map_err(|Ended(why)| config.core.fault(why))?;
        desk.keep()?;
        Ok(desk)
    }

    fn load(&mut self, table: Vec<u8>) -> Result<(), String> {
        match self.core.load(&table).map_err(told)? {
            0 => self.table = table,
            refusal => return Err(table_fault(&self.store, refusal)),
        }
        Ok(())
    }

    fn format(&mut self) -> Result<(), String> {
        match self.core.format(TABLE, clock::now()).map_err(told)? {
            (0, changed) => {
                self.table = vec![0; TABLE];
                self.lay(&changed).map_err(told)
            }
            (refusal, _) => Err(format!("the core makes no table (refusal {refusal})")),
        }
    }

    /// Starts the core anew with the table that is stored; what was not stored is undone, and what was begun is to be begun again.
    pub fn recover(&mut self) -> Result<(), String> {
        self.core = Core::start(&self.folder).map_err(|Ended(why)| format!("the core cannot be started: {why}"))?;
        self.core.register(&self.register).map_err(told)?;
        self.unstored.clear();
        self.under_way = 0;
        let table = self.store.table()?.ok_or("the table is gone from the database")?;
        self.load(table)
    }

    /// Stores the changed blocks. Only after this may the answers of the calls that changed them leave.
    pub fn keep(&mut self) -> Result<(), String> {
        if self.unstored.is_empty() {
            return Ok(());
        }
        let blocks = self.unstored.iter().map(|number| {
            let start = *number as usize * BLOCK;
            (*number, &self.table[start..start + BLOCK])
        });
        self.store.save(blocks)?;
        self.unstored.clear();
        Ok(())
    }

    /// Lays told blocks over the table, all of them or none.
    fn lay(&mut self, changed: &[Changed]) -> Result<(), Ended> {
        let blocks = self.table.len() / BLOCK;
        if changed.iter().any(|block| block.number as usize >= blocks) {
            return Err(Ended("it tells a block that is not there".into()));
        }
        for block in changed {
            let start = block.number as usize * BLOCK;
            self.table[start..start + BLOCK].copy_from_slice(&block.bytes);
            self.unstored.insert(block.number);
        }
        Ok(())
    }

    /// The time for a call, if it is no jump.
    fn time(&self) -> Result<u64, Fault> {
        let now = clock::now();
        clock::jump(now, clock::of_table(&self.table)).map_or(Ok(now), |wrong| Err(Fault::Stop(wrong)))
    }

    /// Begins turns, from the first on: calls that may go ahead of each other's answers are written to the core. Gives how many; none where the
    /// first is to be made alone.
    pub fn begin<'a>(&mut self, works: impl Iterator<Item = &'a Work> + Clone) -> usize {
        let count = self.ahead(works.clone());
        self.under_way = self.write_calls(works.take(count)).map_or(0, |()| count);
        self.under_way
    }

    /// How many of these turns may go ahead: each is one call, with nothing to ask before it and nothing to undo after it.
    fn ahead<'a>(&self, works: impl Iterator<Item = &'a Work>) -> usize {
        let (now, mut forms) = (clock::now(), Vec::new());
        let goes = |work: &&Work| match work {
            Work::Finish { .. } | Work::Housekeep => true,
            Work::Request(asked) if asked.is_sign_in() || asked.may_end_session() => false,
            Work::Request(asked) => {
                let room = !asked.may_open_form() || self.forms.room(asked.source, None, &forms, now).is_ok();
                forms.extend(asked.may_open_form().then_some(asked.source));
                room
            }
        };
        works.take(AHEAD).take_while(goes).count()
    }

    fn write_calls<'a>(&mut self, works: impl Iterator<Item = &'a Work>) -> Result<(), Fault> {
        let time = self.time()?;
        let mut calls = Vec::new();
        for work in works {
            calls.extend(match work {
                Work::Request(asked) => frames::answer(&asked.request(), time, false, &pipe::random()?),
                Work::Finish { serial, ok } => frames::finish(*serial, *ok, time),
                Work::Housekeep => frames::housekeep(time),
            });
        }
        Ok(self.core.write(&calls)?)
    }

    /// Ends the turns that were begun: their answers are read and laid down one after the other. Gives the outcomes up to a fault, which the
    /// next turn meets.
    pub fn end<'a>(&mut self, works: impl Iterator<Item = &'a Work>) -> Vec<Outcome> {
        let mut made = Vec::new();
        for work in works.take(std::mem::take(&mut self.under_way)) {
            match self.ended(work) {
                Ok(outcome) => made.push(outcome),
                Err(why) => {
                    self.core.fail(why);
                    break;
                }
            }
        }
        made
    }

    fn ended(&mut self, work: &Work) -> Result<Outcome, Ended> {
        let answer = self.core.read(if matches!(work, Work::Housekeep) { frames::housekept } else { frames::answered })?;
        self.lay(&answer.changed)?;
        if let (Work::Request(asked), Some(ticket)) = (work, opened_ticket(&answer)) {
            self.forms.opened(asked.source, ticket, clock::now());
        }
        Ok(Outcome::Answered { user: named_user(&answer), answer, sign_offs: Vec::new() })
    }

    /// Makes a turn by itself, whatever it takes.
    pub fn alone(&mut self, work: &Work) -> Result<Outcome, Fault> {
        match work {
            Work::Request(asked) => self.request(asked),
            Work::Finish { serial, ok } => self.one_call(|core, time| core.finish(*serial, *ok, time)),
            Work::Housekeep => self.one_call(Core::housekeep),
        }
    }

    fn one_call(&mut self, call: impl FnOnce(&mut Core, u64) -> Result<Answer, Ended>) -> Result<Outcome, Fault> {
        let time = self.time()?;
        let answer = call(&mut self.core, time)?;
        self.lay(&answer.changed)?;
        Ok(Outcome::Answered { user: named_user(&answer), answer, sign_offs: Vec::new() })
    }

    fn request(&mut self, asked: &Asked) -> Result<Outcome, Fault> {
        let time = self.time()?;
        let signs_in = match self.credentials(asked, time)? {
            Ok(signs_in) => signs_in,
            Err(outcome) => return Ok(outcome),
        };
        let visits = self.visits(asked, time)?;
        let answer = self.core.answer(&asked.request(), time, signs_in.is_some())?;
        if let Some(none) = self.beyond_forms(asked, &answer, time)? {
            return Ok(Outcome::NoForm(none));
        }
        self.lay(&answer.changed)?;
        let ended = answer.cookie_cleared || !answer.cookie.is_empty();
        let accepted = answer.refusal == 0 && (answer.status == 200 || answer.status == 303);
        let user = signs_in.filter(|_| accepted);
        if user.is_some() {
            self.forms.signed_in(asked.source);
        }
        Ok(Outcome::Answered { user: user.or_else(|| named_user(&answer)), sign_offs: if ended { visits } else { Vec::new() }, answer })
    }

    /// The user whose password is right, `None` where this is no sign-in or not a right one; or how the turn ends without a call.
    fn credentials(&mut self, asked: &Asked, time: u64) -> Result<Result<Option<String>, Outcome>, Fault> {
        if !asked.is_sign_in() {
            return Ok(Ok(None));
        }
        let wait = self.failures.wait(asked.source, time);
        if wait > 0 {
            return Ok(Err(Outcome::TooManyFailures(wait)));
        }
        let form = self.core.read_form(&asked.body)?;
        if form.refusal != 0 {
            return Ok(Ok(None));
        }
        let users = match users::read(&self.users) {
            Ok(users) => users,
            Err(wrong) => return Ok(Err(Outcome::NoUsers(wrong))),
        };
        if users::verdict(&users, &self.decoy, &form.username, &form.password) {
            return Ok(Ok(String::from_utf8(form.username).ok()));
        }
        self.failures.add(asked.source, time);
        Ok(Ok(None))
    }

    /// The panels to be told if this call ends the session.
    fn visits(&mut self, asked: &Asked, time: u64) -> Result<Vec<SignOff>, Fault> {
        let mut visits = Vec::new();
        while asked.may_end_session() {
            let (refusal, told) = self.core.visit(visits.len() as u32, time, asked.cookie.as_bytes())?;
            if refusal != 0 {
                break;
            }
            let (service, document) = two_lines(&told).ok_or_else(|| Ended("it tells a visit that is not two lines".into()))?;
            visits.push(SignOff { service, document });
        }
        Ok(visits)
    }

    /// Counts the form that an answer opens. Where its address gets none, the call is undone, before anything of it is laid over the table.
    fn beyond_forms(&mut self, asked: &Asked, answer: &Answer, time: u64) -> Result<Option<NoForm>, Fault> {
        let posted = asked.posted_ticket();
        let ticket = opened_ticket(answer);
        if ticket.is_some() {
            if let Err(none) = self.forms.room(asked.source, posted.as_deref(), &[], time) {
                return match self.core.load(&self.table)? {
                    0 => Ok(Some(none)),
                    refusal => Err(Fault::Core(format!("it refuses its own table with {refusal}"))),
                };
            }
        }
        // A malformed form spends nothing, and neither does a refused call.
        if answer.refusal == 0 && answer.status != 400 {
            self.forms.spent(posted.as_deref());
        }
        if let Some(ticket) = ticket {
            self.forms.opened(asked.source, ticket, time);
        }
        Ok(None)
    }
}

fn told(Ended(why): Ended) -> String {
    format!("the core: {why}")
}

/// The core, started, with the register of this configuration, whose blocks it makes itself.
fn started(config: &Config) -> Result<(Core, Vec<u8>), String> {
    let ended = |Ended(why)| config.core.fault(why);
    let mut core = Core::start(&config.core.path).map_err(|Ended(why)| config.core.fault(format!("the core cannot be started: {why}")))?;
    let mut register = Vec::new();
    for (number, panel) in config.panels.iter().enumerate() {
        match core.panel(&panel.service, &panel.callback).map_err(ended)? {
            (0, block) => register.extend(block),
            _ => return Err(config.register_fault(Some(number))),
        }
    }
    match core.register(&register).map_err(ended)? {
        (0, _) => Ok((core, register)),
        (_, block) => Err(config.register_fault(Some(block as usize))),
    }
}

/// The first calls: one for a path that is none, which moves the table's clock and shows that core, register and table go together; then house is
/// kept. Gives the blocks that they changed, in their order.
fn first_calls(config: &Config, core: &mut Core, time: u64) -> Result<Vec<Changed>, String> {
    let request = Request { post: false, target: NOWHERE.as_bytes(), body: b"", cookie: b"" };
    let mut changed = Vec::new();
    for answer in [core.answer(&request, time, false), core.housekeep(time)] {
        let answer = answer.map_err(|Ended(why)| config.core.fault(why))?;
        match answer.refusal {
            0 => changed.extend(answer.changed),
            3 => return Err(config.register_fault(None)),
            refusal => return Err(format!("the core refuses a plain call (refusal {refusal})")),
        }
    }
    Ok(changed)
}

/// What there is to say of core, register and table of a configuration. The calls that show it change nothing that is stored.
pub fn check(config: &Config) -> Result<&'static str, String> {
    let (mut core, _) = started(config)?;
    let (now, ended) = (clock::now(), |Ended(why)| config.core.fault(why));
    let store = Store::exists(&config.data.path).then(|| Store::open(&config.data.path)).transpose()?;
    let table = store.as_ref().map(Store::table).transpose()?.flatten();
    if let (Some(store), Some(table)) = (&store, &table) {
        match core.load(table).map_err(ended)? {
            0 => {}
            refusal => return Err(table_fault(store, refusal)),
        }
        let table = clock::of_table(table);
        if let Some(wrong) = clock::jump(now, table).or_else(|| clock::lag(now, table)) {
            return Err(wrong);
        }
    } else {
        core.format(TABLE, now).map_err(ended)?;
    }
    first_calls(config, &mut core, now)?;
    Ok(if table.is_some() { "all is well" } else { "all is well; there is no table yet, the first start makes one" })
}

/// What to say where the core refuses the table of a database.
fn table_fault(store: &Store, refusal: u32) -> String {
    format!(
        "{0}: the table is damaged (refusal {refusal}). Move {0} and its -wal file away and start again: a new table is made, and everybody \
         signs in again",
        store.path().display()
    )
}

/// The login ticket of the form on a page, where there is one.
fn opened_ticket(answer: &Answer) -> Option<&str> {
    let page = std::str::from_utf8(&answer.output).ok().filter(|_| answer.kind == Kind::Page)?;
    let (_, rest) = page.split_once("<input name=\"lt\" type=\"hidden\" value=\"")?;
    rest.split('"').next()
}

/// The user whom a success document names, as it stands there.
fn named_user(answer: &Answer) -> Option<String> {
    let document = std::str::from_utf8(&answer.output).ok().filter(|_| answer.kind == Kind::Xml && answer.data)?;
    let (_, rest) = document.split_once("<cas:user>")?;
    rest.split_once("</cas:user>").map(|(user, _)| user.to_owned())
}

fn two_lines(told: &[u8]) -> Option<(String, Vec<u8>)> {
    let mut lines = std::str::from_utf8(told).ok()?.strip_suffix('\n')?.split('\n');
    let two = (lines.next()?.to_owned(), lines.next()?.as_bytes().to_vec());
    lines.next().is_none().then_some(two)
}

#[cfg(test)]
mod tests {
    use super::*;

    fn asked(post: bool, target: &str, body: &str, cookie: &str) -> Asked {
        let source = std::net::IpAddr::from([10, 0, 0, 1]).into();
        Asked { source, post, target: target.into(), body: body.into(), cookie: cookie.into() }
    }

    #[test]
    fn visits_are_asked_for_where_a_session_may_end() {
        assert!(asked(false, "/cas/logout?url=x", "", "TGC-1").may_end_session());
        assert!(asked(true, "/cas/login", "", "TGC-1").may_end_session());
        assert!(!asked(true, "/cas/login", "", "").may_end_session());
        assert!(!asked(true, "/cas/logout", "", "TGC-1").may_end_session());
        assert!(!asked(false, "/cas/login", "", "TGC-1").may_end_session());
    }

    #[test]
    fn the_posted_ticket_is_that_of_a_sign_in() {
        assert_eq!(asked(true, "/cas/login", "username=a&lt=LT%2D1", "").posted_ticket().as_deref(), Some("LT-1"));
        assert_eq!(asked(true, "/cas/login", "%6ct=LT-1&nlt=LT-2&LT=LT-3", "").posted_ticket(), None);
        assert_eq!(asked(true, "/cas/proxy", "lt=LT-1", "").posted_ticket(), None);
    }

    #[test]
    fn a_visit_is_two_lines_with_their_feeds() {
        assert_eq!(two_lines(b"https://g/\n<a/>\n"), Some(("https://g/".into(), b"<a/>".to_vec())));
        assert_eq!(two_lines(b"https://g/\n<a/>"), None);
        assert_eq!(two_lines(b"https://g/\n<a/>\n\n"), None);
    }
}
