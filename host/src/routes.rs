//! A request from its head to its response: what the core is asked, what it is spared, and the line in the log.

use crate::desk::{Asked, Outcome, SignOff};
use crate::frames::{Answer, Kind};
use crate::log;
use crate::outward::Outward;
use crate::page::{self, Language};
use crate::queue::{Full, Queue};
use crate::reply::{Replies, COOKIE};
use hyper::body::HttpBody;
use hyper::header::{self, HeaderValue};
use hyper::{Body, HeaderMap, Method, Request, Response};
use std::convert::Infallible;
use std::net::IpAddr;
use std::sync::Arc;
use std::time::Duration;
use tokio::time::timeout;

/// The longest target and body that the core takes.
const TARGET: usize = 2_048;
const BODY: usize = 1_024;
/// A session's text is shorter than this, so what is longer is none.
const COOKIE_LONGEST: usize = 64;
/// How long a body may take.
const BODY_TIME: Duration = Duration::from_secs(10);
/// How many seconds a browser is asked to wait where the queue is full or the disk.
const BUSY: u64 = 5;

/// Where CAS 3.0 clients ask, and where the core answers them.
const ALIASES: [(&str, &str); 2] = [("/cas/p3/serviceValidate", "/cas/serviceValidate"), ("/cas/p3/proxyValidate", "/cas/proxyValidate")];
/// The paths that may stand in the log. Any other may have a ticket in it.
const PATHS: [&str; 11] = [
    "/",
    "/cas",
    "/cas/",
    "/cas/login",
    "/cas/logout",
    "/cas/validate",
    "/cas/serviceValidate",
    "/cas/proxyValidate",
    "/cas/proxy",
    page::STYLE.0,
    page::SCRIPT.0,
];

pub struct Front {
    pub queue: Queue,
    pub outward: Outward,
    pub replies: Replies,
    pub forwarded_from: Vec<IpAddr>,
}

/// What is told of a request in the log, beside its time.
struct Told {
    source: IpAddr,
    method: &'static str,
    path: &'static str,
    note: String,
}

impl Front {
    /// A request's response, and a line in the log. A browser that goes away does not stop what has begun.
    pub async fn handle(self: Arc<Self>, peer: IpAddr, request: Request<Body>) -> Result<Response<Body>, Infallible> {
        let source = self.source(peer, request.headers());
        let mut told = Told { source, method: method_word(request.method()), path: known_path(request.uri().path()), note: String::new() };
        let language = language(request.headers());
        let response = match self.route(source, request).await {
            Ok(asked) => {
                let front = self.clone();
                let made = tokio::spawn(async move {
                    let response = front.ask(asked, language, &mut told.note).await;
                    told.line(response.status().as_u16());
                    response
                });
                made.await.unwrap_or_else(|_| self.replies.own(500, None, language))
            }
            Err(Here::Ready(response)) => {
                told.line(response.status().as_u16());
                response
            }
            Err(Here::Status(status)) => {
                told.line(status);
                let mut response = self.replies.own(status, None, language);
                // The body, or what is left of it, is not read.
                response.headers_mut().insert(header::CONNECTION, HeaderValue::from_static("close"));
                response
            }
        };
        Ok(response)
    }

    /// Whom a request is from: the peer, or what a proxy of ours says of it.
    fn source(&self, peer: IpAddr, headers: &HeaderMap) -> IpAddr {
        if !self.forwarded_from.contains(&peer) {
            return peer;
        }
        let chain = headers.get_all("x-forwarded-for").iter().filter_map(|value| value.to_str().ok()).flat_map(|value| value.split(','));
        let mut told = chain.filter_map(|part| part.trim().parse().ok()).filter(|address| !self.forwarded_from.contains(address));
        told.next_back().unwrap_or(peer)
    }

    /// What the core is to be asked, or what is answered here.
    async fn route(&self, source: IpAddr, request: Request<Body>) -> Result<Asked, Here> {
        let post = match *request.method() {
            Method::GET | Method::HEAD => false,
            Method::POST => true,
            _ => return Err(Here::Status(405)),
        };
        match request.uri().path() {
            "/" | "/cas" | "/cas/" if !post => return Err(Here::Ready(self.replies.to_login())),
            path if !post && path == page::STYLE.0 => return Err(Here::Ready(self.replies.file("text/css; charset=utf-8", page::STYLE.1))),
            path if !post && path == page::SCRIPT.0 => {
                return Err(Here::Ready(self.replies.file("text/javascript; charset=utf-8", page::SCRIPT.1)))
            }
            _ => {}
        }
        let target = request.uri().path_and_query().map(|target| target.as_str()).unwrap_or_default();
        if target.len() > TARGET {
            return Err(Here::Status(414));
        }
        let (target, cookie) = (plain_target(target), session_cookie(request.headers()));
        let body = if post { body(request.into_body()).await.map_err(Here::Status)? } else { Vec::new() };
        Ok(Asked { source: source.into(), post, target, body, cookie })
    }

    /// Asks the core, and whom the core's answer says to ask or to tell.
    async fn ask(self: Arc<Self>, asked: Asked, language: Language, note: &mut String) -> Response<Body> {
        let mut outcome = self.queue.request(asked).await;
        if let Ok(Outcome::Answered { answer, .. }) = &outcome {
            if answer.refusal == 0 && answer.kind == Kind::Callback {
                let good = self.outward.callback(&answer.output).await;
                outcome = self.queue.finish(answer.callback_serial, good).await;
            }
        }
        match outcome {
            Ok(Outcome::Answered { answer, user, sign_offs }) => {
                note_answer(note, &answer, user);
                self.tell(sign_offs);
                if answer.refusal == 0 {
                    self.replies.answer(answer, language)
                } else {
                    self.replies.own(500, None, language)
                }
            }
            Ok(Outcome::NoForm(none)) if none.own => {
                note.push_str(" too many open forms");
                self.replies.own(429, Some(none.wait), language)
            }
            Ok(Outcome::NoForm(none)) => {
                note.push_str(" the last forms are kept");
                self.replies.own(503, Some(none.wait), language)
            }
            Ok(Outcome::TooManyFailures(wait)) => {
                note.push_str(" too many wrong passwords");
                self.replies.own(429, Some(wait), language)
            }
            Ok(Outcome::NoUsers(wrong)) => {
                note.push_str(&format!(" users: {wrong}"));
                self.replies.own(500, None, language)
            }
            Ok(Outcome::NotStored) => {
                note.push_str(" not stored");
                self.replies.own(503, Some(BUSY), language)
            }
            Err(Full) => {
                note.push_str(" queue full");
                self.replies.own(503, Some(BUSY), language)
            }
        }
    }

    fn tell(&self, sign_offs: Vec<SignOff>) {
        for told in sign_offs {
            let outward = self.outward.clone();
            tokio::spawn(async move { outward.sign_off(told).await });
        }
    }
}

/// What is answered without the core.
enum Here {
    Ready(Response<Body>),
    Status(u16),
}

impl Told {
    fn line(&self, status: u16) {
        log::line(format_args!("{} {} {} {status}{}", self.source, self.method, self.path, self.note));
    }
}

/// The user whom an answer names, whether it says yes, and the number of a refusal.
fn note_answer(note: &mut String, answer: &Answer, user: Option<String>) {
    match (answer.kind, answer.data) {
        _ if answer.refusal != 0 => note.push_str(&format!(" refusal={}", answer.refusal)),
        (Kind::Redirect, true) => note.push_str(" ticket"),
        (Kind::Text | Kind::Xml, true) => note.push_str(" yes"),
        (Kind::Text | Kind::Xml, false) => note.push_str(" no"),
        _ => {}
    }
    if let Some(user) = user {
        note.push_str(&format!(" user={user:?}"));
    }
}

fn method_word(method: &Method) -> &'static str {
    match *method {
        Method::GET => "GET",
        Method::HEAD => "HEAD",
        Method::POST => "POST",
        _ => "-",
    }
}

fn known_path(path: &str) -> &'static str {
    let aliases = ALIASES.iter().map(|(alias, _)| *alias);
    PATHS.into_iter().chain(aliases).find(|known| *known == path).unwrap_or("-")
}

fn language(headers: &HeaderMap) -> Language {
    page::language(headers.get(header::ACCEPT_LANGUAGE).and_then(|value| value.to_str().ok()).unwrap_or_default())
}

/// The target with an alias in plain words.
fn plain_target(target: &str) -> String {
    let (path, query) = target.split_at(target.find('?').unwrap_or(target.len()));
    let path = ALIASES.iter().find(|(alias, _)| *alias == path).map_or(path, |(_, plain)| plain);
    format!("{path}{query}")
}

/// The bare text of the session's cookie, empty where the browser sent none.
fn session_cookie(headers: &HeaderMap) -> String {
    let values = headers.get_all(header::COOKIE).iter().filter_map(|value| value.to_str().ok());
    let mut pairs = values.flat_map(|value| value.split(';')).filter_map(|pair| pair.trim().split_once('='));
    let own = pairs.find(|(name, value)| *name == COOKIE && value.len() <= COOKIE_LONGEST);
    own.map(|(_, value)| value.to_owned()).unwrap_or_default()
}

/// The whole body, or the status that says why not.
async fn body(mut body: Body) -> Result<Vec<u8>, u16> {
    if body.size_hint().lower() > BODY as u64 {
        return Err(413);
    }
    let read = async {
        let mut bytes = Vec::new();
        while let Some(part) = body.data().await {
            bytes.extend(part.map_err(|_| 400u16)?);
            if bytes.len() > BODY {
                return Err(413);
            }
        }
        Ok(bytes)
    };
    timeout(BODY_TIME, read).await.unwrap_or(Err(408))
}

#[cfg(test)]
mod tests {
    use super::*;

    #[test]
    fn aliases_are_the_plain_validators() {
        assert_eq!(plain_target("/cas/p3/serviceValidate?ticket=1?2"), "/cas/serviceValidate?ticket=1?2");
        assert_eq!(plain_target("/cas/p3/proxyValidate"), "/cas/proxyValidate");
        assert_eq!(plain_target("/cas/p3/proxy?a=b"), "/cas/p3/proxy?a=b");
    }

    #[test]
    fn only_known_paths_stand_in_the_log() {
        assert_eq!(known_path("/cas/p3/proxyValidate"), "/cas/p3/proxyValidate");
        assert_eq!(known_path("/cas/proxy"), "/cas/proxy");
        assert_eq!(known_path("/cas/login/LT-1-00"), "-");
    }

    #[test]
    fn the_cookie_is_found_among_others() {
        let cookie = |values: &[&str]| {
            let mut headers = HeaderMap::new();
            for value in values {
                headers.append(header::COOKIE, value.parse().unwrap());
            }
            session_cookie(&headers)
        };
        assert_eq!(cookie(&["a=b; TGC=TGC-1-00; c=d"]), "TGC-1-00");
        assert_eq!(cookie(&["a=b", "TGC=TGC-1-00"]), "TGC-1-00");
        assert_eq!(cookie(&["XTGC=TGC-1-00"]), "");
        assert_eq!(cookie(&[&format!("TGC={}", "0".repeat(65))]), "");
        assert_eq!(cookie(&[]), "");
    }
}
