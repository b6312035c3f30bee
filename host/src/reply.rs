//! Responses: an answer of the core, or a page of the server's own, as HTTP with the headers that keep it safe.

use crate::config::Panel;
use crate::frames::{Answer, Kind};
use crate::page::{self, Language, Subject};
use hyper::http::response::Builder;
use hyper::{header, Body, Response, Uri};

/// The cookie's name. Its value is the text that the core writes and reads.
pub const COOKIE: &str = "TGC";
const COOKIE_RULES: &str = "Path=/cas; Secure; HttpOnly; SameSite=Lax";

/// A year, as HSTS counts it.
const SECURE_FOR: &str = "max-age=31536000";

/// What a page may load and where its form may lead: to this server, and by its redirect to the registered panels.
pub fn content_policy(panels: &[Panel]) -> String {
    let mut places: Vec<String> = panels.iter().filter_map(|panel| policy_source(&panel.service)).collect();
    places.sort();
    places.dedup();
    format!(
        "default-src 'none'; style-src 'self'; script-src 'self'; base-uri 'none'; frame-ancestors 'none'; form-action 'self' {}",
        places.join(" ")
    )
}

/// A service's origin as a content policy writes it; only its scheme, where the policy's grammar has no words for the host.
fn policy_source(service: &str) -> Option<String> {
    let uri: Uri = service.parse().ok()?;
    let scheme = uri.scheme_str()?;
    let authority = uri.authority()?.as_str();
    let plain = authority.bytes().all(|byte| byte.is_ascii_alphanumeric() || b".-:".contains(&byte));
    Some(if plain { format!("{scheme}://{authority}") } else { format!("{scheme}:") })
}

/// Makes responses by one configuration.
pub struct Replies {
    pub policy: String,
}

impl Replies {
    fn start(&self, status: u16) -> Builder {
        Response::builder()
            .status(status)
            .header(header::STRICT_TRANSPORT_SECURITY, SECURE_FOR)
            .header(header::X_FRAME_OPTIONS, "DENY")
            .header(header::REFERRER_POLICY, "no-referrer")
            .header(header::X_CONTENT_TYPE_OPTIONS, "nosniff")
    }

    fn unstored(&self, status: u16) -> Builder {
        self.start(status).header(header::CACHE_CONTROL, "no-store").header(header::PRAGMA, "no-cache")
    }

    /// The core's answer. A callback is none for the browser, and neither is a refusal.
    pub fn answer(&self, answer: Answer, language: Language) -> Response<Body> {
        let status = answer.status as u16;
        let mut response = self.unstored(status);
        if !answer.cookie.is_empty() {
            let value = String::from_utf8_lossy(&answer.cookie);
            response = response.header(header::SET_COOKIE, format!("{COOKIE}={value}; {COOKIE_RULES}"));
        } else if answer.cookie_cleared {
            response = response.header(header::SET_COOKIE, format!("{COOKIE}=; Max-Age=0; {COOKIE_RULES}"));
        }
        let made = match answer.kind {
            Kind::Page => self.page(response, answer.output, page::subject, status, None, language),
            Kind::Redirect => response.header(header::LOCATION, answer.output).body(Body::empty()),
            Kind::Text => response.header(header::CONTENT_TYPE, "text/plain; charset=utf-8").body(answer.output.into()),
            Kind::Xml => response.header(header::CONTENT_TYPE, "application/xml; charset=utf-8").body(answer.output.into()),
            Kind::None | Kind::Callback => return self.own(500, None, language),
        };
        made.unwrap_or_else(|_| self.own(500, None, language))
    }

    /// A page of the server's own; with the seconds to wait, where that is known.
    pub fn own(&self, status: u16, wait: Option<u64>, language: Language) -> Response<Body> {
        let mut response = self.unstored(status);
        if let Some(seconds) = wait {
            response = response.header(header::RETRY_AFTER, seconds);
        }
        if status == 405 {
            response = response.header(header::ALLOW, "GET, HEAD, POST");
        }
        let subject = |status, _: &[u8]| Subject::Status(status);
        self.page(response, page::plain(status), subject, status, wait, language).unwrap_or_default()
    }

    fn page(
        &self,
        response: Builder,
        mut bytes: Vec<u8>,
        subject: impl Fn(u16, &[u8]) -> Subject,
        status: u16,
        wait: Option<u64>,
        language: Language,
    ) -> hyper::http::Result<Response<Body>> {
        let dress = page::dress(subject(status, &bytes), wait, language);
        bytes.extend(dress.into_bytes());
        response
            .header(header::CONTENT_TYPE, "text/html; charset=utf-8")
            .header(header::CONTENT_SECURITY_POLICY, &self.policy)
            .header(header::VARY, "Accept-Language")
            .body(bytes.into())
    }

    /// A file that dresses pages, the same for everybody.
    pub fn file(&self, kind: &str, text: &'static str) -> Response<Body> {
        let response = self.start(200).header(header::CACHE_CONTROL, "max-age=600").header(header::CONTENT_TYPE, kind);
        response.body(text.into()).unwrap_or_default()
    }

    /// To the login page, from where a person may have typed.
    pub fn to_login(&self) -> Response<Body> {
        self.unstored(303).header(header::LOCATION, "/cas/login").body(Body::empty()).unwrap_or_default()
    }
}

#[cfg(test)]
mod tests {
    use super::*;

    #[test]
    fn a_service_s_origin_stands_in_the_policy() {
        let source = |service| policy_source(service);
        assert_eq!(source("https://gate.lan/open?i=2").as_deref(), Some("https://gate.lan"));
        assert_eq!(source("http://gate.lan:8080/").as_deref(), Some("http://gate.lan:8080"));
        assert_eq!(source("https://[fd00::1]:8443/").as_deref(), Some("https:"));
        assert_eq!(source("https://a;script-src/").as_deref(), Some("https:"));
        assert_eq!(source("gate"), None);
    }
}
