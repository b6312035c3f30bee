//! What the server asks of others: the callback of a proxying panel is fetched, and panels are told of sign-off. Both over one client that
//! follows no redirect; whom it trusts is the configuration's or the system's to say.

use crate::config::Config;
use crate::desk::SignOff;
use crate::log;
use crate::tls;
use hyper::client::HttpConnector;
use hyper::{header, Body, Client, Request, Response, StatusCode, Uri};
use hyper_rustls::{HttpsConnector, HttpsConnectorBuilder};
use std::sync::Arc;
use std::time::Duration;
use tokio::sync::Semaphore;
use tokio::time::timeout;
use tokio_rustls::rustls::ClientConfig;

/// How long a callback or a panel may take.
const PATIENCE: Duration = Duration::from_secs(5);
/// Panels that are told at the same time.
const POSTS: u32 = 16;

#[derive(Clone)]
pub struct Outward {
    client: Client<HttpsConnector<HttpConnector>>,
    posts: Arc<Semaphore>,
}

impl Outward {
    pub fn new(config: &Config) -> Result<Outward, String> {
        let roots = tls::trusted(config)?;
        let trust = ClientConfig::builder().with_safe_defaults().with_root_certificates(roots).with_no_client_auth();
        let connector = HttpsConnectorBuilder::new().with_tls_config(trust).https_or_http().enable_http1().build();
        let client = Client::builder().pool_max_idle_per_host(0).build(connector);
        Ok(Outward { client, posts: Arc::new(Semaphore::new(POSTS as usize)) })
    }

    /// Fetches a callback's URL: yes only after a good certificate and a 200.
    pub async fn callback(&self, url: &[u8]) -> bool {
        let uri = match Uri::try_from(url) {
            Ok(uri) if uri.scheme_str() == Some("https") => uri,
            _ => return false,
        };
        let host = uri.authority().map(ToString::to_string).unwrap_or_default();
        let request = Request::get(uri).body(Body::empty());
        let why = match self.sent(request).await {
            Ok(response) if response.status() == StatusCode::OK => return true,
            Ok(response) => response.status().to_string(),
            Err(why) => why,
        };
        log::line(format_args!("callback to {host} failed: {why}"));
        false
    }

    /// Tells a panel of a session's end. Nobody waits for this, and a failure is a line in the log.
    pub async fn sign_off(&self, told: SignOff) {
        let _turn = self.posts.acquire().await;
        let document = String::from_utf8_lossy(&told.document);
        let body = form_urlencoded::Serializer::new(String::new()).append_pair("logoutRequest", &document).finish();
        let request = Request::post(&told.service).header(header::CONTENT_TYPE, "application/x-www-form-urlencoded").body(body.into());
        match self.sent(request).await {
            Ok(response) => log::line(format_args!("sign-off told to {}: {}", told.service, response.status().as_u16())),
            Err(why) => log::line(format_args!("sign-off not told to {}: {why}", told.service)),
        }
    }

    /// Waits for the sign-offs that are under way, as long as one may take.
    pub async fn settle(&self) {
        let _ = timeout(PATIENCE, self.posts.acquire_many(POSTS)).await;
    }

    async fn sent(&self, request: hyper::http::Result<Request<Body>>) -> Result<Response<Body>, String> {
        let request = request.map_err(|error| error.to_string())?;
        match timeout(PATIENCE, self.client.request(request)).await {
            Ok(Ok(response)) => Ok(response),
            Ok(Err(error)) => Err(whole_reason(&error)),
            Err(_) => Err("no answer in time".into()),
        }
    }
}

/// An error with what is behind it: a bad certificate stands two errors deep.
fn whole_reason(error: &dyn std::error::Error) -> String {
    let mut reason = error.to_string();
    let mut behind = error.source();
    while let Some(error) = behind {
        reason = format!("{reason}: {error}");
        behind = error.source();
    }
    reason
}
